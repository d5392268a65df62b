"""An independent reading of what is done to a disk, from docs/formats/disk.md alone: the writes and syncs of each batch of lines that a
register on a disk accepts, in their parts, with those of a checkpoint that goes on beside. The rules of the register are those of
reading.py, whole disks those of reading_disks.py, rows those of reading_rows.py."""
import collections

import reading
from pending import SYNC, Write
from reading_disks import LABEL, NUMBERED, ROOTS, copied, is_open, layout_in, opens
from reading_rows import LAST_EPOCH, SECTOR, left, number, rows, string

ROWS = 8
OPEN, CLOSED = b'\1'.ljust(SECTOR, b'\0'), bytes(SECTOR)

# A checkpoint under way: the rows of its image, how many of them are written, and the next gate of its half
Beside = collections.namedtuple('Beside', 'rows written gate')


class Unready(Exception):
    """A record of all commands would not fit."""


class EpochsUsedUp(Exception):
    """There is no next epoch."""


# Commands as bytes: the tag, which ends the head, and the bytes after the head

def rule(under, low, high, life, keep):
    bits = reading.prefix(under)
    numbers = (low, 2), (high, 2), (life, 1), (keep, 4)
    return 1, number(len(bits), 1) + left(bits, 6) + b''.join(number(int(word), size) for word, size in numbers)


def unrule(under):
    bits = reading.prefix(under)
    return 2, number(len(bits), 1) + left(bits, 6)


def mobility(itsi, area, bits):
    return 3, left(reading.identity(itsi), 6) + number(int(area), 2) + string(reading.bit_string(bits))


def short_data(tag):
    return lambda source, target, bits: (tag, left(reading.identity(source), 6) + left(reading.identity(target), 6)
                                         + string(reading.bit_string(bits)))


def keyed(tag):
    return lambda target, source, reference, kind: (tag, left(reading.identity(target), 6) + left(reading.identity(source), 6)
                                                    + number(int(reference), 1) + number(b'mr'.index(kind), 1))


BODIES = {b'rule': rule, b'unrule': unrule, b'mm': mobility, b'sds': short_data(4), b'gsds': short_data(8), b'sent': keyed(5),
          b'delete': keyed(7), b'expire': lambda: (6, b'')}


def command_text(station, line):
    """The bytes of the command in a line."""
    sequence, moment, word, *words = line.split(b' ')
    tag, body = BODIES[word](*words)
    return number(station, 2) + number(int(sequence), 4) + number(int(moment), 4) + number(tag, 1) + body


def record_text(form, before, commands):
    """The bytes of a record of these commands. `before` commands were accepted earlier."""
    text = b''.join(commands)
    return number(len(commands), 2) + (number(before + 1, 8) if form == NUMBERED else b'') + number(len(text), 4) + text


def data_of(text):
    text += bytes(-len(text) % SECTOR)
    return [text[at:at + SECTOR] for at in range(0, len(text), SECTOR)]


# What is written

class Parts(collections.namedtuple('Parts', 'closed image switch record also gates rows end begun form', defaults=[()] * 9 + [None])):
    """The calls of a batch, in their order, and the form of its record.
    - Of a checkpoint that makes room: `closed` closes the other side; then its rows, `image`, and the `switch`.
    - The record: `record` in the current half and `also` in the other one, each with the gate after it; a sync, the `gates`, a sync.
    - Of a checkpoint under way: the next `rows`, and after the last of them the switch, `end`.
    - Of a checkpoint that begins: `begun` closes the other side."""

    def joined(self):
        kept = [*self.record, *self.also, SYNC, *self.gates, SYNC] if self.record else []
        return [*self.closed, *self.image, *self.switch, *kept, *self.rows, *self.end, *self.begun]


def record_calls(gate, text):
    """What is written of a record before the first sync, and its gate; and the next gate."""
    data = data_of(text)
    after = gate + 1 + len(data)
    return [*(Write(at, held) for at, held in enumerate(data, gate + 1)), Write(after, CLOSED)], Write(gate, OPEN), after


class Store:
    """A register on a disk, opened."""

    def __init__(self, image):
        self.image, self.layout = list(image), layout_in(image[LABEL], len(image))
        self.side, self.form, self.epoch, self.gate, self.register = opens(image)
        self.register, self.beside = copied(self.register), None

    def follow(self, calls):
        for call in calls:
            if call is not SYNC:
                self.image[call.at] = call.bytes
        return calls

    def room(self):
        """How many data sectors the next record may have."""
        return self.layout.half(self.side + 1) - self.gate - 2

    def closing(self):
        """The other side is shut: its root, where it reads open, and its first gate."""
        root = ROOTS[1 - self.side]
        closed = [Write(root, CLOSED)] if is_open(self.image[root]) else []
        return self.follow([*closed, Write(self.layout.half(1 - self.side), CLOSED), SYNC])

    def switching(self):
        return self.follow([SYNC, Write(ROOTS[1 - self.side], OPEN), SYNC])

    def counts(self, gate):
        """The other side counts, from this gate on."""
        self.side, self.form, self.epoch, self.gate, self.beside = 1 - self.side, NUMBERED, self.epoch + 1, gate, None

    def checkpoint(self):
        """A whole image is written. One under way is given up."""
        if self.epoch == LAST_EPOCH:
            raise EpochsUsedUp
        closed = self.closing()
        image = self.follow([Write(at, row) for at, row in enumerate(rows(self.epoch + 1, self.register),
                                                                     self.layout.slot(1 - self.side))])
        switch = self.switching()
        self.counts(self.layout.half(1 - self.side))
        return Parts(closed, image, switch)

    def commit(self, batch):
        """The parts of a batch of lines, each with its station, and the answers to them; or Unready."""
        texts = [command_text(station, line) for station, line in batch]
        if batch and len(data_of(record_text(self.form, 0, texts))) > self.room():
            raise Unready
        before, accepted, told = self.register.count, [], []
        for text, (station, line) in zip(texts, batch):
            count = self.register.count
            told += reading.answer(self.register, station, line)
            accepted += [text] if self.register.count > count else []
        return self.kept(before, accepted) if accepted else Parts(), told

    def kept(self, before, accepted):
        """The parts of these commands. `before` commands were accepted earlier."""
        record, gate, self.gate = record_calls(self.gate, record_text(self.form, before, accepted))
        parts = Parts(record=record, gates=[gate], form=self.form)
        if self.beside:
            also, other, after = record_calls(self.beside.gate, record_text(NUMBERED, before, accepted))
            self.beside = self.beside._replace(gate=after)
            parts = parts._replace(also=also, gates=[gate, other])
        self.follow([*parts.record, *parts.also, *parts.gates])
        return self.goes_on(parts) if self.beside else self.begins(parts)

    def goes_on(self, parts):
        """A checkpoint under way goes on: the next rows, and after the last of them the switch."""
        image, written, gate = self.beside
        end, slot = min(written + ROWS, len(image)), self.layout.slot(1 - self.side)
        parts = parts._replace(rows=self.follow([Write(slot + k, image[k]) for k in range(written, end)]))
        self.beside = self.beside._replace(written=end)
        if end < len(image):
            return parts
        parts = parts._replace(end=self.switching())
        self.counts(gate)
        return parts

    def begins(self, parts):
        """A checkpoint begins if half of the sectors are used and there is a next epoch."""
        if 2 * (self.gate - self.layout.half(self.side)) < self.layout.journal or self.epoch == LAST_EPOCH:
            return parts
        begun = self.closing()
        self.beside = Beside(rows(self.epoch + 1, self.register), 0, self.layout.half(1 - self.side))
        return parts._replace(begun=begun)

    def serves(self, batch):
        """The same as `commit`, with a checkpoint first where there is no room."""
        try:
            return self.commit(batch)
        except Unready:
            room = self.checkpoint()
        parts, told = self.commit(batch)
        return parts._replace(closed=room.closed, image=room.image, switch=room.switch), told
