"""The order of accepted commands, by the records that are written to a disk; and which of the stations' lines were asked for by a
moment of a record of calls (recorder.py)."""
import reading
from reading_disks import LABEL, NUMBERED, base_of, command_in, form_of, head_in, is_open, layout_in, record_at, side_in
from reading_orders import Order, is_command, number_of
from reading_rows import SECTOR, Fields
from reading_stores import command_text
from running import Differs


def texts_in(record):
    """The bytes of each of a record's commands."""
    fields = Fields(record.data)
    count, *_ = head_in(fields, record.form)
    starts = [fields.at] + [command_in(fields) and fields.at for _ in range(count)]
    return [record.data[start:end] for start, end in zip(starts, starts[1:])]


class Written:
    """The commands that a disk got, by their numbers, while its calls are followed; at first those after the image of the side that
    counts. Of each side the form of its records, the next gate, and how many commands come before that; a side of numbered records
    has no need of the latter."""

    def __init__(self, image):
        self.image, self.layout, self.commands = list(image), layout_in(image[LABEL], len(image)), {}
        side = side_in(image, self.layout)
        self.forms = {side: form_of(image, self.layout, side), 1 - side: NUMBERED}
        self.counts = {side: base_of(image, self.layout, side)[1].count, 1 - side: 0}
        self.gates = {side: self.layout.half(side) for side in (0, 1)}
        while is_open(self.image[self.gates[side]]):
            self.opened(side)

    def opened(self, side):
        """The next gate is open, so a record follows it."""
        form, at = self.forms[side], self.gates[side] + 1
        first = head_in(Fields(self.image[at]), form)[1]
        before = self.counts[side] if first is None else first - 1
        record, self.gates[side] = record_at(self.image, at, self.layout.half(side + 1), form, before)
        texts = texts_in(record)
        for number, text in enumerate(texts, before + 1):
            if self.commands.setdefault(number, text) != text:
                raise Differs(f'two commands of number {number}')
        self.counts[side] = before + len(texts)

    def write(self, at, held):
        self.image[at] = held
        for side in (0, 1):
            if at == self.gates[side] and is_open(held):
                self.opened(side)
            elif at == self.layout.half(side) and not is_open(held):
                self.gates[side], self.forms[side] = at, NUMBERED

    def follow(self, done):
        """What a program did. A sector that is written in parts is not followed."""
        if done.kind in ('w', 'f') and done.number % SECTOR == 0:
            for k in range(len(done.bytes) // SECTOR):
                self.write(done.number // SECTOR + k, done.bytes[k * SECTOR:][:SECTOR])


def command_lines(lines):
    """The commands in the stations' files: the bytes of each give its station and its line."""
    told = {}
    for station, one in enumerate(lines, 1):
        for line in filter(is_command, one):
            try:
                told[command_text(station, line)] = station, line
            except reading.BadLine:
                continue
    return told


def order_on(base, lines, commands):
    """The order of these commands by their numbers, over a register: each is one of these stations' lines."""
    told, numbers = command_lines(lines), sorted(commands)
    if numbers != list(range(base.count + 1, base.count + len(numbers) + 1)):
        raise Differs(f'the numbers on the disk are {numbers[:1]} to {numbers[-1:]}, with a gap')
    strange = [number for number in numbers if commands[number] not in told]
    if strange:
        raise Differs(f'command {strange[0]} on the disk is none of a file')
    return Order(base, [told[commands[number]] for number in numbers])


class Asked:
    """How many lines of each station were answered, and which were asked for, as a record of calls goes on; and so which registers a
    stop may leave."""

    def __init__(self, order, stations):
        """Of each station its lines with their answers."""
        self.order, self.answered, self.asked = order, [0] * len(stations), [0] * len(stations)
        self.wanted = [(station - 1, place_in(stations[station - 1], line)) for station, line in order.commands]
        self.acknowledged = self.submitted = 0

    def follow(self, done):
        if done.kind == 'r':
            station, together = done.bytes
            self.answered[station - 1], self.asked[station - 1] = done.number, done.number + together
            self.count()

    def count(self):
        """Lines are answered once the next ones are asked for."""
        answered = [number for number, (k, at) in enumerate(self.wanted, 1) if at < self.answered[k]]
        self.acknowledged = max(answered, default=0)
        while self.submitted < len(self.wanted) and self.is_asked(*self.wanted[self.submitted]):
            self.submitted += 1

    def is_asked(self, station, at):
        return at < self.asked[station]

    def registers(self):
        """Those that a stop may leave now: they have all commands that were answered, and none that was not asked for."""
        return self.order.registers[self.acknowledged:self.submitted + 1]


def place_in(pairs, line):
    """Which of a station's lines this is: the one that was accepted."""
    return next(at for at, pair in enumerate(pairs) if pair.line == line and number_of(pair.told) is not None)
