"""An independent reading of whole disks, from docs/formats/disk.md alone: what an image stands for, or its first fault. An image is a
list of sectors of 512 bytes; rows are read by reading_rows.py, and the rules of the register are those of reading.py."""
import collections
import functools

import reading
from reading_pdus import Refused
from reading_rows import (HEADER, LAST_AREA, LAST_EPOCH, PLAIN_HEADER, SECTOR, BadSector, Fields, Header, NoRow, mail_kind_in, read_image, row_in,
                          rule_in, want)

NAME, LAYOUT = b'TETRALOC', 1
MOST = {'rules': 4096, 'radios': 65_536, 'mail': 65_536, 'stations': 64}
FEWEST_SECTORS, MOST_SECTORS = 38, 65_536
MOST_COMMANDS, LONGEST = 64, 281
LABEL, ROOTS, SLOTS = 0, (1, 2), 3
# The form of a side's records is the tag of the header in its slot: plain ones are of layout 1. A numbered record, of layout 2,
# has the number of its first command. How many bytes of a record come before its commands
PLAIN, NUMBERED = PLAIN_HEADER, HEADER
RECORD_HEAD = {PLAIN: 6, NUMBERED: 14}
SIDE_LAYOUTS = {PLAIN: 1, NUMBERED: 2}

# A record: its first data sector, its form and its data. Told: the number of its first command, and its commands. Opening: what an
# image opens to. It has the side that counts (0 for A, 1 for B), the form of its records, its epoch, the first closed gate, which
# follows the last record, and the register
Record = collections.namedtuple('Record', 'at form data')
Told = collections.namedtuple('Told', 'first commands')
Opening = collections.namedtuple('Opening', 'side form epoch gate register')
Command = collections.namedtuple('Command', 'station sequence moment body')


class Unformatted(Exception):
    """A disk without a label."""


class BadGeometry(Exception):
    """A label that gives no valid layout, or one that the disk has no room for."""


class Damaged(Exception):
    """The sector at fault."""


# The layout

class Layout(collections.namedtuple('Layout', 'limits journal')):
    """Where the parts of a disk lie; the limits are numbers in the order of MOST."""

    def rows(self):
        return 1 + sum(self.limits)

    def slot(self, side):
        return SLOTS + side * self.rows()

    def half(self, side):
        return SLOTS + 2 * self.rows() + side * self.journal

    def sectors(self):
        return self.half(2)

    def is_in_range(self):
        return (all(1 <= limit <= most for limit, most in zip(self.limits, MOST.values()))
                and FEWEST_SECTORS <= self.journal <= MOST_SECTORS)


@functools.lru_cache(maxsize=256)
def layout_in(label, sectors):
    """The layout that a label gives, on a disk of so many sectors."""
    if not label.startswith(NAME):
        raise Unformatted
    fields = Fields(label[len(NAME):])
    number = fields.number(2)
    layout = Layout(tuple(fields.number(4) for _ in MOST), fields.number(4))
    if number != LAYOUT or not layout.is_in_range() or layout.sectors() > sectors:
        raise BadGeometry
    return layout


# The sides

def is_open(sector):
    """Of a root, or a gate."""
    return sector[0] == 1


def epoch_of(image, layout, side):
    """The epoch of a side whose root is open."""
    if not is_open(image[ROOTS[side]]):
        return None
    row = row_in(image[layout.slot(side)])
    if not isinstance(row, Header):
        raise Damaged(layout.slot(side))
    return row.epoch


def form_of(image, layout, side):
    """The form of a side's records; its slot begins with a header."""
    return image[layout.slot(side)][0]


def side_in(image, layout):
    """The side that counts."""
    first, second = (epoch_of(image, layout, side) for side in (0, 1))
    if first is None and second is None:
        raise Damaged(ROOTS[0])
    if first == second:
        raise Damaged(ROOTS[1])
    return 0 if second is None or first is not None and second < first else 1


@functools.lru_cache(maxsize=64)
def base_in(sectors, limits):
    """The epoch and the register that the rows of a slot make."""
    return read_image(sectors, dict(zip(MOST, limits)))


def base_of(image, layout, side):
    at = layout.slot(side)
    try:
        return base_in(tuple(image[at:at + layout.rows()]), layout.limits)
    except BadSector as bad:
        raise Damaged(at + bad.args[0])


# Commands. A body is what a command does to a register, as reading.py has it.

def rule_set(fields):
    rule = rule_in(fields)
    return lambda register, station, moment: register.set_rule(rule.prefix, rule.kept)


def rule_clear(fields):
    prefix = fields.prefix()
    return lambda register, station, moment: register.clear_rule(prefix)


def mobility(fields):
    itsi, area, pdu = fields.identity(), fields.number(2, most=LAST_AREA), fields.string()
    return lambda register, station, moment: register.mobility(station, itsi, area, pdu)


def short_data(fields):
    source, destination, pdu = fields.identity(), fields.identity(), fields.string()
    return lambda register, station, moment: register.short_data(moment, source, destination, pdu)


def key_in(fields):
    return fields.identity(), fields.identity(), fields.number(1), mail_kind_in(fields)[0]


def sent(fields):
    key = key_in(fields)
    return lambda register, station, moment: register.sent(key)


def expire(fields):
    return lambda register, station, moment: register.expire(moment)


def delete(fields):
    key = key_in(fields)
    return lambda register, station, moment: register.delete(key)


def group_short_data(fields):
    source, group, pdu = fields.identity(), fields.identity(), fields.string()
    return lambda register, station, moment: register.group_short_data(moment, source, group, pdu)


BODIES = {1: rule_set, 2: rule_clear, 3: mobility, 4: short_data, 5: sent, 6: expire, 7: delete, 8: group_short_data}


def command_in(fields):
    station, sequence, moment, tag = fields.number(2), fields.number(4, 1), fields.number(4), fields.number(1)
    want(tag in BODIES)
    return Command(station, sequence, moment, BODIES[tag](fields))


# Records

def head_in(fields, form):
    """How many commands a record has, the number of the first, which only a numbered one has, and how many bytes they take."""
    count = fields.number(2, 1, MOST_COMMANDS)
    first = fields.number(8) if form == NUMBERED else None
    return count, first, fields.number(4, most=LONGEST * count)


def data_sectors(first, form):
    """How many there are, by the first of them."""
    *_, size = head_in(Fields(first), form)
    return -(-(RECORD_HEAD[form] + size) // SECTOR)


@functools.lru_cache(maxsize=1024)
def told_in(record):
    """The number of the first command, and the commands of a record."""
    fields = Fields(record.data)
    count, first, size = head_in(fields, record.form)
    commands = [command_in(fields) for _ in range(count)]
    want(fields.at == RECORD_HEAD[record.form] + size and not any(record.data[fields.at:]))
    return Told(first, commands)


def record_at(image, at, end, form, before):
    """The record whose data begin here, after so many accepted commands, in a half that ends there; and the next gate."""
    try:
        count = data_sectors(image[at], form)
        want(at + count < end)
        record = Record(at, form, b''.join(image[at:at + count]))
        want(told_in(record).first in (None, before + 1))
    except NoRow:
        raise Damaged(at)
    return record, at + count


def records_in(image, gate, end, form, before):
    """The records of a half that begins with this gate, after so many accepted commands; and the first closed gate."""
    records = []
    while is_open(image[gate]):
        if gate + 1 == end:
            raise Damaged(gate)
        record, gate = record_at(image, gate + 1, end, form, before)
        before += len(told_in(record).commands)
        records.append(record)
    return records, gate


def copied(register):
    copy = reading.Register(register.limits)
    copy.rules, copy.radios, copy.groups = dict(register.rules), dict(register.radios), dict(register.groups)
    copy.mail, copy.served, copy.count = dict(register.mail), dict(register.served), register.count
    return copy


def accepts(register, command):
    """Whether a register takes a command as a new one; it has then applied it."""
    try:
        return register.apply(*command)[0] == 'ok'
    except Refused:
        return False


@functools.lru_cache(maxsize=1024)
def after(register, record):
    """The register after the commands of a record."""
    register = copied(register)
    if not all(accepts(register, command) for command in told_in(record).commands):
        raise Damaged(record.at)
    return register


# The whole

def opens_from(image, layout, side):
    """What an image stands for by this side alone, whose root is open, or Damaged."""
    epoch, register = base_of(image, layout, side)
    form = form_of(image, layout, side)
    records, gate = records_in(image, layout.half(side), layout.half(side + 1), form, register.count)
    for record in records:
        register = after(register, record)
    return Opening(side, form, epoch, gate, register)


def layout_on(image):
    """The layout of an image, or Unformatted or BadGeometry."""
    if not image:
        raise Unformatted
    return layout_in(image[LABEL], len(image))


def opens(image):
    """What an image stands for, or Unformatted, BadGeometry or Damaged."""
    layout = layout_on(image)
    return opens_from(image, layout, side_in(image, layout))


def figures(image):
    """The line that `show` answers to `disk`, of an image that opens."""
    layout, it = layout_in(image[LABEL], len(image)), opens(image)
    free = layout.half(it.side + 1) - it.gate
    return (f'disk layout {SIDE_LAYOUTS[it.form]} side {"AB"[it.side]} epoch {it.epoch} left {LAST_EPOCH - it.epoch}'
            f' gate {it.gate} free {free} count {it.register.count}')
