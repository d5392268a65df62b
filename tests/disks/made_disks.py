"""Disks of both layouts, written from docs/formats/disk.md alone. A disk of layout 1 is made here and nowhere else: the program
makes and leaves sides of layout 2. The form of a side is as reading_disks.py has it."""
from reading_disks import (LABEL, NUMBERED, PLAIN, RECORD_HEAD, ROOTS, base_of, data_sectors, form_of, head_in, is_open, layout_in,
                           records_in)
from reading_rows import SECTOR, Fields, header_row, number, rows

FORMS = {PLAIN: 'layout 1', NUMBERED: 'layout 2'}
OPEN, CLOSED, ZEROS = b'\1'.ljust(SECTOR, b'\xa5'), b'\0'.ljust(SECTOR, b'\xa5'), bytes(SECTOR)
# The label's numbers, and the places of the parts with these
NUMBERS = {'layout': 1, 'rules': 16, 'radios': 16, 'mail': 256, 'stations': 4, 'journal': 39}
SECTORS, SLOT, OTHER_SLOT, GATE, OTHER_GATE = 667, 3, 296, 589, 628
NONE = 0, 0, 0, 0


def label(name=b'TETRALOC', **others):
    layout, *numbers = {**NUMBERS, **others}.values()
    return (name + number(layout, 2) + b''.join(number(value, 4) for value in numbers)).ljust(SECTOR, b'\xa5')


def ready(form):
    """What is written to make a disk ready."""
    return {0: label(), 1: OPEN, 2: CLOSED, SLOT: header_row(1, 0, NONE, form), GATE: CLOSED, OTHER_GATE: CLOSED}


def image(changes={}, form=NUMBERED, rest=OPEN):
    """A disk that was made ready, with other sectors in these places, and the same one in each place that is not written."""
    sectors = {**ready(form), **changes}
    return [sectors.get(at, rest) for at in range(SECTORS)]


def zeroed(changes={}, form=NUMBERED):
    """The same in a file of zeros, as `format` makes it."""
    return image(changes, form, ZEROS)


# Commands and records

def head(station, sequence, moment, tag):
    return number(station, 2) + number(sequence, 4) + number(moment, 4) + number(tag, 1)


def expire(sequence, station=1, tag=6):
    return head(station, sequence, 0, tag)


def text_of(form, commands, first=1, count=None, size=None):
    """The bytes of a record whose first command has this number. `count` and `size` replace its true numbers."""
    text = b''.join(commands)
    told = number(len(commands) if count is None else count, 2), number(len(text) if size is None else size, 4)
    return told[0] + (number(first, 8) if form == NUMBERED else b'') + told[1] + text


def record(gate, text):
    """An open gate, and the data of a record with these bytes and a closed gate after it."""
    data = text + bytes(-len(text) % SECTOR)
    parts = [OPEN, *(data[at:at + SECTOR] for at in range(0, len(data), SECTOR)), CLOSED]
    return dict(enumerate(parts, gate))


def records(gate, form, commands, before=0):
    """A record for each of these commands, after so many that were accepted; and the next gate."""
    sectors = {}
    for place, command in enumerate(commands, before + 1):
        sectors.update(record(gate, text_of(form, [command], place)))
        gate += 1 + data_sectors(sectors[gate + 1], form)
    return sectors, gate


# Whole disks

def side(which, epoch, register, form):
    """A side that counts, without records: its root is open, and its slot has the register's rows."""
    slot, gate = ((SLOT, GATE), (OTHER_SLOT, OTHER_GATE))[which]
    return {ROOTS[which]: OPEN, **dict(enumerate(rows(epoch, register, form), slot)), gate: CLOSED}


def without_number(held):
    """The bytes of a numbered record as a plain one has them."""
    _, _, size = head_in(Fields(held.data), NUMBERED)
    return held.data[:2] + held.data[10:RECORD_HEAD[NUMBERED] + size]


def as_plain(numbered):
    """A disk of layout 2 as it would be in layout 1: its headers have the other tag, and its records no numbers."""
    layout, plain = layout_in(numbered[LABEL], len(numbered)), dict(enumerate(numbered))
    for which in (0, 1):
        if is_open(numbered[ROOTS[which]]) and form_of(numbered, layout, which) == NUMBERED:
            plain.update(plain_side(numbered, layout, which))
    return list(plain.values())


def plain_side(numbered, layout, which):
    """The sectors of a side that differ in layout 1."""
    slot, gate, (_, register) = layout.slot(which), layout.half(which), base_of(numbered, layout, which)
    plain = {slot: number(PLAIN, 1) + numbered[slot][1:]}
    held, _ = records_in(numbered, gate, layout.half(which + 1), NUMBERED, register.count)
    for one in held:
        plain.update(record(gate, without_number(one)))
        gate += 1 + data_sectors(plain[gate + 1], PLAIN)
    return plain
