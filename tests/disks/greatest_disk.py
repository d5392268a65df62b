#!/usr/bin/env python3
"""Runs the program over a disk of the greatest limits, 196 MiB in a file with holes. `format` makes one. Then the first side, and
after it the second, counts on a disk whose tables are full and whose half has room for one record: a line writes the last sector of
the half, the next line makes a checkpoint, which writes the other slot from its first sector to its last, the other root, and the
beginning of the other half. The first side is of layout 1, and the second of layout 2. Each sector that the program may not write is
as it was. Prints the cases that fail, and last 'N passed, M failed'.
Usage: tests/run greatest_disk PROGRAM"""
import mmap

import reading
from disk_files import DISK, LINES, MEMORY, place, settings
from made_disks import CLOSED, OPEN, expire, label, record, records, text_of
from reading_disks import LABEL, MOST, MOST_COMMANDS, MOST_SECTORS, NUMBERED, PLAIN, ROOTS, Layout, is_open
from reading_rows import LATEST, SECTOR, header_row, rows
from registers import LAST_AREA, identity, message
from running import compare
from testing import Count, options

LAYOUT, ZEROS = Layout(tuple(MOST.values()), MOST_SECTORS), bytes(SECTOR)
WHOLE_LABEL = label(**MOST, journal=MOST_SECTORS)
STATIONS, FOR_ONE, COUNT, EPOCH = MOST['stations'], 128, 1_000_000, 5
# The number of records in a half. The first has two data sectors and each other one has one. After one more record, the gate is the
# last sector
RECORDS = (MOST_SECTORS - 6) // 2


def full():
    """A register whose tables are full; station 1 has sent its command 1."""
    register = reading.Register(MOST)
    register.count = COUNT
    register.rules = {format(k, '012b'): (0, LAST_AREA, 3, 3600) for k in range(MOST['rules'])}
    register.radios = {identity(k): (k % STATIONS + 1, k % (LAST_AREA + 1), True) for k in range(MOST['radios'])}
    register.mail = {(identity(k // FOR_ONE), identity(k), k % FOR_ONE, b'm'): reading.Item(k + 1, LATEST, message(k % FOR_ONE), None)
                     for k in range(MOST['mail'])}
    register.served = {station + 1: (1, station + 1, None) for station in range(STATIONS)}
    return register


def later(register, sequence):
    """The register after station 1's commands up to this one, which let nothing expire."""
    register.count = COUNT + sequence - 1
    register.served[1] = sequence, register.count, None
    return register


# The file, as the sectors that are no holes

def put(place, sectors):
    with open(place.path(), 'wb') as file:
        file.truncate(LAYOUT.sectors() * SECTOR)
        for at, data in sectors.items():
            file.seek(at * SECTOR)
            file.write(data)


def changed(place, sectors):
    """The sectors of the file that are not these, and what they hold."""
    with open(place.path(), 'rb') as file, mmap.mmap(file.fileno(), 0, access=mmap.ACCESS_READ) as held:
        compare('the length', len(held), LAYOUT.sectors() * SECTOR)
        whole = ((at, held[at * SECTOR:(at + 1) * SECTOR]) for at in range(LAYOUT.sectors()))
        return {at: data for at, data in whole if data != sectors.get(at, ZEROS)}


def text(form, *sequences):
    """The bytes of a record of these commands."""
    return text_of(form, [expire(k) for k in sequences], COUNT + sequences[0] - 1)


def half(side, form):
    """The records of a half that has room for one more, its last sector, and the sequence of the last command."""
    at, first = LAYOUT.half(side), 1 + MOST_COMMANDS
    sectors, last = record(at, text(form, *range(2, first + 1))), first + RECORDS
    more, _ = records(at + 3, form, [expire(k) for k in range(first + 1, last + 1)], COUNT + MOST_COMMANDS)
    return {**sectors, **more, LAYOUT.half(side + 1) - 1: OPEN}, last


def disk(side, form, register):
    """A disk on which this side counts, and the sequence of the last command."""
    sectors, sequence = half(side, form)
    image = dict(enumerate(rows(EPOCH, register, form), LAYOUT.slot(side)))
    return {LABEL: WHOLE_LABEL, ROOTS[side]: OPEN, **image, **sectors}, sequence


# What the program does

def serves(place, sequence):
    place.write(LINES, f'{sequence} 0 expire\n'.encode())
    place.gives(['run', DISK, LINES], 0, f'station 1 {LINES}\n{sequence} ok {COUNT + sequence - 1} -\n'.encode())


def is_record(sectors, gate, form, sequence):
    """Checks the record of this command, and that a closed gate follows it."""
    compare('the gate, and the one behind', (sectors[gate][0], sectors[gate + 2][0]), (OPEN[0], CLOSED[0]))
    compare('the record', sectors[gate + 1], text(form, sequence).ljust(SECTOR, b'\0'))


def the_last_record(place, sectors, side, form, sequence):
    serves(place, sequence)
    # The half is more than half full: a checkpoint begins, which closes the other half's first gate; here that gate is zeros already
    now, end = changed(place, sectors), LAYOUT.half(side + 1)
    compare('the sectors that are written', sorted(now), [end - 3, end - 2, end - 1])
    is_record(now, end - 3, form, sequence)
    sectors.update(now)


def the_checkpoint(place, sectors, side, register, sequence):
    serves(place, sequence)
    other, now = 1 - side, changed(place, sectors)
    slot, gate = LAYOUT.slot(other), LAYOUT.half(other)
    image = dict(enumerate(rows(EPOCH + 1, later(register, sequence - 1)), slot))
    compare('rows that fill the slot', len(image), LAYOUT.rows())
    compare('the rows', [at for at, row in image.items() if now.get(at) != row], [])
    # A closed gate may be zeros, as the hole before it
    others = [at for at in sorted(now) if at not in image and at not in (*ROOTS, gate + 2)]
    compare('the other sectors that are written', others, [gate, gate + 1])
    compare('the root', is_open(now[ROOTS[other]]), True)
    is_record({gate + 2: ZEROS, **now}, gate, NUMBERED, sequence)


def a_side(place, side, form):
    register = full()
    sectors, last = disk(side, form, register)
    put(place, sectors)
    the_last_record(place, sectors, side, form, last + 1)
    the_checkpoint(place, sectors, side, register, last + 2)
    place.gives(['show', DISK, 'count'], 0, f'count {COUNT + last + 1}\n'.encode())


def the_first_side(place):
    a_side(place, 0, PLAIN)


def the_second_side(place):
    a_side(place, 1, NUMBERED)


def a_disk_made(place):
    """All is zeros but the label, the root of the first side, and the one row of its slot."""
    place.write('s.toml', settings(**MOST, journal=MOST_SECTORS).encode())
    place.gives(['format', 's.toml', DISK], 0, f'formatted {LAYOUT.sectors()} sectors\n'.encode())
    made = changed(place, {})
    compare('the label', made[LABEL], WHOLE_LABEL.rstrip(b'\xa5').ljust(SECTOR, b'\0'))
    compare('the row', made[LAYOUT.slot(0)], header_row(1, 0, (0, 0, 0, 0)))
    compare('the sectors', (sorted(made), is_open(made[ROOTS[0]])), ([LABEL, ROOTS[0], LAYOUT.slot(0)], True))
    place.gives(['show', DISK, 'count'], 0, b'count 0\n')


def main():
    words, count = options(__doc__), Count()
    for case in a_disk_made, the_first_side, the_second_side:
        with place(words.program, MEMORY) as folder:
            count.case(case.__name__, case, folder)
    count.end()


if __name__ == '__main__':
    main()
