#!/usr/bin/env python3
"""Worked disks of both layouts, whose bytes are written here by hand. The test checks what the independent reading (tests/reading/)
opens each to, and then what the program's `show` and `run` do with it. A disk of layout 1 keeps its form until its first checkpoint,
which moves it to layout 2. That checkpoint is made at once, or beside the commits. A record is damage if its form differs from that
of its slot, if it is out of place, or if it belongs to another image. Prints the cases that fail, and last 'N passed, M failed'.
Without a program only the reading is tried.
Usage: tests/run layouts [PROGRAM]"""
import itertools
import sys

import reading
from disk_files import DISK, LINES, fault_line, place, text, untouched
from images import are_same, fault_of, told_as
from made_disks import (CLOSED, FORMS, GATE, NONE, OPEN, OTHER_GATE, OTHER_SLOT, SLOT, as_plain, expire, image, record, records, side,
                        text_of, zeroed)
from reading_disks import LONGEST, MOST_COMMANDS, NUMBERED, PLAIN, Damaged, data_sectors, figures, opens, records_in, told_in
from reading_rows import SECTOR, header_row
from running import Differs, compare
from station_lines import Serving, apart, data_of
from testing import Count

P, P_LINE = bytes.fromhex('0001 00000001 00000000 01 18 3a800e000000 0001 0063 01 00000e10'), '1 0 rule 234-14-0/24 1 99 1 3600'
ATTACH = bytes.fromhex('0001 00000002 0000000a 03 3a800e0007d1 0007 000a 2600')
# Records of P alone, and of P, the attach and `expire`: 27, 23 and 11 bytes
ONE = {PLAIN: '0001 0000001b', NUMBERED: '0001 0000000000000001 0000001b'}
THREE = {PLAIN: '0003 0000003d', NUMBERED: '0003 0000000000000001 0000003d'}
HEADERS = {PLAIN: '10 0000000000000001' + '00' * 24, NUMBERED: '16 0000000000000001' + '00' * 24}
# Side B by a checkpoint after ten commands, its epoch, count and rows: the header, one rule and one served station; and a record of
# the 11th command, with its first number
MOVED = {OTHER_SLOT: '16 0000000000000002 000000000000000a 00000001 00000000 00000000 00000001',
         OTHER_SLOT + 1: '11 18 3a800e000000 0001 0063 01 00000e10', OTHER_SLOT + 2: '14 0001 0000000a 000000000000000a 0000'}
ELEVENTH = '0001 {:016x} 0000000b 0001 0000000b 00000000 06'
# Of the 19 commands of a full half, as a checkpoint writes them: and the record of the 20th
FULL = {OTHER_SLOT: '16 0000000000000002 0000000000000013 00000001 00000000 00000000 00000001',
        OTHER_SLOT + 1: '11 18 3a800e000000 0001 0063 01 00000e10', OTHER_SLOT + 2: '14 0001 00000013 0000000000000013 0000'}
TWENTIETH = '0001 0000000000000014 0000000b 0001 00000014 00000000 06'


def sector(digits):
    return bytes.fromhex(digits).ljust(SECTOR, b'\0')


def is_sector(image, at, digits):
    compare(f'sector {at}', image[at].hex(), sector(digits).hex())


def full_half(form):
    """P and 18 `expire`, in 19 records; and the next gate."""
    return records(GATE, form, [P, *map(expire, range(2, 20))])


# Disks: each its name, its image, and what it stands for (side, form, epoch, next gate, count), or its fault

def good():
    for form, name in FORMS.items():
        yield f'{name}, made ready', image(form=form), (0, form, 1, GATE, 0)
        yield f'{name}, P', image({GATE: OPEN, GATE + 1: bytes_of(ONE[form], P), GATE + 2: CLOSED}, form), (0, form, 1, 591, 1)
        three = bytes_of(THREE[form], P + ATTACH + expire(3))
        yield f'{name}, three commands', image({GATE: OPEN, GATE + 1: three, GATE + 2: CLOSED}, form), (0, form, 1, 591, 3)
        sectors, gate = full_half(form)
        yield f'{name}, a full half', image(sectors, form), (0, form, 1, gate, 19)
        half, gate = records(GATE, form, [expire(1), expire(2)])
        other, _ = records(OTHER_GATE, form, [expire(1)], 9)
        yield f'{name}, records of another image in the other half', image({**half, **other}, form), (0, form, 1, gate, 2)
    yield 'a disk that has moved', moved(), (1, NUMBERED, 2, OTHER_GATE, 10)
    yield 'a disk that has moved, with a record', moved(11), (1, NUMBERED, 2, 630, 11)


def damaged():
    for form, name in FORMS.items():
        other = NUMBERED if form == PLAIN else PLAIN
        sectors, gate = full_half(form)
        yield f'{name}, a full half and an open gate', image({**sectors, gate: OPEN}, form), 627
        twice = {GATE: OPEN, GATE + 1: bytes_of(ONE[form], P), 591: OPEN, 592: bytes_of(ONE[form], P), 593: CLOSED}
        yield f'{name}, P again at 591', image(twice, form), 592
        strange = {GATE: OPEN, GATE + 1: bytes_of(ONE[other], P), GATE + 2: CLOSED}
        yield f'{name}, the record of the other layout', image(strange, form), 590
    for number in (0, 1, 10, 12, 13, 2 ** 62 + 1, 2 ** 64 - 1):
        yield f'a disk that has moved, with the number {number}', moved(number), 629
    half, _ = records(GATE, NUMBERED, [expire(1), expire(2)])
    yield 'the half of an older image', image({SLOT: header_row(3, 1, NONE), **half}), 590


def bytes_of(head, commands):
    return (bytes.fromhex(head) + commands).ljust(SECTOR, b'\0')


def moved(number=None):
    """A disk of ten commands that a checkpoint moved; and a record whose first number this is."""
    rows = {at: sector(digits) for at, digits in MOVED.items()}
    half = {} if number is None else {OTHER_GATE: OPEN, OTHER_GATE + 1: sector(ELEVENTH.format(number)), OTHER_GATE + 2: CLOSED}
    return image({**records(GATE, PLAIN, [P, *map(expire, range(2, 11))])[0], 2: OPEN, **rows, **half}, PLAIN)


# The reading

def stands_for(image, wanted):
    try:
        opening = opens(image)
    except Damaged as fault:
        raise Differs(f'the disk is {told_as(fault)}')
    compare('side, form, epoch, gate and count', (*opening[:4], opening.register.count), wanted)


def is_damaged(image, at):
    compare('the fault', fault_of(image, ()), f'Damaged({at})')


def bytes_made(form):
    """What made_disks.py writes, which the other tests use."""
    is_sector(zeroed(form=form), SLOT, HEADERS[form])
    compare('P', text_of(form, [P]).hex(), (bytes.fromhex(ONE[form]) + P).hex())
    three = [P, ATTACH, expire(3)]
    compare('three commands', text_of(form, three).hex(), (bytes.fromhex(THREE[form]) + b''.join(three)).hex())


def a_half_alone(form):
    """39 sectors: P leaves room for 35 data sectors, and 19 records for none."""
    half = lambda sectors: [sectors.get(at, CLOSED) for at in range(39)]
    one, gate = records(0, form, [P])
    held, closed = records_in(half(one), 0, 39, form, 0)
    compare('the next gate', (gate, closed, 39 - 2 - gate), (2, 2, 35))
    compare('its data', held[0].data.hex(), bytes_of(ONE[form], P).hex())
    compare('its commands', len(told_in(held[0]).commands), 1)
    many, gate = records(0, form, [P, *map(expire, range(2, 20))])
    held, closed = records_in(half(many), 0, 39, form, 0)
    compare('records, the next gate', (len(held), gate, closed), (19, 38, 38))


def the_longest_record(form):
    """64 commands of 281 bytes take 36 data sectors in both forms."""
    first = text_of(form, [], count=MOST_COMMANDS, size=MOST_COMMANDS * LONGEST)
    compare('data sectors', data_sectors(first.ljust(SECTOR, b'\0'), form), 36)


def in_layout_1(numbered):
    """A disk in the other layout stands for the same register."""
    plain = as_plain(numbered)
    compare('the form', opens(plain).form, PLAIN)
    compare('the same register', are_same(opens(plain).register, opens(numbered).register), True)


def any_count_before(form):
    """The first number follows the count of the slot's header."""
    for count in (0, 1, 255, 2 ** 32 - 1, 2 ** 61):
        base = side(0, 7, counted(count), form)
        half, gate = records(GATE, form, [expire(1), expire(2)], count)
        stands_for(image({**base, **half}, form), (0, form, 7, gate, count + 2))
    last = side(0, 7, counted(reading.LAST_NUMBER), form)
    is_damaged(image({**last, **record(GATE, text_of(form, [expire(1)], reading.LAST_NUMBER + 1))}, form), GATE + 1)


def the_figures():
    """Of disks whose figures are written here by hand, by docs/formats/disk.md."""
    one = image({GATE: OPEN, GATE + 1: bytes_of(ONE[PLAIN], P), GATE + 2: CLOSED}, PLAIN)
    last = image({SLOT: header_row(2 ** 62, 5, NONE)})
    for made, wanted in ((zeroed(), 'disk layout 2 side A epoch 1 left 4611686018427387903 gate 589 free 39 count 0'),
                         (one, 'disk layout 1 side A epoch 1 left 4611686018427387903 gate 591 free 37 count 1'),
                         (moved(11), 'disk layout 2 side B epoch 2 left 4611686018427387902 gate 630 free 37 count 11'),
                         (image(full_half(PLAIN)[0], PLAIN), 'disk layout 1 side A epoch 1 left 4611686018427387903 gate 627 free 1 count 19'),
                         (last, 'disk layout 2 side A epoch 4611686018427387904 left 0 gate 589 free 39 count 5')):
        compare('the figures', figures(made), wanted)


def counted(count):
    register = reading.Register()
    register.count = count
    return register


def by_the_reading(count):
    for name, made, wanted in good():
        count.case(name, stands_for, made, wanted)
    for name, made, at in damaged():
        count.case(name, is_damaged, made, at)
    for form, case in itertools.product(FORMS, (bytes_made, a_half_alone, the_longest_record, any_count_before)):
        count.case(f'{FORMS[form]}, {case.__name__}', case, form)
    for name, made, wanted in good():
        if wanted[1] == NUMBERED:
            count.case(f'{name}, in layout 1', in_layout_1, made)
    count.case(the_figures.__name__, the_figures)


# The program

def shown(place, image, status, out, err, query='count'):
    place.put(image)
    with untouched(place.path()):
        place.gives(['show', DISK, query], status, out, err)


def serves(place, sequence, words, pdu='-'):
    """A command that is accepted, with the number of its sequence; the disk before and after."""
    place.write(LINES, text([f'{sequence} {words}']))
    before = place.image()
    place.gives(['run', DISK, LINES], 0, text([f'station 1 {LINES}', f'{sequence} ok {sequence} {pdu}']))
    return before, place.image()


def changed(before, after):
    return [at for at, pair in enumerate(zip(before, after)) if pair[0] != pair[1]]


def a_new_disk(place):
    place.format()
    made = place.image()
    is_sector(made, SLOT, HEADERS[NUMBERED])
    compare('the header', made[SLOT], zeroed()[SLOT])
    _, after = serves(place, 1, P_LINE.removeprefix('1 '))
    is_sector(after, GATE + 1, ONE[NUMBERED] + P.hex())


def an_old_disk(place):
    """In runs of one line it goes on in layout 1: its header stays, and each record is a plain one, until the half is full. From the
    tenth command on a checkpoint begins in each run, which the next run forgets: it closes the first gate of the other half."""
    place.put(zeroed(form=PLAIN))
    _, after = serves(place, 1, P_LINE.removeprefix('1 '))
    is_sector(after, GATE + 1, ONE[PLAIN] + P.hex())
    for sequence in range(2, 20):
        before, after = serves(place, sequence, '0 expire')
        gate = GATE + 2 * (sequence - 1)
        also = {OTHER_GATE} if sequence >= 10 else set()
        compare('the sectors that are written', set(changed(before, after)) <= {gate, gate + 1, gate + 2, *also}, True)
        is_sector(after, gate + 1, text_of(PLAIN, [expire(sequence)]).hex())
    is_sector(after, SLOT, HEADERS[PLAIN])
    stands_for(after, (0, PLAIN, 1, 627, 19))
    moves(place)


def moves(place):
    """The next command of a full half of layout 1: a checkpoint, and a numbered record."""
    before, after = serves(place, 20, '0 expire')
    stands_for(after, (1, NUMBERED, 2, 630, 20))
    for at, digits in FULL.items():
        is_sector(after, at, digits)
    is_sector(after, OTHER_GATE + 1, TWENTIETH)
    written = set(changed(before, after))
    compare('the sectors that are written', written <= {2, *FULL, OTHER_GATE, OTHER_GATE + 1, OTHER_GATE + 2}, True)


def beside_its_commits(place, form):
    """In one run a checkpoint begins with the record of the tenth command and ends with that of the eleventh, which is in both halves."""
    place.put(zeroed(form=form))
    serving = Serving(reading.Register(), apart([P_LINE.encode(), *(b'%d 0 expire' % sequence for sequence in range(2, 12))]))
    place.write(LINES, data_of(serving.lines))
    place.gives(['run', DISK, LINES], 0, serving.text())
    after = place.image()
    stands_for(after, (1, NUMBERED, 2, 630, 11))
    for at, digits in MOVED.items():
        is_sector(after, at, digits)
    is_sector(after, GATE + 21, text_of(form, [expire(11)], 11).hex())
    is_sector(after, OTHER_GATE + 1, ELEVENTH.format(11))
    place.put([*after[:629], sector(ELEVENTH.format(12)), *after[630:]])
    place.gives(['show', DISK, 'count'], 5, b'', fault_line(Damaged(629)))


def an_old_disk_in_one_run(place):
    beside_its_commits(place, PLAIN)


def a_new_disk_in_one_run(place):
    beside_its_commits(place, NUMBERED)


def a_full_old_disk(place):
    place.put(image(full_half(PLAIN)[0], PLAIN))
    moves(place)


def a_moved_disk(place):
    """Its records are numbered, from the count of its header on."""
    place.put(moved())
    _, after = serves(place, 11, '0 expire')
    is_sector(after, OTHER_GATE + 1, ELEVENTH.format(11))
    stands_for(after, (1, NUMBERED, 2, 630, 11))


def by_the_program(command, count):
    for name, made, wanted in good():
        with place(command) as folder:
            count.case(f'{name}, shown', shown, folder, made, 0, text([f'count {wanted[4]}']), b'')
            count.case(f'{name}, its figures', shown, folder, made, 0, text([figures(made)]), b'', 'disk')
    for name, made, at in damaged():
        with place(command) as folder:
            count.case(f'{name}, shown', shown, folder, made, 5, b'', fault_line(Damaged(at)))
            count.case(f'{name}, its figures', shown, folder, made, 5, b'', fault_line(Damaged(at)), 'disk')
    for case in a_new_disk, an_old_disk, an_old_disk_in_one_run, a_new_disk_in_one_run, a_full_old_disk, a_moved_disk:
        with place(command) as folder:
            count.case(case.__name__, case, folder)


def main():
    command, count = sys.argv[1:], Count()
    by_the_reading(count)
    if command:
        by_the_program(command, count)
    count.end()


if __name__ == '__main__':
    main()
