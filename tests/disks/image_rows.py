#!/usr/bin/env python3
"""Gives a program (crates/probe_image_rows) the sectors of images, whole and with faults, and compares what its loader makes of each with
the independent reading (tests/reading/). Prints a line for each kind of case, the first difference of a kind that fails, and
last 'N passed, M failed'.
Usage: tests/run image_rows COMMAND..."""
import functools
import itertools
import subprocess
import sys

import reading
import registers
from reading_rows import (COPY, LAST_EPOCH, LATEST, MAIL, PLAIN_HEADER, RADIO, RULE, SECTOR, SERVED, BadSector, header_row, mail_row,
                          number, radio_row, read_image, row_in, rows, rule_row, sector, served_row)
from registers import LAST_AREA, LAST_IDENTITY, LAST_NUMBER, identity, message, report

GREATEST = {'rules': 4096, 'radios': 65_536, 'mail': 65_536, 'stations': 64}
SMALL = registers.SMALL

# Images with each kind of row, put together from the table by hand: one in which the orders of all kinds show, the greatest
# values, and the image of a new register
WORKED = """
16 0000000000000001 000000000000000a 00000003 00000003 00000004 00000002
11 00 000000000000 0000 3fff 03 ffffffff
11 18 3a800e000000 0001 0063 01 00000e10
11 30 3a800e0007d1 0007 0007 00 00000000
12 3a800e0007d1 0001 0007 01 01 3a800e0003e8 13
12 3a800e0007d2 0003 3fff 00 00
12 ffffffffffff 0002 0000 01 02 000000000000 00 ffffffffffff 1f
15 0000000000000006 0000000000000e74 3a800e0007d2 3a800e0007d1 05 00 3a800e0003e8 0030 820405014849
13 0000000000000008 0000000000000e74 3a800e0007d2 3a800e0007d1 06 00 0030 820406014849
13 0000000000000009 0000000000000e75 3a800e0007d1 3a800e0007d2 05 01 0028 82180205ff
13 000000000000000a 00000001fffffffe 3a800e0007d1 3a800e0007d2 06 00 001b 82000680
14 0001 00000002 0000000000000002 0008 56
14 0003 ffffffff 000000000000000a 0000
"""
LAST = """
16 4000000000000000 4000000000000000 00000001 00000001 00000001 00000001
11 30 ffffffffffff 3fff 3fff 03 ffffffff
12 ffffffffffff 0040 3fff 01 01 ffffffffffff 1f
13 4000000000000000 00000001fffffffe ffffffffffff ffffffffffff ff 01 0020 ff18ffff
14 0040 ffffffff 4000000000000000 0001 80
"""
NEW = """
16 0000000000000001 0000000000000000 00000000 00000000 00000000 00000000
"""


def texts(image):
    """The bytes of each row of a text."""
    return [bytes.fromhex(line) for line in image.split('\n') if line]


def sectors_of(image):
    return [row.ljust(SECTOR, b'\0') for row in texts(image)]


BY_HAND = [(SMALL, sectors_of(WORKED)), (GREATEST, sectors_of(LAST)), (SMALL, sectors_of(NEW))]


def with_at(sectors, place, *others):
    """The sectors with others in the place of one."""
    return sectors[:place] + list(others) + sectors[place + 1:]


def with_byte(sectors, place, at, value):
    changed = bytearray(sectors[place])
    changed[at] = value
    return with_at(sectors, place, bytes(changed))


def with_numbers(sectors, place, step):
    """The sectors, with one more or less in that number of rows of the header which counts the row at a place."""
    header = row_in(sectors[0])
    ends = itertools.accumulate(header.numbers)
    numbers = list(header.numbers)
    numbers[next(k for k, end in enumerate(ends) if place <= end)] += step
    return with_at(sectors, 0, header_row(header.epoch, header.count, numbers))


def plain(sectors):
    """The sectors with a header of layout 1."""
    return with_byte(sectors, 0, 0, PLAIN_HEADER)


# Cases: of each kind pairs of limits and sectors

def whole():
    yield from BY_HAND
    for register in [*registers.ends(), *registers.longest(), registers.crowded(128)]:
        yield register.limits, rows(7, register)
    for _, epoch, register in registers.by_chance(200):
        yield SMALL, rows(epoch, register)


def plain_headers():
    for limits, sectors in whole():
        yield limits, plain(sectors)


def other_values(byte):
    return {0, 1, 255, byte ^ 1, byte ^ 128, (byte + 1) % 256} - {byte}


def changed(limits, sectors, values):
    """Each byte of each row changed to each of the values that it may give."""
    for place, row in enumerate(sectors):
        for at in range(len(row.rstrip(b'\0')) + 2):
            for value in values(row[at]):
                yield limits, with_byte(sectors, place, at, value)


def changed_bytes():
    for limits, sectors in BY_HAND:
        yield from changed(limits, sectors, other_values)
        yield from changed(limits, plain(sectors)[:1], other_values)
    for register in registers.longest():
        yield from changed(register.limits, rows(7, register), lambda byte: {byte ^ 1, byte ^ 128})


def changed_by_chance():
    for chance, epoch, register in registers.by_chance(60):
        sectors = rows(epoch, register)
        for _ in range(40):
            place = chance.randrange(len(sectors))
            at = chance.randrange(len(sectors[place].rstrip(b'\0')) + 1)
            yield SMALL, with_byte(sectors, place, at, chance.choice(sorted(other_values(sectors[place][at]))))


def other_tags():
    sectors = sectors_of(WORKED)
    for place in range(len(sectors)):
        for tag in (*range(32), 255):
            yield SMALL, with_byte(sectors, place, 0, tag)


def behind_the_end():
    """Bytes after the end of each row. They are ignored."""
    sectors = sectors_of(WORKED)
    for place, row in enumerate(texts(WORKED)):
        for at in (len(row), len(row) + 1, 300, SECTOR - 1):
            yield SMALL, with_byte(sectors, place, at, 255)
        yield SMALL, with_at(sectors, place, row.ljust(SECTOR, b'\xff'))


def orders():
    """Rows swapped, doubled, moved and left out, also with the numbers of rows that then are right."""
    small = [(SMALL, rows(epoch, register)) for _, epoch, register in registers.by_chance(20)]
    for limits, sectors in BY_HAND + small:
        for one, other in itertools.combinations(range(len(sectors)), 2):
            yield limits, with_at(with_at(sectors, one, sectors[other]), other, sectors[one])
        for place, row in enumerate(sectors):
            yield limits, with_at(sectors, place, row, row)
            yield limits, with_at(sectors, place)
            yield limits, sectors + [row]
            yield limits, sectors[:place]
            if place:
                yield limits, with_numbers(with_at(sectors, place, row, row), place, 1)
                yield limits, with_numbers(with_at(sectors, place), place, -1)


def behind_the_image():
    """Sectors after the image. They are ignored."""
    for limits, sectors in BY_HAND:
        yield limits, sectors + [b'\0' * SECTOR]
        yield limits, sectors + [b'\xff' * SECTOR] * 3


def headers():
    """Each number of a header one more or less, and far off."""
    for limits, sectors in BY_HAND:
        epoch, count, numbers, _ = row_in(sectors[0])
        for other in {0, 1, 2, epoch - 1, epoch + 1, LAST_EPOCH, LAST_EPOCH + 1, 2 ** 63, 2 ** 64 - 1} - {-1}:
            yield limits, with_at(sectors, 0, header_row(other, count, numbers))
        for other in {0, 1, 9, max(count, 1) - 1, count + 1, LAST_NUMBER, LAST_NUMBER + 1, 2 ** 63, 2 ** 64 - 1}:
            yield limits, with_at(sectors, 0, header_row(epoch, other, numbers))
        for k, number in enumerate(numbers):
            for other in {0, number - 1, number + 1, number + 256, 65_536, 2 ** 31, 2 ** 32 - 1} - {-1}:
                yield limits, with_at(sectors, 0, header_row(epoch, count, (*numbers[:k], other, *numbers[k + 1:])))


def limits():
    """Each limit at what an image has, one below and one above; one item more for a radio than may wait for it."""
    sectors, names = sectors_of(WORKED), ('rules', 'radios', 'mail', 'stations')
    for numbers in itertools.product((2, 3, 4), (2, 3, 4), (3, 4, 5), (2, 3, 4)):
        yield dict(zip(names, numbers)), sectors
    for stations in (1, 2, 63, 64):
        yield {**GREATEST, 'stations': stations}, sectors_of(LAST)
    crowded = registers.crowded(129)
    yield crowded.limits, rows(7, crowded)


# Images of a few rows, whose values and orders are tried one by one

def image_of(*behind):
    """An image of these rows. Its header gives their numbers, and 10 accepted commands."""
    numbers = [sum(row[0] in tags for row in behind) for tags in ((RULE,), (RADIO,), (MAIL, COPY), (SERVED,))]
    return SMALL, [header_row(1, 10, numbers), *behind]


def rule_values():
    for low, high in itertools.product((0, 1, 5, LAST_AREA, LAST_AREA + 1, 65_535), repeat=2):
        yield image_of(rule_row('01', (low, high, 0, 0)))
    for life in (0, 1, 2, 3, 4, 255):
        yield image_of(rule_row('01', (1, 2, life, 2 ** 32 - 1)))
    for length in (0, 1, 7, 8, 23, 24, 25, 47, 48, 49, 50, 64, 255):
        for ones in [0, LAST_IDENTITY] + [1 << k for k in range(48)]:
            yield image_of(sector(RULE, number(length, 1), number(ones, 6), number(1, 2), number(2, 2), number(0, 1), number(9, 4)))


def rule_orders():
    prefixes = ['', '0', '1', '00', '01', '10', '0' * 47, '0' * 48, '1' * 47, '1' * 48, '0' * 24 + '1', '1' * 8, '1' * 9]
    for pair in itertools.product(prefixes, repeat=2):
        yield image_of(*(rule_row(prefix, (1, 2, 0, 0)) for prefix in pair))


IDENTITIES = [identity(value) for value in (0, 1, 255, 256, 2 ** 24, 2 ** 40 - 1, 2 ** 47, LAST_IDENTITY)]


def radio_values():
    itsi = identity(9)
    for station, area in itertools.product((0, 1, 2, 3, 4, 256, 257, 65_535), (0, 1, LAST_AREA, LAST_AREA + 1, 65_535)):
        yield image_of(radio_row(itsi, (station, area, True), []))
    for present in (0, 1, 2, 128, 255):
        yield image_of(radio_row(itsi, (1, 2, present), []))
    for attached in range(36):
        yield image_of(radio_row(itsi, (1, 2, True), [(itsi, (0, attached))]))
    for told, there in itertools.product([*range(36), 64, 71, 72, 73, 255], (0, 1, 31, 32, 33, 71)):
        bytes_of = radio_row(itsi, (1, 2, True), [(identity(k + 1), (0, 0)) for k in range(there)])[:SECTOR]
        yield image_of(bytes_of[:12] + number(told, 1) + bytes_of[13:])


def radio_orders():
    for pair in itertools.product(IDENTITIES, repeat=2):
        yield image_of(*(radio_row(itsi, (1, 2, True), []) for itsi in pair))
        yield image_of(radio_row(identity(5), (1, 2, True), [(gtsi, (0, 0)) for gtsi in pair]))


def mail_values():
    key = identity(1), identity(2), 3, b'm'
    for count, group in itertools.product((0, 1, 9, 10, 11, 266, LAST_NUMBER, 2 ** 64 - 1), (None, identity(7))):
        yield image_of(mail_row(key, reading.Item(count, 5, message(3), group)))
    for deadline, group in itertools.product((0, 2 ** 32, LATEST - 1, LATEST, LATEST + 1, 2 ** 63, 2 ** 64 - 1), (None, identity(7))):
        yield image_of(mail_row(key, reading.Item(1, deadline, message(3), group)))
    for kind, told, group in itertools.product((0, 1, 2, 109, 114, 255), (message(3), report(3)), (None, identity(7))):
        row = mail_row(key, reading.Item(1, 1, told, group))
        yield image_of(row[:30] + number(kind, 1) + row[31:])


def mail_orders():
    """Items in each order, also two of one number, and two under one key."""
    few = itertools.product((4, 5), IDENTITIES[1:3], IDENTITIES[4:6], (6, 7), b'mr')
    many = itertools.product([4], IDENTITIES[::2], IDENTITIES[::2], [6], b'm')
    for places in (list(few), list(many)):
        for pair in itertools.product(places, repeat=2):
            yield image_of(*(waiting(*place) for place in pair))


def waiting(count, destination, source, reference, kind):
    told = (message if kind == ord('m') else report)(reference)
    return mail_row((destination, source, reference, bytes([kind])), reading.Item(count, 5, told, None))


def short_data():
    """Items with the bits of messages, reports and others, whole, changed, cut, and with bits that fill."""
    told = [message(3, '1' * 9, 2).kept, report(3, '1' * 9, 1, 1).kept, '10000010' '0010' '0000' '00000000' '00000011']
    told += [bits[:32] for bits in told] + [bits[:24] for bits in told]
    changed = [bits[:at] + '01'[bits[at] == '0'] + bits[at + 1:] for bits in told for at in range(len(bits))]
    changed += [bits[:length] for bits in told for length in range(len(bits))]
    changed += [bits.ljust(length, '1') for bits in told for length in (2016, 2040, 2046, 2047, 2048, 2049, 2056)]
    for bits, kind, group in itertools.product(told + changed, (b'm', b'r'), (None, identity(7))):
        yield image_of(mail_row((identity(1), identity(2), 3, kind), reading.Item(1, 5, None, group), bits))


def fills():
    """Strings of bits with one of those changed that only fill, or that do not."""
    for length in [*range(32, 42), 2046, 2047]:
        row = mail_row((identity(1), identity(2), 3, b'm'), reading.Item(1, 5, message(3, '0' * (length - 24)), None))
        for k in range(8):
            yield image_of(*with_byte([row], 0, 32 + (length + 7) // 8, 1 << k))
    for length in [*range(1, 20), 2041, 2047, 2048, 2049]:
        row = served_row(1, (1, 1, '0' * length))
        for k in range(8):
            yield image_of(*with_byte([row], 0, 16 + (length + 7) // 8, 1 << k))


def served_values():
    for station in (0, 1, 2, 3, 4, 256, 257, 65_535):
        yield image_of(served_row(station, (1, 1, None)))
    for sequence in (0, 1, 2 ** 31, 2 ** 32 - 1):
        yield image_of(served_row(1, (sequence, 1, None)))
    for count in (0, 1, 9, 10, 11, 266, LAST_NUMBER, 2 ** 64 - 1):
        yield image_of(served_row(1, (1, count, '1')))
    for length in (*range(18), 2047, 2048, 2049, 2050, 2056, 3900):
        yield image_of(served_row(1, (1, 1, '1' * length)))
    for pair in itertools.product((1, 2, 3), repeat=2):
        yield image_of(*(served_row(station, (1, 4, '1')) for station in pair))


KINDS = [whole, plain_headers, changed_bytes, changed_by_chance, other_tags, behind_the_end, orders, behind_the_image, headers, limits,
         rule_values, rule_orders, radio_values, radio_orders, mail_values, mail_orders, short_data, fills, served_values]


# The program

def given(limits, sectors):
    """A case as the program reads it."""
    numbers = ' '.join(str(limits[name]) for name in ('rules', 'radios', 'mail', 'stations'))
    return '\n'.join([numbers, *(digits(row) for row in sectors), '', ''])


@functools.lru_cache(maxsize=4096)
def digits(row):
    return row.rstrip(b'\0').hex() or '00'


def wanted(limits, sectors):
    """What the program has to answer."""
    try:
        epoch, register = read_image(sectors, limits)
    except BadSector as bad:
        return f'bad {bad}'
    return '\n'.join([f'image {epoch} {register.count}', *map(digits, rows(epoch, register))])


def answers(command, cases):
    """The program's answer to each case; none where it failed, or has not just so many."""
    run = subprocess.run(command, input=''.join(itertools.starmap(given, cases)).encode(), capture_output=True, timeout=120)
    told = run.stdout.decode(errors='replace').split('\n\n')
    return told[:-1] if run.returncode == 0 and len(told) == len(cases) + 1 else [None] * len(cases)


def tells_images():
    """Whether the reading accepts each good image, also those written by hand, and writes the same bytes back. With a header of
    layout 1 it must give the same result, though the tag differs."""
    return (all(wanted(*case).split('\n')[1:] == list(map(digits, case[1])) for case in whole())
            and all(wanted(limits, plain(sectors)) == wanted(limits, sectors) for limits, sectors in whole())
            and all(row_in(sectors[0]).tag != row_in(plain(sectors)[0]).tag for _, sectors in BY_HAND))


def main():
    command, passed, failed = sys.argv[1:], 0, 0
    if not command:
        sys.exit(__doc__)
    if not tells_images():
        sys.exit('the reading refuses an image, or writes it otherwise')
    for kind in KINDS:
        cases = list(kind())
        wants = list(itertools.starmap(wanted, cases))
        wrong = [told for told in zip(cases, answers(command, cases), wants) if told[1] != told[2]]
        passed, failed = passed + len(cases) - len(wrong), failed + len(wrong)
        print(f'{kind.__name__}: {len(cases)} cases, {sum(want[0] == "i" for want in wants)} of them images, {len(wrong)} differ')
        if wrong:
            case, got, want = wrong[0]
            print(f'  {got!r:.1000}, wanted {want!r:.1000}, of {given(*case)!r:.2000}')
    print(f'made by chance from the seed {registers.SEED}')
    print(f'{passed} passed, {failed} failed')
    sys.exit(1 if failed or not passed else 0)


if __name__ == '__main__':
    main()
