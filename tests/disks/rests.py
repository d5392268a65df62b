"""`check --rest` of damaged disks. Cases by hand, each with its last line and the lines of its text after the first; and the program over
any image, which must print what the independent reading (tests/reading/reading_rests.py) says. `load` must take the text as it is, and
the disk that it makes must have that text."""
import itertools
import subprocess

import refusing
from checked_disks import JUNK, LAYOUTS, ONE_RULE, two_sides
from disk_files import DISK, fault_line, settings, text, untouched
from made_disks import CLOSED, GATE, OPEN, OTHER_GATE, OTHER_SLOT, SLOT, expire, image, record, records, text_of
from reading_disks import MOST, BadGeometry, Unformatted, layout_on
from reading_rests import rested
from reading_rows import header_row, radio_row, served_row
from reading_texts import first_line
from running import SECONDS, compare

REST, NEW = ['check', '--rest', DISK], 'new.img'
FIRST_LINE = first_line({'rules': 16, 'radios': 16, 'mail': 256, 'stations': 4})
RULE_LINE, LACKS_NONE = 'rule 256-0-0/2 1 2 0 0', 'lacks rules 0 radios 0 items 0 stations 0'
LACKS_RULE = 'lacks rules 1 radios 0 items 0 stations 0'


def counted(count, rules, *lines):
    """The lines of a register with so many commands and rules, and station 1's last command."""
    return [f'count {count} rules {rules} radios 0 items 0 stations 1', *[RULE_LINE] * rules, *lines]


def radio(number, groups=()):
    """The row of a radio by its number, and its line."""
    itsi = format(number, '048b')
    line = f'radio 0-0-{number} station 1 la 7 present' + ''.join(f' 0-0-{group} 4 3' for group in groups)
    return radio_row(itsi, (1, 7, True), [(format(group, '048b'), (4, 3)) for group in groups]), line


def three_radios(form, *changes):
    """Side A has three radios with groups, and a station's last command; other rows in these places after the header."""
    held = [radio(number, (number + 100, number + 200)) for number in (5, 6, 7)]
    rows = [row for row, _ in held] + [served_row(2, (9, 3, None))]
    for place, row in changes:
        rows[place - 1] = row
    sectors = [header_row(1, 7, (0, 3, 0, 1), form), *rows]
    return image(dict(enumerate(sectors, SLOT)), form), [line for _, line in held]


def by_rows(form):
    """A radio is damaged: its attachments are gone with it. A radio with another number hides those after it up to that number."""
    for place in (1, 2, 3):
        disk, lines = three_radios(form, (place, JUNK))
        left = [line for at, line in enumerate(lines, 1) if at != place]
        yield (f'radio {place} damaged', disk, 5, 'rest side A epoch 1 count 7 lacks rules 0 radios 1 items 0 stations 0 records none',
               ['count 7 rules 0 radios 2 items 0 stations 1', *left, 'last 2 9 3 -'])
    disk, lines = three_radios(form, (1, radio(9)[0]))
    yield ('a radio out of order', disk, 5, 'rest side A epoch 1 count 7 lacks rules 0 radios 2 items 0 stations 0 records none',
           ['count 7 rules 0 radios 1 items 0 stations 1', radio(9)[1], 'last 2 9 3 -'])
    disk, lines = three_radios(form, (2, radio(5)[0]), (4, radio(8)[0]))
    yield ('a radio twice, and one in place of a station', disk, 5,
           'rest side A epoch 1 count 7 lacks rules 0 radios 1 items 0 stations 1 records none',
           ['count 7 rules 0 radios 2 items 0 stations 0', lines[0], lines[2]])
    disk, lines = three_radios(form, *((place, JUNK) for place in (1, 2, 3, 4)))
    yield ('no row is left', disk, 5, 'rest side A epoch 1 count 7 lacks rules 0 radios 3 items 0 stations 1 records none',
           ['count 7 rules 0 radios 0 items 0 stations 0'])


def by_sides(form):
    """Disks with two sides: side A has accepted 8 commands in epoch 5, side B 10 in epoch 6."""
    of_a, of_b = counted(8, 1, 'last 1 1 8 -'), counted(10, 1, 'last 1 3 10 -')
    side_a, side_b = (f'rest side {side}' for side in ('A epoch 5 count 8', 'B epoch 6 count 10'))
    junk_b, junk_a = {OTHER_SLOT + 1: JUNK}, {SLOT + 1: JUNK}
    yield 'no damage', {}, 0, f'{side_b} {LACKS_NONE} records none', of_b
    yield 'a rule of the newer side', junk_b, 5, f'{side_b} {LACKS_RULE} records none', counted(10, 0, 'last 1 3 10 -')
    yield 'a rule of the older side', junk_a, 0, f'{side_b} {LACKS_NONE} records none', of_b
    yield 'a rule of each', {**junk_a, **junk_b}, 5, f'{side_b} {LACKS_RULE} records none', counted(10, 0, 'last 1 3 10 -')
    yield 'the header of the newer side', {OTHER_SLOT: JUNK}, 5, f'{side_a} {LACKS_NONE} records none', of_a
    yield 'both headers', {OTHER_SLOT: JUNK, SLOT: JUNK}, 5, 'rest none', []
    yield 'no root is open', {1: CLOSED, 2: CLOSED}, 5, 'rest none', []
    # Both have 8 commands: the newer side is taken, though no record of it is left
    yield ('the first record of the newer side', {OTHER_GATE + 1: JUNK}, 5, f'rest side B epoch 6 count 8 {LACKS_NONE} records from 629 and 0 later',
           ['count 8 rules 1 radios 0 items 0 stations 0', RULE_LINE])
    yield ('the first record of both sides', {OTHER_GATE + 1: JUNK, GATE + 1: JUNK}, 5,
           f'rest side B epoch 6 count 8 {LACKS_NONE} records from 629 and 0 later', ['count 8 rules 1 radios 0 items 0 stations 0', RULE_LINE])
    # Side A has more commands
    less = {OTHER_SLOT: header_row(6, 6, ONE_RULE, form), **records(OTHER_GATE, form, [expire(2)], 6)[0]}
    yield ('a newer side with fewer commands', {**less, OTHER_SLOT + 1: JUNK}, 5, f'{side_a} {LACKS_NONE} records none', of_a)
    yield ('a newer side with fewer commands, sound', less, 0, f'rest side B epoch 6 count 7 {LACKS_NONE} records none', counted(7, 1, 'last 1 2 7 -'))
    same = {OTHER_SLOT: header_row(5, 8, ONE_RULE, form)}
    yield 'two sides of one epoch', same, 5, f'rest side B epoch 5 count 10 {LACKS_NONE} records none', of_b
    as_many = {OTHER_SLOT: header_row(5, 6, ONE_RULE, form), **records(OTHER_GATE, form, [expire(2), expire(3)], 6)[0]}
    yield 'two sides of one epoch and count', as_many, 5, f'{side_a} {LACKS_NONE} records none', of_a


def by_records(form):
    """Side B has four records after 8 commands. One is damaged: those before it count."""
    commands = [expire(number) for number in range(2, 6)]
    good, _ = records(OTHER_GATE, form, commands, 8)
    first = OTHER_GATE + 1

    def with_record(at, text):
        return {**good, **record(OTHER_GATE + 2 * at, text), **({OTHER_GATE + 2 * at + 2: OPEN} if at < 3 else {})}

    for at in range(4):
        bad = text_of(form, [commands[at]], 9 + at)
        for name, text in ('a byte after it', bad + b'\1'), ('a command of no kind', bad[:-1] + b'\x63'):
            yield (f'record {at}, {name}', with_record(at, text), 5,
                   f'rest side B epoch 6 count {8 + at} {LACKS_NONE} records from {first + 2 * at} and {3 - at} later',
                   counted(8 + at, 1, f'last 1 {1 + at} {8 + at} -') if at else ['count 8 rules 1 radios 0 items 0 stations 0', RULE_LINE])
        refused = text_of(form, [expire(9, station=5)], 9 + at)
        yield (f'record {at}, refused', with_record(at, refused), 5,
               f'rest side B epoch 6 count {8 + at} {LACKS_NONE} records from {first + 2 * at} and {3 - at} later',
               counted(8 + at, 1, f'last 1 {1 + at} {8 + at} -') if at else ['count 8 rules 1 radios 0 items 0 stations 0', RULE_LINE])
    # Of a record whose second command is refused the first one counts
    half = text_of(form, [expire(7), expire(7)], 9)
    yield ('a record half accepted', {**record(OTHER_GATE, half), OTHER_GATE + 2: CLOSED}, 5,
           f'rest side B epoch 6 count 9 {LACKS_NONE} records from {first} and 0 later', counted(9, 1, 'last 1 7 9 -'))
    # Two records can't be read: what follows the second is not counted
    bad = {at: text_of(form, [commands[at]], 9 + at) + b'\1' for at in (1, 3)}
    yield ('two records', {**with_record(1, bad[1]), **record(OTHER_GATE + 6, bad[3])}, 5,
           f'rest side B epoch 6 count 9 {LACKS_NONE} records from {first + 2} and 1 later', counted(9, 1, 'last 1 2 9 -'))
    # A damaged row as well: the records are applied
    yield ('a row and a record', {**with_record(2, bad[3]), OTHER_SLOT + 1: JUNK}, 5,
           f'rest side B epoch 6 count 10 {LACKS_RULE} records from {first + 4} and 1 later', counted(10, 0, 'last 1 3 10 -'))


def cases():
    """The name of each, its image, status, last line, and the lines of its text after the first; none if there is no text."""
    for number, form in LAYOUTS.items():
        for name, changes, *wanted in itertools.chain(by_sides(form), by_records(form)):
            yield f'layout {number}, {name}', two_sides(form, changes), *wanted
        for name, disk, *wanted in by_rows(form):
            yield f'layout {number}, {name}', disk, *wanted


# The program

def wanted(image):
    """How it has to end: its status, output and standard error."""
    try:
        status, out, lines = rested(image)
        return status, out, text(lines)
    except (Unformatted, BadGeometry) as fault:
        return 5, b'', fault_line(fault)


def loads(place, image, out):
    """`load` takes a text as it is, for a disk of the same layout."""
    layout = layout_on(image)
    place.path(NEW).unlink(missing_ok=True)
    place.write('rest.txt', out)
    place.write('rest.toml', settings(**dict(zip(MOST, layout.limits)), journal=layout.journal).encode())
    place.gives(['load', 'rest.txt', 'rest.toml', NEW], 0, text([f'loaded {layout.sectors()} sectors']))
    place.gives(['dump', NEW], 0, out)


def gives_rest(place, image):
    """Of a disk as it is; if nothing lacks, `dump` prints the same."""
    status, out, err = wanted(image)
    with untouched(place.path()):
        place.gives(REST, status, out, err)
        if status == 0:
            place.gives(['dump', DISK], 0, out)
    return out


def by_hand(place, disk, status, last, lines):
    out = text([FIRST_LINE, *lines]) if lines else b''
    read = rested(disk)
    compare('the reading', (read[0], read[1], read[2][-1]), (status, out, last))
    place.put(disk)
    compare('the text', gives_rest(place, disk), out)
    if out:
        loads(place, disk, out)


def memory_that_ends(place, disk):
    """Each allocation in turn is refused: then nothing is printed, or a prefix of the text."""
    place.put(disk)
    end = wanted(disk)
    with refusing.library() as made, untouched(place.path()):
        for number in itertools.count(1):
            ended = subprocess.run([*place.command, *REST], cwd=place.folder, stdin=subprocess.DEVNULL, capture_output=True, timeout=SECONDS,
                                   env=refusing.environment(made, number))
            told = ended.returncode, ended.stdout, ended.stderr
            if (told[0], told[2]) != (5, b'fault: memory\n') or not end[1].startswith(told[1]):
                break
    compare('what is printed', told, end)
    compare('allocations were refused', number > 1, True)


def the_rests(place, count):
    for name, *case in cases():
        count.case(f'rest: {name}', by_hand, place, *case)
