#!/usr/bin/env python3
"""Runs `dump` and `load` of the built program over worked disks, disks that the program makes of streams of lines, registers made by
chance, a text with each of thousands of changes (changed_texts.py), files and streams that fail, stops (dump_files.py), and a disk
that is full at the greatest limits. Each text, the line and the cause of each fault, and the bytes of each disk that is made are
compared with the independent reading (tests/reading/). Prints a line for each part, the first cases that fail, and last
'N passed, M failed'. Without a program only the reading is tried.
Usage: tests/run dumping [PROGRAM]"""
import collections
import itertools
import random
import subprocess
import sys
import time

import changed_texts
import dump_files
import greatest_disk
import layouts
import reading
import registers
from changed_texts import TEXT
from disk_files import DISK, LINES, MEMORY, place, settings, shows_all, text
from greatest_register import ran
from images import fault_of, kept
from loaded import DUMP, LIMITS, LOAD, TOML, dumps, image_of, loaded_line, loads, made_of
from made_disks import FORMS
from reading_disks import MOST, MOST_SECTORS, NUMBERED, copied, opens
from reading_rows import LAST_SEQUENCE, LATEST
from reading_texts import CUT, FIRST_LINE, PLACE, SPELLING, BadText, register_in, text_of
from running import SECONDS, compare
from streams import group_messages, groups, lines, locations, messages
from testing import Count

SEED, BY_CHANCE, SHOWN = 20, 60, 4
# The most bytes that the program asks of one read
PIECE = 65_536
STREAMS = lines.KINDS + locations.KINDS + groups.KINDS + messages.KINDS + group_messages.KINDS
# How many streams of a kind are run; and the bytes of the longest one
STREAMS_OF_A_KIND, LONGEST_STREAM = 2, 100_000
LARGER = {'rules': 20, 'radios': 40, 'mail': 300, 'stations': 7}
FIRST = TEXT.splitlines()[0].decode()
# Lines of TEXT, by number, with others in their place; and the line and the cause of the fault, None where the text is loaded
FAULTS = [
    (1, f'dump 12\n{FIRST}', None, None),
    (1, f'dump 11\n{FIRST}', 3, PLACE),
    (1, f'dump 13\n{FIRST}', 3, PLACE),
    (1, f'dump 0\n{FIRST}', 3, PLACE),
    (1, f'dump 18446744073709551615\n{FIRST}', 3, PLACE),
    (1, f'dump 18446744073709551616\n{FIRST}', 1, FIRST_LINE),
    (1, f'dump 12\ndump 12\n{FIRST}', 2, FIRST_LINE),
    (1, f'dump 11\ndump 12\n{FIRST}', 2, FIRST_LINE),
    (1, f'{FIRST}\ndump 12', 2, SPELLING),
    (1, 'tetra-switch register 1 rules 0 radios 4294967295 items 3 stations 007', 1, FIRST_LINE),
    (1, 'tetra-switch register 1 rules 0 radios 4294967296 items 3 stations 7', 1, FIRST_LINE),
    (1, 'tetra-switch register 2 rules 16 radios 16 items 256 stations 4', 1, FIRST_LINE),
    (1, 'tetra-switch register 1 rules 16 radios 16 items 256', 1, FIRST_LINE),
    (1, 'tetra-switch register 1 rules 16 radios 16 mail 256 stations 4', 1, FIRST_LINE),
    (2, 'count 20 rules 17 radios 3 items 3 stations 2', 2, PLACE),
    (2, 'count 20 rules 2 radios 3 items 3 stations 5', 2, PLACE),
    (2, 'count 4611686018427387905 rules 2 radios 3 items 3 stations 2', 2, PLACE),
    (2, 'count 18446744073709551616 rules 2 radios 3 items 3 stations 2', 2, SPELLING),
    (2, 'count 20 rules 2 radios 3 items 3 stations 4294967296', 2, SPELLING),
    (2, 'count 20 rules 1 radios 3 items 3 stations 2', 4, PLACE),
    (2, 'count 20 rules 3 radios 3 items 3 stations 2', 5, PLACE),
    (2, 'count 20 rules 2 radios 3 items 3 stations 1', 12, PLACE),
    (2, 'count 20 rules 2 radios 3 items 3 stations 3', 13, CUT),
    (2, 'count 19 rules 2 radios 3 items 3 stations 2', 11, PLACE),
    (2, 'count 7 rules 2 radios 3 items 3 stations 2', 8, PLACE),
    (3, 'rule 234-14-0/24 99 1 1 3600', 3, SPELLING),
    (3, 'rule 234-14-2048/37 1 99 1 3600', 4, PLACE),
    (4, 'rule 234-14-0/25 0 16383 3 0', None, None),
    (4, 'rule 0-0-0/0 0 16383 3 0', 4, PLACE),
    (5, 'radio 234-14-2001 station 1 la 7 present 234-14-1001 4 3 234-14-1000 0 0', 5, PLACE),
    (5, 'radio 234-14-2001 station 1 la 7 present 234-14-1000 4 3 234-14-1000 0 0', 5, PLACE),
    (5, 'radio 234-14-2001 station 1 la 7 present 234-14-1000 8 3', 5, SPELLING),
    (5, 'radio 234-14-2001 station 1 la 7 present 234-14-1000 4', 5, SPELLING),
    (6, 'radio 234-14-2002 station 5 la 16383 absent', 6, PLACE),
    (6, 'radio 234-14-2002 station 0 la 16383 absent', 6, PLACE),
    (6, 'radio 234-14-2002 station 65535 la 16383 absent', 6, PLACE),
    (6, 'radio 234-14-2002 station 65536 la 16383 absent', 6, SPELLING),
    (6, 'radio 234-14-2001 station 4 la 16383 absent', 6, PLACE),
    (8, 'item 0 234-14-2002 m 234-14-2001 5 3700 48:820405014849', 8, PLACE),
    (8, 'item 9 234-14-2002 m 234-14-2001 5 3700 48:820405014849', 9, PLACE),
    (8, 'item 8 234-14-2002 m 234-14-2001 6 3700 48:820405014849', 8, SPELLING),
    (8, 'item 8 234-14-2002 m 234-14-2001 5 3700 48:82040501484a', 8, SPELLING),
    (9, 'item 8 234-14-2002 m 234-14-2001 5 3700 32:82000500 234-14-1000', 9, PLACE),
    (10, 'item 9 234-14-2002 m 234-14-2001 5 3700 48:820405014849', 10, PLACE),
    (10, 'item 9 234-14-2001 r 234-14-2002 5 8589934591 32:82180005', 10, SPELLING),
    (10, 'item 9 234-14-2001 r 234-14-2002 5 3700 32:821A0005', 10, SPELLING),
    (10, 'item 9 234-14-2001 r 234-14-2002 5 3700 32:82180005 234-14-1000', 10, SPELLING),
    (11, 'last 1 2 0 8:56', 11, PLACE),
    (11, 'last 3 1 19 0:', 11, SPELLING),
    (11, 'last 2 1 19 -', 12, PLACE),
    (12, 'last 5 1 19 -', 12, PLACE),
    (12, 'last 2 4294967295 19 -\nlast 3 1 1 -', 13, PLACE),
    (12, 'last 2 4294967295 19 -\nlast', 13, SPELLING),
    (12, 'last 2 4294967295 20 -', None, None),
]


def with_line(number, line):
    return changed_texts.with_line(TEXT.splitlines(), number - 1, line.encode())


# The reading

def fault_in(data, limits):
    """The line and the cause of a text's fault, None where it has none."""
    try:
        register_in(data, limits)
        return None, None
    except BadText as fault:
        return fault.args


def has_fault(number, line, wanted, cause):
    compare('the fault', fault_in(with_line(number, line), LIMITS), (wanted, cause))


def is_again(register):
    """A text makes the register that it was written of, also under greater limits."""
    data, larger = text_of(register), {kind: 2 * limit for kind, limit in register.limits.items()}
    again, other = register_in(data, register.limits), register_in(data, larger)
    compare('the register', (kept(again), kept(other)), (kept(register), kept(register)))
    compare('the text, but for the first line', text_of(other).split(b'\n')[1:], data.split(b'\n')[1:])


def by_the_reading(count):
    count.case('the text', compare, 'the text again', text_of(register_in(TEXT, LIMITS)), TEXT)
    for fault in FAULTS:
        count.case(f'line {fault[0]}: {fault[1]}', has_fault, *fault)
    for number, register in enumerate(all_registers()):
        count.case(f'register {number}', is_again, register)


# Registers and their disks

def all_registers():
    yield register_in(TEXT, LIMITS)
    yield from registers.ends()
    yield from (register for _, _, register in registers.by_chance(BY_CHANCE))
    yield from registers.longest()
    yield registers.crowded(128)
    yield cut_by_a_read()


def cut_by_a_read():
    """Radios in 32 groups each, and as many rules as it takes that the first 65,536 bytes of the text end near the end of one of the longest
    lines."""
    register = reading.Register({'rules': 64, 'radios': 100, 'mail': 1, 'stations': 2})
    register.count = 9
    for k in range(100):
        itsi = registers.identity(registers.LAST_IDENTITY - k)
        register.radios[itsi] = 2, registers.LAST_AREA, True
        register.groups.update({(itsi, registers.identity(registers.LAST_IDENTITY - group)): (7, 3) for group in range(reading.MOST_GROUPS)})
    while len(text_of(register)[:PIECE].rpartition(b'\n')[2]) < 750:
        register.rules[registers.identity(len(register.rules) << 8)[:40]] = 0, registers.LAST_AREA, 3, 60
    return register


def larger(limits):
    return {kind: limit + LARGER[kind] for kind, limit in limits.items()}


def answer_to_dump(register):
    """What a station gets, in bytes."""
    return text(reading.answer(register, 1, b'dump'))


def dumped_and_loaded(place, register, dice):
    """A disk with this register in either layout is dumped, and the text loaded under the same limits and under greater ones, as is
    the answer to the listing `dump`."""
    place.put(image_of(register, dice.randrange(2), dice.choice([1, 2, 2 ** 62]), dice.choice(list(FORMS))))
    dumps(place, register)
    for limits in register.limits, larger(register.limits):
        dumps(place, loads(place, text_of(register), limits))
        dumps(place, loads(place, answer_to_dump(register), limits))


def under_less(place, register, dice):
    """Each limit is as great as it must be, and one less; and all are less by chance."""
    data = text_of(register)
    stations = [*register.served, *(radio[0] for radio in register.radios.values())]
    least = {'rules': len(register.rules), 'radios': len(register.radios), 'mail': len(register.mail), 'stations': max(stations, default=0)}
    for kind, limit in least.items():
        for less in {max(limit, 1), max(limit - 1, 1)}:
            loads(place, data, {**register.limits, kind: less})
    for _ in range(4):
        loads(place, data, {kind: dice.randint(max(1, limit - 2), limit + 1) for kind, limit in least.items()})


def next_lines(register, station):
    """The last command of a station, the one before, the next ones, and queries."""
    last = register.served.get(station, (0,))[0]
    bodies = ['rule 234-14-0/24 1 99 1 3600', 'expire', 'rule 234-14-0/24 1 99 1 3600', 'mm 234-14-4001 7 10:260', 'mm 234-14-4002 7 10:260',
              'sds 234-14-4001 234-14-4002 48:820405014849', 'expire']
    numbered = [(sequence, body) for sequence, body in zip(itertools.count(last - 1), bodies) if 1 <= sequence <= LAST_SEQUENCE]
    return [f'{sequence} {7 * place} {body}' for place, (sequence, body) in enumerate(numbered)] + ['count', 'where 234-14-4001', 'mail 234-14-4002']


def serves(place, register, station):
    """A station goes on with the register of the disk, and the stations before it send nothing."""
    now, sent = copied(register), next_lines(register, station)
    answers = [line for answer, _ in reading.answered(now, station, [line.encode() for line in sent]) for line in answer]
    files = [f'{number}.txt' for number in range(1, station)] + [LINES]
    for name in files:
        place.write(name, text(sent) if name == LINES else b'')
    place.gives(['run', DISK, *files], 0, text([*(f'station {k} {name}' for k, name in enumerate(files, 1)), *answers]))
    compare('the disk stands for', fault_of(place.image(), [now]), None)
    dumps(place, now)
    return now


def goes_on(place, register, limits):
    """A loaded disk shows all that the register has, and takes the next commands of its first and last station."""
    now = loads(place, text_of(register), limits)
    shows_all(place, now)
    for station in 1, limits['stations']:
        now = serves(place, now, station)


def worked_disk(place, image):
    place.put(image)
    dumps(place, opens(image).register)


def stream(place, data):
    """A disk that the program makes of a stream, which then has records of its own."""
    register = reading.Register()
    bad = [is_bad for _, is_bad in reading.answered(register, 1, reading.lines_of(data))]
    place.begins(NUMBERED)
    place.write(LINES, data)
    program = subprocess.run([*place.command, 'run', DISK, LINES], capture_output=True, cwd=place.folder, timeout=SECONDS)
    compare('status of the run', program.returncode, int(any(bad)))
    dumps(place, register)
    dumps(place, loads(place, text_of(register)))


def short_streams():
    for kind in STREAMS:
        fitting = (data for data in kind() if len(data) <= LONGEST_STREAM)
        for number, data in enumerate(itertools.islice(fitting, STREAMS_OF_A_KIND)):
            yield f'{kind.__name__} {number}', data


# Changes of a text

def changes(place, count):
    """Each change is loaded or has its fault, and each of these comes."""
    seen = collections.Counter()
    for kind in changed_texts.KINDS:
        for number, data in enumerate(changed_texts.changed(kind)):
            result = count.case(f'{kind.__name__} {number}', loads, place, data)
            seen[result if isinstance(result, str) else 'loaded'] += 1
    print('texts changed: ' + ', '.join(f'{number} {result}' for result, number in seen.items()))
    count.case('all faults', compare, 'the kinds', set(seen), {'loaded', FIRST_LINE, SPELLING, PLACE, CUT})


def changes_by_chance(place, count):
    """Some changes of other registers' texts."""
    for number, (chance, _, register) in enumerate(registers.by_chance(BY_CHANCE)):
        given = text_of(register).splitlines()
        for kind in changed_texts.lines_changed, changed_texts.words_changed:
            for data in chance.sample(list(kind(given, chance)), 5):
                count.case(f'text {number} changed', loads, place, data, register.limits)


# The greatest

def greatest():
    """A full register, also with copies, long messages and a radio in 32 groups."""
    register = greatest_disk.full()
    for number, key in enumerate(itertools.islice(list(register.mail), 3000)):
        bits = '10' * (1007 if number % 3 else 0)
        group = registers.identity(number) if number % 2 else None
        register.mail[key] = reading.Item(number + 1, LATEST, registers.message(key[2], bits), group)
    register.groups = {(registers.identity(9), registers.identity(k)): (k % 8, k % 4) for k in range(reading.MOST_GROUPS)}
    return register


def the_greatest(place):
    """Dumped, loaded under the same limits, and dumped again."""
    register = greatest()
    data, sectors = text_of(register), made_of(register, MOST_SECTORS)
    greatest_disk.put(place, sectors)
    ran(place, ['dump', DISK], data)
    place.path().unlink()
    place.write(DUMP, data)
    place.write(TOML, settings(**MOST, journal=MOST_SECTORS).encode())
    ran(place, LOAD, loaded_line(MOST, MOST_SECTORS))
    compare('sectors that are not as they have to be', sorted(greatest_disk.changed(place, sectors)), [])
    ran(place, ['dump', DISK], data)


# The whole

def of_registers(place, count):
    dice = random.Random(SEED)
    for number, register in enumerate(all_registers()):
        count.case(f'register {number}', dumped_and_loaded, place, register, dice)
        count.case(f'register {number}, under less', under_less, place, register, dice)
    chosen = [register_in(TEXT, LIMITS), *(register for _, _, register in registers.by_chance(SHOWN)), *registers.longest()]
    for number, register in enumerate(chosen):
        for limits in register.limits, larger(register.limits):
            count.case(f'register {number} goes on', goes_on, place, register, limits)


def of_disks(place, count):
    for name, image, _ in layouts.good():
        count.case(name, worked_disk, place, image)
    for name, data in short_streams():
        count.case(name, stream, place, data)


def of_files(there, count):
    for case in dump_files.CASES:
        with place(there.command, MEMORY) as folder:
            count.case(case.__name__, case, folder)


def of_the_greatest(place, count):
    count.case('the greatest', the_greatest, place)


def main():
    command, count = sys.argv[1:], Count()
    by_the_reading(count)
    for part in (of_registers, of_disks, changes, changes_by_chance, of_files, of_the_greatest) if command else ():
        start = time.monotonic()
        with place(command, MEMORY) as folder:
            part(folder, count)
        print(f'{part.__name__}: {time.monotonic() - start:.1f} s', flush=True)
    count.end()


if __name__ == '__main__':
    main()
