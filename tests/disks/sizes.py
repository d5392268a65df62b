#!/usr/bin/env python3
"""Sizes that the other tests do not reach: a checkpoint beside commits of a register with 4,000 items; the longest PDUs by `run`, by `serve`
and without a disk; records with long group PDUs, read again; a side with a thousand damaged sectors; `serve` with more than half as many
pairs as there may be. The independent reading (tests/reading/) judges answers and disks. Prints the cases that fail, and last 'N passed, M failed'.
Usage: tests/run sizes PROGRAM (the program itself, not a script that starts it)"""
import random
import subprocess

import reading
from checking import prints, wanted
from disk_files import DISK, LINES, MEMORY, place, register_of, settings, shows_all, text
from full_disks import disk_of, full, served_beside
from loaded import layout_of
from many_files import LONG, empty, formats, stands_for
from pieces import READY, WAYS, given
from reading_disks import layout_on
from reading_orders import NoOrder, answered, order_that_answers
from reading_rows import SECTOR
from running import Differs, compare
from station_lines import data_of, lines
from streams import RULE_BODY, U, demand, group_messages, groups, messages, mobility_body
from testing import Count, options

ITEMS = 4000
PAIRS, STATIONS, LINES_EACH = 33, 64, 12


# A checkpoint beside commits

def is_made_beside(place):
    compare('standard error', served_beside(place, ITEMS)[1], b'')


# Long records

def attaching_all(itsi, network, count):
    """A group PDU with so many groups of another network."""
    return groups.grouping([groups.attaching(f'235-{network}-{1000 + k}', k % 8) for k in range(count)], itsi)


def longest_bodies():
    """A group PDU of 2,048 bits, and messages of 2,047 to a radio and to a group."""
    joined = groups.uplink([groups.attaching(f'235-14-{1000 + k}') for k in range(31)])
    fill = '1' * (2048 - len(groups.group_pdu(groups.element('', 3), joined)))
    yield mobility_body(groups.group_pdu(groups.element(fill, 3), joined))
    yield messages.sds(U, messages.V, messages.message(1, 1, '10' * 1011 + '1'))
    yield group_messages.gsds(U, group_messages.G, messages.message(2, 1, '01' * 1011 + '0'))


def longest_pdus(place, way):
    """They are accepted, and read again."""
    place.format(READY)
    said = ['rule 0-0-0/0 0 16383 1 3600', demand(3), demand(3, messages.V)]
    said += [groups.grouping([groups.attaching(1000)], radio) for radio in (U, messages.V)] + list(longest_bodies())
    wanted = given(place, text([*(f'{sequence} 10 {body}' for sequence, body in enumerate(said, 1)), f'groups {U}', 'items', 'last 1']))
    compare('the longest PDUs are accepted', [told[0].split(' ')[1] for told in wanted.answers[:len(said)]], ['ok'] * len(said))
    way(place, wanted, None)


def long_records(place):
    """Group PDUs of 1 to 32 groups; the longest has some 1,750 bits. Each is answered as the reading says, and read again."""
    place.write('s.toml', settings(journal=LONG).encode())
    layout = layout_of(reading.Register().limits, LONG)
    place.gives(['format', 's.toml', DISK], 0, text([f'formatted {layout.sectors()} sectors']))
    said = [RULE_BODY, 'rule 235-0-0/10 0 16383 1 60', demand(3)]
    said += [attaching_all(U, 14, count) for count in (1, 5, 7, 8, 16, 31, 32)]
    given = text([f'{sequence} 10 {body}' for sequence, body in enumerate(said, 1)])
    told, _ = reading.serve(given)
    compare('the longest PDU in bits', max(int(body.split(' ')[-1].split(':')[0]) for body in said) > 1700, True)
    place.write(LINES, given)
    place.gives(['run', DISK, LINES], 0, text([f'station 1 {LINES}']) + told)
    register = register_of(place.image())
    compare('commands and groups', (register.count, len(register.groups)), (len(said), 32))
    shows_all(place, register)


# Many damaged sectors

def many_damaged(place):
    """Two of three rows of a thousand items, on the side that counts and on the other one."""
    register = full(1000)
    for side in 0, 1:
        first = layout_on(disk_of(register)).slot(side) + 1
        rows = {first + k: bytes(SECTOR) for k in range(1000) if k % 3}
        place.put(disk_of(register, rows))
        status, out, err = wanted(place.image())
        compare('damaged sectors', out.count(b'damaged sector'), len(rows))
        prints(place, status, out, err)


# Many pairs

def many_pairs(place, dice):
    """Files of 33 stations, each with lines of its own. The last stations' answers are their own too."""
    formats(place, STATIONS, LONG)
    said = [lines(dice, LINES_EACH) for _ in range(PAIRS)]
    for number, given in enumerate(said, 1):
        place.write(f'{number}.in', data_of(given))
    words = ['serve', DISK, *(name for number in range(1, PAIRS + 1) for name in (f'{number}.in', f'{number}.out'))]
    done = subprocess.run([*place.command, *words], cwd=place.folder, stdin=subprocess.DEVNULL, capture_output=True, timeout=60)
    told = [place.path(f'{number}.out').read_text().splitlines() for number in range(1, PAIRS + 1)]
    compare('output, standard error and status', (done.stdout, done.stderr, done.returncode), (b'', b'', int('line ' in str(told))))
    try:
        order = order_that_answers(empty(STATIONS), [answered(given, one) for given, one in zip(said, told)])
    except NoOrder as fault:
        raise Differs(f'no order of the commands: {fault}')
    stands_for(place, order.registers[-1])


def main():
    words, count = options(__doc__), Count()
    print(f'seed {words.seed}', flush=True)
    cases = [(longest_pdus, way) for way in WAYS]
    for case, *arguments in (is_made_beside,), *cases, (long_records,), (many_damaged,), (many_pairs, random.Random(words.seed)):
        with place(words.program, MEMORY) as there:
            count.case(case.__name__, case, there, *arguments)
    count.end()


if __name__ == '__main__':
    main()
