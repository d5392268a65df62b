#!/usr/bin/env python3
"""Runs `serve` of the built program on disks: one station on standard input and output; several over named pipes, files and devices.
Each line is answered within a time limit before the next is sent. A pipe whose other end is missing, a reader that stalls or goes away,
a file that can't be opened and a device that fails harm no other station. Of long listings that nobody reads two are kept. Pairs are left out, and only some stations may give orders. The figures of the
service are compared with its calls and its disk. It judges stops by a signal, the processor time of stations that wait, and commands after random pauses. The independent reading
(tests/reading/) judges all answers and disks. Prints the seed, the first cases that fail, and last 'N passed, M failed'.
Usage: tests/run serve PROGRAM [--lines N] [--commands N] [--runs N] [--seed N] (the program itself, not a script that starts it)"""
import collections
import contextlib
import fcntl
import functools
import os
import pathlib
import random
import select
import signal
import subprocess
import time

import preloading
import reading
import refusing
import registers
from base_stations import (STATIONS, Resending, Station, all_names, at_once, ends_by, finish, go_on, judge, make_pipes, names_of, on_streams, reader_of,
                           serving, serving_pipes, status_of, stop, with_default, writer_of)
from disk_files import DISK, HELD, MEMORY, MISSING, file_fault, is_private, place, register_of, text, untouched
from made_disks import CLOSED, OPEN, label
from many_files import LONG, SHORTEST, WHEN_BROKEN, formats, giving_orders
from program import queued, receives, waits, without
from program_disks import peak
from progress import SLOW
from reading_disks import figures
from reading_orders import Answered, NoOrder, number_of
from reading_queries import is_service
from reading_rows import LATEST, SECTOR, rows
from recorded_orders import Written
from recorder import recorder
from running import SECONDS, Differs, compare, ends, gives
from station_faults import when_broken
from station_lines import data_of, lines
from stations import FIRST, held_open, not_served, twice
from testing import Count, options

FIRST_TOLD, AGAIN_TOLD = text(['1 ok 1 -', '2 ok 2 8:56']), text(['1 no old-sequence 2', '2 kept 2 8:56'])
# The processor time that programs may take in two seconds in which nothing is asked of them, in hundredths of a second
MOST_TICKS = 3
# How many commands of a station that is alone are done together at most
AT_HAND = 64
# So many items of 2,047 bits, up to 128 for a radio, are listed in more than 4 MiB. So many stations list them
ITEMS, FOR_ONE, LISTERS = 8192, 128, 12


def some(count=STATIONS):
    return [Station(number) for number in range(1, count + 1)]


def talk(place, program, station, said):
    """A station sends these lines over its pipes, and ends."""
    station.connect_pipes(place, program).ask_all(said).end()


def talk_at_once(place, program, stations, dice, count):
    """All stations, each so many lines."""
    said = [lines(dice, count) for _ in stations]
    at_once([functools.partial(talk, place, program, station, one) for station, one in zip(stations, said)])


def a_command(number):
    return b'%d 0 expire' % number


def commands(first, count):
    """So many commands from this sequence on, which every register accepts."""
    return [a_command(number) for number in range(first, first + count)]


# Standard input and output

def on_standard_streams(place, dice, count):
    """A command is on the disk once it is answered."""
    place.format()
    with serving(place, ['serve', DISK], stdin=subprocess.PIPE) as program:
        station = on_streams(program)
        for line in lines(dice, count):
            number = number_of(station.ask(line))
            compare('the command is on the disk', number is None or register_of(place.image()).count == number, True)
        station.end()
        finish(program, status_of([station]))
    judge(place, [station])


def in_pieces(place):
    """Lines that come in one piece are answered at once, half a line is not, and the last line needs no end."""
    place.format()
    pieces = [(FIRST + b'cou', FIRST_TOLD), (b'nt\nno such\n3 0 exp', b'count 2\nline 4 bad syntax\n'), (b'ire', b'')]
    with serving(place, ['serve', DISK], stdin=subprocess.PIPE) as program:
        for piece, wanted in pieces:
            os.write(program.stdin.fileno(), piece)
            receives(program.stdout, wanted)
            compare('an answer within half a line', select.select([program.stdout], [], [], 0.1)[0], [])
        compare('the answer to the last line', ends(program, 1), b'3 ok 3 -\n')


def as_they_come(place, made):
    """Of a whole file the answers to 64 commands are written by one call, before the next command is. Each is on the disk before."""
    formats(place, STATIONS, LONG)
    place.write('a.txt', data_of(commands(1, 200)))
    written, said = Written(place.image()), 0
    place.gives(['serve', DISK, 'a.txt', 'a.out'], 0, env=made.environment(files=(), answers=['a.out']))
    for done in made.record():
        compare('an answer is written in parts', done.kind == 'o' and not done.bytes.endswith(b'\n'), False)
        said += done.bytes.count(b'\n') if done.kind == 'o' else 0
        written.follow(done)
        compare('answers are written late', said <= len(written.commands) <= said + AT_HAND, True)
    compare('answers and commands', (said, len(written.commands)), (200, 200))


# Named pipes

def over_pipes(place, dice, stations, count):
    formats(place, STATIONS, SHORTEST)
    with serving_pipes(place, len(stations)) as program:
        talk_at_once(place, program, stations, dice, count)
        finish(program, status_of(stations))
    judge(place, stations)


def what_waits_at_each(place):
    """Any station may ask it of each: a radio is at the first, one at the second with a message and a copy, and one is absent. Then the
    first radio moves."""
    formats(place, STATIONS, SHORTEST)
    first, second = some(2)
    own = 'item 8 234-14-2001 m 234-14-2003 7 3720 48:820407014849'
    others = ('item 6 234-14-2002 m 234-14-2001 5 3700 48:820405014849', 'item 9 234-14-2002 m 234-14-2001 8 3730 48:820408014849 234-14-1000')
    said = [(first, b'1 0 ' + RULE), (first, b'2 10 mm 234-14-2001 7 10:260'), (first, b'3 10 mm 234-14-2003 7 10:260'),
            (second, b'1 20 mm 234-14-2002 8 10:260'), (second, b'2 30 mm 234-14-2002 8 60:7380480A00007D0'),
            (first, b'4 100 sds 234-14-2001 234-14-2002 48:820405014849'), (first, b'5 110 sds 234-14-2001 234-14-2003 48:820406014849'),
            (first, b'6 120 sds 234-14-2003 234-14-2001 48:820407014849'), (first, b'7 130 gsds 234-14-2001 234-14-1000 48:820408014849'),
            (first, b'8 140 mm 234-14-2003 7 5:10')]
    asked = (1, [own]), (2, others), (3, []), (0, [])
    moved = (1, []), (2, [others[0], own, others[1]])
    with serving_pipes(place, 2) as program:
        for station in first, second:
            station.connect_pipes(place, program)
        for more, listed in (said, asked), ([(second, b'3 200 mm 234-14-2001 9 10:200')], moved):
            compare('accepted', [station.ask(line)[0].split(' ')[1] for station, line in more], ['ok'] * len(more))
            for station in first, second:
                for number, items in listed:
                    compare(f'what waits at {number}', station.ask(b'waiting %d' % number), [f'waiting {number} {len(items)}', *items])
        for station in first, second:
            station.end()
        finish(program, 0)
    judge(place, [first, second])


def nobody_at_a_pipe(place, dice):
    """The first pair waits for the other end of IN, and then of OUT. The others are served to their ends meanwhile."""
    formats(place, STATIONS, SHORTEST)
    first, second, third = some(3)
    with serving_pipes(place, 3) as program:
        talk(place, program, second, lines(dice, 50))
        to, back = (place.path(name) for name in names_of(1))
        writer = writer_of(to, program)
        talk(place, program, third, lines(dice, 50))
        compare('the program goes on', program.poll(), None)
        first.connect(program, writer, reader_of(back)).ask_all(lines(dice, 50)).end()
        finish(program, status_of([first, second, third]))
    judge(place, [first, second, third])


# Files and devices

def regular_files(place):
    """OUT is appended to, or made for its owner alone where it is missing, also where IN is empty."""
    place.format()
    for name, data in ('a.txt', FIRST), ('a.out', b'as it was\n'), ('b.txt', b''):
        place.write(name, data)
    words, outs = ['serve', DISK, 'a.txt', 'a.out', 'b.txt', 'b.out'], lambda: [place.path(name).read_bytes() for name in ('a.out', 'b.out')]
    place.gives(words, 0)
    compare('OUT of both', outs(), [b'as it was\n' + FIRST_TOLD, b''])
    is_private(place.path('b.out'))
    place.write('b.txt', b'count\nx')
    place.gives(words, 1)
    compare('OUT of both', outs(), [b'as it was\n' + FIRST_TOLD + AGAIN_TOLD, b'count 2\nline 2 bad syntax\n'])


def one_out_for_two(place):
    """One file may be the OUT of two stations."""
    place.format()
    for name in 'a.txt', 'b.txt':
        place.write(name, data_of(commands(1, 50)))
    place.gives(['serve', DISK, 'a.txt', 'all.out', 'b.txt', 'all.out'], 0)
    said = place.path('all.out').read_text().splitlines()
    compare('the numbers', sorted(number_of([line]) or 0 for line in said), list(range(1, 101)))


def devices(place):
    place.format()
    place.gives(['serve', DISK, '/dev/stdin', '/dev/stdout'], 0, FIRST_TOLD, data=FIRST, stdin=subprocess.PIPE)
    place.write('a.txt', FIRST)
    place.gives(['serve', DISK, '/dev/null', '/dev/null', 'a.txt', '/dev/stdout'], 0, text(['1 ok 3 -', '2 ok 4 8:56']))
    place.gives(['serve', DISK, 'a.txt', '/dev/null'], 0)
    place.gives(['serve', DISK, 'a.txt', '/dev/full'], 4, err=file_fault('/dev/full'))
    place.gives(['serve', DISK, '.', 'b.out'], 4, err=file_fault('.'))
    place.gives(['show', DISK, 'count'], 0, b'count 4\n')


# Pairs that are left out

def left_out(place, dice, count, left):
    """The numbers of these stations stay free. The others are served by their own."""
    formats(place, STATIONS, SHORTEST)
    make_pipes(place, STATIONS)
    stations = some()
    served = [station for station in stations if station.number not in left]
    names = [name for station in stations for name in (('-', '-') if station.number in left else names_of(station.number))]
    with serving(place, ['serve', DISK, *names]) as program:
        said = [[b'station', *lines(dice, count)] for _ in served]
        at_once([functools.partial(talk, place, program, station, one) for station, one in zip(served, said)])
        finish(program, status_of(served))
    compare('numbers', [station.pairs[0].told for station in served], [[f'station {station.number}'] for station in served])
    judge(place, stations)
    compare('a file of that name', place.path('-').exists(), False)


def half_left_out(place):
    """That is found before the disk is opened. A file can have this name."""
    place.format()
    place.write('a.txt', FIRST)
    place.write('-', FIRST)
    fault = b'fault: only one of IN and OUT is -\n'
    for words in ['-', 'a.out'], ['a.txt', '-'], ['-', '-', '-', 'a.out'], ['a.txt', 'a.out', 'a.txt', '-', '-', '-']:
        refuses(place, [DISK, *words], 2, fault)
    refuses(place, ['no.img', '--orders', '9', 'a.txt', '-'], 2, fault)
    place.gives(['serve', DISK, './-', 'a.out'], 0)
    compare('answers', place.path('a.out').read_bytes(), FIRST_TOLD)


def all_left_out(place):
    """So the disk is opened, and that is all. Each pair counts as a station."""
    formats(place, STATIONS, SHORTEST)
    for count in 1, 2, STATIONS:
        with untouched(place.path()):
            place.gives(['serve', DISK, *['-'] * 2 * count], 0)
    refuses(place, [DISK, *['-'] * 2 * (STATIONS + 1)], 2, b'fault: more files than stations\n')
    refuses(place, ['no.img', '-', '-'], 4, file_fault('no.img', MISSING))


def served_then_left_out(place):
    """What a station had is there when it is served again."""
    formats(place, STATIONS, SHORTEST)
    for words, told in ((['-', '-', 'a.txt', 'a.out'], ['station 2', '1 ok 1 -', 'last 2 1 1 -']), (['a.txt', 'a.out', '-', '-'], ['station 1', '1 ok 2 -', 'last 2 1 1 -']),
                        (['-', '-', 'a.txt', 'a.out', '-', '-'], ['station 2', '1 kept 1 -', 'last 2 1 1 -'])):
        place.write('a.txt', data_of([b'station', b'1 0 expire', b'last 2']))
        place.path('a.out').unlink(missing_ok=True)
        place.gives(['serve', DISK, *words], 0)
        compare(f'answers of {words}', place.path('a.out').read_bytes(), text(told))


# Orders

RULE = b'rule 234-14-0/24 1 99 1 3600'
ATTACH = b'mm 234-14-2001 7 10:260'
NOT_FORBIDDEN = [ATTACH, b'sds 234-14-2001 234-14-2001 48:820405014849', b'gsds 234-14-2001 234-14-1000 48:820405014849',
                 b'sent 234-14-2001 234-14-2001 5 m']
FORBIDDEN = [RULE, b'unrule 234-14-0/24', b'delete 234-14-2001 234-14-2001 5 m', b'expire']


# Station 1 over standard input and output, and two stations that are left out
PAIRS = ['/dev/stdin', '/dev/stdout', '-', '-', '-', '-']


def serves(place, words, said, told, status=0):
    place.gives(['serve', *words], status, text(told), data=data_of(said), stdin=subprocess.PIPE)


def orders_forbidden(place):
    """They are refused before all else that a register refuses, as one that comes again, and use no number up. That is no trouble. A
    bad line stays bad."""
    formats(place, STATIONS, SHORTEST)
    first = [b'1 0 ' + RULE, b'2 0 expire']
    serves(place, ['--orders', '1', DISK], first, ['1 ok 1 -', '2 ok 2 -'])
    for words in (['--orders', '2', DISK, *PAIRS], [DISK, '--orders', '2', *PAIRS], [DISK, *PAIRS, '--orders', '2'], ['--orders=2', DISK, *PAIRS],
                  ['--orders', '2', '--orders', '3', DISK, *PAIRS], ['--orders', '3', '--orders', '2', '--orders', '3', '--', DISK, *PAIRS]):
        with untouched(place.path()):
            serves(place, words, [*first, *(b'%d 5 %s' % (number, body) for number in (1, 2, 3, 2 ** 32 - 1) for body in FORBIDDEN)],
                   ['1 no forbidden', '2 no forbidden', *(f'{number} no forbidden' for number in (1, 2, 3, 2 ** 32 - 1) for _ in FORBIDDEN)])
    bad = [b'0 0 expire', b'3 x expire', b'3 0 expire x', b'3 0 rule 234-14-0/24 9 1 1 3600', b'3 0 unrule x', b'3 0 delete 1-1-1 1-1-1 256 m']
    words = ['value', 'value', 'syntax', 'value', 'value', 'value']
    serves(place, ['--orders', '2', DISK, *PAIRS], bad, [f'line {number} bad {word}' for number, word in enumerate(words, 1)], 1)
    serves(place, ['--orders', '2', DISK, *PAIRS], [b'last 1', b'2 0 ' + ATTACH, b'3 0 ' + ATTACH, *(b'%d 0 %s' % pair for pair in enumerate(NOT_FORBIDDEN[1:], 4))],
           ['last 1 2 2 -', '2 kept 2 -', '3 ok 3 8:56', '4 ok 4 -', '5 no no-members', '6 ok 5 -'])
    serves(place, ['--orders', '2', DISK, *PAIRS, '--orders', '1'], [b'7 0 expire', b'rules'], ['7 ok 6 -', 'rules 1', 'rule 234-14-0/24 1 99 1 3600'])


def orders_of_nobody(place):
    """A station of `--orders` has no pair. That is found before a name twice, and before the disk is opened."""
    place.format()
    for station, words in ((2, [DISK]), (65535, [DISK]), (2, ['no.img']), (3, [DISK, 'a.txt', 'a.out', '-', '-']), (2, [DISK, 'a.txt', 'a.out']),
                           (3, [DISK, 'a.txt', 'a.out', 'a.txt', 'b.out'])):
        refuses(place, ['--orders', str(station), *words], 2, not_served(station))
    refuses(place, ['--orders', '1', '--orders', '4', DISK, '--orders', '3', 'a.txt', 'a.out'], 2, not_served(4))


def orders_of_some(place, dice, count, orders):
    """Of several stations these alone may give orders."""
    formats(place, STATIONS, SHORTEST)
    stations = some()
    with serving_pipes(place, STATIONS, orders) as program:
        talk_at_once(place, program, stations, dice, count)
        finish(program, status_of(stations))
    judge(place, stations, set(orders))
    refused = [station.number for station in stations if any(told[0].endswith(' no forbidden') for _, told in station.pairs if told)]
    compare('stations of which an order was forbidden', refused, [station.number for station in stations if station.number not in orders])


def orders_on_a_failed_disk(place):
    """They are forbidden as before."""
    formats(place, STATIONS, SHORTEST)
    first, second = some(2)
    with recorder(place) as made:
        opening = made.does(['show', DISK, 'count'], 0, b'count 0\n')
        with serving_pipes(place, 2, orders=(2,), env=made.environment(fails=len(opening) + 1, files=[], ALWAYS=1)) as program:
            for station in first, second:
                station.connect_pipes(place, program)
            for station, wanted in (first, '1 no forbidden'), (second, '1 no device'), (first, '1 no forbidden'), (second, '1 no broken'):
                compare('the answer', station.ask(b'1 0 expire'), [wanted])
            compare('the answer', first.ask(b'1 0 ' + ATTACH), ['1 no broken'])
            for station in first, second:
                station.end()
            finish(program, *WHEN_BROKEN)


# The figures of the service

Figures = collections.namedtuple('Figures', 'service stations')


def figures_told(station):
    """The figures, as this station is answered them once the flusher has nothing to do, in their form."""
    time.sleep(0.1)
    told = station.ask(b'service')
    compare('the form', is_service(told), True)
    words = [line.split(' ') for line in told[1:]]
    service = {name: int(number) for name, number in words[:6]}
    return Figures(service, [dict(zip(line[2::2], [*map(int, line[3:-1:2]), line[-1]])) for line in words[6:]])


def on_the_disk(place):
    """Epoch and free sectors, as the independent reading has them."""
    words = figures(place.image()).split(' ')
    return {name: int(words[words.index(name) + 1]) for name in ('epoch', 'free')}


def syncs_in(made):
    return sum(done.kind in 'sa' for done in made.record())


def figures_of_two(place):
    """Each station's are its own: a silent line and a bad one count as lines, an order that is forbidden is refused. Those of the service
    are as the record of the calls and the disk have them, before and after checkpoints."""
    formats(place, STATIONS, SHORTEST)
    first, second = some(2)
    with recorder(place) as made, serving_pipes(place, 2, orders=(1,), env=made.environment(files=())) as program:
        for station in first, second:
            station.connect_pipes(place, program)
        for station, said in ((first, [b'1 0 ' + RULE, b'2 10 ' + ATTACH, b'2 10 ' + ATTACH, b'1 0 expire', b'# a remark', b'', b'x', b'count']),
                              (second, [b'1 0 expire', b'1 0 sds 234-14-9 234-14-2001 48:820405014849', b'1 10 ' + ATTACH, b'station', b'1 0 mark'])):
            station.ask_all(said)
        told = figures_told(second)
        of_first = {'lines': 8, 'accepted': 2, 'refused': 1, 'kept': 1, 'waits': 'no'}
        compare('the stations', told.stations, [of_first, {'lines': 6, 'accepted': 1, 'refused': 2, 'kept': 0, 'waits': 'no'}])
        wanted = {'commands': 3, 'syncs': syncs_in(made), 'checkpoints': 0, **on_the_disk(place)}
        compare('the service', {**told.service, **wanted}, told.service)
        compare(f'{told.service["rounds"]} rounds', told.service['rounds'] >= 5, True)
        first.ask_all(commands(3, 100))
        again = figures_told(first)
        compare('the stations', again.stations, [{**of_first, 'lines': 109, 'accepted': 102}, told.stations[1]])
        now = on_the_disk(place)
        compare(f'epoch {now["epoch"]}', now['epoch'] > 2, True)
        wanted = {'commands': 103, 'syncs': syncs_in(made), 'checkpoints': now['epoch'] - 1, **now}
        compare('the service', {**again.service, **wanted}, again.service)
        compare('rounds', again.service['rounds'] >= told.service['rounds'] + 100, True)
        for station in first, second:
            station.end()
        finish(program, 1)
    judge(place, [first, second], {1})


def figures_after_a_start(place):
    """They begin anew with the service, the epoch goes on."""
    formats(place, STATIONS, SHORTEST)
    place.write('a.txt', data_of(commands(1, 100)))
    place.gives(['serve', DISK, 'a.txt', '/dev/null'], 0)
    there = on_the_disk(place)
    station = Station(1)
    with serving_pipes(place, 1) as program:
        station.connect_pipes(place, program)
        told = figures_told(station)
        compare('the service', {**told.service, 'commands': 0, 'checkpoints': 0, **there}, told.service)
        compare('the station', told.stations, [{'lines': 1, 'accepted': 0, 'refused': 0, 'kept': 0, 'waits': 'no'}])
        station.end()
        finish(program, 0)


def figures_while_a_sync_hangs(place):
    """A station whose command is not on the disk yet waits; another one is told so."""
    formats(place, STATIONS, SHORTEST)
    first, second = some(2)
    hangs = place.path('hangs')
    with preloading.library(SLOW) as made, serving_pipes(place, 2, env=preloading.environment(made, HANGS=hangs)) as program:
        for station in first, second:
            station.connect_pipes(place, program)
        compare('the answer', first.ask(b'1 0 expire'), ['1 ok 1 -'])
        hangs.touch()
        first.send(b'2 0 expire')
        told = figures_told(second)
        compare('who waits', [(one['waits'], one['accepted']) for one in told.stations], [('yes', 1), ('no', 0)])
        compare('commands', told.service['commands'], 1)
        hangs.unlink()
        compare('the answer', first.answer(b'2 0 expire'), ['2 ok 2 -'])
        told = figures_told(second)
        compare('who waits', [(one['waits'], one['accepted']) for one in told.stations], [('no', 2), ('no', 0)])
        compare('commands', told.service['commands'], 2)
        for station in first, second:
            station.end()
        finish(program, 0)


# Refused before a line is served

def refuses(place, words, status, fault):
    """No file is made, and none is changed."""
    before = sorted(os.listdir(place.folder))
    with untouched(place.path()):
        place.gives(['serve', *words], status, err=fault)
    compare('files', sorted(os.listdir(place.folder)), before)


def odd_words(place):
    place.format()
    for words in [], [DISK, 'a.txt'], [DISK, 'a.txt', 'a.out', 'b.txt']:
        done = subprocess.run([*place.command, 'serve', *words], stdin=subprocess.DEVNULL, capture_output=True, cwd=place.folder, timeout=SECONDS)
        compare(f'status and output of {words}', (done.returncode, done.stdout), (2, b''))
        first = done.stderr.split(b'\n')[0]
        compare(f'{first!r} says what is wrong', first.startswith(b'error: ') and (not words or b'OUT' in first), True)
    compare('files', sorted(os.listdir(place.folder)), [DISK, 's.toml'])


def refused(place):
    place.format()
    place.write('a.txt', FIRST)
    most = [name for number in range(STATIONS) for name in (f'{number}.txt', 'all.out')]
    refuses(place, [DISK, *most, 'a.txt', 'a.out'], 2, b'fault: more files than stations\n')
    refuses(place, [DISK, 'a.txt', 'a.out', 'b.txt', 'b.out', 'a.txt', 'c.out'], 2, twice('a.txt'))
    refuses(place, ['no.img', 'a.txt', 'a.out', 'a.txt', 'b.out'], 2, twice('a.txt'))
    refuses(place, ['no.img', 'a.txt', 'a.out'], 4, file_fault('no.img', MISSING))
    refuses(place, ['a.txt', 'a.txt', 'a.out'], 5, b'fault: unformatted\n')


def a_disk_that_is_served(place):
    place.format()
    with serving(place, ['serve', DISK], stdin=subprocess.PIPE) as program:
        station = on_streams(program)
        station.ask(b'count')
        for words in ['serve', DISK], ['serve', DISK, 'a.txt', 'a.out'], ['run', DISK, 'a.txt'], ['show', DISK, 'count']:
            place.gives(words, 4, err=file_fault(DISK, HELD))
        station.end()
        finish(program, 0)


def no_memory(place):
    place.format()
    with refusing.library() as made:
        for words in ['serve', DISK], ['serve', DISK, 'a.txt', 'a.out'], ['serve', '--stop-at-fault', DISK]:
            place.gives(words, 5, err=b'fault: memory\n', env=refusing.environment(made, 1))
        place.gives(['serve', '--stop-at-fault', DISK], 5, err=b'fault: memory\n', env=refusing.environment(made, 0, thread=1))


# A station's fault

def receive_all(stream, count):
    """So many bytes, as they come."""
    got = b''
    while len(got) < count and select.select([stream], [], [], SECONDS)[0]:
        piece = os.read(stream.fileno(), count - len(got))
        if not piece:
            break
        got += piece
    return got


def files_that_can_not_be_opened(place, dice):
    """Their stations end alone, each with its fault as it happens, in one line. Status 4 comes before 1."""
    formats(place, STATIONS, SHORTEST)
    make_pipes(place, STATIONS)
    for name in 'a.txt', 'b.txt':
        place.write(name, FIRST)
    last, faults = Station(4), [file_fault(name) for name in ('.', 'no.in', 'no/a.out')]
    with serving(place, ['serve', DISK, 'no.in', 'no.out', 'a.txt', 'no/a.out', 'b.txt', '.', *names_of(4)]) as program:
        said = receive_all(program.stderr, len(b''.join(faults)))
        compare('faults', sorted(said.splitlines(True)), faults)
        talk(place, program, last, [b'no such', *lines(dice, 50)])
        finish(program, 4)
    judge(place, [*some(3), last])


def by_one_write(place):
    """A station's fault, so that those of two stations do not mix: a read of such a pipe gets what one write wrote."""
    place.format()
    read, write = os.pipe2(os.O_DIRECT)
    words, streams = ['serve', DISK, 'no.in', 'no.out'], {'stdin': subprocess.DEVNULL, 'stdout': subprocess.DEVNULL, 'stderr': write}
    with subprocess.Popen([*place.command, *words], cwd=place.folder, **streams) as program, open(read, 'rb', buffering=0) as said:
        os.close(write)
        compare('what one write wrote', said.read(4096), file_fault('no.in'))
        compare('status', program.wait(SECONDS), 4)


def is_refused(station):
    """Whether nobody reads its lines any more."""
    try:
        return os.write(station.to, b'count\n') < 0
    except BrokenPipeError:
        return True


def a_reader_goes(place, dice, restore):
    """Its station ends alone with its fault, at once, and its IN is closed. The program starts with SIGPIPE at its default, or ignored."""
    formats(place, STATIONS, SHORTEST)
    first, second = some(2)
    with serving_pipes(place, 2, restore_signals=restore) as program:
        for station in first, second:
            station.connect_pipes(place, program).ask_all(lines(dice, 20))
        os.close(first.back)
        first.back = None
        first.send(b'count')
        receives(program.stderr, file_fault('1.out'))
        waits(lambda: is_refused(first))
        second.ask_all([b'no such', *commands(1000, 20)]).end()
        first.leave()
        finish(program, 4)
    judge(place, [first, second])


def standard_streams_that_fail(place):
    place.format()
    fault = file_fault('-')
    with open('/dev/full', 'wb') as full:
        place.gives(['serve', DISK], 4, err=fault, data=b'count\n', stdin=subprocess.PIPE, stdout=full)
    place.gives(['serve', DISK], 4, err=fault, stdin=None, **without(0))
    with serving(place, ['serve', DISK], stdin=subprocess.PIPE) as program:
        station = on_streams(program)
        station.ask(b'1 0 expire')
        os.close(station.back)
        station.back = None
        station.send(b'2 0 expire')
        finish(program, 4, fault)
        station.leave()
    place.gives(['show', DISK, 'count'], 0, b'count 2\n')


# The device fails

def while_failing(place, made, dice, number, **fails):
    """Serves all stations while the call of that number fails; the record, and the stations."""
    formats(place, STATIONS, SHORTEST)
    stations, files = some(), [names_of(number)[0] for number in range(1, STATIONS + 1)]
    with serving_pipes(place, STATIONS, env=made.environment(fails=number, files=files, **fails)) as program:
        talk_at_once(place, program, stations, dice, 40)
        finish(program, *(WHEN_BROKEN if number else (status_of(stations), b'')))
    return made.record(), stations


def the_device_fails(place, made, dice, number, **fails):
    record, stations = while_failing(place, made, dice, number, **fails)
    try:
        when_broken([station.pairs for station in stations], record, place.image())
    except NoOrder as fault:
        raise Differs(f'no order of the commands: {fault}')


def is_told_at_once(place):
    """The fault is reported once, before the command that met it is answered, while all stations live on."""
    formats(place, STATIONS, SHORTEST)
    first, second = some(2)
    with recorder(place) as made:
        opening = made.does(['show', DISK, 'count'], 0, b'count 0\n')
        with serving_pipes(place, 2, env=made.environment(fails=len(opening) + 1, files=[], ALWAYS=1)) as program:
            for station in first, second:
                station.connect_pipes(place, program)
            compare('the answer', first.ask(b'1 0 expire'), ['1 no device'])
            receives(program.stderr, WHEN_BROKEN[1])
            compare('the answer', second.ask(b'1 0 expire'), ['1 no broken'])
            for station in first, second:
                station.end()
            finish(program, WHEN_BROKEN[0])


def faults_of_the_device(place, made, dice, count):
    """Some calls after those that open the disk."""
    record, _ = count.case('a run without a fault', while_failing, place, made, dice, 0) or ([], [])
    kinds = [done.kind for done in record]
    opening, every = kinds.index('r') if record else 0, len(kinds) - kinds.count('r')
    for number in [opening + 1, opening + 3, *dice.sample(range(opening + 4, every // 2), 2)] if record else ():
        count.case(f'call {number} fails', the_device_fails, place, made, dice, number)
        count.case(f'calls from {number} on fail', functools.partial(the_device_fails, ALWAYS=1), place, made, dice, number)


def ends_at_once(place):
    """With --stop-at-fault the program ends then, though all stations wait in the middle of a line or a pipe."""
    formats(place, STATIONS, SHORTEST)
    first, second = some(2)
    make_pipes(place, 3)
    with recorder(place) as made:
        opening = made.does(['show', DISK, 'count'], 0, b'count 0\n')
        env = made.environment(fails=len(opening) + 1, files=[], ALWAYS=1)
        with serving(place, ['serve', '--stop-at-fault', DISK, *all_names(3)], env=env) as program:
            for station in first, second:
                station.connect_pipes(place, program)
            compare('the answer', second.ask(b'count'), ['count 0'])
            second.send(b'cou')
            first.send(b'1 0 expire')
            finish(program, *WHEN_BROKEN)
            for station in first, second:
                station.leave()


def ends_as_without(place):
    """Where the device does not fail, --stop-at-fault changes nothing."""
    place.format()
    place.write('a.txt', FIRST)
    place.gives(['serve', '--stop-at-fault', DISK], 0, FIRST_TOLD, data=FIRST, stdin=subprocess.PIPE)
    place.gives(['serve', '--stop-at-fault', DISK, '-', '-', 'a.txt', '/dev/stdout'], 0, text(['1 ok 3 -', '2 ok 4 8:56']))
    place.gives(['serve', DISK, '--stop-at-fault'], 1, text(['line 1 bad syntax']), data=b'x\n', stdin=subprocess.PIPE)
    place.gives(['serve', '--stop-at-fault', DISK, 'no.txt', 'a.out'], 4, err=file_fault('no.txt'))
    refuses(place, ['--stop-at-fault', DISK, 'a.txt', '-'], 2, b'fault: only one of IN and OUT is -\n')
    refuses(place, ['--stop-at-fault', 'a.txt', 'a.txt', 'a.out'], 5, b'fault: unformatted\n')


# The log

def logs(place, words, status, lines, **how):
    """Serves with --log: the first line on standard error, and then in their order those of each station, and the other ones."""
    first, *of_stations = lines
    with serving(place, ['serve', '--log', DISK, *words], **how) as program:
        said = ends_with(program, status)
    compare('the first line', said[0], first)
    for start in {line.split(' ')[1] for line in of_stations}:
        compare(f'lines of {start}', [line for line in said[1:] if line.split(' ')[1] == start], [line for line in of_stations if line.split(' ')[1] == start])
    compare('how many', len(said), len(lines))


def ends_with(program, status):
    """The lines on standard error of the program, which ends so."""
    said = program.communicate(timeout=SECONDS)[1].decode()
    compare('status', program.returncode, status)
    compare('the end of the last line', said[-1:], '\n')
    return said.splitlines()


def logged(place):
    """Starts and ends of stations are lines on standard error, and a fault comes before the end. Who is left out has none."""
    place.format()
    for name, data in ('a.txt', FIRST), ('b.txt', b''):
        place.write(name, data)
    place.gives(['serve', '--log', DISK], 0, FIRST_TOLD, data=FIRST, stdin=subprocess.PIPE,
                err=b'serving 1 station, count 0\nstation 1 serves - -\nstation 1 ended\n')
    logs(place, ['a.txt', 'a.out', '-', '-', 'b.txt', 'b.out'], 0, [
        'serving 2 stations, count 2', 'station 1 serves a.txt a.out', 'station 1 ended', 'station 3 serves b.txt b.out', 'station 3 ended'])
    place.gives(['serve', '--log', DISK, 'no.txt', 'a.out'], 4, err=b'serving 1 station, count 2\nfault: file no.txt\nstation 1 ended\n')
    place.gives(['serve', '--log', DISK, 'a.txt', '/dev/full'], 4,
                err=b'serving 1 station, count 2\nstation 1 serves a.txt /dev/full\nfault: file /dev/full\nstation 1 ended\n')
    place.gives(['serve', '--log', DISK, '-', '-'], 0, err=b'serving 0 stations, count 2\n')
    refuses(place, ['--log', 'a.txt', 'a.txt', 'a.out'], 5, b'fault: unformatted\n')


def logged_as_it_happens(place):
    """A station that still waits for the other end of its pipe is not served yet; one whose line ended has ended, while others go on."""
    formats(place, STATIONS, SHORTEST)
    make_pipes(place, 2)
    first, second = some(2)
    with serving(place, ['serve', '--log', DISK, *all_names(2)]) as program:
        receives(program.stderr, b'serving 2 stations, count 0\n')
        first.connect_pipes(place, program)
        receives(program.stderr, b'station 1 serves %s %s\n' % tuple(name.encode() for name in names_of(1)))
        second.connect_pipes(place, program)
        receives(program.stderr, b'station 2 serves %s %s\n' % tuple(name.encode() for name in names_of(2)))
        first.end()
        receives(program.stderr, b'station 1 ended\n')
        compare('the answer', second.ask(b'1 0 expire'), ['1 ok 1 -'])
        second.end()
        finish(program, 0, b'station 2 ended\n')


def a_log_that_fails(place):
    """It changes nothing else."""
    place.format()
    shell = ['bash', '-c', 'exec "$@" 2>/dev/full', '-', *place.command, 'serve', '--log', DISK]
    gives(shell, 0, FIRST_TOLD, data=FIRST, cwd=place.folder)


# A stalled reader

def queries_mostly(number):
    """Of 250 lines one is a command."""
    return b'count' if number % 250 else a_command(number)


def send_until_full(station, line, most=100_000):
    """Sends lines, of which each is that of its number, until the pipe of the answers has no room for more of them together, and the
    program takes no line for half a second; all that were sent."""
    sent, until = [], time.monotonic() + SECONDS
    for pipe in station.to, station.back:
        size = fcntl.fcntl(pipe, fcntl.F_SETPIPE_SZ, 4096)
    while True:
        if select.select([], [station.to], [], 0.5)[1]:
            piece = [line(len(station.pairs) + len(sent) + place) for place in range(1, 201)]
            with contextlib.suppress(BlockingIOError):
                os.write(station.to, data_of(piece))
                sent += piece
        elif queued(station.back) > size // 2:
            return sent
        compare(f'the program reads {len(sent)} lines whose answers nobody reads', len(sent) < most and time.monotonic() < until, True)


def a_stalled_reader(place, line):
    """Nobody reads the first station's answers: once its OUT is full it is read no more, and takes no memory. The second one is
    served meanwhile. Then the first one gets all its answers."""
    formats(place, STATIONS, LONG)
    first, second = some(2)
    with serving_pipes(place, 2) as program:
        for station in first, second:
            station.connect_pipes(place, program).ask_all([line(number) for number in range(1, 201)])
        before = peak(program)
        sent = send_until_full(first, line)
        second.ask_all(commands(201, 300))
        compare(f'{peak(program) - before} KiB more of memory', peak(program) <= before + 512, True)
        compare(f'{second.slowest:.3f} seconds for an answer', second.slowest < 1, True)
        first.pairs += [Answered(line, first.answer(line)) for line in sent]
        for station in first, second:
            station.end()
        finish(program, 0)
    judge(place, [first, second])


# Listings that nobody reads

def with_many_items(place):
    """A disk with a register whose items are a long listing; what answers `items`."""
    register = reading.Register({'rules': 1, 'radios': 1, 'mail': ITEMS, 'stations': LISTERS})
    register.count = ITEMS
    for k in range(ITEMS):
        key = registers.identity(k // FOR_ONE), registers.identity(ITEMS), k % FOR_ONE, b'm'
        register.mail[key] = reading.Item(k + 1, LATEST, registers.message(k % FOR_ONE, '01' * 1011 + '1'), None)
    image = [label(**register.limits), OPEN, CLOSED, *rows(1, register)]
    size = 3 + 2 * (1 + sum(register.limits.values())) + 2 * 39
    place.put(image + [bytes(SECTOR)] * (size - len(image)))
    return reading.answer(register, 1, b'items')


def unread_listings(place):
    """One listing that nobody reads keeps no other station from its own. Of many, two are kept: the others are out of memory, until these
    are read. What is kept is whole; one line is answered all the while."""
    listing = with_many_items(place)
    stations, size = some(LISTERS), len(text(listing)) // 1024
    with serving_pipes(place, LISTERS) as program:
        for station in stations:
            station.connect_pipes(place, program)
        before = peak(program)
        stations[0].send(b'items')
        compare('the first line', stations[0].receive(), listing[0])
        compare('the listing beside an unread one', stations[1].ask(b'items') == listing, True)
        compare('a line after a listing', stations[1].ask(b'count'), [f'count {ITEMS}'])
        for station in stations[1:]:
            station.send(b'items')
        told = [station.receive() for station in stations[1:]]
        kept = [station for station, line in zip(stations[1:], told) if line == listing[0]]
        full = [station for station in stations[1:] if station not in kept]
        compare('how many are kept beside the first', (len(kept), len(full)), (1, LISTERS - 2))
        compare('what others are told', {line.split(' ', 2)[2] for line in told if line != listing[0]}, {'no memory'})
        compare(f'{peak(program) - before} KiB more of memory', peak(program) <= before + 4 * size, True)
        for station in full:
            compare('a line of a station without its listing', station.ask(b'count'), [f'count {ITEMS}'])
        for station in [stations[0], *kept]:
            compare('an unread listing', [station.receive() for _ in listing[1:]] == listing[1:], True)
        for station in full:
            compare('a listing once others are read', station.ask(b'items') == listing, True)
        compare(f'{peak(program) - before} KiB more of memory in the end', peak(program) <= before + 4 * size, True)
        for station in stations:
            station.end()
        finish(program, 1)


def first_line_of(station, listing):
    """For how many seconds the station waits for the first line of a listing."""
    start = time.monotonic()
    station.send(b'items')
    compare('the first line', station.receive(), listing[0])
    return time.monotonic() - start


def rest_of(station, listing):
    compare('the rest of a listing', [station.receive() for _ in listing[1:]] == listing[1:], True)


def rests_after_a_listing(place):
    """A station alone never waits to list. Beside others it waits after another's long listing for several times as long as that took."""
    listing, alone, (first, second) = with_many_items(place), [], some(2)
    with serving_pipes(place, 1) as program:
        one = Station(1).connect_pipes(place, program)
        for _ in range(5):
            alone.append(first_line_of(one, listing))
            rest_of(one, listing)
        one.end()
        finish(program, 0)
    compare(f'{max(alone):.3f} and {min(alone):.3f} seconds alone', max(alone) < 4 * min(alone) + 0.5, True)
    with serving_pipes(place, 2) as program:
        for station in first, second:
            station.connect_pipes(place, program)
        first_line_of(first, listing)
        waited = first_line_of(second, listing)
        compare(f'{waited:.3f} seconds after another, {min(alone):.3f} alone', waited > min(4 * min(alone), 0.5), True)
        for station in first, second:
            rest_of(station, listing)
            station.end()
        finish(program, 0)


# Signals

def ended_by(place, dice, number):
    """The signal ends it at once, while stations talk. What they were answered is on the disk, and they go on."""
    formats(place, STATIONS, SHORTEST)
    stations = [Resending(station, lines(dice, 1000)) for station in range(1, STATIONS + 1)]
    for _ in range(3):
        stop(place, stations, number, dice.uniform(0.05, 0.15))
    go_on(place, stations)
    judge(place, stations)


def ended_while_it_waits(place, number):
    """For the other ends of a pair, and for a station's next line."""
    formats(place, STATIONS, SHORTEST)
    second = Station(2)
    with serving_pipes(place, 2, **with_default(number)) as program:
        second.connect_pipes(place, program).ask_all(commands(1, 5))
        time.sleep(0.1)
        ends_by(program, number)
        second.leave()
    judge(place, [Station(1), second])


# Stations that wait

def ticks(program):
    """The processor time that it has taken, in hundredths of a second."""
    words = pathlib.Path(f'/proc/{program.pid}/stat').read_text().rpartition(') ')[2].split(' ')
    return int(words[11]) + int(words[12])


def answered_at_once(stations, first):
    for station in stations:
        for line in b'count', *commands(first, 1):
            station.ask(line, 1)


@contextlib.contextmanager
def nobody_is_there(place):
    station = Station(1)
    with serving_pipes(place, 2) as program:
        yield program
        answered_at_once([station.connect_pipes(place, program)], 1)
        station.leave()


@contextlib.contextmanager
def all_wait(place, **how):
    stations = some()
    with serving_pipes(place, STATIONS, **how) as program:
        for station in stations:
            station.connect_pipes(place, program).ask_all(commands(1, 20))
        yield program
        answered_at_once(stations, 21)
        for station in stations:
            station.leave()


@contextlib.contextmanager
def one_has_ended(place):
    first, second = some(2)
    with serving_pipes(place, 2) as program:
        second.connect_pipes(place, program).ask_all(commands(1, 20))
        talk(place, program, first, commands(1, 20))
        yield program
        answered_at_once([second], 21)
        second.leave()


@contextlib.contextmanager
def one_is_stalled(place):
    first, second = some(2)
    with serving_pipes(place, 2) as program:
        for station in first, second:
            station.connect_pipes(place, program).ask_all(commands(1, 10))
        send_until_full(first, queries_mostly)
        yield program
        answered_at_once([second], 11)
        for station in first, second:
            station.leave()


@contextlib.contextmanager
def the_disk_has_failed(place):
    with recorder(place) as made, all_wait(place, env=made.environment(fails=40, files=())) as program:
        yield program


@contextlib.contextmanager
def a_run_waits(place):
    """`run`, for the second file."""
    place.write('a.txt', FIRST)
    with held_open(place.path('b.txt')), serving(place, ['run', DISK, 'a.txt', 'b.txt']) as program:
        waits(lambda: register_of(place.image()).count == 2)
        yield program


WAITING = [nobody_is_there, all_wait, one_has_ended, one_is_stalled, the_disk_has_failed, a_run_waits]


def no_processor_time(command):
    """Of programs that wait, over two seconds; then stations are answered at once."""
    with contextlib.ExitStack() as stack:
        programs = {}
        for state in WAITING:
            folder = stack.enter_context(place(command, MEMORY))
            formats(folder, STATIONS, LONG)
            programs[state.__name__] = stack.enter_context(state(folder))
        time.sleep(0.3)
        before = {name: ticks(program) for name, program in programs.items()}
        time.sleep(2)
        taken = {name: ticks(program) - before[name] for name, program in programs.items()}
        compare('processor time taken', {name: count for name, count in taken.items() if count > MOST_TICKS}, {})


def talk_with_pauses(place, program, station, seed, count):
    """So many commands with pauses of 0 to 3 milliseconds, each answered within a second."""
    dice = random.Random(seed)
    station.connect_pipes(place, program)
    for line in commands(1, count):
        time.sleep(dice.uniform(0, 0.003))
        station.ask(line, 1)
    time.sleep(dice.uniform(0, 0.003))
    station.end()


def after_pauses(place, dice, stations, count):
    """No pause is such that a command waits for another one."""
    formats(place, STATIONS, LONG)
    with serving_pipes(place, len(stations)) as program:
        at_once([functools.partial(talk_with_pauses, place, program, station, dice.random(), count) for station in stations])
        finish(program, 0)
    judge(place, stations)


def short_runs(place, dice, count):
    """The end of a session comes after a pause, too."""
    formats(place, STATIONS, LONG)
    for number in range(1, count + 1):
        station = Station(1)
        with serving_pipes(place, 1) as program:
            station.connect_pipes(place, program).ask_all(commands(number, 1))
            time.sleep(dice.uniform(0, 0.003))
            station.end()
            finish(program, 0)


# The whole

def in_a_place(count, words, name, call, *arguments, folder=MEMORY):
    with place(words.program, folder) as there:
        return count.case(name, call, there, *arguments)


def answered(count, words, dice):
    in_a_place(count, words, 'on_standard_streams', on_standard_streams, dice, words.lines)
    for number in 1, 2, 4:
        in_a_place(count, words, f'{number} stations over pipes', over_pipes, dice, some(number), words.lines)
    in_a_place(count, words, '4 stations on a device', over_pipes, dice, some(), words.lines, folder=None)
    in_a_place(count, words, 'what_waits_at_each', what_waits_at_each)
    in_a_place(count, words, 'nobody_at_a_pipe', nobody_at_a_pipe, dice)


def chosen(count, words, dice):
    for left in {1}, {2}, {STATIONS}, {1, 2}, {2, 3}, {1, 3}, {1, 2, 3}, {2, 3, 4}:
        in_a_place(count, words, f'{left} left out', left_out, dice, words.lines // 4, left)
    for case in half_left_out, all_left_out, served_then_left_out, orders_forbidden, orders_of_nobody, orders_on_a_failed_disk:
        in_a_place(count, words, case.__name__, case)
    for case in figures_of_two, figures_after_a_start, figures_while_a_sync_hangs:
        in_a_place(count, words, case.__name__, case)
    for orders in (1,), (3,), (2, 4), (1, 2, 3, 4):
        in_a_place(count, words, f'orders of {orders}', orders_of_some, dice, words.lines, orders)


def faulty(count, words, dice):
    in_a_place(count, words, 'files_that_can_not_be_opened', files_that_can_not_be_opened, dice)
    in_a_place(count, words, 'by_one_write', by_one_write)
    for restore in True, False:
        in_a_place(count, words, f'a reader goes, SIGPIPE at its default: {restore}', a_reader_goes, dice, restore)
    in_a_place(count, words, 'a failed device is reported at once', is_told_at_once)
    in_a_place(count, words, 'a failed device ends the program', ends_at_once)
    for case in ends_as_without, logged, logged_as_it_happens, a_log_that_fails:
        in_a_place(count, words, case.__name__, case)
    with place(words.program, MEMORY) as there, recorder(there) as made:
        count.case('as_they_come', as_they_come, there, made)
        faults_of_the_device(there, made, dice, count)


def waiting(count, words, dice):
    for line in a_command, queries_mostly:
        in_a_place(count, words, f'a_stalled_reader, {line.__name__}', a_stalled_reader, line)
    in_a_place(count, words, 'unread_listings', unread_listings)
    in_a_place(count, words, 'rests_after_a_listing', rests_after_a_listing)
    for number in signal.SIGTERM, signal.SIGINT:
        in_a_place(count, words, f'ended by {number.name}', ended_by, dice, number)
        in_a_place(count, words, f'ended by {number.name} while it waits', ended_while_it_waits, number)
    count.case('no_processor_time', no_processor_time, words.program)
    in_a_place(count, words, 'four stations with pauses', after_pauses, dice, some(), words.commands // 4)
    in_a_place(count, words, 'one station with pauses', after_pauses, dice, some(1), words.commands // 4)
    in_a_place(count, words, 'short_runs', short_runs, dice, words.runs)


def main():
    words = options(__doc__, lines=150, commands=2000, runs=50)
    print(f'seed {words.seed}', flush=True)
    dice, count = random.Random(words.seed), Count()
    for case in (in_pieces, regular_files, one_out_for_two, devices, odd_words, refused, a_disk_that_is_served, no_memory,
                 standard_streams_that_fail):
        in_a_place(count, words, case.__name__, case)
    answered(count, words, dice)
    chosen(count, words, dice)
    faulty(count, words, dice)
    waiting(count, words, dice)
    count.end()


if __name__ == '__main__':
    main()
