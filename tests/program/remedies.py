#!/usr/bin/env python3
"""Does what the section 'Remedies' of docs/operate.md says, with the built program, and its commands as they are printed there: a full
register of radios, a station whose numbers are used up, a base station that lost its numbers, an old backup in service, two stations
swapped. Then copies by examples/backup.sh while stations are served. The independent reading judges the registers. Prints the first cases that fail, and last 'N passed, M failed'.
Usage: tests/run remedies PROGRAM (the program itself, not a script that starts it)"""
import concurrent.futures
import contextlib
import os
import random
import re
import subprocess

from base_stations import STATIONS, Station, finish, judge, make_pipes, names_of, serving_pipes, status_of
from clients import desk
from disk_files import DISK, register_of, run_cases, settings, text
from images import are_same
from many_files import SHORTEST, formats, stands_for
from program import TOP
from reading_orders import number_of
from running import SECONDS, compare
from station_lines import lines

RULE, ATTACH, DETACH, EXPIRE = 'rule 234-14-0/24 1 99 1 3600', '10:260', '5:10', 'expire'
LAST = 2 ** 32 - 1


def commands_below(title):
    """The commands that the section prints after the paragraph with this title."""
    part = (TOP / 'docs' / 'operate.md').read_text().partition('## Remedies')[2].partition(f'**{title}')[2]
    return re.match(r'.*?\n\n((?:    .*\n)+)', part)[1]


def does(there, title):
    """Runs them over the disk; what they print. The new disk takes its place."""
    there.path().rename(there.path('switch.disk'))
    there.path('s.toml').rename(there.path('settings.toml'))
    for name, path in ('tetra-switch', there.command[0]), ('examples', TOP / 'examples'):
        there.path(name).symlink_to(path)
    done = subprocess.run(['bash', '-ec', commands_below(title)], cwd=there.folder, env=dict(os.environ, TETRA_SWITCH=there.command[0]),
                          stdin=subprocess.DEVNULL, capture_output=True, timeout=SECONDS)
    compare(f'{title}: status and standard error', (done.returncode, done.stderr), (0, b''))
    there.path('new.disk').rename(there.path())
    return done.stdout


def serves(there, said, wanted):
    """Station 1 says these lines."""
    there.gives(['serve', DISK], 0, text(wanted), data=text(said), stdin=subprocess.PIPE)


@contextlib.contextmanager
def served(there, count):
    """So many stations at their pipes."""
    stations = [Station(number) for number in range(1, count + 1)]
    with serving_pipes(there, count) as program:
        yield [station.connect_pipes(there, program) for station in stations]
        for station in stations:
            station.end()
        finish(program, 0)


def said(station, *lines):
    """The first lines of the answers."""
    return [station.ask(line.encode())[0] for line in lines]


def too_many_radios(there):
    """A new radio is refused until the absent ones are forgotten."""
    there.write('s.toml', settings(radios=3).encode())
    there.gives(['format', 's.toml', DISK], 0, b'formatted 641 sectors\n')
    serves(there, [f'1 0 {RULE}', *(f'{number} 0 mm 234-14-{number} 7 {ATTACH}' for number in (2, 3, 4)), f'5 0 mm 234-14-3 7 {DETACH}',
                   f'6 0 mm 234-14-5 7 {ATTACH}'],
           ['1 ok 1 -', '2 ok 2 8:56', '3 ok 3 8:56', '4 ok 4 8:56', '5 ok 5 -', '6 no congestion 14:7660'])
    does(there, 'Too many radios.')
    serves(there, [f'6 0 mm 234-14-5 7 {ATTACH}', 'radios'],
           ['6 ok 6 8:56', 'radios 3', *(f'radio 234-14-{number} station 1 la 7 present' for number in (2, 4, 5))])


def numbers_used_up(there):
    """The station's numbers begin again, and all else is as it was."""
    formats(there, STATIONS, SHORTEST)
    serves(there, [f'1 0 {RULE}', f'{LAST} 0 mm 234-14-2 7 {ATTACH}', f'5 0 {EXPIRE}'], ['1 ok 1 -', f'{LAST} ok 2 8:56', f'5 no old-sequence {LAST}'])
    before = register_of(there.image())
    does(there, 'A station whose numbers are used up')
    before.served[1] = 1, *before.served[1][1:]
    stands_for(there, before)
    serves(there, ['last 1', f'2 0 {EXPIRE}'], ['last 1 1 2 8:56', '2 ok 3 -'])


def numbers_lost(there):
    """A base station that begins at 1 again, and one that hits just the last number, go on after `last`."""
    formats(there, STATIONS, SHORTEST)
    with served(there, 1) as [one]:
        said(one, f'1 0 {RULE}', f'2 0 {EXPIRE}')
        for number, answer in (1, '1 no old-sequence 2'), (2, '2 kept 2 -'):
            compare('not carried out', said(one, f'{number} 0 mm 234-14-2 7 {ATTACH}', 'where 234-14-2'), [answer, 'where 234-14-2 unknown'])
        number = int(said(one, 'last 1')[0].split(' ')[2]) + 1
        compare('carried out', said(one, f'{number} 0 mm 234-14-2 7 {ATTACH}'), ['3 ok 3 8:56'])


def an_old_backup(there):
    """Two base stations send the lines after `last` again, and go on. The register is as if nothing had been lost."""
    formats(there, STATIONS, SHORTEST)
    kept = [[f'{number} 0 {body}' for number, body in enumerate([RULE if station == 1 else EXPIRE, *(
        f'mm 234-14-{10 * station + radio} {radio} {ATTACH}' for radio in range(1, 8))], 1)] for station in (1, 2)]
    with served(there, 2) as stations:
        for station, lines in zip(stations, kept):
            said(station, *lines[:3])
    there.copy(DISK, 'backup')
    with served(there, 2) as stations:
        for station, lines in zip(stations, kept):
            compare('accepted', {answer.split(' ')[1] for answer in said(station, *lines[3:])}, {'ok'})
    before = register_of(there.image())
    there.copy('backup', DISK)
    with served(there, 2) as stations:
        for station, lines in zip(stations, kept):
            last = int(said(station, f'last {station.number}')[0].split(' ')[2])
            compare('what the backup has', last, 3)
            compare('accepted', {answer.split(' ')[1] for answer in said(station, *lines[last:])}, {'ok'})
    stands_for(there, before)
    with served(there, 1) as [one]:
        compare('a station without its lines goes on too', said(one, f'9 0 {EXPIRE}'), [f'9 ok {before.count + 1} -'])


def copies_in_service(there):
    """Each copy opens with every command that was answered before it, to a register of the order; then the program goes on."""
    formats(there, STATIONS, SHORTEST)
    stations, copies = [Station(1), Station(2)], []
    with serving_pipes(there, 2) as program, concurrent.futures.ThreadPoolExecutor(2) as pool:
        said = [lines(random.Random(station.number), 400) for station in stations]
        talking = [pool.submit(station.connect_pipes(there, program).ask_all, one) for station, one in zip(stations, said)]
        while not all(one.done() for one in talking) or not copies:
            before = max(filter(None, [number_of(pair.told) for station in stations for pair in list(station.pairs)]), default=0)
            subprocess.run([TOP / 'examples' / 'backup.sh', str(program.pid), DISK, 'copy'], cwd=there.folder, check=True, timeout=SECONDS)
            copies.append((before, there.image('copy')))
        for one, station in zip(talking, stations):
            one.result()
            station.end()
        finish(program, status_of(stations))
    order = judge(there, stations)
    for before, image in copies:
        register = register_of(image)
        compare('answered commands in the copy', register.count >= before, True)
        compare('a register of the order', are_same(register, order.registers[register.count]), True)
    compare('copies before the last command', sum(before < order.registers[-1].count for before, _ in copies) > 3, True)


def two_swapped(there):
    """Each base station has the other's pipes. It finds that out by `station`. Then both are put right."""
    formats(there, STATIONS, SHORTEST)
    with served(there, 2) as [one, two]:
        said(one, f'1 0 {RULE}', f'2 0 mm 234-14-11 7 {ATTACH}')
        said(two, f'1 0 mm 234-14-21 7 {ATTACH}')
        # The base station of station 1 sends by the pipes of station 2.
        compare('accepted as another one', said(two, f'3 0 mm 234-14-11 8 10:200', 'last 1', 'station'), ['3 ok 4 8:50', 'last 1 2 2 8:56', 'station 2'])
        compare('a radio at the other station', said(one, 'where 234-14-11'), ['where 234-14-11 station 2 la 8 present'])
        compare('put right', said(one, 'station', 'last 1', '3 0 mm 234-14-11 8 10:200'), ['station 1', 'last 1 2 2 8:56', '3 ok 5 8:50'])
        compare('the other goes on', said(two, 'last 2', f'4 0 {EXPIRE}'), ['last 2 3 4 8:50', '4 ok 6 -'])
        compare('where it is', said(one, 'where 234-14-11'), ['where 234-14-11 station 1 la 8 present'])


def a_client_that_is_swapped(there):
    """The client of station 1 finds that its link is that of station 2, and sends no command."""
    formats(there, STATIONS, SHORTEST)
    make_pipes(there, 2)
    with contextlib.ExitStack() as stack:
        for name in names_of(2):
            stack.callback(os.close, os.open(there.path(name), os.O_RDWR))
        stack.enter_context(serving_pipes(there, 2))
        for station in 1, 2:
            found, warned = None, []
            with desk.Client(desk.link_to(str(there.folder), 2), station, warn=warned.append) as client:
                try:
                    found = client.ask(EXPIRE).told
                except desk.OtherStation as fault:
                    found = str(fault)
            compare('what it finds', (found, warned), (['1 ok 1 -'] if station == 2 else 'this is the link of station 2, not of station 1', []))


if __name__ == '__main__':
    run_cases(__doc__, [too_many_radios, numbers_used_up, numbers_lost, an_old_backup, copies_in_service, two_swapped, a_client_that_is_swapped])
