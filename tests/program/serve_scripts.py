#!/usr/bin/env python3
"""Runs the scripts of examples/ that serve a disk, with the built program: over named pipes, and by socat over a TCP socket of the
loopback and over pseudo terminals as a serial line, each cut off within a line three times. Then the commands of the systemd unit in
packaging/, in folders of their own. The independent reading judges all answers. Where socat or systemd-analyze is not installed it
prints so. Prints the first cases that fail, and last 'N passed, M failed'.
Usage: tests/run serve_scripts PROGRAM (the program itself, not a script that starts it)"""
import contextlib
import functools
import os
import pty
import random
import re
import signal
import socket
import subprocess
import time
import tty

import reading
import refusing
from base_stations import STATIONS, Station, at_once, ends_by, finish, judge, names_of, on_streams, status_of
from disk_files import DISK, Place, place
from many_files import SHORTEST, formats
from program import TOP, waits
from reading_orders import Answered
from recorder import recorder
from running import SECONDS, compare, started
from station_lines import lines
from testing import Count, options

PACKAGED = [TOP / 'packaging' / f'tetra-switch{name}' for name in ('.service', '-expire.service', '-expire.timer')]
UNITS = [*PACKAGED, TOP / 'examples' / 'tetra-switch-standby.service']
DESK = TOP / 'examples' / 'desk.py'


def script(place, name, *words):
    """A script of examples/, over a new disk, with a desk at its standard streams."""
    formats(place, STATIONS, SHORTEST)
    how = {'stdin': subprocess.PIPE, 'stdout': subprocess.PIPE, 'cwd': place.folder}
    return started([TOP / 'examples' / name, DISK, *words], env=dict(os.environ, TETRA_SWITCH=place.command[0]), **how)


def connected(pipes, program, numbers):
    """These stations at their named pipes, once these are made."""
    waits(lambda: all(pipes.path(name).exists() for number in numbers for name in names_of(number)))
    return [Station(number).connect_pipes(pipes, program) for number in numbers]


def talk(stations, said):
    """All at once, each its lines."""
    at_once([functools.partial(station.ask_all, one) for station, one in zip(stations, said)])


def some_lines(dice, stations, count=60):
    return [lines(dice, count) for _ in stations]


def over_pipes(place, dice):
    with script(place, 'serve.sh', 'pipes') as program:
        desk = on_streams(program, 3)
        stations = [*connected(Place(place.command, place.path('pipes')), program, (1, 2)), desk]
        talk(stations, some_lines(dice, stations))
        for station in stations:
            station.end()
        finish(program, status_of(stations))
    judge(place, stations)


def as_serve_sh_shows(place, _):
    """A shell talks to a base station's pipes as the script's first lines show, twice in a row."""
    shown = re.findall('^#   (.*)$', (TOP / 'examples' / 'serve.sh').read_text(), re.M)
    compare('lines that are shown', len(shown), 3)
    with script(place, 'serve.sh', 'pipes') as program:
        waits(lambda: place.path('pipes/2.out').exists())
        said = ['set -e', *shown, *shown[2:]]
        shell = subprocess.run(['bash', '-c', '\n'.join(said).replace('FOLDER', 'pipes')], cwd=place.folder, capture_output=True, timeout=SECONDS)
        compare('the answers', (shell.stdout, shell.stderr), (b'1 ok 1 -\ncount 1\ncount 1\n', b''))
        compare('the mode of a pipe', oct(place.path('pipes/1.in').stat().st_mode & 0o777), '0o600')
        ends_by(program, signal.SIGTERM)


# By socat

def free_port():
    with socket.socket() as one:
        one.bind(('127.0.0.1', 0))
        return one.getsockname()[1]


def connect(port):
    """To whoever waits at this port, before long."""
    until = time.monotonic() + SECONDS
    while True:
        with contextlib.suppress(ConnectionRefusedError):
            return socket.create_connection(('127.0.0.1', port))
        compare('nobody waits at the port', time.monotonic() < until, True)
        time.sleep(0.01)


def cut_off(station):
    """Its link ends within a line, which half of a command would be."""
    station.send(b'count')
    os.write(station.to, b'4294967295 0 rule 234-14-0/24 1 99 1 36')
    station.leave()
    station.pairs.append(Answered(b'count', None))


def is_bad(line):
    try:
        reading.answer(reading.Register(), 1, line)
        return False
    except reading.BadLine:
        return True


def goes_on(program, desk, dice, links):
    """The base station's link ends, and it comes back over the next one, while the desk talks. SIGTERM ends the service. A link may lose
    lines with its end, so no line is bad: its number would be unknown."""
    station, said = next(links), [[line for line in one if not is_bad(line)] for one in some_lines(dice, range(2), 200)]
    for first in range(0, 150, 50):
        talk([station, desk], [one[first:first + 50] for one in said])
        cut_off(station)
        station = next(links)
        station.come_back(dice.randrange(2 ** 24))
    station.ask(b'count')
    program.send_signal(signal.SIGTERM)
    compare('status', program.wait(SECONDS), 128 + signal.SIGTERM)
    for one in station, desk:
        one.leave()
    return [station, desk]


def over_a_socket(place, dice):
    port, station = free_port(), Station(1)
    with script(place, 'serve_socat.sh', f'TCP-LISTEN:{port},bind=127.0.0.1,reuseaddr') as program:
        links = (station.connect(program, one.detach(), None) for one in iter(lambda: connect(port), None))
        judge(place, goes_on(program, on_streams(program, 2), dice, map(both_ways, links)))


def both_ways(station):
    """One descriptor for its lines, and another one for its answers."""
    station.back = os.dup(station.to)
    return station


def serial_lines(place, program, station):
    """A serial line of this station, and after its end another one of the same name."""
    name = place.path('line')
    while True:
        master, slave = pty.openpty()
        tty.setraw(slave)
        name.unlink(missing_ok=True)
        name.symlink_to(os.ttyname(slave))
        yield both_ways(station.connect(program, master, None))
        os.close(slave)


def over_a_serial_line(place, dice):
    station = Station(1)
    with script(place, 'serve_socat.sh', f"{place.path('line')},raw,echo=0,b9600") as program:
        judge(place, goes_on(program, on_streams(program, 2), dice, serial_lines(place, program, station)))


# The systemd unit

def unit_for(unit, place, run, state):
    """Its text, with the program and the desk, and with these folders in place of /run and /var/lib."""
    text = unit.read_text().replace('/usr/local/bin/tetra-switch-desk', str(DESK)).replace('/usr/local/bin/tetra-switch', place.command[0])
    return text.replace('%t', str(run)).replace('%S', str(state))


def verified(place, _):
    """systemd finds nothing wrong with them, nor with the sample unit for a second node."""
    for unit in UNITS:
        place.write(unit.name, unit_for(unit, place, '%t', '%S').encode())
    done = subprocess.run(['systemd-analyze', 'verify', '--man=no', *(place.path(unit.name) for unit in UNITS)], capture_output=True, timeout=SECONDS)
    compare('systemd-analyze verify', (done.returncode, done.stdout + done.stderr), (0, b''))


def commands_in(unit, key):
    """The words of a unit's commands of this key, without systemd's marks before the first; those in single quotes are one."""
    lines = re.findall(rf'^{key}=[+:]*(.*)$', unit.replace('\\\n', ' '), re.M)
    return [[one or quoted for quoted, one in re.findall(r"'([^']*)'|(\S+)", line)] for line in lines]


class Service:
    """The commands of the unit, with folders of its own, for so many stations; a disk is there."""

    def __init__(self, place, stations):
        self.run, self.state = (place.path(name) / 'tetra-switch' for name in ('run', 'state'))
        for folder in self.run, self.state:
            folder.mkdir(parents=True)
        self.disk, self.pipes = Place(place.command, self.state), Place(place.command, self.run)
        formats(self.disk, stations, SHORTEST)
        self.disk.path().rename(self.disk.path('switch.disk'))
        self.unit, self.expiry = (unit_for(unit, place, self.run.parent, self.state.parent) for unit in UNITS[:2])
        # The stations that may give orders
        named = re.search(r'^Environment="ORDERS=([\d ]+)"$', self.unit, re.M)[1]
        self.orders = {int(number) for number in named.split(' ')}
        self.env = {**os.environ, 'STATIONS': str(stations), 'ORDERS': named}
        self.how = {'cwd': self.run, 'env': self.env}

    def makes_pipes(self, **env):
        for command in commands_in(self.unit, 'ExecStartPre'):
            subprocess.run(command, check=True, cwd=self.run, env={**self.env, **env}, preexec_fn=lambda: os.umask(0o077))

    @contextlib.contextmanager
    def started(self):
        """Its command, in a group of processes, all ended in any case."""
        [command] = commands_in(self.unit, 'ExecStart')
        with started(command, stdin=subprocess.DEVNULL, cwd=self.run, env=self.env, start_new_session=True) as program:
            try:
                yield program
            finally:
                with contextlib.suppress(ProcessLookupError):
                    os.killpg(program.pid, signal.SIGKILL)

    def ends(self, program):
        """As systemd ends it: SIGTERM comes to all its processes. None is left of them, so nobody holds the disk."""
        os.killpg(program.pid, signal.SIGTERM)
        compare('status', program.wait(SECONDS), -signal.SIGTERM)
        waits(lambda: subprocess.run(['flock', '-n', self.disk.path('switch.disk'), 'true']).returncode == 0)

    def says(self, stations):
        """What it reports as it starts, each station's pipes in any order."""
        names = [f'station {number} serves {" ".join(names_of(number))}' for number in range(1, stations + 1)]
        return {f'serving {stations} stations, count 0', *names}

    def expires(self):
        """What the timer does."""
        [command] = commands_in(self.expiry, 'ExecStart')
        return subprocess.run(command, stdin=subprocess.DEVNULL, capture_output=True, timeout=SECONDS).stdout

    def modes(self, number):
        return [oct(self.pipes.path(name).stat().st_mode & 0o777) for name in names_of(number)]


def its_commands(place, dice):
    """They serve base stations, which may go and come again, a desk and the timer, until SIGTERM ends the service."""
    service = Service(place, STATIONS)
    compare('the unit has a disk for four', f'Environment=STATIONS={STATIONS}\n' in service.unit, True)
    service.makes_pipes()
    compare('the modes of pipes', [service.modes(number) for number in (1, 2, 3, 4)], [['0o660'] * 2] * 3 + [['0o600'] * 2])
    with service.started() as program:
        stations = connected(service.pipes, program, (1, 2))
        said = some_lines(dice, stations)
        talk(stations, [one[:30] for one in said])
        for station in stations:
            station.leave()
            station.connect_pipes(service.pipes, program).come_back(dice.randrange(2 ** 24))
        talk(stations, [one[30:] for one in said])
        count = int(stations[0].ask(b'count')[0].split(' ')[1])
        for number in 1, 2:
            compare('the timer', service.expires(), b'%d ok %d -\n' % (number, count + number))
        asked = subprocess.run([DESK, service.run, '3', 'count'], stdin=subprocess.DEVNULL, capture_output=True, timeout=SECONDS).stdout
        compare('the desk', asked, b'count %d\n' % (count + 2))
        service.ends(program)
        compare('standard error', set(program.stderr.read().decode().splitlines()), service.says(STATIONS))
        for station in stations:
            station.leave()
    service.disk.path('switch.disk').rename(service.disk.path())
    # Each item of this test has a deadline in the past: so the greatest moment removes what the time of now does.
    expiries = Station(4)
    expiries.pairs = [Answered(f'{number} {2 ** 32 - 1} expire'.encode(), [f'{number} ok {count + number} -']) for number in (1, 2)]
    judge(service.disk, [*stations, Station(3), expiries], service.orders)


def sixty_four(place, dice):
    """By its drop-in of two lines the unit serves 64 stations, each with pipes of its own. The desk gives the only order."""
    shown = re.search(r'#   (\[Service\])\n#   Environment=STATIONS=(\d+)\n', UNITS[0].read_text())
    service = Service(place, int(shown[2]))
    service.makes_pipes()
    numbers = range(1, int(shown[2]) + 1)
    with service.started() as program:
        stations = connected(service.pipes, program, numbers)
        compare('the desk', stations[2].ask(b'1 0 rule 0-0-0/0 1 99 1 60'), ['1 ok 1 -'])
        at_once([functools.partial(station.ask_all, [b'station', b'2 0 mm 1-1-1 7 10:260', b'last %d' % station.number])
                 for station in stations])
        for station in stations:
            told = [pair.told[0] for pair in station.pairs[-3:]]
            accepted, number = told[1].split(' ')[2], station.number
            compare(f'station {number}', told, [f'station {number}', f'2 ok {accepted} 8:56', f'last {number} 2 {accepted} 8:56'])
            station.leave()
        service.ends(program)


def restarts_after(service, status):
    """Whether systemd starts the unit again after this exit status."""
    assert 'Restart=on-failure\n' in service.unit
    return status and str(status) not in re.search('^RestartPreventExitStatus=(.*)$', service.unit, re.M)[1].split(' ')


def a_device_that_fails(place, _):
    """The unit reports it at once, and fails by a status after which it is not started again."""
    service = Service(place, STATIONS)
    service.makes_pipes()
    with recorder(service.disk) as made:
        opening = made.does(['show', 'switch.disk', 'count'], 0, b'count 0\n', disk='switch.disk')
        service.env.update(made.environment(fails=len(opening) + 1, disk='switch.disk', files=[], ALWAYS=1))
        with service.started() as program:
            stations = connected(service.pipes, program, range(1, STATIONS + 1))
            # Who has an answer was reported before: so no report is lost in the fault.
            for station in stations:
                compare('count', station.ask(b'count'), ['count 0'])
            stations[2].send(b'1 0 expire')
            waits(lambda: program.poll() is not None)
            said = program.stderr.read().decode().splitlines()
            compare('its end', (program.returncode, said[-1], set(said[:-1])), (5, 'fault: device', service.says(STATIONS)))
            for station in stations:
                station.leave()
    compare('it is started again', restarts_after(service, 5), False)


def no_memory(place, _):
    """The unit is started again, but not on a disk that can't be used."""
    service = Service(place, STATIONS)
    service.makes_pipes()
    with refusing.library() as made:
        place.write('refused', f'#!/bin/sh\nLD_PRELOAD={made} REFUSED=1 REFUSALS=1 exec {place.command[0]} "$@"\n'.encode())
        place.path('refused').chmod(0o755)
        unit = service.unit
        service.unit = unit.replace(place.command[0], str(place.path('refused')))
        with service.started() as program:
            status = program.wait(SECONDS)
            compare('its end', (program.stderr.read(), restarts_after(service, status)), (b'fault: memory\n', True))
    service.unit = unit
    service.disk.write('switch.disk', b'fault: memory\n')
    with service.started() as program:
        compare('its end', (program.wait(SECONDS), program.stderr.read()), (5, b'fault: unformatted\n'))


def ended_from_outside(place, _):
    """Who ends the program by a signal ends the unit by it."""
    service = Service(place, STATIONS)
    service.makes_pipes()
    for number in signal.SIGTERM, signal.SIGKILL:
        with service.started() as program:
            [station] = connected(service.pipes, program, (3,))
            station.ask(b'count')
            subprocess.run(['pkill', f'-{number}', '-P', str(program.pid)], check=True)
            compare('status', program.wait(SECONDS), -number)
            station.leave()


def orders_of_the_desk(place, _):
    """Base stations may give none, unless a drop-in lets all."""
    service, number = Service(place, STATIONS), 0
    compare('stations that may give orders', service.orders, {3, 4})
    for orders in service.env['ORDERS'], '2', '':
        service.env['ORDERS'] = orders
        for name in os.listdir(service.run):
            service.pipes.path(name).unlink()
        service.makes_pipes()
        with service.started() as program:
            stations = connected(service.pipes, program, range(1, STATIONS + 1))
            number += 1
            told = [station.ask(b'%d 0 expire' % number)[0].split(' ')[1] for station in stations]
            for station in stations:
                station.leave()
            service.ends(program)
        compare(f'answers with orders of {orders!r}', told, ['ok' if not orders or str(one.number) in orders else 'no' for one in stations])


def groups_of_their_own(place, _):
    """Pipes of a station whose group exists are given to it, and no others."""
    service, tools = Service(place, STATIONS), place.path('tools')
    tools.mkdir()
    for name, text in ('getent', '[ "$1 $2" = "group tetra-switch-2" ]'), ('chgrp', 'echo "$@" >>given'):
        place.write(f'tools/{name}', f'#!/bin/sh\n{text}\n'.encode())
        place.path(f'tools/{name}').chmod(0o755)
    service.makes_pipes(PATH=f"{tools}:{os.environ['PATH']}")
    compare('given', service.pipes.path('given').read_text(), 'tetra-switch-2 2.in 2.out\n')


# The whole

def main():
    words = options(__doc__)
    print(f'seed {words.seed}', flush=True)
    dice, count = random.Random(words.seed), Count()
    cases = [(over_pipes,), (as_serve_sh_shows,), (over_a_socket, 'socat'), (over_a_serial_line, 'socat'), (verified, 'systemd-analyze'),
             (its_commands,), (sixty_four,), (orders_of_the_desk,), (a_device_that_fails,), (no_memory,), (ended_from_outside, 'pkill'),
             (groups_of_their_own,)]
    for case, *needed in cases:
        if count.has(case.__name__, *needed):
            with place(words.program) as there:
                count.case(case.__name__, case, there, dice)
    count.end()


if __name__ == '__main__':
    main()
