"""Base stations over `serve`: each sends its lines over one named pipe, waits for the answer to each line over another, and then sends
the next. The independent reading judges all that several stations are answered."""
import concurrent.futures
import contextlib
import errno
import functools
import os
import select
import signal
import subprocess
import time

from disk_files import DISK
from many_files import empty, giving_orders, stands_for
from reading_orders import Answered, NoOrder, is_silent, lines_told, number_of, order_that_answers
from running import SECONDS, Differs, compare, ends, started

# The stations of each disk, and how many of its lines a station keeps for a run that nothing stops
STATIONS, LAST = 4, 20


class Gone(Differs):
    """The program has ended, or has closed a station's files."""

    def __str__(self):
        return 'the program has ended, or has closed the files of a station'


# The program

def names_of(number):
    """A station's IN and OUT."""
    return f'{number}.in', f'{number}.out'


def all_names(count):
    """Those of so many stations."""
    return [name for number in range(1, count + 1) for name in names_of(number)]


def make_pipes(place, count):
    for name in all_names(count):
        if not place.path(name).exists():
            os.mkfifo(place.path(name))


def serving(place, words, **how):
    """The program with these words, ended in any case. What it writes comes over pipes."""
    how = {'stdin': subprocess.DEVNULL, 'stdout': subprocess.PIPE, 'cwd': place.folder, **how}
    return started([*place.command, *words], **how)


def serving_pipes(place, count, orders=(), **how):
    """The program that serves so many stations over named pipes, which nobody else has open yet. Of them all may give orders, or these; the
    others of these are left out."""
    make_pipes(place, count)
    out = ['-', '-'] * (max(orders, default=0) - count)
    return serving(place, ['serve', *giving_orders(orders), DISK, *all_names(count), *out], **how)


def finish(program, status, err=b''):
    """Waits for the end. Nothing is left of standard output."""
    compare('standard output', ends(program, status, err) or b'', b'')


# The other ends of its pipes

def reader_of(path):
    """The end to read, at once."""
    return os.open(path, os.O_RDONLY | os.O_NONBLOCK)


def writer_of(path, program):
    """The end to write, once the program has opened the other one."""
    until = time.monotonic() + SECONDS
    while program.poll() is None:
        try:
            return os.open(path, os.O_WRONLY | os.O_NONBLOCK)
        except OSError as fault:
            if fault.errno != errno.ENXIO or time.monotonic() > until:
                raise Differs(f'{path.name}: {fault}')
        time.sleep(0.001)
    raise Gone


class Station:
    """A base station, with its lines and their answers so far."""

    def __init__(self, number):
        self.number, self.pairs, self.first, self.slowest = number, [], 0, 0
        self.program = self.to = self.back = None

    def connect(self, program, to, back):
        """Its lines go to this file descriptor, and its answers come from that one."""
        self.program, self.to, self.back, self.rest, self.sent, self.first = program, to, back, b'', 0, len(self.pairs)
        return self

    def connect_pipes(self, place, program):
        to, back = (place.path(name) for name in names_of(self.number))
        self.back = reader_of(back)
        return self.connect(program, writer_of(to, program), self.back)

    def send(self, line):
        self.sent += 1
        data = line + b'\n'
        while data:
            compare('a line can be sent', select.select([], [self.to], [], SECONDS)[1], [self.to])
            try:
                data = data[os.write(self.to, data):]
            except BrokenPipeError:
                raise Gone

    def come_back(self, mark):
        """As docs/operate.md says, with this number in its marks; the answer to `last`. It reads while it writes."""
        first, second = b'mark %d-1' % mark, b'mark %d-2' % mark
        data = first + b'\n' + second + b'\n'
        while data:
            reads, writes, _ = select.select([self.back], [self.to], [], SECONDS)
            compare('the program reads or writes', bool(reads or writes), True)
            self.rest += self.piece() if reads else b''
            data = data[os.write(self.to, data):] if writes else data
        while self.receive() != second.decode():
            pass
        self.pairs += [Answered(first, None), Answered(second, [second.decode()])]
        compare('its station', self.ask(b'station'), [f'station {self.number}'])
        return self.ask(b'last %d' % self.number)[0]

    def receive(self, seconds=SECONDS):
        """The next line, which has to come within this time."""
        until = time.monotonic() + seconds
        while b'\n' not in self.rest:
            if select.select([self.back], [], [], 0.05)[0]:
                self.rest += self.piece()
            elif self.program.poll() is not None:
                raise Gone
            elif time.monotonic() > until:
                raise Differs(f'station {self.number} waits for {seconds} seconds after {self.sent} lines')
        line, self.rest = self.rest.split(b'\n', 1)
        return line.decode(errors='replace')

    def piece(self):
        piece = os.read(self.back, 65536)
        if not piece:
            raise Gone
        return piece

    def answer(self, line, seconds=SECONDS):
        """The lines that answer this one, as they come."""
        if is_silent(line):
            return []
        said = [self.receive(seconds)]
        return said + [self.receive(seconds) for _ in range(lines_told(line, said[0]) - 1)]

    def ask(self, line, seconds=SECONDS):
        """Sends a line, and waits for its answer."""
        start = time.monotonic()
        self.send(line)
        told = self.answer(line, seconds)
        self.slowest = max(self.slowest, time.monotonic() - start)
        self.pairs.append(Answered(line, told))
        return told

    def ask_all(self, lines):
        for line in lines:
            self.ask(line)
        return self

    def end(self):
        """It sends no more, and gets no more."""
        os.close(self.to)
        self.to = None
        with contextlib.suppress(Gone):
            raise Differs(f'station {self.number} has an answer to no line: {self.receive()}')
        compare('an answer without its end', self.rest, b'')
        self.leave()

    def as_never_stopped(self):
        """Its lines with their answers, as a program gives them that nothing stops."""
        return self.pairs

    def leave(self):
        """It closes its files."""
        for one in self.to, self.back:
            if one is not None:
                os.close(one)
        self.to = self.back = None


def on_streams(program, number=1):
    """A station at the other ends of the program's standard input and output."""
    streams = program.stdin, program.stdout
    to, back = (os.dup(stream.fileno()) for stream in streams)
    program.stdin = program.stdout = None
    for stream in streams:
        stream.close()
    return Station(number).connect(program, to, back)


class Resending(Station):
    """A base station with lines of its own. It sends the line that a stop left unanswered to the next program again."""

    def __init__(self, number, lines):
        super().__init__(number)
        self.lines, self.again = lines, set()

    def talk(self, place, program, count=None):
        """Sends its lines, up to so many in all, and ends. Without a count it sends all but the last ones, and waits until the program
        ends."""
        try:
            self.connect_pipes(place, program)
            for line in self.lines[len(self.pairs):count or -LAST]:
                self.ask(line)
            self.end() if count else self.receive()
        except Gone:
            self.leave()

    def ask(self, line, seconds=SECONDS):
        try:
            super().ask(line, seconds)
        except Gone:
            self.again.add(len(self.pairs))
            raise
        told = [one.replace(f'line {self.sent} bad', f'line {len(self.pairs)} bad') for one in self.pairs[-1].told]
        self.pairs[-1] = Answered(line, told)

    def as_never_stopped(self):
        """A command that was sent again after a stop may be `kept`."""
        accepted, pairs = set(), []
        for place, (line, told) in enumerate(self.pairs):
            if place in self.again and line not in accepted:
                told = [one.replace(' kept ', ' ok ') for one in told]
            accepted |= {line} if number_of(told) is not None else set()
            pairs.append(Answered(line, told))
        return pairs

    def kept(self):
        """How many commands it sent again that were kept."""
        return sum(told != pair.told for (_, told), pair in zip(self.as_never_stopped(), self.pairs))


def at_once(calls):
    """Makes these calls in threads, and waits for all of them; their answers."""
    with concurrent.futures.ThreadPoolExecutor(len(calls)) as pool:
        return [one.result() for one in [pool.submit(call) for call in calls]]


# Stops

def with_default(number):
    """What a process does that is to start with this signal at its default."""
    return {} if number == signal.SIGKILL else {'preexec_fn': lambda: signal.signal(number, signal.SIG_DFL)}


def ends_by(program, number):
    """The signal ends the program at once, which says nothing."""
    program.send_signal(number)
    try:
        program.wait(1)
    finally:
        program.kill()
    finish(program, -number)


def stop(place, stations, number, moment):
    """Serves the stations until that moment, in seconds from the start, at which the signal ends the program."""
    with serving_pipes(place, len(stations), **with_default(number)) as program:
        with concurrent.futures.ThreadPoolExecutor(len(stations)) as pool:
            talking = [pool.submit(station.talk, place, program) for station in stations]
            time.sleep(moment)
            ends_by(program, number)
        for one in talking:
            one.result()


def go_on(place, stations, count=LAST):
    """Serves the stations until each has sent so many more lines."""
    with serving_pipes(place, len(stations)) as program:
        at_once([functools.partial(station.talk, place, program, len(station.pairs) + count) for station in stations])
        finish(program, status_of(stations))
    compare('the lines of the last run', {len(station.pairs) - station.first for station in stations}, {count})


# The judge

def order_from(stations, orders=None):
    """The order of the commands on a disk that was empty: it gives all answers of stations 1, 2 and so on, of which these may give
    orders."""
    try:
        return order_that_answers(empty(STATIONS), [station.as_never_stopped() for station in stations], orders)
    except NoOrder as fault:
        raise Differs(f'no order of the commands: {fault}')


def judge(place, stations, orders=None):
    """That order. The disk stands for its register."""
    order = order_from(stations, orders)
    stands_for(place, order.registers[-1])
    return order


def status_of(stations):
    """That of a program which answered these lines of stations: 1 where one was bad."""
    said = (['line '] if pair.told is None else pair.told[:1] for station in stations for pair in station.pairs[station.first:])
    return int(any(one.startswith('line ') for told in said for one in told))
