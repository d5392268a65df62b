"""Runs of many stations on a disk file: their files, and all that is printed and kept, judged by the independent reading."""
import collections
import subprocess

import reading
from disk_files import DISK, register_of, settings
from images import are_same
from reading_orders import NoOrder, is_troubled, judged, parts
from running import Differs, compare
from station_lines import data_of, lines

SECONDS = 120
SHORTEST, LONG = 39, 16_384
# The status and standard error of a run in which the disk failed
WHEN_BROKEN = 5, b'fault: device\n'

# What a run did: its status, output and standard error
Ran = collections.namedtuple('Ran', 'status out err')


def giving_orders(stations):
    """The options by which only these stations may give orders; none for all."""
    return [word for number in stations or () for word in ('--orders', str(number))]


class Files:
    """The lines of many stations, the names of their files and of their disk, and the words for `run` and `serve`. Of the stations all may
    give orders, or these."""

    def __init__(self, lines, names=None, disk=DISK, orders=None):
        self.lines, self.orders, stations = lines, orders, range(1, len(lines) + 1)
        self.names, self.outs = names or [f's{station}.txt' for station in stations], [f's{station}.out' for station in stations]
        self.words = ['run', *giving_orders(orders), disk, *self.names]
        self.served = ['serve', *giving_orders(orders), disk, *(name for pair in zip(self.names, self.outs) for name in pair)]

    def write(self, place):
        for name, lines in zip(self.names, self.lines):
            place.write(name, data_of(lines))


def by_chance(dice, stations, count, orders=None):
    """So many lines for each of so many stations."""
    return Files([lines(dice, count) for _ in range(stations)], orders=orders)


def empty(stations):
    return reading.Register({'stations': stations})


def formats(place, stations, journal, name=DISK):
    """A new disk for so many stations."""
    place.path(name).unlink(missing_ok=True)
    place.write('s.toml', settings(stations=stations, journal=journal).encode())
    sectors = 3 + 2 * (1 + sum(empty(stations).limits.values())) + 2 * journal
    place.gives(['format', 's.toml', name], 0, f'formatted {sectors} sectors\n'.encode())


def ran(place, files, words=None, **how):
    """What the program does with these files by `run`, or by these words. `serve` finds none of its OUT."""
    for name in files.outs:
        place.path(name).unlink(missing_ok=True)
    program = subprocess.run([*place.command, *(words or files.words)], stdin=subprocess.DEVNULL, capture_output=True, cwd=place.folder, timeout=SECONDS, **how)
    return Ran(program.returncode, program.stdout, program.stderr)


def told_to_each(place, files, words, out):
    """The lines that each station was answered, as `run` printed them, or as `serve` wrote them. Without an answer a file may be missing."""
    if words == files.words:
        return parts(out, files.names) if out else [[] for _ in files.names]
    outs = [place.path(name) for name in files.outs]
    return [path.read_text().splitlines() if path.exists() else [] for path in outs]


def ordered(base, files, out):
    """The order of the commands of a run over this register."""
    try:
        return judged(base, files.lines, out, files.names, files.orders)
    except NoOrder as fault:
        raise Differs(f'no order of the commands: {fault}')


def stands_for(place, register):
    """The disk stands for this register."""
    compare('the commands on the disk', register_of(place.image()).count, register.count)
    compare('the register on the disk is the one of the order', are_same(register_of(place.image()), register), True)


def runs(place, files, base, **how):
    """The order of a run without a fault over a disk that stands for this register, once all that it did is judged."""
    done = ran(place, files, **how)
    compare('standard error', done.err, b'')
    order = ordered(base, files, done.out)
    compare('status', done.status, int(is_troubled(done.out)))
    stands_for(place, order.registers[-1])
    return order
