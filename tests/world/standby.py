#!/usr/bin/env python3
"""A second node goes on when the serving one fails: three nodes on this machine, each in network and mount namespaces of its own, with a
disk file on a GlusterFS volume that has a copy on each (nodes.py). Four stations talk over named pipes.
- Failovers, with fencing. The serving node loses its network, all its processes then or after some seconds, as by a power switch.
  While it serves, and until the volume gives up its lock, the others are held off. Then another node checks the disk and serves, and
  the stations send their unanswered lines again. No answered command is missing, no number comes twice, the copies become the same.
- Without fencing. A node that is cut off while it is idle comes back after another one has served. With strict locks the volume refuses
  its writes; without them both nodes answer `ok`, and a number comes twice.
The independent reading (tests/reading/) judges the answers and the register. What is not installed or can't be used is named. Prints the
seed, what was found, and last 'N passed, M failed'.
Usage: tests/run standby PROGRAM [--failovers N] [--seed N] (the program itself, not a script that starts it)"""
import concurrent.futures
import contextlib
import functools
import os
import random
import tempfile
import time

from base_stations import LAST, STATIONS, Gone, Resending, Station, at_once, finish, make_pipes, names_of, order_from, serving, status_of
from disk_files import HELD, Place, file_fault, place, settings
from many_files import SHORTEST
from nodes import COPIER, NODES, TOOLS, nodes
from reading_texts import text_of
from running import compare
from station_lines import lines
from testing import Count, end_on_signals, options
from tools import SECONDS

# The most lines that a station sends until a failover
MOST = 400
RULES = [b'%d 0 rule 234-14-0/24 1 99 1 3600' % number for number in (1, 2)]


class OnNode(Resending):
    """A base station. An answer that the disk failed is none: it sends that line to the next node again."""

    def answer(self, line, seconds=SECONDS):
        told = super().answer(line, SECONDS)
        if told and told[0].endswith((' no device', ' no broken')):
            raise Gone
        return told


class Standby:
    """Nodes, and stations that are served by one of them."""

    def __init__(self, nodes, program, place, dice):
        self.nodes, self.program, self.place, self.dice = nodes, os.path.abspath(program), place, dice
        make_pipes(place, STATIONS)

    def on(self, node):
        """A place in which commands run on a node."""
        return Place([*self.nodes.words(node), self.program], self.place.folder)

    def formats(self, node):
        self.place.write('s.toml', settings(journal=SHORTEST).encode())
        done = self.nodes.run(node, self.program, 'format', self.place.path('s.toml'), self.nodes.disk(node))
        compare('format', (done.returncode, done.stderr), (0, b''))

    def serving(self, node):
        pipes = [self.place.path(name) for number in range(1, STATIONS + 1) for name in names_of(number)]
        return serving(self.on(node), ['serve', self.nodes.disk(node), *pipes])

    def is_held_off(self, node):
        """Whether a node can't have the disk since another one has it. Otherwise `check` finds no damage."""
        done = self.nodes.run(node, self.program, 'check', self.nodes.disk(node))
        if done.returncode == 4:
            compare('why it is held off', done.stderr, file_fault(str(self.nodes.disk(node)), HELD))
            return True
        compare('check', (done.returncode, done.stdout.split(b'\n')[-2:-1][0][:3]), (0, b'ok '))
        return False

    def takes_over(self, node):
        """Waits until the volume has given up the lock of the node that was lost; the seconds."""
        start = time.monotonic()
        self.nodes.waits('the lock comes free', lambda: not self.is_held_off(node))
        return time.monotonic() - start

    def dumped(self, node):
        done = self.nodes.run(node, self.program, 'dump', self.nodes.disk(node))
        compare('dump', (done.returncode, done.stderr), (0, b''))
        return done.stdout


# With fencing

def fenced(standby, node, program, stations):
    """While the stations talk, the node loses its network; then, at once or some seconds later, its power."""
    with concurrent.futures.ThreadPoolExecutor(len(stations)) as pool:
        talking = [pool.submit(station.talk, standby.place, program) for station in stations]
        time.sleep(standby.dice.uniform(1, 4))
        standby.nodes.link(node, 'down')
        time.sleep(standby.dice.choice([0, 2, 10]))
        standby.nodes.cut_power(node)
        for one in talking:
            one.result()


def failovers(standby, count):
    node, seconds = NODES[0], []
    standby.formats(node)
    stations = [OnNode(number, lines(standby.dice, count * MOST + LAST)) for number in range(1, STATIONS + 1)]
    for _ in range(count):
        other = node % len(NODES) + 1
        with standby.serving(node) as program:
            standby.nodes.waits('the other node is held off', lambda: standby.is_held_off(other))
            fenced(standby, node, program, stations)
        seconds.append(round(standby.takes_over(other)))
        standby.nodes.start(node)
        standby.nodes.mount(node)
        node = other
    with standby.serving(node) as program:
        at_once([functools.partial(station.talk, standby.place, program, len(station.pairs) + LAST) for station in stations])
        finish(program, status_of(stations))
    order = order_from(stations)
    compare('the register', standby.dumped(node), text_of(order.registers[-1]))
    standby.nodes.waits('the copies are whole', standby.nodes.is_whole)
    compare('different copies', len(standby.nodes.copies()), 1)
    print(f'{count} failovers, {len(order.commands)} commands, {sum(station.kept() for station in stations)} of them kept and sent again; '
          f'a lock came free after {seconds} seconds', flush=True)


# Without fencing

def begun(standby, strict):
    """A new disk, and strict locks or none."""
    standby.nodes.set('client.strict-locks', strict)
    standby.nodes.run(NODES[0], 'rm', standby.nodes.disk(NODES[0]))
    standby.formats(NODES[0])


def unfenced(standby, other):
    """A node is cut off while it is idle, and comes back after another one has answered a command. What both answer then."""
    (first, second), nodes, (one, two) = NODES[:2], standby.nodes, (Station(1), Station(2))
    with standby.serving(first) as program:
        one.connect_pipes(standby.place, program)
        compare('the first answer', one.ask(RULES[0], SECONDS), ['1 ok 1 -'])
        nodes.link(first, 'down')
        other.takes_over(second)
        with other.serving(second) as program:
            two.connect_pipes(other.place, program)
            compare('the second node', two.ask(RULES[0], SECONDS), ['1 ok 2 -'])
            nodes.link(first, 'up')
            nodes.waits('the first node is back', lambda: nodes.run(first, 'touch', nodes.disk(first, 'back')).returncode == 0)
            return one.ask(RULES[1], SECONDS), two.ask(RULES[1], SECONDS)


def both_answer(standby, other):
    """The node that was away gives a number again which the other one has given."""
    begun(standby, 'off')
    compare('without strict locks', unfenced(standby, other), (['2 ok 2 -'], ['2 ok 3 -']))
    print('without fencing and strict locks: number 2 is given twice', flush=True)


def is_refused(standby, other):
    """With strict locks the volume refuses what the node writes that was away."""
    begun(standby, 'on')
    compare('with strict locks', unfenced(standby, other), (['2 no device'], ['2 ok 3 -']))
    print('without fencing, with strict locks: the node that was away answers device', flush=True)


# The whole

def can_mount(count):
    """Whether nodes can be made here and a volume mounted. If not, prints why."""
    if not count.has('standby', *TOOLS):
        return False
    missing = [name for name in ('/dev/fuse', COPIER) if not os.path.exists(name)]
    if missing or os.geteuid():
        count.leaves_out('standby', f'{missing[0]} is not there' if missing else 'only root makes namespaces')
    return not missing and not os.geteuid()


def volume(stack):
    """Three nodes with a volume, for as long as the stack is there."""
    made = stack.enter_context(nodes(stack.enter_context(tempfile.TemporaryDirectory())))
    made.has_volume()
    return made


def main():
    words, count = options(__doc__, failovers=1), Count()
    end_on_signals()
    print(f'seed {words.seed}', flush=True)
    dice = random.Random(words.seed)
    with contextlib.ExitStack() as stack:
        first, second = (stack.enter_context(place(words.program)) for _ in range(2))
        made = can_mount(count) and count.case('three nodes with a volume', volume, stack)
        if made:
            standby, other = (Standby(made, words.program[0], one, dice) for one in (first, second))
            count.case('failovers', failovers, standby, words.failovers)
            for case in is_refused, both_answer:
                count.case(case.__name__, case, standby, other)
    count.end()


if __name__ == '__main__':
    main()
