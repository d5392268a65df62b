#!/usr/bin/env python3
"""Counts what a line costs on a small register and on a full one: its allocations in a run of the program on a disk (count.c, preloaded),
and its instructions, where valgrind is installed. Threads of a run that wait would count too, so these are counted of LINES, which answers
lines of standard input by one thread over a register in memory (crates/bench_registers). No line's cost may grow with the whole of a table, so a
full table may cost a line a few times as much and not hundreds of times. No line may take more than four times the bytes of the longest
line, or hold more than its answer once it is answered. PDUs of up to 64 bits take no allocation, nor do marks, a station's number and
orders that are forbidden. A listing of a full register may make a few
allocations in all, as its text grows. A checkpoint may make a few for each entry of the register, for its copy. A check, a listing, a dump
and a checkpoint beside commits may take some sixteen times the instructions on sixteen times the size (disk_costs.py). Every figure is the
difference of two runs, so that starting and opening the disk cost nothing. Prints the figures, the cases that fail, and last 'N passed,
M failed'.
Usage: tests/run costs PROGRAM LINES (the programs themselves, not a script that starts them)"""
import pathlib
import re
import shutil
import subprocess

import preloading
from disk_costs import by_size
from disk_files import DISK, LINES, MEMORY, place, settings
from running import Differs, compare
from streams import groups
from testing import Count, options

COUNTER = pathlib.Path(__file__).resolve().parent / 'count.c'
# The tables of a small register and of a full one. The records of a case take less than half of a half: no checkpoint begins.
SMALL, FULL, HALF = 16, 4096, 60_000
# How many times a line costs on a full register: groups attached cost most, some 4.1 times, the more the less a line costs beside its tables.
# A copy of the register takes some five allocations for each radio.
MOST_TIMES, MOST_PER_CHECKPOINT, LINES_EACH = 5, 64 + 6 * FULL, 512
# Bytes of a line. A run keeps the answers to a line and to the query after it, some 30 bytes, for a moment three times.
MOST_BYTES, MOST_HELD = 4 * 1024, 128
# What comes after each command that is committed alone, and how many such lines are served
ALONE, ALONE_EACH = b'\ncount\n', 32
LISTINGS, MOST_PER_LISTING = ('rules', 'radios', 'radios 234-14-0/24', 'items', 'due 4294967295', 'waiting 1', 'last 1', 'room', 'dump'), 40
NEEDS_NOTHING = 'mark ' + 'x' * 32, 'station', '1 0 expire', '1 0 rule 234-14-0/24 1 99 1 3600'
RADIO, ATTACH = '234-14-{}', '10:260'


def settings_of(size, journal=HALF):
    return settings(rules=min(size, 4096), radios=size, mail=size, journal=journal).encode()


def filling(size):
    """Commands that fill rules, radios and items: each radio has a rule of its own, is attached, and has one message."""
    for radio in range(size):
        name = RADIO.format(radio + 1)
        yield f'rule {name}/48 0 16383 1 999999999'
        yield f'mm {name} 7 {ATTACH}'
    for radio in range(size - 1):
        yield f'sds {RADIO.format(radio + 1)} {RADIO.format(size - radio)} 40:8200{radio % 256:02X}04AA'


def attaches(size, count):
    return (f'mm {RADIO.format(k * 7 % size + 1)} 8 {ATTACH}' for k in range(count))


def messages(size, count):
    """A message and its deletion, from one radio after the other."""
    for k in range(count // 2):
        source, target = RADIO.format(k * 7 % size + 1), RADIO.format(k * 11 % size + 1)
        yield f'sds {source} {target} 40:8200FF04AA'
        yield f'delete {target} {source} 255 m'


def expiries(size, count):
    return ('expire' for _ in range(count))


def rules(size, count):
    return (f'rule {RADIO.format(k * 7 % size + 1)}/48 0 16383 1 999999999' for k in range(count))


def attachments(size, count):
    """To two groups; the answer has more than 64 bits."""
    return (groups.grouping([groups.attaching(1000), groups.attaching(1001)], RADIO.format(k * 7 % size + 1)) for k in range(count))


KINDS = [rules, attaches, attachments, messages, expiries]


def commands(bodies, first=1):
    return ''.join(f'{first + k} 1 {body}\n' for k, body in enumerate(bodies)).encode()


class Costs:
    """The program on disks of one size, whose allocations are counted. `after_each` comes after each command."""

    def __init__(self, there, made, size, journal=HALF):
        self.there, self.made, self.size, self.after_each = there, made, size, b'\n'
        there.write('s.toml', settings_of(size, journal))
        there.path(DISK).unlink(missing_ok=True)
        self.run(['format', 's.toml', DISK])
        self.serve(filling(size))
        there.copy(DISK, 'full.img')

    def run(self, words):
        ran = subprocess.run([*self.there.command, *words], cwd=self.there.folder, capture_output=True, text=True, timeout=120,
                             env=preloading.environment(self.made, COUNTED='counted'))
        if ran.returncode not in (0, 1):
            raise Differs(f'{words} ended with status {ran.returncode}: {ran.stderr[:200]}')
        return ran

    def serve(self, bodies):
        """Serves these commands of station 1, all of which have to be accepted."""
        self.there.write(LINES, commands(bodies, self.next_sequence()).replace(b'\n', self.after_each))
        told = self.run(['run', DISK, LINES]).stdout.split('\n')[1:-1]
        are_accepted([line for line in told if not line.startswith('count ')])

    def next_sequence(self):
        return int(self.run(['show', DISK, 'count']).stdout.split()[1]) + 1

    def figures(self):
        """The allocations of the last run, their bytes, and the most bytes at once."""
        return [int(figure) for figure in self.there.path('counted').read_text().split()]

    def counted(self, kind, count):
        self.there.copy('full.img', DISK)
        self.serve(kind(self.size, count))
        return self.figures()[0]

    def asked(self, query, count):
        """Allocations of a run that asks the full register so many times."""
        self.there.copy('full.img', DISK)
        self.there.write(LINES, f'{query}\n'.encode() * count)
        self.run(['run', DISK, LINES])
        return self.figures()[0]

    def said(self, line, count):
        """Allocations of a service in which a station that may give no orders says this line so many times."""
        self.there.copy('full.img', DISK)
        self.there.write(LINES, f'{line}\n'.encode() * count)
        self.run(['serve', '--orders', '2', DISK, LINES, '/dev/null', '-', '-'])
        return self.figures()[0]


class Figure:
    """Another one of the figures of such runs."""

    def __init__(self, costs, figure):
        self.costs, self.figure = costs, figure

    def counted(self, kind, count):
        self.costs.counted(kind, count)
        return self.costs.figures()[self.figure]


class InMemory:
    """The program without a disk, whose allocations are counted."""

    def __init__(self, there, made):
        self.there, self.environment = there, preloading.environment(made, COUNTED=there.path('counted'))

    def counted(self, kind, count):
        lines = commands([*filling(SMALL), *kind(SMALL, count)])
        ran = subprocess.run(self.there.command, input=lines, capture_output=True, timeout=120, env=self.environment)
        are_accepted(ran.stdout.decode().split('\n')[:-1])
        return int(self.there.path('counted').read_text().split()[0])


class Instructions:
    """Lines over a register of one size in memory, whose instructions are counted."""

    def __init__(self, program, size):
        self.command, self.size = ['valgrind', '--tool=callgrind', '--callgrind-out-file=/dev/null', *program], size

    def counted(self, kind, count):
        lines = commands([*filling(self.size), *kind(self.size, count)])
        ran = subprocess.run(self.command, input=lines, capture_output=True, timeout=120)
        are_accepted(ran.stdout.decode().split('\n')[:-1])
        return int(re.search(r'Collected : (\d+)', ran.stderr.decode())[1])


def are_accepted(answers):
    compare('lines that were not accepted', [line for line in answers if ' ok ' not in line][:3], [])


def a_line(of, kind, lines=LINES_EACH):
    """What one line of the kind costs."""
    few, many = (of.counted(kind, count) for count in (lines, 3 * lines))
    return (many - few) / (2 * lines)


def a_line_over_full_tables(small, full, kind, what):
    costs = [a_line(of, kind) for of in (small, full)]
    print(f'{kind.__name__}: {costs[0]:,.1f} and {costs[1]:,.1f} {what} a line', flush=True)
    if costs[1] > MOST_TIMES * max(costs[0], 1):
        raise Differs(f'a line costs {costs[1]:,.1f} {what} on a full register, {costs[0]:,.1f} on a small one')


def at_most(of, kind, most, what, lines=LINES_EACH):
    each = a_line(of, kind, lines)
    print(f'{kind.__name__}: {each:,.1f} {what} a line', flush=True)
    if each > most:
        raise Differs(f'{each:,.1f} {what} a line')


def without_allocations(in_memory):
    """An attach has a PDU of 10 bits, answered by 8; `expire` has none."""
    at_most(in_memory, attaches, a_line(in_memory, expiries) + 0.1, 'allocations without a disk')


def no_allocations(small, line):
    each = (small.said(line, 3 * LINES_EACH) - small.said(line, LINES_EACH)) / (2 * LINES_EACH)
    print(f'{line}: {each:,.2f} allocations', flush=True)
    if each > 0.05:
        raise Differs(f'{each:,.2f} allocations a line')


def held(full):
    """Each line is committed alone."""
    full.after_each = ALONE
    at_most(Figure(full, 2), expiries, MOST_HELD, 'more bytes held', ALONE_EACH)


def a_listing(full, query):
    each = (full.asked(query, 12) - full.asked(query, 4)) / 8
    print(f'{query}: {each:,.1f} allocations', flush=True)
    if each > MOST_PER_LISTING:
        raise Differs(f'a listing makes {each:,.1f} allocations')


def a_checkpoint(there, made, full):
    """Lines on a full register, with a half that is full after each 18 commits, and with one that has room for all. In the small half
    a checkpoint begins with a copy of the register, and has no time to end; a whole one then makes room."""
    small_half = Costs(there, made, FULL, 38)
    small_half.after_each = full.after_each = ALONE
    each = (a_line(small_half, expiries) - a_line(full, expiries)) * 18
    print(f'a checkpoint: {each:,.1f} allocations', flush=True)
    if each > MOST_PER_CHECKPOINT:
        raise Differs(f'a checkpoint makes {each:,.1f} allocations')


def main():
    words, count = options(__doc__), Count()
    program, lines = words.program[:1], words.program[1:]
    with preloading.library(COUNTER) as made, place(program, MEMORY) as one, place(program, MEMORY) as other:
        small, full = Costs(one, made, SMALL), Costs(other, made, FULL)
        measured = [('allocations', small, full)]
        if shutil.which('valgrind'):
            measured.append(('instructions', Instructions(lines, SMALL), Instructions(lines, FULL)))
        for what, few, many in measured:
            for kind in KINDS:
                count.case(f'{kind.__name__}, {what}', a_line_over_full_tables, few, many, kind, what)
        for kind in KINDS:
            count.case(f'{kind.__name__}, bytes', at_most, Figure(full, 1), kind, MOST_BYTES, 'bytes')
        count.case('PDUs of few bits', without_allocations, InMemory(one, made))
        for line in NEEDS_NOTHING:
            count.case(line, no_allocations, small, line)
        count.case('bytes held', held, full)
        for query in LISTINGS:
            count.case(query, a_listing, full, query)
        count.case('a checkpoint', a_checkpoint, one, made, full)
    if shutil.which('valgrind'):
        by_size(program, count)
    count.end()


main()
