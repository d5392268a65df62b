#!/usr/bin/env python3
"""Lines that come together: what the program answers does not depend on how its input is cut into reads (cut.c, preloaded). It reads
standard input without a disk, and files by `run` and `serve`. A text with every kind of line is cut at each of its bytes; long ones
are cut at random places, and read whole; and so are the files of four stations at once, and orders that are forbidden, among others.
- A line that comes alone is answered without another one; a program that waits for a second line is found.
- 64 commands of one station share two syncs, and their answers one write, without a disk too; also commands that come to the
  flusher slowly share their syncs. A long text is read in large pieces.
- A text of more reads than 16 bits count is read to its end. A signal interrupts every second read and write.
- OUT fails at each byte. What was answered stays done, and of the lines after that at most 64 may be done, in order. Beside a pair that
  is left out, at most 32 may be. Of commands that come together exactly so many are done if OUT takes nothing.
The independent reading (tests/reading/) judges all answers and disks. Prints the seed, the first cases that fail, and last
'N passed, M failed'.
Usage: tests/run pieces PROGRAM [--streams N] [--lines N] [--seed N] (the program itself, not a script that starts it)"""
import functools
import pathlib
import random
import subprocess

import preloading
import reading
from base_stations import finish, on_streams, serving
from disk_files import DISK, LINES, MEMORY, file_fault, place, register_of, text
from images import are_same
from many_files import LONG, by_chance, empty, formats, runs
from recorder import recorder
from running import Differs, compare
from station_lines import Serving, data_of, lines
from testing import Count, options

SOURCE, APART = (pathlib.Path(__file__).resolve().parent / name for name in ('cut.c', 'apart.c'))
READY, ORDERED, OUT, AT_HAND = 'ready.img', 'ordered.img', 'a.out', 64
TEXT = (b'1 0 rule 234-14-0/24 1 99 1 3600\n2 1 mm 234-14-1 7 10:260\n3 1 mm 234-14-2 7 10:260\nwhere 234-14-2\n'
        b'4 2 sds 234-14-1 234-14-2 48:820405014849\r\n4 2 sds 234-14-1 234-14-2 48:820405014849\n5 3 mm 234-14-3 100 10:260\nmail 234-14-2\n'
        b'6 4 expire\nno such\n7 4 expire x\nmark here\n\n# 8\n7 5 expire\n6 5 expire\nstation\nradios\n8 6 delete 234-14-2 234-14-1 5 m\nlast 1\n9 7 expire')
STATIONS = 4


# The text, cut

class Cutting:
    """A folder with a program that reads pieces of its files."""

    def __init__(self, there, made):
        self.there, self.made = there, made

    def environment(self, cuts=(), files=(LINES,), **others):
        """That in which reads of these files end at these places."""
        inputs = ':'.join(str(self.there.path(file)) for file in files)
        return preloading.environment(self.made, INPUTS=inputs, CUTS=''.join(f'{at}:' for at in cuts), **others)

    def answers(self, way, wanted, cuts):
        way(self.there, wanted, self.environment(cuts))


def without_a_disk(there, wanted, env):
    with there.path(LINES).open('rb') as given:
        ended = subprocess.run(there.command, stdin=given, capture_output=True, env=env, timeout=20)
    compare('output', ended.stdout, text(line for told in wanted.answers for line in told))
    compare('status', ended.returncode, int(wanted.troubled))


def is_kept(there, wanted):
    compare('the register on the disk is that of all lines', are_same(register_of(there.image()), wanted.registers[-1]), True)


def by_run(there, wanted, env):
    there.copy(READY, DISK)
    there.gives(['run', DISK, LINES], int(wanted.troubled), wanted.text(), env=env)
    is_kept(there, wanted)


def by_serve(there, wanted, env):
    there.copy(READY, DISK)
    there.path(OUT).unlink(missing_ok=True)
    there.gives(['serve', DISK, LINES, OUT], int(wanted.troubled), env=env)
    compare('answers', there.path(OUT).read_bytes(), text(line for told in wanted.answers for line in told))
    is_kept(there, wanted)


WAYS = [without_a_disk, by_run, by_serve]


def given(there, data):
    """The text in the station's file, and what a register that is empty answers."""
    there.write(LINES, data)
    return Serving(reading.Register(), reading.lines_of(data))


def without_orders(there, wanted, env):
    """By `serve`, of which station 2 alone may give orders."""
    there.copy(ORDERED, DISK)
    there.path(OUT).unlink(missing_ok=True)
    there.gives(['serve', '--orders', '2', DISK, LINES, OUT, '-', '-'], int(wanted.troubled), env=env)
    compare('answers', there.path(OUT).read_bytes(), text(line for told in wanted.answers for line in told))
    is_kept(there, wanted)


def orders_among_others(cutting, count):
    """Orders that are forbidden, among commands that are not, cut at each byte."""
    there, begins = cutting.there, Serving(reading.Register(), [TEXT.split(b'\n')[0]])
    there.write(LINES, data_of(begins.lines))
    there.copy(READY, ORDERED)
    there.gives(['run', ORDERED, LINES], 0, begins.text())
    there.write(LINES, TEXT)
    wanted = Serving(begins.registers[-1], reading.lines_of(TEXT), {2})
    compare('orders forbidden', sum(told[:1] == [f"{line.split(b' ')[0].decode()} no forbidden"] for line, told in zip(wanted.lines, wanted.answers)) > 4, True)
    for at in range(len(TEXT)):
        count.case(f'orders, cut at {at}', cutting.answers, without_orders, wanted, [at] if at else [])


def at_each_byte(cutting, count):
    wanted = given(cutting.there, TEXT)
    for way in WAYS:
        for at in range(len(TEXT)):
            count.case(f'{way.__name__}, cut at {at}', cutting.answers, way, wanted, [at] if at else [])


def through_interruptions(cutting, way, wanted):
    outputs = f'/proc/self/fd/1:{cutting.there.path(OUT)}'
    way(cutting.there, wanted, cutting.environment(INTERRUPTED=1, OUTPUT=outputs, ROOM=2 ** 30))


def interrupted(cutting, count):
    wanted = given(cutting.there, TEXT)
    for way in WAYS:
        count.case(f'{way.__name__}, interrupted', through_interruptions, cutting, way, wanted)


def many_reads(cutting, count):
    """Each gets one byte."""
    wanted = given(cutting.there, b'\n' * 70_000 + b'no such\ncount')
    for way in WAYS:
        count.case(f'{way.__name__}, 70,000 reads', way, cutting.there, wanted, cutting.environment(MOST=1))


def places(dice, length):
    """Few places in a text, or many."""
    return sorted(dice.sample(range(1, length), dice.choice([1, 3, 30, length // 20, length // 3])))


def at_random(cutting, dice, count, words):
    for number in range(1, words.streams + 1):
        data = data_of(lines(dice, words.lines))
        wanted = given(cutting.there, data)
        for way in WAYS:
            for cuts in [], places(dice, len(data)):
                count.case(f'{way.__name__}, stream {number} with {len(cuts)} cuts', cutting.answers, way, wanted, cuts)


def of_many(cutting, dice, count, words):
    """The files of stations, each cut at the same places."""
    for number in range(1, words.streams + 1):
        formats(cutting.there, STATIONS, LONG)
        files = by_chance(dice, STATIONS, words.lines // 2)
        files.write(cutting.there)
        shortest = min(len(data_of(each)) for each in files.lines)
        env = cutting.environment(places(dice, shortest) if number % 2 else [], files.names)
        count.case(f'{STATIONS} stations, streams {number}', functools.partial(runs, cutting.there, files, empty(STATIONS), env=env))


# A line alone

def alone(there, env, seconds):
    """A station sends one command at a time, and no other line while it waits for the answer, which has to come within this time."""
    there.copy(READY, DISK)
    with serving(there, ['serve', DISK], stdin=subprocess.PIPE, env=env) as program:
        station = on_streams(program)
        for number in range(1, 4):
            compare('the answer', station.ask(b'%d 0 expire' % number, seconds), [f'{number} ok {number} -'])
        station.end()
        finish(program, 0)


def batch_waits_for_more_lines(there, made):
    """A program that reads until a second line has come is found."""
    try:
        alone(there, preloading.environment(made, WAITS=2, INPUTS='/proc/self/fd/0'), 1)
    except Differs:
        return
    raise Differs('the program that waits passes')


# Syncs and writes

def expiries(commands):
    return data_of(b'%d 0 expire' % number for number in range(1, commands + 1))


def few_syncs(there, made, commands, *beside):
    """Two for each 64 commands, and two of the opening. A busy machine may part a few batches, the more the slower commands come."""
    formats(there, STATIONS, LONG)
    wanted, env = given(there, expiries(commands)), made.environment(files=())
    env['LD_PRELOAD'] = ':'.join([env['LD_PRELOAD'], *beside])
    there.gives(['run', DISK, LINES], 0, wanted.text(), env=env)
    batches = -(-commands // AT_HAND)
    syncs, most = sum(done.kind in 'sa' for done in made.record()), 2 * batches + 2 + batches // 2 * (1 + 3 * len(beside))
    compare(f'{syncs} syncs for {commands} commands are at most {most}', syncs <= most, True)


def few_syncs_apart(there, made, commands):
    """The flusher waits for commands that were submitted together, also where they come to it slowly (apart.c, preloaded)."""
    with preloading.library(APART) as slow:
        few_syncs(there, made, commands, slow)


def on_a_disk(there, made):
    formats(there, STATIONS, LONG)
    there.path(OUT).unlink(missing_ok=True)
    made.does(['serve', DISK, LINES, OUT], 0, files=(), answers=[OUT])


def by_standard_streams(there, made):
    with there.path(LINES).open('rb') as given, there.path(OUT).open('wb') as out:
        subprocess.run(there.command, stdin=given, stdout=out, env=made.environment(files=(), answers=[OUT]), timeout=20, check=True)


def few_writes(there, made, commands, way):
    """The answers to 64 lines of one read are written at once."""
    there.write(LINES, expiries(commands))
    way(there, made)
    writes, most = sum(done.kind == 'o' for done in made.record()), -(-commands // AT_HAND)
    compare(f'{writes} writes for {commands} answers are at most {most}', 0 < writes <= most, True)


def few_reads(there, made, way):
    """A text of remarks is read in pieces of some pages."""
    data = (b'#' * 1000 + b'\n') * 260 + b'count'
    way(there, given(there, data), made.environment(together=100))
    reads, most = sum(done.kind == 'r' for done in made.record()), len(data) // 4096
    compare(f'{reads} reads of {len(data)} bytes are at most {most}', 0 < reads <= most, True)


# A writer that fails

def length_of(wanted):
    return sum(len(text(told)) for told in wanted.answers)


def done_by(wanted, answered, at_hand):
    """The least and the greatest number of commands that may be done when so many bytes of the answers are written, and so many lines may
    be at hand."""
    ends, end = [], 0
    for told in wanted.answers:
        end += len(text(told))
        ends.append(end)
    whole = sum(end <= answered for end in ends)
    counts = [0, *wanted.counts]
    return counts[whole], counts[min(whole + at_hand, len(wanted.lines))]


def fails_at(cutting, wanted, room, cuts, stations=1):
    """How many commands are done. With the pairs that are left out there are so many stations, which share the lines at hand."""
    there, told = cutting.there, text(line for told in wanted.answers for line in told)
    there.copy(READY, DISK)
    there.path(OUT).write_bytes(b'')
    env = cutting.environment(cuts, OUTPUT=there.path(OUT), ROOM=room)
    there.gives(['serve', DISK, LINES, OUT, *['-', '-'] * (stations - 1)], 4, err=file_fault(OUT), env=env)
    compare('what was written', there.path(OUT).read_bytes(), told[:room])
    register, (least, most) = register_of(there.image()), done_by(wanted, room, AT_HAND // stations)
    compare(f'{register.count} commands are {least} to {most}', least <= register.count <= most, True)
    compare('the disk has a prefix of the commands', are_same(register, wanted.registers[register.count]), True)
    return register.count


def fails_at_once(cutting, stations):
    """OUT takes nothing of the answers to commands that are read whole: as many are done as may be at hand."""
    wanted = given(cutting.there, expiries(2 * AT_HAND))
    compare('commands done', fails_at(cutting, wanted, 0, [], stations), AT_HAND // stations)


def writers(cutting, dice, count, words):
    """At each byte of the answers to a short text; and of a station alone, and beside a pair that is left out, at some of a long one that
    is read whole."""
    wanted = given(cutting.there, TEXT)
    for room in range(length_of(wanted)):
        count.case(f'OUT takes {room} bytes', fails_at, cutting, wanted, room, [])
    for stations in 1, 2:
        count.case(f'OUT takes nothing, {stations} stations', fails_at_once, cutting, stations)
        data = data_of(lines(dice, words.lines))
        wanted = given(cutting.there, data)
        for room in dice.sample(range(length_of(wanted)), words.streams * 2):
            cuts = dice.choice([[], places(dice, len(data))])
            count.case(f'OUT takes {room} bytes of a long stream, {stations} stations', fails_at, cutting, wanted, room, cuts, stations)


def main():
    words = options(__doc__, streams=8, lines=300)
    print(f'seed {words.seed}', flush=True)
    dice, count = random.Random(words.seed), Count()
    with place(words.program, MEMORY) as there, preloading.library(SOURCE) as made, recorder(there) as recording:
        there.format(READY)
        cutting = Cutting(there, made)
        at_each_byte(cutting, count)
        orders_among_others(cutting, count)
        interrupted(cutting, count)
        many_reads(cutting, count)
        at_random(cutting, dice, count, words)
        of_many(cutting, dice, count, words)
        count.case('a line alone', alone, there, None, 5)
        count.case('a program that waits for a second line', batch_waits_for_more_lines, there, made)
        for commands in 1, 64, 65, 640:
            count.case(f'syncs for {commands} commands', few_syncs, there, recording, commands)
        count.case('syncs for commands that come slowly', few_syncs_apart, there, recording, 256)
        for way in on_a_disk, by_standard_streams:
            count.case(f'{way.__name__}, writes of answers', few_writes, there, recording, 640, way)
        for way in WAYS:
            count.case(f'{way.__name__}, reads of a long text', few_reads, there, recording, way)
        writers(cutting, dice, count, words)
    count.end()


if __name__ == '__main__':
    main()
