"""Instructions of the program over disks of one size and of sixteen times that size, counted by valgrind: a check of damaged rows, each
listing, and commits beside which a whole checkpoint is made. What grows with the size alone takes some sixteen times as many; what begins
anew for each row or entry takes hundreds of times as many."""
import os
import re
import shutil
import subprocess

from disk_files import DISK, MEMORY, place
from full_disks import disk_of, full, served_beside
from reading_disks import layout_on
from reading_rows import SECTOR
from running import Differs, compare

SMALL, LARGE, MOST_TIMES = 256, 4096, 20
# Of commits, whose waiting threads count too
MOST_BESIDE = 45
LISTINGS = 'rules', 'radios', 'radios 0-0-0/1', 'items', 'due 4294967295', 'waiting 1', 'dump'


def under_valgrind(program):
    started = os.path.abspath(program[0]), *program[1:]
    return [shutil.which('valgrind'), '--tool=callgrind', '--callgrind-out-file=/dev/null', '--fair-sched=yes', *started]


def counted(said):
    """The instructions in what valgrind prints."""
    return int(re.search(rb'Collected : (\d+)', said)[1])


def ran(place, words, status):
    ended = subprocess.run([*place.command, *words], cwd=place.folder, stdin=subprocess.DEVNULL, capture_output=True, timeout=600)
    compare('status', ended.returncode, status)
    return counted(ended.stderr)


def a_check(place, size):
    """Of a disk all of whose items are damaged, on the side that does not count."""
    register = full(size)
    first = layout_on(disk_of(register)).slot(1) + 1
    place.put(disk_of(register, {first + k: bytes(SECTOR) for k in range(size)}))
    damaged = ran(place, ['check', DISK], 5)
    place.put(disk_of(register, {first - 1: bytes(SECTOR)}))
    return damaged - ran(place, ['check', DISK], 5)


def opening(place):
    return ran(place, ['show', DISK, 'count'], 0)


def printed(place, size, words):
    """Beside the opening of the disk."""
    place.put(disk_of(full(size, size)))
    return ran(place, words, 0) - opening(place)


def beside_commits(place, size):
    return counted(served_beside(place, size)[1]) - opening(place)


def grows(there, name, most, measured, *arguments):
    """On sixteen times the size it takes at most so many times the instructions."""
    small, large = (measured(there, size, *arguments) for size in (SMALL, LARGE))
    print(f'{name}: {small:,} and {large:,} instructions, {large / small:.1f} times', flush=True)
    if large > most * small:
        raise Differs(f'{large / small:.1f} times the instructions on 16 times the size')


def by_size(program, count):
    with place(under_valgrind(program), MEMORY) as there:
        count.case('a check', grows, there, 'a check', MOST_TIMES, a_check)
        for words in [*(['show', DISK, *query.split(' ')] for query in LISTINGS), ['dump', DISK]]:
            name = ' '.join(words)
            count.case(name, grows, there, name, MOST_TIMES, printed, words)
        count.case('commits', grows, there, 'commits beside a checkpoint', MOST_BESIDE, beside_commits)
