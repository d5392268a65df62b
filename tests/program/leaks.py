#!/usr/bin/env python3
"""Counts the blocks of memory that the program has not freed when it ends (refuse.c, preloaded, which refuses nothing here): over lines
of all kinds on a disk beside whose commits checkpoints end, and on one where each is abandoned; over files that fail; of each subcommand.
The C library keeps one block for each thread that was made, so there are as many as stations, and none without. Prints the seed, the cases
that fail, and last 'N passed, M failed'.
Usage: tests/run leaks PROGRAM (the program itself, not a script that starts it; a build whose heap is the C library's)"""
import random
import subprocess

import refusing
from changed_texts import TEXT
from disk_files import DISK, LINES, MEMORY, place, text
from dumping import short_streams
from full_disks import disk_of, full
from loaded import LIMITS, LOAD, TOML, image_of, ready
from many_files import LONG, SHORTEST, formats
from reading_disks import opens
from reading_rows import SECTOR
from reading_texts import register_in
from running import compare
from sizes import attaching_all
from station_lines import data_of, lines
from streams import U, demand
from testing import Count, options

SECONDS, COUNT, ITEMS, RULE = 60, 400, 250, 'rule 0-0-0/0 0 16383 1 60'


class Ends:
    """A place whose program tells at its end how many blocks it has not freed."""

    def __init__(self, there, made):
        self.there, self.held = there, there.path('held')
        self.environment = refusing.environment(made, 0, held=str(self.held))

    def with_none(self, words, threads=0, statuses=(0,), data=b''):
        """Runs the program with these words: it has only the blocks of so many threads."""
        ended = subprocess.run([*self.there.command, *words], input=data, capture_output=True, cwd=self.there.folder, timeout=SECONDS,
                               env=self.environment)
        compare(f'the status of {words} is one of {statuses}', ended.returncode in statuses, True)
        compare(f'blocks that {words[:1]} has not freed', refusing.held_blocks(self.held)[0], threads)


def in_memory(ends, dice):
    for _, data in short_streams():
        ends.with_none([], 0, (0, 1), data)


def on_a_disk(ends, dice):
    """Beside no checkpoint, and beside many that end."""
    for journal in LONG, SHORTEST:
        formats(ends.there, 4, journal)
        ends.there.write(LINES, data_of(lines(dice, COUNT)))
        ends.with_none(['run', DISK, LINES], 1, (0, 1))
        ends.with_none(['serve', DISK], 1, (0, 1), data_of(lines(dice, COUNT)))
    compare('checkpoints were made', opens(ends.there.image()).epoch > 2, True)


def checkpoints_abandoned(ends, dice):
    """No half has room for the commits beside which all items would be written: each checkpoint that begins is abandoned. The records are
    long, also where they have many commands."""
    ends.there.put(disk_of(full(ITEMS), journal=SHORTEST))
    bodies = [RULE, demand(3), *[attaching_all(U, 14, 32)] * 130]
    ends.there.write(LINES, text(f'{sequence} 0 {body}' for sequence, body in enumerate(bodies, 1)))
    ends.with_none(['run', DISK, LINES], 1)
    compare('checkpoints were made', opens(ends.there.image()).epoch > 2, True)


def on_a_damaged_disk(ends, dice):
    """A root, the header, and each row."""
    good = image_of(register_in(TEXT, LIMITS))
    for at in (1, *range(3, 14)):
        ends.there.put([*good[:at], bytes(SECTOR), *good[at + 1:]])
        for words in ['show', DISK, 'count'], ['run', DISK, LINES], ['dump', DISK], ['check', DISK], ['check', '--rest', DISK]:
            ends.with_none(words, 0, (4, 5))


def other_words(ends, dice):
    ready(ends.there, TEXT)
    ends.with_none(LOAD)
    shown = [['show', DISK, *query.split()] for query in ('disk', 'items', 'radios', 'groups 234-14-2001')]
    for words in ['dump', DISK], ['check', DISK], ['check', '--rest', DISK], *shown:
        ends.with_none(words)
    for words, status in ((LOAD, 4), (['format', TOML, DISK], 4), (['show', DISK, 'x'], 1), (['run', DISK, 'no.txt'], 4), (['--help'], 0),
                          (['no'], 2)):
        ends.with_none(words, 0, (status,))
    for at, line in enumerate(TEXT.splitlines()):
        ready(ends.there, TEXT.replace(line, line + b' x'))
        ends.with_none(LOAD, 0, (3,))


def main():
    words, count = options(__doc__), Count()
    print(f'seed {words.seed}', flush=True)
    with refusing.library() as made:
        for case in in_memory, on_a_disk, checkpoints_abandoned, on_a_damaged_disk, other_words:
            with place(words.program, MEMORY) as there:
                count.case(case.__name__, case, Ends(there, made), random.Random(words.seed))
    count.end()


if __name__ == '__main__':
    main()
