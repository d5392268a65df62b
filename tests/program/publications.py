#!/usr/bin/env python3
"""Refuses each allocation of crates/bench_readers in turn (refuse.c, preloaded), one and then two neighbours: it makes a
publisher with viewers, appends commands and publishes them, each call again while it is refused. Where the publisher is
made, all has to be published in the end, and no refused publication may change what a viewer reads or what is pending.
Every run has to free all its blocks. The first runs in which nothing is refused end the test. Prints 'N passed, M failed' last.
Usage: tests/run publications PROGRAM (crates/bench_readers, a proved build)"""
import collections
import pathlib
import re
import subprocess
import sys
import tempfile

import refusing

TOLD = re.compile(r'(\d+) appends refused, (\d+) publications refused, (\d+) wrong, (all|not all) published\n')


class Runs:
    """Runs of the program, and how often each kind was seen."""

    def __init__(self, command, library, folder):
        self.command, self.library, self.held = command, library, pathlib.Path(folder, 'held')
        self.seen = collections.Counter()

    def run(self, refused, refusals):
        ran = subprocess.run(self.command, stdin=subprocess.DEVNULL, capture_output=True, text=True, timeout=60,
                             env=refusing.environment(self.library, refused, refusals, str(self.held)))
        told = TOLD.fullmatch(ran.stdout)
        return ran.returncode, told and (*map(int, told.groups()[:3]), told[4]), refusing.held_blocks(self.held)[0]

    def kind(self, refused, refusals):
        status, told, held = self.run(refused, refusals)
        if (status, told, held) == (5, None, 0):
            return 'no memory for its words'
        if status != 0 or told is None or told[2] or held:
            print(f'allocation {refused}, {refusals} refused: status {status}, {told}, {held} blocks not freed')
            return 'WRONG'
        appends, publications = told[:2]
        if told[3] == 'not all' and (appends, publications) != (0, 0):
            print(f'allocation {refused}, {refusals} refused: {told}, and not all was published in the end')
            return 'WRONG'
        if told[3] == 'not all':
            return 'not made'
        return f'publications refused {publications} times' if publications else f'appends refused {appends} times'

    def sweep(self, refusals):
        refused, unchanged = 1, 0
        while unchanged < 3:
            kind = self.kind(refused, refusals)
            self.seen[kind] += 1
            unchanged = unchanged + 1 if kind == 'appends refused 0 times' else 0
            refused += 1


def main():
    command = sys.argv[1:]
    if not command or refusing.is_script(command):
        sys.exit(__doc__)
    with refusing.library() as library, tempfile.TemporaryDirectory() as folder:
        runs = Runs(command, library, folder)
        for refusals in (1, 2):
            runs.sweep(refusals)
    refusing.end(runs.seen, ('not made', 'publications refused 1 times', 'publications refused 2 times'))


main()
