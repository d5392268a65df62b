#!/usr/bin/env python3
"""Refuses each allocation of crates/bench_sessions in turn (refuse.c, preloaded). It opens a centre, and one session submits four
commands, each again while memory runs out; it says what the session saw. No answer or read may be wrong, and in the end the
register has each command once. Where a command was kept and not published, each later allocation is refused too: the next
round answers out of memory and commits nothing. Every run has to free all its blocks but one: the C library keeps the table
of a thread's storage (`allocate_dtv`) once the thread has ended. The program's first allocations are for the words of its command
line. Prints 'N passed, M failed' last.
Usage: tests/run sessions PROGRAM (crates/bench_sessions, a proved build)"""
import collections
import pathlib
import re
import subprocess
import sys
import tempfile

import refusing

SAID = re.compile(r'(\d+) unopened, (\d+) unsent, (\d+) refused, (\d+) caught up, (\d+) behind, (\d+) kept, (\d+) done, (\d+) wrong, '
                  r'(whole|not whole|not served)\n')
COUNTS = ('unopened', 'unsent', 'refused', 'caught up', 'behind', 'kept', 'done', 'wrong')
COMMANDS = 4
# How many blocks are not freed where the session's thread was made
OF_A_THREAD = 1
# How many allocations there are at most between a refused publication and the next one.
NEAR = 16
# A run without memory for the words of its command line, which ends before any other kind is seen.
WORDS = 'no memory for its words'
# What has to be seen: a run of each kind.
KINDS = (WORDS, 'nothing refused', 'not served', 'unopened', 'unsent', 'refused', 'kept', 'caught up', 'behind')


class Runs:
    """Runs of the program, and how often each kind was seen."""

    def __init__(self, command, library, folder):
        self.command, self.library, self.held = command, library, pathlib.Path(folder, 'held')
        self.seen = collections.Counter()
        status, said, held, self.allocations = self.run(0)
        fault = self.fault(status, said, held)
        if fault or said['word'] != 'whole':
            sys.exit(f'{self.command}: {fault}, {said} where nothing is refused')
        print(f'{self.allocations} allocations where nothing is refused')

    def run(self, refused, **further):
        ran = subprocess.run(self.command, stdin=subprocess.DEVNULL, capture_output=True, text=True, timeout=60,
                             env=refusing.environment(self.library, refused, held=str(self.held), **further))
        told = SAID.fullmatch(ran.stdout)
        said = told and dict(zip(COUNTS, map(int, told.groups()[:-1])), word=told[len(COUNTS) + 1])
        return ran.returncode, said, *refusing.held_blocks(self.held)

    def fault(self, status, said, held):
        """What is wrong with a run, if anything."""
        if held != (OF_A_THREAD if said and said['word'] == 'whole' else 0):
            return f'{held} blocks not freed'
        if status != 0 or said is None:
            return f'status {status}'
        if said['wrong'] or said['word'] == 'not whole':
            return 'wrong answers'
        if said['word'] == 'whole' and said['done'] != COMMANDS:
            return 'a command that was never accepted'
        return None

    def kinds(self, refused, **further):
        """The kinds of a run, each of which it counts."""
        status, said, held, _ = self.run(refused, **further)
        fault = self.fault(status, said, held)
        if (status, said, held) == (5, None, 0) and not self.seen.keys() - {WORDS}:
            kinds = [WORDS]
        elif fault:
            print(f'allocation {refused} refused, {further}: {fault}; {said}')
            kinds = ['WRONG']
        elif said['word'] == 'not served':
            kinds = ['not served']
        else:
            kinds = [kind for kind in COUNTS if kind != 'done' and said[kind]] or ['nothing refused']
        self.seen.update(kinds)
        return kinds

    def sweep(self):
        for refused in range(1, self.allocations + 4):
            if 'kept' in self.kinds(refused):
                for also in range(refused + 1, refused + NEAR):
                    self.kinds(refused, also=also)
            self.kinds(refused, refusals=2)


def main():
    command = sys.argv[1:]
    if not command or refusing.is_script(command):
        sys.exit(__doc__)
    with refusing.library() as library, tempfile.TemporaryDirectory() as folder:
        runs = Runs(command, library, folder)
        runs.sweep()
    refusing.end(runs.seen, KINDS)


main()
