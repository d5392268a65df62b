#!/usr/bin/env python3
"""Refuses each allocation of the program in turn (refuse.c, preloaded) over the lines of growths.txt,
which have every form. Each run must answer as the independent reading (tests/reading/) does, except that
at most one line is answered `no memory`. The answers after it must be as if that line had not come.
Or the run ends before its first line with `fault: memory` and status 5. Each run has to free all its
blocks. The test ends with the first run in which no answer changed and the two after it. Prints 'N passed, M failed' last.
Usage: tests/run growths PROGRAM (the program itself, not a script that starts it; a proved build by either
compiler. What `rt try` builds has a heap of its own, which nothing preloaded can refuse, and is kept in no
file: its own --fail-alloc N refuses one allocation, and compiles it anew, a minute, for each N)"""
import collections
import pathlib
import subprocess
import sys
import tempfile

import reading
import refusing
from reading_queries import LISTS, PLAIN, QUERIES

HERE = pathlib.Path(__file__).resolve().parent
DATA = (HERE / 'growths.txt').read_bytes()
LINES = DATA.split(b'\n')[:-1]


def answers(lines):
    return reading.serve(b''.join(line + b'\n' for line in lines))[0]


def run(command, library, refused, held):
    """What the program writes with that allocation refused, its status, and how many blocks it has not freed."""
    ran = subprocess.run(command, input=DATA, stdout=subprocess.PIPE, stderr=subprocess.STDOUT, timeout=60,
                         env=refusing.environment(library, refused, held=str(held)))
    return ran.stdout, ran.returncode, refusing.held_blocks(held)[0]


def wanting(at):
    """The answers when the program is out of memory for the line at this place."""
    before, after = answers(LINES[:at]), answers(LINES[:at] + [b'#'] + LINES[at + 1:])
    word = LINES[at].split(b' ')
    told = word[0] + b' no memory\n' if len(word) > 2 else b'line %d no memory\n' % (at + 1)
    return before + told + after[len(before):]


def may_want(line):
    """Whether a line may be out of memory: of the queries the lists alone."""
    word, *others = line.split(b' ')
    return bool(line) and not line.startswith(b'#') and ((word, len(others)) not in {**QUERIES, **PLAIN} or word in LISTS)


FULL = answers(LINES)
CHANGED = {wanting(at): at for at, line in enumerate(LINES) if may_want(line)}


def judged(text, status, blocks):
    if blocks:
        return 'WRONG'
    if text == FULL and status == 1:
        return 'no answer changed'
    if text in CHANGED and status == 1:
        return f'memory for line {CHANGED[text] + 1}'
    if text == b'fault: memory\n' and status == 5:
        return 'fault: memory'
    return 'WRONG'


def sweep(command, library, held):
    """How often each kind of run was seen."""
    refused, unchanged, seen = 1, 0, collections.Counter()
    while unchanged < 3:
        text, status, blocks = run(command, library, refused, held)
        kind = judged(text, status, blocks)
        seen[kind.rstrip('0123456789')] += 1
        unchanged = unchanged + 1 if kind == 'no answer changed' else 0
        if kind == 'WRONG':
            print(f'allocation {refused}: status {status}, {blocks} blocks not freed', text.decode('latin1'))
        refused += 1
    return seen


def main():
    command = sys.argv[1:]
    if not command or refusing.is_script(command):
        sys.exit(__doc__)
    with refusing.library() as library, tempfile.TemporaryDirectory() as folder:
        seen = sweep(command, library, pathlib.Path(folder, 'held'))
    if not seen['memory for line ']:
        sys.exit('no allocation was refused: the program has a heap of its own')
    failed = seen['WRONG']
    print(', '.join(f'{kind.strip()}: {count}' for kind, count in seen.items()))
    print(f'{sum(seen.values()) - failed} passed, {failed} failed')
    sys.exit(1 if failed else 0)


if __name__ == '__main__':
    main()
