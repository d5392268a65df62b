"""A program's allocations refused: refuse.c, compiled and preloaded. The program's heap has to be the C library's, as in
every proved build, by either compiler; what `rt try` builds has a heap of its own."""
import contextlib
import pathlib
import sys

import preloading

SOURCE = pathlib.Path(__file__).resolve().parent / 'refuse.c'


def library():
    """The compiled file, for as long as it is used."""
    return preloading.library(SOURCE)


def environment(made, number, refusals=1, held='', also=0, thread=0):
    """The environment in which some of a program's allocations get no memory: `refusals` of them from this number on,
    counted from 1, and the one of the number `also`. The thread of the number `thread` is not made. At its end the program writes into the file `held` how many
    blocks it did not free, and how many it asked for."""
    named = {'HELD': held} if held else {}
    return preloading.environment(made, REFUSED=number, REFUSALS=refusals, ALSO=also, THREAD=thread, **named)


def held_blocks(held):
    """How many blocks the program did not free, and how many it asked for."""
    return tuple(map(int, held.read_text().split()))


def is_script(command):
    """Whether the command is a text that a shell reads: its shell's allocations would be refused too."""
    with contextlib.suppress(OSError), open(command[0], 'rb') as program:
        return program.read(2) == b'#!'
    return False


def end(seen, kinds):
    """Prints how many runs were of each kind, and last 'N passed, M failed'. A run of each of these kinds has to be among them."""
    for kind in kinds:
        if not seen[kind]:
            print(f'no run was of the kind: {kind}')
            seen['WRONG'] += 1
    failed = seen['WRONG']
    print(', '.join(f'{kind}: {count}' for kind, count in seen.items()))
    print(f'{sum(seen.values()) - failed} passed, {failed} failed')
    sys.exit(1 if failed else 0)
