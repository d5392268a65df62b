#!/usr/bin/env python3
"""Runs a program on hostile input (the modules of streams) and compares each answer with the
independent reading (tests/reading/). Prints a line for each kind of input, the first difference of a
kind that fails, and last 'N passed, M failed' (streams compared).
Usage: tests/run hostile COMMAND..."""
import itertools
import subprocess
import sys

import reading
from streams import group_messages, groups, lines, listings, locations, messages

KINDS = lines.KINDS + locations.KINDS + groups.KINDS + messages.KINDS + group_messages.KINDS + listings.KINDS


def differs(command, data):
    """None, or the first difference and the line that it answers."""
    wanted, troubled = reading.serve(data)
    run = subprocess.run(command, input=data, capture_output=True, timeout=120)
    if run.stdout == wanted and run.returncode == int(troubled):
        return None
    got, want = run.stdout.splitlines(), wanted.splitlines()
    at = next((k for k, (g, w) in enumerate(zip(got, want)) if g != w), min(len(got), len(want)))
    ends = itertools.accumulate(len(told) for told, _ in reading.answers(data))
    line = next((given for given, end in zip(reading.lines_of(data), ends) if end > at), b'(none)')
    show = lambda lines: lines[at][:200] if at < len(lines) else b'(nothing)'
    return (f'after {line[:200]!r} output line {at + 1} is {show(got)!r}, wanted {show(want)!r}; '
            f'status {run.returncode}, wanted {int(troubled)}; the input begins {data[:80]!r}')


def main():
    command, passed, failed = sys.argv[1:], 0, 0
    if not command:
        sys.exit(__doc__)
    for kind in KINDS:
        inputs = list(kind())
        faults = [fault for fault in (differs(command, data) for data in inputs) if fault]
        passed, failed = passed + len(inputs) - len(faults), failed + len(faults)
        total = sum(len(reading.lines_of(data)) for data in inputs)
        print(f'{kind.__name__}: {len(inputs)} streams of {total} lines, {len(faults)} differ')
        if faults:
            print('  ' + faults[0])
    print(f'{passed} passed, {failed} failed')
    sys.exit(1 if failed else 0)


if __name__ == '__main__':
    main()
