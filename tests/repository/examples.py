#!/usr/bin/env python3
"""Checks that a test runs each example in the documentation. The lines between two ``` of a `///` comment must be consecutive lines of
a file in a crate of tests, crates/NAME_tests. Prints 'N passed, M failed' last.
Usage: tests/run examples"""
import pathlib
import re
import sys

CRATES = pathlib.Path(__file__).resolve().parents[2] / 'crates'


def sources(crates):
    return sorted(file for crate in CRATES.glob(crates) for file in crate.glob('src/**/*.rt'))


def lines_of(text):
    return [line.strip() for line in text.splitlines()]


def examples(file):
    """Each example's lines, and the place of its first."""
    lines = lines_of(file.read_text())
    marks = [at for at, line in enumerate(lines) if re.match(r'///\s*```', line)]
    for start, end in zip(marks[::2], marks[1::2]):
        yield start + 2, [line[3:].strip() for line in lines[start + 1:end]]


def stands_in(example, lines):
    return any(lines[at:at + len(example)] == example for at in range(len(lines)))


def main():
    tests = [lines_of(file.read_text()) for file in sources('*_tests')]
    passed, failed = 0, 0
    for file in sources('*'):
        for place, example in examples(file):
            if any(stands_in(example, lines) for lines in tests):
                passed += 1
            else:
                failed += 1
                print(f'{file.relative_to(CRATES.parent)}:{place}: no test has these lines')
    print(f'{passed} passed, {failed} failed')
    sys.exit(1 if failed or not passed else 0)


main()
