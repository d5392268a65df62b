#!/usr/bin/env python3
"""Runs a program on the worked cases of rows/*.txt, each from an empty register, and compares its answers. In these files
`== NAME` begins a case. `< LINE` is a line that the program gets. `> ANSWER`, right below it, is an answer that the program
must give to that line. Lines that begin with # are remarks. Between `< ` and the end, `\\r` and `\\x20` are the bytes 13
and 32. The status must be 1 if an answer reports a bad line, and else 0.
Prints the first difference of each case that fails, and last 'N passed, M failed'.
Usage: tests/run rows COMMAND..."""
import pathlib
import subprocess
import sys

FOLDER = pathlib.Path(__file__).resolve().parent / 'rows'


def cases(text):
    """For each case its name, what the program gets and what it has to write."""
    for case in text.split('\n== ')[1:]:
        name, *rows = case.split('\n')
        given = [row[2:].replace('\\r', '\r').replace('\\x20', ' ') for row in rows if row.startswith('<')]
        wanted = [row[2:] for row in rows if row.startswith('>')]
        if len(given) + len(wanted) != sum(row != '' and not row.startswith('#') for row in rows):
            sys.exit(f'{name}: a row is neither a line nor an answer')
        yield name, given, wanted


def difference(command, given, wanted):
    """None, or how the program answers otherwise."""
    data = ''.join(line + '\n' for line in given).encode()
    run = subprocess.run(command, input=data, capture_output=True, timeout=60)
    got, want = run.stdout.decode(errors='replace'), ''.join(line + '\n' for line in wanted)
    status = int(any(line.startswith('line ') and ' bad ' in line for line in wanted))
    if got == want and run.returncode == status:
        return None
    lines = got.split('\n')
    at = next((k for k, line in enumerate(wanted) if lines[k:k + 1] != [line]), len(wanted))
    show = lambda lines: repr(lines[at][:200]) if at < len(lines) else 'nothing'
    return f'answer {at + 1} is {show(lines)}, wanted {show(wanted)}; status {run.returncode}, wanted {status}'


def main():
    command, passed, failed = sys.argv[1:], 0, 0
    if not command:
        sys.exit(__doc__)
    for file in sorted(FOLDER.glob('*.txt')):
        for name, given, wanted in cases(file.read_text()):
            fault = difference(command, given, wanted)
            passed, failed = passed + (fault is None), failed + (fault is not None)
            if fault:
                print(f'{file.name}: {name}: {fault}')
    print(f'{passed} passed, {failed} failed')
    sys.exit(1 if failed or not passed else 0)


if __name__ == '__main__':
    main()
