#!/usr/bin/env python3
"""Runs the built program for each of its exit statuses, and over streams that give and take little at a time, and compares
what it writes with the independent reading (tests/reading/). Prints a line for each case, and last 'N passed, M failed'.
Usage: tests/run program PROGRAM (the program itself, not a script that starts it)"""
import contextlib
import fcntl
import os
import pathlib
import re
import select
import signal
import socket
import struct
import subprocess
import sys
import tempfile
import termios
import time

import disk_files
import reading
import refusing
from running import SECONDS, Differs, compare, ends, gives, started

HERE = pathlib.Path(__file__).resolve().parent
TOP = HERE.parent.parent
EXAMPLE = (TOP / 'examples' / 'commands.txt').read_bytes()
ANSWERS = (TOP / 'examples' / 'answers.txt').read_bytes()
EVERY_FORM = (HERE / 'growths.txt').read_bytes()
ON_FILE, ON_MEMORY = b'fault: file -\n', b'fault: memory\n'
# 100 messages of 2,040 bits for one radio: one answer lists its mail, in 55,000 bytes
MESSAGES = [b'%d 3 sds 234-14-1 234-14-2 2040:8200%02X' % (k + 3, k) + b'A5' * 252 for k in range(100)]
LONG = b'\n'.join([b'1 0 rule 234-14-0/24 1 99 1 3600', b'2 1 mm 234-14-1 7 10:260', *MESSAGES, *[b'mail 234-14-2'] * 3, b''])


def without(stream):
    """What a process does that is to start with this stream closed."""
    return {'preexec_fn': lambda: os.close(stream)}


def waits(is_so):
    """Waits until it is so."""
    until = time.monotonic() + SECONDS
    while not is_so():
        if time.monotonic() > until:
            raise Differs(f'nothing happened for {SECONDS} seconds')
        time.sleep(0)


def queued(pipe):
    """How many bytes wait in a pipe."""
    return struct.unpack('i', fcntl.ioctl(pipe, termios.FIONREAD, b'\0' * 4))[0]


def sleeps(program):
    """Whether the program is within a call that waits, or has ended."""
    return pathlib.Path(f'/proc/{program.pid}/stat').read_text().rpartition(') ')[2][0] in 'SZ'


def receives(output, wanted, seconds=SECONDS):
    """Reads as many bytes as are wanted, or what comes in that time."""
    got = b''
    while len(got) < len(wanted) and select.select([output], [], [], seconds)[0]:
        piece = os.read(output.fileno(), len(wanted) - len(got))
        if not piece:
            break
        got += piece
    compare('output', got, wanted)


# The sample

def the_example(command):
    """The answers beside the lines of examples/ are those of the independent reading and of the program."""
    compare('the independent reading', reading.serve(EXAMPLE)[0], ANSWERS)
    gives(command, 0, ANSWERS, data=EXAMPLE)


def the_readme(_):
    """Each line of the sample in README.md is in examples/, in the same order and with the same answer, or the first line of it."""
    pairs = iter([(line, told) for line, (answer, _) in zip(EXAMPLE.decode().splitlines(), reading.answers(EXAMPLE))
                  for line, told in zip([line, *[''] * len(answer)], answer)])
    for row in (TOP / 'README.md').read_text().split('```')[3].splitlines()[1:]:
        if tuple(re.split('   +', row)) not in pairs:
            raise Differs(f'the sample has {row!r}')


def the_manual(command):
    """The examples of docs/tetra-switch.1, one after another in a folder with the settings of examples/; a file that is shown there
    is made."""
    text = (TOP / 'docs' / 'tetra-switch.1').read_text().replace('\\-', '-')
    examples = re.findall(r'^    \$ (.*)\n((?:    [^$].*\n)*)', text, re.M)
    compare('examples', len(examples) > 4, True)
    with disk_files.place(command) as folder:
        folder.write('settings.toml', (TOP / 'examples' / 'settings.toml').read_bytes())
        for line, shown in examples:
            shown = re.sub('^    ', '', shown, flags=re.M)
            if line.startswith('cat '):
                folder.write(line[len('cat '):], shown.encode())
            else:
                folder.prints(line, shown)


# The statuses


def no_line(command):
    gives(command, 0, stdin=subprocess.DEVNULL)


def a_bad_line(command):
    gives(command, 1, b'count 0\nline 2 bad syntax\ncount 0\n', data=b'count\nno such\ncount\n')


def a_word(command):
    for words in ['count'], [''], ['--', 'count']:
        with started([*command, *words], stdin=subprocess.DEVNULL, stdout=subprocess.PIPE) as program:
            compare('output', program.communicate(timeout=SECONDS)[0], b'')
            compare('status', program.returncode, 2)


def a_directory_to_read(command):
    with tempfile.TemporaryDirectory() as folder:
        opened = os.open(folder, os.O_RDONLY)
        gives(command, 4, err=ON_FILE, stdin=opened)
        os.close(opened)


def closed_input(command):
    gives(command, 4, err=ON_FILE, stdin=None, **without(0))


def input_that_is_only_written(command):
    with open(os.devnull, 'wb') as opened:
        gives(command, 4, err=ON_FILE, stdin=opened)


def input_that_fails_behind_lines(command):
    """A socket, reset while bytes are on their way to its other end."""
    ours, theirs = socket.socketpair()
    with started(command, stdin=theirs, stdout=subprocess.PIPE) as program:
        ours.sendall(EXAMPLE + b'count')
        receives(program.stdout, reading.serve(EXAMPLE)[0])
        theirs.sendall(b'not read')
        ours.close()
        compare('output', ends(program, 4, ON_FILE), b'')
    theirs.close()


def closed_output(command):
    gives(command, 4, err=ON_FILE, data=EXAMPLE, stdout=None, **without(1))


def full_output(command):
    with open('/dev/full', 'wb') as full:
        gives(command, 4, err=ON_FILE, data=EXAMPLE, stdout=full)


def output_that_is_only_read(command):
    with open(os.devnull, 'rb') as opened:
        gives(command, 4, err=ON_FILE, data=EXAMPLE, stdout=opened)


def output_that_ends_between(command):
    """The reader of the output closes it. What it received is a prefix of the answers."""
    with started(command, stdin=subprocess.PIPE, stdout=subprocess.PIPE) as program:
        front = reading.serve(EXAMPLE)[0]
        program.stdin.write(EXAMPLE)
        program.stdin.flush()
        receives(program.stdout, front)
        program.stdout.close()
        program.stdout = None
        with contextlib.suppress(BrokenPipeError):
            program.stdin.write(b'count\n' * 3)
            program.stdin.flush()
        waits(lambda: program.poll() is not None)
        with contextlib.suppress(BrokenPipeError):
            program.stdin.close()
        program.stdin = None
        ends(program, 4, ON_FILE)


def nowhere_to_tell_of_it(command):
    with open('/dev/full', 'wb') as full:
        gives(command, 4, data=EXAMPLE, stdout=full, **without(2))


def no_memory(command):
    if refusing.is_script(command):
        raise Differs('this is a script, and not the program')
    with refusing.library() as made:
        gives(command, 5, err=ON_MEMORY, data=EXAMPLE, env=refusing.environment(made, 1))


# The streams

def bytes_one_by_one(command):
    """Each is written when the one before was read."""
    wanted, troubled = reading.serve(EXAMPLE)
    read, write = os.pipe()
    with started(command, stdin=read, stdout=subprocess.PIPE) as program:
        for byte in EXAMPLE:
            os.write(write, bytes([byte]))
            waits(lambda: not queued(read))
        os.close(write)
        compare('output', ends(program, int(troubled)), wanted)
    os.close(read)


def many_pieces(command):
    """4,500 of them, each written when the one before was read."""
    pieces, (read, write) = 4500, os.pipe()
    with started(command, stdin=read, stdout=subprocess.PIPE) as program:
        for _ in range(pieces):
            os.write(write, b'count\n')
            waits(lambda: not queued(read))
        os.close(write)
        compare('output', ends(program, 0), b'count 0\n' * pieces)
    os.close(read)


def lines_one_by_one(command):
    """Each line is answered, from its first byte to its last, before the next is sent."""
    text = EVERY_FORM + b'no such\n' + EXAMPLE.replace(b'\n', b'\r\n')
    told = [''.join(line + '\n' for line in answer).encode() for answer, _ in reading.answers(text)]
    with started(command, stdin=subprocess.PIPE, stdout=subprocess.PIPE) as program:
        for line, wanted in zip(text.split(b'\n'), told):
            os.write(program.stdin.fileno(), line + b'\n')
            receives(program.stdout, wanted)
        compare('output', ends(program, 1), b''.join(told[text.count(b'\n'):]))


def lines_in_parts(command):
    """Half a line is not answered, and the lines before it are; the last line has no end."""
    with started(command, stdin=subprocess.PIPE, stdout=subprocess.PIPE) as program:
        for part, wanted in (b'count\ncount\nwhe', b'count 0\n' * 2), (b're 1-2-3\ncou', b'where 1-2-3 unknown\n'), (b'nt', b''):
            os.write(program.stdin.fileno(), part)
            receives(program.stdout, wanted)
            compare('an answer within half a line:', select.select([program.stdout], [], [], 0.2)[0], [])
        compare('output', ends(program, 0), b'count 0\n')


def output_that_takes_little(command):
    """A pipe of 4,096 bytes, of which a few are taken at a time. Where it is full the program is stopped and goes on: the write
    that it was in has then written a part."""
    wanted, troubled = reading.serve(LONG)
    read, write = os.pipe()
    fcntl.fcntl(write, fcntl.F_SETPIPE_SZ, 4096)
    with tempfile.TemporaryFile() as text, open(read, 'rb', buffering=0) as output:
        text.write(LONG)
        text.seek(0)
        with started(command, stdin=text, stdout=write) as program:
            os.close(write)
            for at in range(0, len(wanted), 50):
                if at % 10000 == 5000:
                    waits(lambda: sleeps(program))
                    program.send_signal(signal.SIGSTOP)
                    os.waitid(os.P_PID, program.pid, os.WSTOPPED | os.WEXITED | os.WNOWAIT)
                    program.send_signal(signal.SIGCONT)
                receives(output, wanted[at:at + 50])
            compare('more output', output.read(), b'')
            ends(program, int(troubled))


CASES = [
    the_example, the_readme, the_manual, no_line, a_bad_line, a_word, a_directory_to_read, closed_input, input_that_is_only_written,
    input_that_fails_behind_lines, closed_output, full_output, output_that_is_only_read, output_that_ends_between,
    nowhere_to_tell_of_it, no_memory, bytes_one_by_one, many_pieces, lines_one_by_one, lines_in_parts, output_that_takes_little,
]


def main():
    command, failed = sys.argv[1:], 0
    if not command:
        sys.exit(__doc__)
    for case in CASES:
        told = 'passed'
        try:
            case(command)
        except (Differs, subprocess.TimeoutExpired) as fault:
            told, failed = f'FAILED: {fault}', failed + 1
        print(f'{case.__name__}: {told}', flush=True)
    print(f'{len(CASES) - failed} passed, {failed} failed')
    sys.exit(1 if failed else 0)


if __name__ == '__main__':
    main()
