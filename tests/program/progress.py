#!/usr/bin/env python3
"""What the built program prints on a terminal while it serves, dumps, loads and checks. Standard error is a pseudo terminal. The lines
come over a pipe, with a second between them; reads and syncs of the disk are slow (slow.c, compiled and preloaded). Prints the
cases that fail, and last 'N passed, M failed'.
Usage: tests/run progress PROGRAM (the program itself, not a script that starts it)"""
import contextlib
import os
import pathlib
import pty
import re
import subprocess
import termios
import threading
import time

import preloading
from changed_texts import TEXT
from disk_files import DISK, file_fault, run_cases
from loaded import DUMP, LIMITS, LOAD, image_of, loaded_line, ready
from reading_texts import register_in, text_of
from recorder import recorder
from running import SECONDS, Differs, compare

# A second, and what a timer may be late; and how long hundreds of commands may take on a busy machine
PAUSE, LONG = 1.1, 3 * SECONDS
FIRST = b'1 0 rule 234-14-0/24 1 99 1 3600\n2 10 mm 234-14-2001 7 10:260\n'
FIRST_SAID = b'1 ok 1 -\n2 ok 2 8:56\n'
# A query, an empty line, a comment, a bad line, and the last command again
REST = b'count\n\n#\nx\n2 10 mm 234-14-2001 7 10:260'
REST_SAID = b'count 2\nline 6 bad syntax\n2 kept 2 8:56\n'
ALL_LINES, ALL_ACCEPTED = 7, 2
SERVED, LINES, SECTORS = b'\r%d lines, %d accepted', b'\r%d lines', b'\r%d sectors'
SLOW = pathlib.Path(__file__).resolve().parent / 'slow.c'
# The read that takes more than a second
SLOW_READ = 5


class Terminal:
    """A pseudo terminal that echoes nothing, and all that is written to it."""

    def __init__(self):
        self.master, self.slave = pty.openpty()
        modes = termios.tcgetattr(self.slave)
        modes[3] &= ~termios.ECHO
        termios.tcsetattr(self.slave, termios.TCSANOW, modes)
        self.text = b''
        self.reading = threading.Thread(target=self.read, daemon=True)
        self.reading.start()

    def read(self):
        with contextlib.suppress(OSError):
            while piece := os.read(self.master, 4096):
                self.text += piece

    def ends(self):
        """Nobody has it open any more: all that was written to it."""
        os.close(self.slave)
        self.reading.join(SECONDS)
        os.close(self.master)
        return self.text


def judged(text, form, last, err=b''):
    """The figures never go down, the last ones are these, and their line ends; then comes a fault. Returns all figures."""
    err = err.replace(b'\n', b'\r\n')
    if not text.endswith(b'\r\n' + err):
        raise Differs(f'the terminal {text!r}, wanted an end of the line, and {err!r}')
    told = text[:len(text) - len(err) - 2]
    figures = [tuple(map(int, one.groups())) for one in re.finditer(re.escape(form).replace(b'%d', rb'(\d+)'), told)]
    compare('the terminal', told, b''.join(form % one for one in figures))
    compare('figures', figures, sorted(figures))
    compare('the last figures', figures[-1:], [last])
    if len(figures) < 2:
        raise Differs(f'the figures were told at the end alone: {text!r}')
    return figures


def serving(place, words, pieces, stdin=subprocess.DEVNULL, name='a.txt', pause=PAUSE, **how):
    """Starts the program, and sends it the pieces with pauses between; gives the output and the status."""
    with subprocess.Popen([*place.command, *words], cwd=place.folder, stdin=stdin, stdout=subprocess.PIPE, **how) as program:
        lines = program.stdin or open(place.path(name), 'wb', buffering=0)
        with contextlib.suppress(BrokenPipeError), lines:
            for piece in pieces:
                lines.write(piece)
                lines.flush()
                time.sleep(pause)
        program.stdin = None
        out, err = program.communicate(timeout=LONG)
        return out, err, program.returncode


def piped(place):
    place.format()
    os.mkfifo(place.path('a.txt'))


def over_a_disk(place):
    piped(place)
    terminal = Terminal()
    ended = serving(place, ['run', 'd.img', 'a.txt'], [FIRST, REST], stderr=terminal.slave)
    text = terminal.ends()
    compare('output and status', ended, (b'station 1 a.txt\n' + FIRST_SAID + REST_SAID, None, 1))
    judged(text, SERVED, (ALL_LINES, ALL_ACCEPTED))


def over_two_stations(place):
    """The figures are those of both, also between, where each has served its first lines."""
    piped(place)
    place.write('b.txt', b'1 0 expire\n# a remark\n1 0 expire\n')
    terminal = Terminal()
    out, _, status = serving(place, ['run', 'd.img', 'a.txt', 'b.txt'], [FIRST, REST], stderr=terminal.slave, pause=2.5)
    text = terminal.ends()
    compare('lines and status', (len(out.splitlines()), status), (9, 1))
    figures = judged(text, SERVED, (ALL_LINES + 3, ALL_ACCEPTED + 1))
    compare('the first figures', figures[0], (FIRST.count(b'\n') + 3, ALL_ACCEPTED + 1))


def within_a_piece(place):
    """The second station's lines count while its piece is served slowly, though the first one gets another piece meanwhile. No more
    commands are accepted than lines are served."""
    piped(place)
    place.write('b.txt', b''.join(b'%d 0 expire\n' % sequence for sequence in range(1, 101)))
    terminal = Terminal()
    with preloading.library(SLOW) as slow:
        out, _, status = serving(place, ['run', 'd.img', 'a.txt', 'b.txt'], [b'', b'# a remark\n'], stderr=terminal.slave, pause=1.2,
                                 env=preloading.environment(slow, SYNCS=16))
    text = terminal.ends()
    compare('lines and status', (len(out.splitlines()), status), (102, 0))
    figures = judged(text, SERVED, (101, 100))
    compare('figures with more commands than lines', [one for one in figures if one[0] < one[1]], [])


def once_a_second(place):
    """Hundreds of lines are served in more than a second."""
    place.format()
    place.write('a.txt', b''.join(b'%d 0 expire\n' % sequence for sequence in range(1, 301)))
    terminal, start = Terminal(), time.monotonic()
    with preloading.library(SLOW) as slow:
        program = subprocess.run([*place.command, 'run', 'd.img', 'a.txt'], cwd=place.folder, stdin=subprocess.DEVNULL, stdout=subprocess.DEVNULL,
                                 stderr=terminal.slave, timeout=LONG, env=preloading.environment(slow, SYNCS=8))
    compare('status', program.returncode, 0)
    figures = judged(terminal.ends(), SERVED, (300, 300))
    compare('reports each second, and at the end', len(figures) <= time.monotonic() - start + 1, True)


def over_standard_input(place):
    terminal = Terminal()
    ended = serving(place, [], [FIRST, REST], stdin=subprocess.PIPE, stderr=terminal.slave)
    text = terminal.ends()
    compare('output and status', ended, (FIRST_SAID + REST_SAID, None, 1))
    judged(text, SERVED, (ALL_LINES, ALL_ACCEPTED))


def no_terminal(place):
    piped(place)
    ended = serving(place, ['run', 'd.img', 'a.txt'], [FIRST, REST], stderr=subprocess.PIPE)
    compare('output, standard error and status', ended, (b'station 1 a.txt\n' + FIRST_SAID + REST_SAID, b'', 1))
    ended = serving(place, [], [FIRST, REST], stdin=subprocess.PIPE, stderr=subprocess.PIPE)
    compare('output, standard error and status', ended, (FIRST_SAID + REST_SAID, b'', 1))


def less_than_a_second(place):
    place.format()
    place.write('a.txt', FIRST)
    terminal = Terminal()
    program = subprocess.run([*place.command, 'run', 'd.img', 'a.txt'], cwd=place.folder, stdin=subprocess.DEVNULL,
                             stdout=subprocess.PIPE, stderr=terminal.slave, timeout=SECONDS)
    compare('the terminal', terminal.ends(), b'')
    compare('output', program.stdout, b'station 1 a.txt\n' + FIRST_SAID)


def a_dialogue(place):
    """If the answers or the lines are on a terminal too, the program prints no figures between them."""
    terminal = Terminal()
    with subprocess.Popen(place.command, stdin=subprocess.PIPE, stdout=terminal.slave, stderr=terminal.slave) as program:
        for piece in FIRST, REST:
            program.stdin.write(piece)
            program.stdin.flush()
            time.sleep(PAUSE)
        program.communicate(timeout=SECONDS)
    compare('the terminal', terminal.ends(), (FIRST_SAID + REST_SAID).replace(b'\n', b'\r\n'))
    terminal = Terminal()
    with subprocess.Popen(place.command, stdin=terminal.slave, stdout=subprocess.PIPE, stderr=terminal.slave) as program:
        for piece in FIRST, REST + b'\n\4':
            os.write(terminal.master, piece)
            time.sleep(PAUSE)
        out, _ = program.communicate(timeout=SECONDS)
    compare('the terminal', terminal.ends(), b'')
    compare('output', out, FIRST_SAID + REST_SAID)


def a_terminal_that_goes(place):
    """The terminal closes. That the figures can't be printed changes nothing else."""
    piped(place)
    master, slave = pty.openpty()
    with subprocess.Popen([*place.command, 'run', 'd.img', 'a.txt'], cwd=place.folder, stdin=subprocess.DEVNULL,
                          stdout=subprocess.PIPE, stderr=slave) as program:
        os.close(slave)
        with open(place.path('a.txt'), 'wb', buffering=0) as lines:
            lines.write(FIRST)
            os.close(master)
            time.sleep(PAUSE)
            lines.write(REST)
        out, _ = program.communicate(timeout=SECONDS)
    compare('status', program.returncode, 1)
    compare('output', out, b'station 1 a.txt\n' + FIRST_SAID + REST_SAID)


def a_fault_behind_it(place):
    """Standard output is full. The fault's line comes after the figures."""
    piped(place)
    terminal = Terminal()
    with open('/dev/full', 'wb') as full, subprocess.Popen(
            [*place.command, 'run', 'd.img', 'a.txt'], cwd=place.folder, stdin=subprocess.DEVNULL, stdout=full, stderr=terminal.slave) as program:
        with open(place.path('a.txt'), 'wb', buffering=0) as lines:
            for piece in FIRST, REST:
                lines.write(piece)
                time.sleep(PAUSE)
        compare('status', program.wait(SECONDS), 4)
    judged(terminal.ends(), SERVED, (ALL_LINES, ALL_ACCEPTED), file_fault('-'))


# Dumps, loadings and checks

def slowly(place, words, **how):
    """What the program prints, its status, and what it prints on a terminal as standard error, when a read of the disk is slow."""
    terminal = Terminal()
    with preloading.library(SLOW) as slow:
        program = subprocess.run([*place.command, *words], cwd=place.folder, stdin=subprocess.DEVNULL, timeout=SECONDS,
                                 env=preloading.environment(slow, AT=SLOW_READ), **{'stdout': subprocess.PIPE, 'stderr': terminal.slave, **how})
    return program.stdout, program.returncode, terminal.ends()


def a_dump(place):
    """Once to a pipe; and once to the terminal, which gets no figures."""
    register = register_in(TEXT, LIMITS)
    place.put(image_of(register))
    out, status, text = slowly(place, ['dump', DISK])
    compare('output and status', (out, status), (text_of(register), 0))
    judged(text, LINES, (out.count(b'\n'),))
    terminal = Terminal()
    compare('standard error', slowly(place, ['dump', DISK], stdout=terminal.slave)[1:], (0, b''))
    compare('the terminal', terminal.ends(), out.replace(b'\n', b'\r\n'))


def a_loading(place):
    ready(place, TEXT)
    os.remove(place.path(DUMP))
    os.mkfifo(place.path(DUMP))
    terminal = Terminal()
    ended = serving(place, LOAD, [TEXT[:len(TEXT) // 2], TEXT[len(TEXT) // 2:]], name=DUMP, stderr=terminal.slave)
    text = terminal.ends()
    compare('output and status', ended, (loaded_line(LIMITS), None, 0))
    judged(text, LINES, (TEXT.count(b'\n'),))


def a_check(place):
    """As many sectors as the file had reads."""
    place.format()
    with recorder(place) as made:
        subprocess.run([*place.command, 'check', DISK], cwd=place.folder, env=made.environment(), stdin=subprocess.DEVNULL,
                       stdout=subprocess.PIPE, timeout=SECONDS, check=True)
        sectors = sum(done.kind == 'p' for done in made.record())
    _, status, text = slowly(place, ['check', DISK])
    compare('status', status, 0)
    judged(text, SECTORS, (sectors,))


def slow_without_a_terminal(place):
    place.put(image_of(register_in(TEXT, LIMITS)))
    for words in ['dump', DISK], ['check', DISK]:
        with preloading.library(SLOW) as slow:
            program = subprocess.run([*place.command, *words], cwd=place.folder, stdin=subprocess.DEVNULL, capture_output=True,
                                     timeout=SECONDS, env=preloading.environment(slow, AT=SLOW_READ))
        compare('standard error and status', (program.stderr, program.returncode), (b'', 0))


CASES = [
    over_a_disk, over_two_stations, within_a_piece, once_a_second, over_standard_input, no_terminal, less_than_a_second, a_dialogue,
    a_terminal_that_goes, a_fault_behind_it, a_dump, a_loading, a_check, slow_without_a_terminal,
]


if __name__ == '__main__':
    run_cases(__doc__, CASES)
