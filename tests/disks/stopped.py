#!/usr/bin/env python3
"""Stops the program (kill -9) at random moments while it serves a station's file on a disk, which began in either layout.
- After each stop the disk must open, by the independent reading (tests/reading/), to a prefix of the file's accepted commands. `show`
  must print the same of every radio, group, item and rule.
- The same run again must answer the commands of that prefix `kept` or `old-sequence`, and the rest as a run that nothing stopped.
  Then the disk opens to all commands.
Prints the seed, what was found, and last 'N passed, M failed'.
Usage: tests/run stopped PROGRAM [--moments N] [--lines N] [--seed N]"""
import random
import subprocess
import time

import reading
from disk_files import DISK, LINES, place, register_of, shows_all
from images import are_same
from made_disks import FORMS
from reading_disks import NUMBERED, opens
from running import Differs, compare
from station_lines import Serving, data_of, lines
from testing import Count, options

READY = 'ready.img'


class Script:
    """A station's file, and what a run that nothing stops answers."""

    def __init__(self, dice, count):
        self.lines = lines(dice, count)
        self.whole = Serving(reading.Register(), self.lines)
        self.total = len(self.whole.registers) - 1

    def run_on(self, register):
        """What a run over this register answers."""
        return Serving(register, self.lines)


# The runs

def runs(place, serving):
    """Serves the whole file, and compares the answers."""
    place.gives(['run', DISK, LINES], int(serving.troubled), serving.text())


def stops(place, moment):
    """Serves the file until that moment, in seconds from the start."""
    command = [*place.command, 'run', DISK, LINES]
    how = {'cwd': place.folder, 'stdin': subprocess.DEVNULL, 'stdout': subprocess.PIPE, 'stderr': subprocess.PIPE}
    with subprocess.Popen(command, **how) as program:
        time.sleep(moment)
        program.kill()
        _, said = program.communicate()
    compare('standard error', said, b'')


# What is left

def front_on(place, script):
    """The register that the disk opens to. It must be that of a prefix of the file's accepted commands."""
    register = register_of(place.image())
    if register.count > script.total or not are_same(register, script.whole.registers[register.count]):
        raise Differs(f'a register of {register.count} commands that no front of the file makes')
    return register


def is_of_the_front(words):
    return words[1] == 'kept' or words[1:3] == ['no', 'old-sequence']


def resent(script, again, count):
    """Checks the answers of the run after a stop. The first `count` commands are answered `kept` or `old-sequence`, and each later line as
    in a run that nothing stopped."""
    counts, before = script.whole.counts, [0, *script.whole.counts]
    for place, (first, told) in enumerate(zip(script.whole.answers, again.answers)):
        if before[place] >= count and told != first:
            raise Differs(f'line {place + 1} is answered {told!r}, wanted {first!r}')
        if before[place] < min(counts[place], count) and not is_of_the_front(told[0].split(' ')):
            raise Differs(f'line {place + 1} is answered {told[0]!r}, though its command was kept')


def one_stop(place, script, moment):
    """How many commands were kept, and how many queries were asked."""
    place.copy(READY, DISK)
    stops(place, moment)
    register = front_on(place, script)
    asked = shows_all(place, register)
    again = script.run_on(register)
    resent(script, again, register.count)
    runs(place, again)
    compare('the number of commands', front_on(place, script).count, script.total)
    return register.count, asked


# The whole

def whole_run(place, script):
    """Seconds that a run takes which nothing stops, on a disk made ready."""
    place.copy(READY, DISK)
    start = time.monotonic()
    runs(place, script.whole)
    took = time.monotonic() - start
    register = front_on(place, script)
    compare('the number of commands', register.count, script.total)
    compare('the layout of the side that a checkpoint left', opens(place.image()).form, NUMBERED)
    shows_all(place, register)
    return took


def ready(place, script, form):
    place.begins(form, READY)
    place.write(LINES, data_of(script.lines))


def falls_within(told, total):
    """Some stops were within the run."""
    if not any(0 < kept < total for kept, _ in told):
        raise Differs('no stop fell between the first command and the last')


def stops_in(place, script, dice, count, moments):
    """What was found at so many stops. Each moment is drawn from a span. A stop that came too late shortens the span; any other one
    lengthens it."""
    span, told = count.case('a run that nothing stops', whole_run, place, script), []
    for number in range(1, moments + 1 if span else 0):
        moment = dice.uniform(0, span)
        one = count.case(f'stop {number}', one_stop, place, script, moment)
        told += [one] if one else []
        span = moment if one and one[0] == script.total else 1.05 * span
    return told


def stopped(place, script, form, dice, count, moments):
    print(f'a disk that begins in {FORMS[form]}', flush=True)
    count.case('a disk made ready', ready, place, script, form)
    told = stops_in(place, script, dice, count, moments)
    count.case('the moments', falls_within, told, script.total)
    kept = sorted(number for number, _ in told)
    print(f'{len(told)} stops of a run of {script.total} commands; kept: {" ".join(map(str, kept))}')
    print(f'{sum(asked for _, asked in told)} queries asked after the stops')


def main():
    words = options(__doc__, moments=20, lines=240)
    print(f'seed {words.seed}', flush=True)
    dice, count = random.Random(words.seed), Count()
    script = Script(dice, words.lines)
    for form in FORMS:
        with place(words.program) as folder:
            stopped(folder, script, form, dice, count, words.moments)
    count.end()


if __name__ == '__main__':
    main()
