#!/usr/bin/env python3
"""Stops `serve` (kill -9) at random moments, again and again, while 4 stations talk over named pipes. The disks begin in either layout,
on a device and in memory, and checkpoints go on beside. A station sends a line, waits for its answer, and sends the next. After each
stop it sends the unanswered line again.
- All answers must be those of a run that nothing stops: each command gets its PDU, the numbers have no gap, and none comes twice
  except as `kept`.
- After each stop the disk must open to a prefix of these commands.
The same is done with stations that send several lines at once, and send those again that a stop left unanswered. Of the commands among
these that were done, the last is answered `kept` and each earlier one `old-sequence`: so the records on the disk must give all answers.
`last` shows which was the last, and other queries what they have done.
Then the test records the calls of such runs (record.c, compiled and preloaded), and takes moments between them. At each moment the
writes since the last sync are done, left out or torn. Each image must open to a prefix of the commands that contains every one whose
answer was written. Bugs planted in the record must be found. The independent reading (tests/reading/) judges all of this. Prints the
seed, what was found, and last 'N passed, M failed'.
Usage: tests/run serve_stops PROGRAM [--moments N] [--lines N] [--seconds N] [--seed N]"""
import functools
import random
import signal
import time

import recording
from base_stations import LAST, STATIONS, Gone, Resending, Station, at_once, finish, go_on, judge, names_of, serving_pipes, status_of, stop
from disk_files import DISK, MEMORY, place, register_of
from images import are_same
from made_disks import FORMS
from many_files import LONG, SHORTEST, empty, stands_for
from reading_disks import NUMBERED, PLAIN, opens
from reading_orders import Answered, number_of
from recorded_orders import Written as Records
from recorded_orders import order_on
from recorder import recorder
from running import Differs, compare
from station_lines import lines
from station_stops import (answers_before_the_last_sync, begins, count_on, followed, gates_left_as_they_are, gates_with_their_data, moments,
                           shown, taken, without_data, without_last_data, without_syncs)
from testing import Count, options

# How many lines of each station take as long as the latest stop, and the most that a station sends by then
LATEST, MOST = 40, 150
# How many lines a station sends at once
TOGETHER = 2, 5, 16, 30
# How a command that was done is answered when it is sent again
WORDS = 'kept', 'old-sequence'


# Stops

def resending(dice, count):
    return [Resending(number, lines(dice, count)) for number in range(1, STATIONS + 1)]


def is_prefix(order, register):
    compare('the disk of a stop has no more commands than the last one', register.count < len(order.registers), True)
    compare('the disk of a stop stands for a prefix of the commands', are_same(order.registers[register.count], register), True)


def stopped(place, form, dice, count):
    """So many stops; how many commands each has left, and how many of those that were sent again were kept."""
    begins(place, form, SHORTEST, DISK, STATIONS)
    stations, left = resending(dice, count * MOST + LATEST + LAST), []
    start = time.monotonic()
    go_on(place, stations, LATEST)
    latest = time.monotonic() - start
    for _ in range(count):
        stop(place, stations, signal.SIGKILL, dice.uniform(0, latest))
        left.append(register_of(place.image()))
    go_on(place, stations)
    order = judge(place, stations)
    for register in left:
        is_prefix(order, register)
    return [register.count for register in left], sum(station.kept() for station in stations)


def all_stops(words, dice, count):
    told = []
    for form in FORMS:
        for name, folder in ('a device', None), ('memory', MEMORY):
            with place(words.program, folder) as there:
                one = count.case(f'{FORMS[form]}, {name}', stopped, there, form, dice, words.moments // 4)
            told += [one] if one else []
            print(f'{FORMS[form]}, {name}: commands at each stop, and how many that were sent again were kept: {one}', flush=True)
    count.case('a command was kept whose answer was not written', compare, 'any', any(kept for _, kept in told), True)


# Several lines at once

class Several(Station):
    """A base station that sends several lines at once, and the next ones when these are answered."""

    def __init__(self, number, lines, together):
        super().__init__(number)
        self.lines, self.together, self.at, self.unanswered = lines, together, 0, []
        # How many of the next lines were done before a stop, and how these were answered
        self.done, self.again = 0, []

    def talk(self, place, program, end=None):
        """Sends its lines up to this place, and ends. Without one it sends all but the last ones, and waits until the program ends."""
        try:
            self.connect_pipes(place, program)
            last = end or len(self.lines) - LAST
            while self.at < last:
                self.ask_together(self.lines[self.at:min(self.at + self.together, last)])
            self.end() if end else self.receive()
        except Gone:
            self.leave()

    def ask_together(self, lines):
        self.unanswered, before = list(lines), self.sent
        self.send(b'\n'.join(lines))
        self.sent = before + len(lines)
        for number, line in enumerate(lines, before + 1):
            told = [one.replace(f'line {number} bad', f'line {len(self.pairs) + 1} bad') for one in self.answer(line)]
            self.pairs.append(Answered(line, told))
            self.again += told[:1] if self.done > 0 else []
            self.unanswered.pop(0)
            self.at, self.done = self.at + 1, self.done - 1

    def stopped(self, order):
        """Of the lines that were not answered those may be done up to the last that is on the disk."""
        self.done = count_on(order, self.number, self.unanswered)
        self.pairs += [Answered(line, None) for line in self.unanswered[:self.done]]
        self.unanswered = []


def order_of_disk(place, stations):
    """By its records: there was no checkpoint."""
    return order_on(empty(STATIONS), [station.lines for station in stations], Records(place.image()).commands)


def served_on(place, stations, end):
    """Serves them until each has sent its lines up to this place."""
    with serving_pipes(place, STATIONS) as program:
        at_once([functools.partial(station.talk, place, program, end) for station in stations])
        finish(program, status_of(stations))


def several(dice, count):
    return [Several(number, lines(dice, count), together) for number, together in enumerate(TOGETHER, 1)]


def several_stopped(place, form, dice, count):
    """So many stops; how many lines that were done before one are then answered by each of WORDS."""
    begins(place, form, LONG, DISK, STATIONS)
    stations, start = several(dice, count * MOST + LATEST + LAST), time.monotonic()
    served_on(place, stations, LATEST)
    latest = time.monotonic() - start
    for _ in range(count):
        stop(place, stations, signal.SIGKILL, dice.uniform(0, latest))
        left = order_of_disk(place, stations)
        shown(place, left.registers[-1], dice)
        for station in stations:
            place.shows(left.registers[-1], f'last {station.number}')
            station.stopped(left)
    served_on(place, stations, max(station.at for station in stations) + LAST)
    order = order_of_disk(place, stations)
    for station in stations:
        followed(order, station.number, station.pairs)
    stands_for(place, order.registers[-1])
    again = [told for station in stations for told in station.again]
    return [sum(f' {word} ' in told for told in again) for word in WORDS]


def several_stops(words, dice, count):
    told = []
    for form, folder in ((NUMBERED, None), (PLAIN, MEMORY)):
        with place(words.program, folder) as there:
            one = count.case(f'several lines at once, {FORMS[form]}', several_stopped, there, form, dice, words.moments // 4)
        told += [one] if one else []
    print(f'several lines at once: how many of those that were sent again were {" and ".join(WORDS)}: {told}', flush=True)
    for word, numbers in zip(WORDS, zip(*told)):
        count.case(f'a command was {word}', compare, 'any', any(numbers), True)


# Calls recorded

class Written:
    """Which registers a stop may leave, as a record of calls goes on: those with all commands whose answers are written. The stations
    have so many other commands at most."""

    def __init__(self, order, others):
        self.order, self.last, self.others = order, 0, others

    def follow(self, done):
        if done.kind == 'o':
            self.last = max([self.last, *(number_of([said]) or 0 for said in done.bytes.decode().split('\n'))])

    def registers(self):
        return self.order.registers[self.last:self.last + self.others + 1]


def recorded(made, stations, count):
    """A run's image before, its record, and its order."""
    place = made.place
    begins(place, PLAIN, SHORTEST, DISK, STATIONS)
    image = place.image()
    answers = [names_of(station.number)[1] for station in stations]
    with serving_pipes(place, STATIONS, env=made.environment(files=(), answers=answers)) as program:
        at_once([functools.partial(station.talk, place, program, count) for station in stations])
        finish(program, status_of(stations))
    order = judge(place, stations)
    if opens(place.image()).epoch <= (1 if isinstance(stations[0], Several) else 2):
        raise Differs(f'{opens(place.image()).epoch - 1} checkpoints')
    return image, made.record(), order


def written_before_the_last_sync(record):
    return answers_before_the_last_sync(record, 'o')


BUGS = [without_syncs, gates_with_their_data, written_before_the_last_sync, without_data, without_last_data, gates_left_as_they_are]


def bug_found(image, record, order, others, change, dice):
    planted = change(record)
    compare('the record changed', planted != record, True)
    compare('found', recording.any_fault(moments(image, planted, Written(order, others)), dice), True)


def torn(made, stations, dice, count, words):
    whole = count.case('a run recorded', recorded, made, stations, words.lines)
    if not whole:
        return
    image, record, order = whole
    others = sum(getattr(station, 'together', 1) for station in stations)
    for change in BUGS:
        count.case(change.__name__, bug_found, *whole, others, change, dice)
    taken(list(moments(image, record, Written(order, others))), dice, count, words.seconds // 2)


def main():
    words = options(__doc__, moments=20, lines=60, seconds=8)
    print(f'seed {words.seed}', flush=True)
    dice, count = random.Random(words.seed), Count()
    all_stops(words, dice, count)
    several_stops(words, dice, count)
    with place(words.program, MEMORY) as there, recorder(there) as made:
        for stations in resending(dice, words.lines), several(dice, words.lines):
            torn(made, stations, dice, count, words)
    count.end()


if __name__ == '__main__':
    main()
