#!/usr/bin/env python3
"""Stops the program (kill -9) at random moments while it serves the files of 8 stations on a disk of either layout, with checkpoints
beside and without.
- After each stop the disk must open to an order of commands. Each station's commands in it are a prefix of the accepted ones of its
  file. `show` must print the same.
- The same run again must answer these commands `kept` or `old-sequence`, and the rest as they come then. It must end as a run without
  a stop can end.
Then the test records the calls of such runs (record.c, compiled and preloaded), in one of which a read gives several lines of a
station, and takes moments between them. At each moment the writes since the last sync are done, left out or torn, each sector of a call
on its own. Each image must open to a prefix of the order that contains everything answered by then. Bugs planted in the record must be
found, and changed orders refused. The independent reading (tests/reading/) judges all of this. Prints the seed, what was found, and last
'N passed, M failed'.
Usage: tests/run station_stops PROGRAM [--moments N] [--lines N] [--seconds N] [--seed N]"""
import random
import subprocess
import time

import recording
from disk_files import DISK, MEMORY, place, queries, register_of
from images import are_same
from made_disks import FORMS, as_plain
from many_files import LONG, SHORTEST, by_chance, empty, formats, ordered, ran, runs, stands_for
from pending import Disk
from reading_disks import PLAIN, copied, opens
from reading_orders import Answered, NoOrder, Order, answered, follows, is_troubled, parts
from reading_rows import SECTOR
from recorded_orders import Asked, Written, order_on
from recorder import follow, is_run, recorder, sectors_of
from running import Differs, compare
from testing import Count, options

STATIONS, READY, SHOWN, TOGETHER = 8, 'ready.img', 6, 8


# The order on a disk

def order_left(place, files, made):
    """The order of the commands that a stop has left, by the records on the disk, and by those that were written to it."""
    image = place.image()
    commands = Written(image).commands
    if made:
        before = Written(place.image(READY))
        for done in made.record():
            before.follow(done)
        differ = [number for number in commands if before.commands.setdefault(number, commands[number]) != commands[number]]
        compare('the records that differ from those that were written', differ, [])
        commands = {number: text for number, text in before.commands.items() if number <= opens(image).register.count}
    order = order_of_numbers(files, commands)
    stands_for(place, order.registers[-1])
    return order


def order_of_numbers(files, commands):
    try:
        return order_on(empty(STATIONS), files.lines, commands)
    except NoOrder as fault:
        raise Differs(f'the disk: {fault}')


def followed(order, station, pairs, after=0):
    try:
        return follows(order, station, pairs, after)
    except NoOrder as fault:
        raise Differs(fault)


def count_on(order, station, lines):
    """How many lines of a station come before the first of those that follow its last command in an order."""
    return 1 + max((k for k, line in enumerate(lines) if order.has(station, line)), default=-1)


def unknown(lines):
    return [Answered(line, None) for line in lines]


def prefixes(order, files):
    """Each station's commands are those that its file's first lines can have had accepted; how many of its lines these are."""
    counts = [count_on(order, station, lines) for station, lines in enumerate(files.lines, 1)]
    for station, (lines, count) in enumerate(zip(files.lines, counts), 1):
        followed(order, station, unknown(lines[:count]))
    return counts


# The same run again

def is_of_an_earlier_run(told):
    words = told[0].split(' ')
    return words[1] == 'kept' or words[1:3] == ['no', 'old-sequence']


def resent(order, stations):
    """The commands of an order are answered as such."""
    for station, pairs in enumerate(stations, 1):
        wrong = [pair for pair in pairs if order.has(station, pair.line) and not is_of_an_earlier_run(pair.told)]
        compare(f'of station {station} the answers to commands that the disk had', wrong, [])


def as_one_run(left, again, counts, stations):
    """Both orders one after the other are those of a run that nothing stopped. Nobody knows what it answered to the lines that the
    stopped run served."""
    whole = Order(left.registers[0], left.commands + again.commands)
    compare('the end is that of a run that nothing stopped', are_same(whole.registers[-1], again.registers[-1]), True)
    for station, (pairs, count) in enumerate(zip(stations, counts), 1):
        followed(whole, station, unknown(pair.line for pair in pairs[:count]))
        rest = [(number, pair) for number, pair in enumerate(pairs, 1) if number > count]
        followed(whole, station, renumbered(rest), len(left.commands))


def renumbered(rest):
    """The number of a bad line is that of the file, and here the first is 1."""
    return [Answered(pair.line, None if pair.told[:1] and pair.told[0].startswith('line ') else pair.told) for _, pair in rest]


def shown(place, register, dice):
    asked = list(queries(register))
    for query in ['count', *dice.sample(asked, min(SHOWN, len(asked)))]:
        place.shows(register, query)


# Stops

def stops(place, files, made, moment):
    """Serves the files until that moment, in seconds from the start."""
    how = {'cwd': place.folder, 'stdin': subprocess.DEVNULL, 'stdout': subprocess.PIPE, 'stderr': subprocess.PIPE}
    with subprocess.Popen([*place.command, *files.words], env=environment(files, made), **how) as program:
        time.sleep(moment)
        program.kill()
        _, said = program.communicate()
    compare('standard error', said, b'')


def environment(files, made):
    return made.environment(files=files.names) if made else None


def one_stop(place, files, made, moment, dice):
    """How many commands were left."""
    place.copy(READY, DISK)
    stops(place, files, made, moment)
    left = order_left(place, files, made)
    shown(place, left.registers[-1], dice)
    counts = prefixes(left, files)
    done = ran(place, files)
    compare('standard error', done.err, b'')
    again = ordered(copied(left.registers[-1]), files, done.out)
    stands_for(place, again.registers[-1])
    stations = [answered(lines, said) for lines, said in zip(files.lines, parts(done.out, files.names))]
    resent(left, stations)
    as_one_run(left, again, counts, stations)
    return len(left.commands), len(again.commands)


def whole_run(place, files, made):
    """Seconds that a run takes which nothing stops."""
    place.copy(READY, DISK)
    start = time.monotonic()
    runs(place, files, empty(STATIONS), env=environment(files, made))
    return time.monotonic() - start


def stops_in(place, files, made, dice, count, moments):
    """They are drawn from a time that is shorter after one that came too late, and else longer."""
    span, told = count.case('a run that nothing stops', whole_run, place, files, made), []
    for number in range(1, moments + 1 if span else 0):
        moment = dice.uniform(0, span)
        one = count.case(f'stop {number}', one_stop, place, files, made, moment, dice)
        told += [one] if one else []
        span = moment if one and one[1] == 0 else 1.05 * span
    return told


def falls_within(told):
    """Some stops were within the run."""
    compare('a stop fell between the first command and the last', any(left and rest for left, rest in told), True)


def begins(place, form, journal, name, stations=STATIONS):
    """A new disk in either layout."""
    formats(place, stations, journal, name)
    if form == PLAIN:
        place.put(as_plain(place.image(name)), name)


def stopped(place, files, made, how, dice, count, moments):
    form, journal = how
    begins(place, form, journal, READY)
    files.write(place)
    told = stops_in(place, files, made, dice, count, moments)
    print(f'{FORMS[form]}, journals of {journal} sectors, {len(told)} stops; commands left: {" ".join(str(left) for left, _ in sorted(told))}', flush=True)
    return told


# Calls recorded

def moments(image, record, asked):
    """The disk at first and after each call that changes what a stop may leave, and the registers that it may leave."""
    disk = Disk(image)
    yield recording.Moment(disk.copy(), asked.registers())
    for done in record:
        asked.follow(done)
        follow(disk, done)
        if done.kind != 'p':
            yield recording.Moment(disk.copy(), asked.registers())


def recorded(place, files, made, together):
    """A run's image before, its record, its order, and its answers. So many lines of a station come together."""
    begins(place, PLAIN, SHORTEST, DISK)
    files.write(place)
    image = place.image()
    done = ran(place, files, env=made.environment(files=files.names, together=together))
    compare('status and standard error', (done.status, done.err), (int(is_troubled(done.out)), b''))
    order = ordered(empty(STATIONS), files, done.out)
    stands_for(place, order.registers[-1])
    if together == 1 and opens(place.image()).epoch <= 2:
        raise Differs(f'{opens(place.image()).epoch - 1} checkpoints')
    return image, made.record(), order, [answered(lines, said) for lines, said in zip(files.lines, parts(done.out, files.names))]


def taken(all_moments, dice, count, seconds):
    """Takes the moments in any order for so many seconds."""
    until, tried = time.monotonic() + seconds, []
    for number, moment in dice.sample(list(enumerate(all_moments)), len(all_moments)):
        if time.monotonic() > until:
            break
        tried.append(len(count.case(f'moment {number}', recording.judged, moment, dice) or ()))
    print(f'{len(tried)} of {len(all_moments)} moments, {sum(tried)} images')


# Bugs planted in a record

def is_gate(done):
    """Whether a call opens a gate or a root: byte 0 is 1, and all others are 0."""
    return done.kind == 'w' and done.bytes == b'\1'.ljust(SECTOR, b'\0')


def is_data(done):
    """Whether a call writes a record's data, and the gate after it."""
    return is_run(done) and done.bytes[0] == 0 and any(done.bytes)


def without_syncs(record):
    return [done for done in record if done.kind != 's']


def gates_with_their_data(record):
    """No sync comes before a gate is opened."""
    return [done for done, then in zip(record, record[1:]) if not (done.kind == 's' and is_gate(then))]


def answers_before_the_last_sync(record, kind='r'):
    """A line is asked for before the gates are synced; or what else is of this kind is done."""
    changed = list(record)
    for at in range(1, len(changed)):
        before = at
        while changed[before].kind == kind and before > 0 and changed[before - 1].kind in 's':
            changed[before - 1:before + 1] = changed[before - 1:before + 1][::-1]
            before -= 1
    return changed


def without_data(record):
    return [sectors_of(done, slice(-1, None)) if is_data(done) else done for done in record]


def without_last_data(record):
    """Of each record the last data sector is not written."""
    return [part for done in record
            for part in ([sectors_of(done, slice(-2)), sectors_of(done, slice(-1, None))] if is_data(done) else [done])
            if part.kind != 'w' or part.bytes]


def gates_left_as_they_are(record):
    """None is closed."""
    kept = [done for done in record if done.kind != 'w' or any(done.bytes)]
    return [sectors_of(done, slice(-1)) if is_data(done) else done for done in kept]


# The last one shows only where a journal is used again, as by the many commits of lines that come one at a time
BUGS = [without_syncs, gates_with_their_data, answers_before_the_last_sync, without_data, without_last_data, gates_left_as_they_are]


def bug_found(whole, change, dice):
    image, record, order, stations = whole
    planted = change(record)
    compare('the record changed', planted != record, True)
    compare('found', recording.any_fault(moments(image, planted, Asked(order, stations)), dice), True)


def torn(files, made, dice, count, seconds, together):
    whole = count.case('a run recorded', recorded, made.place, files, made, together)
    if not whole:
        return
    image, record, order, stations = whole
    changes_refused(order, files, dice, count)
    for change in BUGS if together == 1 else BUGS[:-1]:
        count.case(change.__name__, bug_found, whole, change, dice)
    taken(list(moments(image, record, Asked(order, stations))), dice, count, seconds)


# What the judge of a stop refuses

def is_refused(files, commands):
    """Of the commands that a disk has, in their order, each a station and a line."""
    try:
        prefixes(Order(empty(STATIONS), commands), files)
    except (NoOrder, Differs):
        return
    raise Differs('the judge takes it')


def sure(order):
    """The places of commands that no register refuses, with a later one of their station."""
    last = {station: place for place, (station, _) in enumerate(order.commands)}
    return [place for place, (station, line) in enumerate(order.commands)
            if line.split(b' ')[2] in (b'rule', b'unrule', b'expire') and place < last[station]]


def one_missing(order, dice):
    left_out = dice.choice(sure(order))
    return [command for place, command in enumerate(order.commands) if place != left_out]


def two_swapped(order, dice):
    """Two commands of one station."""
    own = [place for place, (station, _) in enumerate(order.commands) if station == 3]
    commands, (first, second) = list(order.commands), dice.sample(own, 2)
    commands[first], commands[second] = commands[second], commands[first]
    return commands


def of_another_station(order, dice):
    """A command that its station has not sent."""
    place, commands = dice.choice(sure(order)), list(order.commands)
    commands[place] = 1 + commands[place][0] % STATIONS, commands[place][1]
    return commands


def one_twice(order, dice):
    place = dice.randrange(len(order.commands))
    return [*order.commands[:place + 1], *order.commands[place:]]


def changes_refused(order, files, dice, count):
    for change in one_missing, two_swapped, of_another_station, one_twice:
        count.case(f'the judge refuses {change.__name__}', is_refused, files, change(order, dice))


def main():
    words = options(__doc__, moments=20, lines=120, seconds=15)
    print(f'seed {words.seed}', flush=True)
    dice, count, told = random.Random(words.seed), Count(), []
    files = by_chance(dice, STATIONS, words.lines)
    with place(words.program) as folder:
        for form in FORMS:
            told += stopped(folder, files, None, (form, LONG), dice, count, words.moments // 4)
    with place(words.program, MEMORY) as folder, recorder(folder) as made:
        for form in FORMS:
            told += stopped(folder, files, made, (form, SHORTEST), dice, count, words.moments // 4)
        count.case('the moments', falls_within, told)
        for together in 1, TOGETHER:
            print(f'lines that come together: {together}', flush=True)
            torn(by_chance(dice, STATIONS, words.lines // 2), made, dice, count, words.seconds // 2, together)
    count.end()


if __name__ == '__main__':
    main()
