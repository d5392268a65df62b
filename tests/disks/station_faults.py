#!/usr/bin/env python3
"""One write or sync of the disk file fails while the program serves the files of 4 stations, in each run another one (record.c,
compiled and preloaded): that one alone, or each later one too, or a write after a part of its bytes. The disk began in either layout.
Where the call opens the disk that is a fault. Else the commands of that round are answered `device`, and all later ones `broken`;
queries go on to be answered by what was acknowledged. The file is left alone from there on. It has every command that was acknowledged,
and of those that were answered `device` what a whole record has. All is judged by the independent reading (tests/reading/), which has to
refuse runs that are changed here. Prints the seed, what was found, and last 'N passed, M failed'.
Usage: tests/run station_faults PROGRAM [--runs N] [--lines N] [--seed N]"""
import itertools
import random

from disk_files import DISK, MEMORY, place, register_of, text
from images import fault_of
from many_files import WHEN_BROKEN, Files, by_chance, empty, ran, runs
from reading_disks import NUMBERED, PLAIN, copied
from reading_orders import Answered, NoOrder, answered, follows, is_command, order_of, parts
from recorded_orders import Written, order_on
from recorder import Done, recorder
from running import Differs, compare
from testing import Count, options

STATIONS, READY = 4, 'ready.img'
DEVICE, BROKEN = 'device', 'broken'
# A refusal that the rules give to no command of a run, whatever its order: it would need 2^62 accepted commands
NEVER = b' no numbers-used-up'
# On which disks calls fail, and how; where lines come together a read gives so many. A write that fails may write a sector, or more
FAILING = ((PLAIN, 'once', {}), (NUMBERED, 'and each later one', {'ALWAYS': 1}), (NUMBERED, 'once, lines together', {'together': 8}),
           (PLAIN, 'and each later one, lines together', {'ALWAYS': 1, 'together': 20}), (NUMBERED, 'after 512 bytes', {'PART': 512}),
           (NUMBERED, 'after 700 bytes, lines together', {'PART': 700, 'together': 20}))
# The calls of a record: its data and the gate after it, a sync, its gate, a sync
OF_A_RECORD = 4


# The answers

def outage(pair):
    """`device` or `broken`, where a command is answered so."""
    words = pair.told[0].split(' ') if pair.told else []
    return words[2] if len(words) == 3 and words[1] == 'no' and words[2] in (DEVICE, BROKEN) and is_command(pair.line) else None


def acknowledged(stations):
    """The order of what was acknowledged. Each other answer of a station is that of a prefix of it."""
    kept = [[Answered(pair.line, None if outage(pair) else pair.told) for pair in pairs] for pairs in stations]
    order = order_of(empty(STATIONS), [[pair for pair in pairs if pair.told is not None] for pairs in kept])
    for station, pairs in enumerate(kept, 1):
        follows(order, station, [pair if pair.told is not None else Answered(b'', []) for pair in pairs])
    return order


def asked_before(record):
    """How many lines each station had answered when the call failed, and how many it had asked for."""
    asked = [(0, 0)] * STATIONS
    for done in itertools.takewhile(lambda done: done.kind != 'f', record):
        if done.kind == 'r':
            asked[done.bytes[0] - 1] = done.number, done.number + done.bytes[1]
    return asked


def outages(stations, record):
    """Those answered before the fault have none; those asked for after it are `broken`. Of those between, the first ones have none, the
    next ones are `device`, and the last ones `broken`."""
    for station, (pairs, (answered, asked)) in enumerate(zip(stations, asked_before(record)), 1):
        told = [(at, outage(pair)) for at, pair in enumerate(pairs) if is_command(pair.line) and not pair.told[0].startswith('line ')]
        compare(f'of station {station} what was answered before the fault', [it for at, it in told if at < answered and it], [])
        compare(f'of station {station} what was asked for after the fault', [it for at, it in told if at >= asked and it != BROKEN], [])
        between = [(None, DEVICE, BROKEN).index(it) for at, it in told if answered <= at < asked]
        compare(f'of station {station} the answers between are in order', between, sorted(between))


# What the disk has

def on_device(stations):
    """The commands that were answered `device`, each with its station."""
    return [(station, pair.line) for station, pairs in enumerate(stations, 1) for pair in pairs if outage(pair) == DEVICE]


def left_after(order, stations, image):
    """The register of what was acknowledged, and then of the commands that the disk has after it. Each of these was answered
    `device`."""
    base, tried = order.registers[-1], on_device(stations)
    later = {number: said for number, said in Written(image).commands.items() if number > base.count}
    left = order_on(copied(base), [[pair.line for pair in pairs] for pairs in stations], later)
    compare('commands on the disk that were not answered `device`', [one for one in left.commands if one not in tried], [])
    return left.registers[-1]


def left_alone(record):
    """No call of the file after the fault that changes it."""
    at = [done.kind for done in record].index('f')
    compare('calls after the fault', [done.kind for done in record[at + 1:] if done.kind not in 'rf'], [])


def failed(place, files, made, number, fails):
    """What a run did in which that call fails, the record of its calls, and the disk that it left."""
    place.copy(READY, DISK)
    done = ran(place, files, env=made.environment(fails=number, files=files.names, **fails))
    return done, made.record(), place.image()


def while_opening(done, image):
    compare('a fault while the disk is opened', done, (5, b'', b'fault: device\n'))
    compare('the disk stands for', fault_of(image, [empty(STATIONS)]), None)
    return 0


def while_serving(files, done, record, image):
    compare('status and standard error', (done.status, done.err), WHEN_BROKEN)
    return when_broken([answered(lines, said) for lines, said in zip(files.lines, parts(done.out, files.names))], record, image)


def when_broken(stations, record, image):
    """Judges the answers of stations in a run in which a call failed, its record and the disk that it left; the number of commands
    that were acknowledged."""
    order = acknowledged(stations)
    outages(stations, record)
    if not on_device(stations):
        raise Differs('no command was answered `device`')
    left_alone(record)
    compare('the disk opens', register_of(image).count >= order.registers[-1].count, True)
    compare('the disk stands for', fault_of(image, [left_after(order, stations, image)]), None)
    return len(order.commands)


def judged(files, done, record, image):
    """The number of commands that were acknowledged; None where nothing failed."""
    kinds = {one.kind for one in record}
    try:
        return None if 'f' not in kinds else while_serving(files, done, record, image) if 'r' in kinds else while_opening(done, image)
    except NoOrder as fault:
        raise Differs(f'no order of the commands: {fault}')


def a_fault(place, files, *how):
    return judged(files, *failed(place, files, *how))


def beside_an_unread_file(place, made, number):
    """The fault of the device is the one that is reported."""
    files = Files([[b'1 0 expire', b'2 0 expire'], []], ['s1.txt', '.'])
    place.write(files.names[0], b'1 0 expire\n2 0 expire\n')
    done, _, _ = failed(place, files, made, number, {})
    compare('what it did', done, (5, b'station 1 s1.txt\n1 no device\n2 no broken\nstation 2 .\n', b'fault: device\n'))


def those_at_hand(place, made, number):
    """The call of that number is one for the first commands of a station, which came together: all of them are `device`, and those that
    come after them `broken`. The disk has all of them, or none."""
    commands = [b'%d 0 expire' % sequence for sequence in range(1, 13)]
    files = Files([commands], ['s1.txt'])
    files.write(place)
    done, _, image = failed(place, files, made, number, {'together': 8})
    told = [f'{sequence} no {DEVICE if sequence <= 8 else BROKEN}' for sequence in range(1, 13)]
    compare('what it did', done, (5, text(['station 1 s1.txt', *told]), b'fault: device\n'))
    compare('the disk has none or all', register_of(image).count in (0, 8), True)


# What the judge refuses

def changed(out, word, other, last=False):
    """The first answer, or the last, that ends in this word has another."""
    lines = out.split(b'\n')
    at = [k for k, line in enumerate(lines) if line.endswith(word)][-1 if last else 0]
    lines[at] = lines[at][:-len(word)] + other
    return b'\n'.join(lines)


def changes(done, record, image, ready):
    """What a run did, changed so that it is wrong."""
    out = lambda *how: (done._replace(out=changed(done.out, *how)), record, image)
    yield 'device as a refusal', out(b' no device', NEVER)
    yield 'device after broken', out(b' no broken', b' no device', True)
    yield 'a refusal after broken', out(b' no broken', NEVER, True)
    yield 'what was acknowledged is not on the disk', (done, record, ready)
    yield 'a write after the fault', (done, [*record, Done('w', 0, b'')], image)
    yield 'another status', (done._replace(status=0), record, image)


def refused(files, what):
    try:
        judged(files, *what)
    except Differs:
        return
    raise Differs('the judge takes it')


def changes_refused(place, files, made, number, count):
    what = count.case('a fault', failed, place, files, made, number, {})
    for name, other in changes(*what, place.image(READY)) if what else ():
        count.case(f'the judge refuses {name}', refused, files, other)


# The whole

def the_calls(place, files, made, together):
    """How many calls a run has while the disk is opened, and in all; each of these is a read, a write or a sync."""
    place.copy(READY, DISK)
    runs(place, files, empty(STATIONS), env=made.environment(files=files.names, together=together))
    record = made.record()
    opening = [done.kind for done in record].index('r')
    return len(record[:opening]), sum(done.kind != 'r' for done in record)


def numbers_of(files, made, dice, count, runs_of, together):
    """The sync that opens the disk, the first calls of the first round, and others by chance."""
    calls = count.case('a run without a fault', the_calls, made.place, files, made, together)
    if not calls:
        return []
    opening, every = calls
    first, later = range(opening + 1, opening + 1 + OF_A_RECORD), range(opening + 1 + OF_A_RECORD, every // 2)
    return [1, *first, *sorted(dice.sample(later, min(runs_of, len(later))))]


def main():
    words = options(__doc__, runs=20, lines=80)
    print(f'seed {words.seed}', flush=True)
    dice, count = random.Random(words.seed), Count()
    files = by_chance(dice, STATIONS, words.lines)
    with place(words.program, MEMORY) as folder, recorder(folder) as made:
        files.write(folder)
        for form, name, fails in FAILING:
            folder.begins(form, READY)
            numbers = numbers_of(files, made, dice, count, words.runs, fails.get('together', 1))
            told = [count.case(f'call {number} fails {name}', a_fault, folder, files, made, number, fails) for number in numbers]
            within, later = sum(bool(kept) for kept in told), len(told) - 1 - OF_A_RECORD
            count.case('faults within the runs', compare, 'half of the later calls', 2 * within >= max(later, 2), True)
            count.case('beside an unread file', beside_an_unread_file, folder, made, numbers[1])
            for number in numbers[1:1 + OF_A_RECORD]:
                count.case(f'call {number} fails under one station', those_at_hand, folder, made, number)
            files.write(folder)
            changes_refused(folder, files, made, numbers[(len(numbers) + OF_A_RECORD) // 2], count)
            print(f'{name}: {len(told)} runs; commands acknowledged before the fault: {" ".join(map(str, told))}', flush=True)
    count.end()


if __name__ == '__main__':
    main()
