#!/usr/bin/env python3
"""Records each read, write and sync of the disk file while the program serves a station's file (record.c, compiled and preloaded).
The disk begins in either layout, and two checkpoints or more go on beside the commits. The moments between these calls are drawn
anew each time. At each moment the writes since the last sync are done, left out or torn, in 20 ways, each sector of a call on its own.
Right after a call of several sectors, one of these alone is done, left out or torn in some ways more.
- The writes and syncs must be those of the independent reading (tests/reading/). A record and the gate after it are one write.
- The reading must open each image to a prefix of the accepted commands that contains every one answered by then.
- For one of the ways, the program's `show` must print the same.
- On some of the images the program serves the file again, and that run is stopped in turn.
- Bugs planted in the record must be found.
- Some of the calls fail (failing_calls.py), some of them after a part of their bytes.
- In one more run lines come together, and a record has the commands of many; in another one records have up to 36 data sectors. In
  others a call writes only a part of its bytes.
Prints the seed, what was done, and last 'N passed, M failed'.
Usage: tests/run recording PROGRAM [--seconds N] [--lines N] [--seed N]"""
import collections
import functools
import itertools
import random
import time

import failing_calls
import reading
from batches import MOST
from disk_files import LINES, MEMORY, place, queries, register_of
from images import fault_of
from made_disks import FORMS
from pending import SYNC, Disk, choices
from reading_disks import NUMBERED, layout_in, opens, side_in
from reading_orders import is_command
from reading_rows import SECTOR
from reading_stores import ROWS, Store
from recorder import Done, follow, is_run, recorder, sectors_of
from running import Differs, compare
from station_lines import Serving, data_of, lines
from streams import RULE_BODY, U, demand, messages
from testing import Count, options

TORN = 'torn.img'
# With the ways that are always taken these are 20
DRAWS, CHECKPOINTS = 13, 2
# How many of the stops are followed by a second run, and how many moments of each of these are taken; and how many of other runs,
# beside those after a call of many sectors
TWICE, SECOND, OTHERS = 15, 20, 5
# How many lines a read of the station's file gives where they come together; and of how many sectors a write of long records can be
TOGETHER, MANY = 10, range(10, 38)
# How many bytes a write takes at most, where it takes only a part
PARTS = 200, SECTOR, 700

# A disk between two calls, and the registers that its images may open to
Moment = collections.namedtuple('Moment', 'disk registers')


# The moments

def may_stand(serving, answered, together):
    """The registers that are allowed once so many lines are answered, and while so many after them are."""
    counts = [0, *serving.counts]
    return serving.registers[counts[answered]:counts[min(answered + together, len(serving.lines))] + 1]


def moments(image, record, serving):
    """The disk at first and after each call of the file that changes what a stop may leave."""
    disk, asked = Disk(image), (0, 0)
    yield Moment(disk.copy(), may_stand(serving, *asked))
    for done in (done for done in record if done.kind != 'p'):
        asked = (done.number, done.bytes[1]) if done.kind == 'r' else asked
        follow(disk, done)
        yield Moment(disk.copy(), may_stand(serving, *asked))


def images(moment, dice):
    """The images that a stop at that moment may leave."""
    return (moment.disk.image(chosen) for chosen in choices(moment.disk, dice, DRAWS))


def shown(place, image, dice):
    """Checks that `show` prints of this image what the reading answers: to `count`, and to one more query."""
    register = register_of(image)
    place.put(image, TORN)
    for query in ('count', dice.choice(list(queries(register)))):
        place.shows(register, query, TORN)


def judged(moment, dice):
    """The images that a stop at that moment may leave, each of which the reading opens to a register that is allowed."""
    torn = list(images(moment, dice))
    for image in torn:
        compare('an image stands for', fault_of(image, moment.registers), None)
    return torn


def one_moment(place, moment, dice):
    """How many images there were."""
    torn = judged(moment, dice)
    shown(place, dice.choice(torn), dice)
    return len(torn)


def stopped_twice(made, moment, lines, dice):
    """The same run again on what a stop has left, and stops of that run in turn; how many images these left."""
    image = dice.choice(judged(moment, dice))
    serving = Serving(register_of(image), lines)
    made.place.put(image)
    record = made.run(int(serving.troubled), serving.text())
    second = list(moments(image, record, serving))
    the_end(made.place, second[-1], serving)
    return sum(len(judged(moment, dice)) for moment in dice.sample(second, min(SECOND, len(second))))


# The record as a whole

def sector_by_sector(calls):
    """Each write by a call of its own, and the syncs."""
    return [Done('s') if one is SYNC else Done('w', one.at * SECTOR, one.bytes) for one in calls]


def at_once(writes):
    """The sectors of a record and the gate after it, which follow each other, by one call."""
    return [Done('w', writes[0].at * SECTOR, b''.join(one.bytes for one in writes))] if writes else []


def calls_for(parts):
    """What is written and synced for a line."""
    first, gates = [*parts.closed, *parts.image, *parts.switch], [SYNC, *parts.gates, SYNC] if parts.record else []
    kept = [*at_once(parts.record), *at_once(parts.also), *sector_by_sector(gates)]
    return [*sector_by_sector(first), *kept, *sector_by_sector([*parts.rows, *parts.end, *parts.begun])]


def is_taken(line):
    """Whether a line is a command."""
    try:
        return is_command(line) and bool(reading.answer(reading.Register(), 1, line))
    except reading.BadLine:
        return False


def the_calls(image, record, serving):
    """Those of the reading for each command, which comes alone. No call but that of a record writes several sectors."""
    store, opening = Store(image), [done.kind for done in record].index('r')
    wanted = [done for line in filter(is_taken, serving.lines) for done in calls_for(store.serves([(1, line)])[0])]
    got = [done for done in record[opening:] if done.kind in 'wsa']
    differ = [number for number, pair in enumerate(itertools.zip_longest(got, wanted), 1) if pair[0] != pair[1]]
    compare('the first call that is another one', differ[:1], [])


def slot_beside(image):
    """The sectors of the slot that doesn't count: a checkpoint under way writes its rows there."""
    layout = layout_in(image[0], len(image))
    at = layout.slot(1 - side_in(image, layout))
    return range(at, at + layout.rows())


def the_end(place, last, serving):
    """The record leaves the disk as the file is. All lasts but the rows that the last commit wrote of a checkpoint under way."""
    image, pending = place.image(), set(last.disk.pending)
    compare('the writes that no sync made last', pending - set(slot_beside(image)), set())
    compare('no more rows than a commit writes', len(pending) <= ROWS, True)
    compare('the file as it was recorded', [last.disk.now(at) for at in range(len(image))] == image, True)
    compare('the commands', register_of(image).count, serving.registers[-1].count)


def checkpoints(image):
    """There were enough, so that the disk is of layout 2."""
    compare('the disk has commands', register_of(image).count > 0, True)
    opening = opens(image)
    if opening.epoch <= CHECKPOINTS:
        raise Differs(f'{opening.epoch - 1} checkpoints')
    compare('the layout of the current side', opening.form, NUMBERED)


# Bugs planted in the record, in what is done for each line

def turns(record):
    """What the program did for each line, and at first before it asked for one."""
    starts = [0] + [k for k, done in enumerate(record) if done.kind == 'r']
    return [record[start:end] for start, end in zip(starts, [*starts[1:], len(record)])]


def with_call(turn, kind, number, change):
    """It with other calls in place of the one of that kind and number, counted from 0."""
    places = [k for k, done in enumerate(turn) if done.kind == kind]
    return [*turn[:places[number]], *change(turn[places[number]]), *turn[places[number] + 1:]] if len(places) > number else turn


def without(turn, kind, number):
    """It without that call."""
    return with_call(turn, kind, number, lambda done: [])


def syncs(turn):
    """Two are those of a record. One more closes the other side where a checkpoint begins; two more switch to it where one ends beside
    the record, and three are those of a checkpoint that makes room first."""
    return sum(done.kind == 's' for done in turn)


def in_record(turn, kind, number):
    """It without that call, where no checkpoint comes before the record."""
    return turn if syncs(turn) > 4 else without(turn, kind, number)


def in_run(turn, *slices):
    """It with only these sectors of the record and the gate after it, which one call writes, where no checkpoint comes before."""
    kept = lambda done: [part for part in (sectors_of(done, one) for one in slices) if part.bytes] if is_run(done) else [done]
    return turn if syncs(turn) > 4 else with_call(turn, 'w', 0, kept)


def gate_in_the_run(turn):
    """A record's gate, its data and the gate after it by one call: a stop within it may leave the gate alone."""
    data = next((done for done in turn if done.kind == 'w'), None)
    if data is None or not is_run(data):
        return turn
    gate = next(done for done in turn if done.kind == 'w' and done.number == data.number - SECTOR)
    return [gate._replace(bytes=gate.bytes + data.bytes) if done is data else done for done in turn if done is not gate]


def ended(turn, kind, number):
    """It without that call, where a checkpoint ends: a record with the gate after it in each half, a sync, two gates, a sync, rows, a
    sync, the root."""
    return without(turn, kind, number) if syncs(turn) == 4 else turn


def other_record_left_out(turn):
    """Where a checkpoint ends: its record of the other half is the second write, and the gate of that the fourth."""
    return without(without(turn, 'w', 3), 'w', 1) if syncs(turn) == 4 else turn


DATA_BUGS = {
    'records and their gates by one call': gate_in_the_run,
    'records synced once': lambda turn: in_record(turn, 's', 0),
    'records without their data': lambda turn: in_run(turn, slice(-1, None)),
    'records without their last data sector': lambda turn: in_run(turn, slice(-2), slice(-1, None)),
}
RECORD_BUGS = {**DATA_BUGS, 'answers before the last sync': lambda turn: in_record(turn, 's', 1)}
# A gate that stays open shows only where a checkpoint has used the half before.
BUGS = {
    **RECORD_BUGS,
    'a gate that is not closed': lambda turn: in_run(turn, slice(-1)),
    'roots synced with their last rows': lambda turn: ended(turn, 's', 2),
    'an image without a row': lambda turn: ended(turn, 'w', 4),
    'records of the other half left out': other_record_left_out,
}


def any_fault(all_moments, dice):
    """Whether a stop at one of these moments may leave what it must not."""
    return any(fault_of(torn, moment.registers) for moment in all_moments for torn in images(moment, dice))


def bug_found(whole, change, dice):
    """Of a run that went well: the image that it began with, the record, and the serving."""
    image, record, serving = whole
    planted = [done for turn in turns(record) for done in change(turn)]
    compare('the record changed', planted != record, True)
    compare('found', any_fault(moments(image, planted, serving), dice), True)


# The whole

def taken(place, all_moments, dice, count, seconds):
    """Takes the moments in any order for so many seconds."""
    until, tried = time.monotonic() + seconds, []
    for number, moment in dice.sample(list(enumerate(all_moments)), len(all_moments)):
        if time.monotonic() > until:
            break
        tried.append(count.case(f'moment {number}', one_moment, place, moment, dice) or 0)
    print(f'{len(tried)} of {len(all_moments)} moments, {sum(tried)} images')


def ready(place, serving, form):
    """The image of a disk made ready in that layout, beside the station's file."""
    place.begins(form)
    place.write(LINES, data_of(serving.lines))
    return place.image()


def taken_twice(made, all_moments, serving, dice, count):
    told = [count.case(f'stop {k} of a second run', stopped_twice, made, moment, serving.lines, dice)
            for k, moment in enumerate(dice.sample(all_moments, TWICE), 1)]
    print(f'{TWICE} runs on what a stop left, {sum(images or 0 for images in told)} images')


def the_run(made, serving, form, count, **how):
    """The image that a run begins with, its record, and the serving; nothing where it fails."""
    image = count.case('a disk made ready', ready, made.place, serving, form)
    record = image and count.case('the run', functools.partial(made.run, int(serving.troubled), serving.text(), **how))
    return record and (image, record, serving)


def recording(made, form, dice, count, words):
    print(f'a disk that begins in {FORMS[form]}', flush=True)
    whole = the_run(made, Serving(reading.Register(), lines(dice, words.lines)), form, count)
    if not whole:
        return
    all_moments = list(moments(*whole))
    count.case('the end', the_end, made.place, all_moments[-1], whole[2])
    count.case('the calls', the_calls, *whole)
    count.case('checkpoints', checkpoints, made.place.image())
    for name, change in BUGS.items():
        count.case(name, bug_found, whole, change, dice)
    failing_calls.fail(made, whole, dice, count)
    taken_twice(made, all_moments, whole[2], dice, count)
    taken(made.place, all_moments, dice, count, words.seconds)


def lines_together(made, form, dice, count, words):
    """The same of records of many commands, in part."""
    print(f'{TOGETHER} lines together, a disk that begins in {FORMS[form]}', flush=True)
    whole = the_run(made, Serving(reading.Register(), lines(dice, words.lines)), form, count, together=TOGETHER)
    if not whole:
        return
    all_moments = list(moments(*whole))
    count.case('the end', the_end, made.place, all_moments[-1], whole[2])
    for name, change in RECORD_BUGS.items():
        count.case(name, bug_found, whole, change, dice)
    taken(made.place, all_moments, dice, count, words.seconds // 4)


def long_lines():
    """A rule, a radio, and as many messages as can wait for it, each as long as a command can be."""
    said = [messages.sds(U, U, messages.message(k, 1, '10' * 1011 + '1')) for k in range(reading.MOST_ITEMS)]
    return [f'{sequence} 0 {body}'.encode() for sequence, body in enumerate([RULE_BODY, demand(3), *said], 1)]


def many_sectors(record):
    """A busy machine may part the commands of a read."""
    longest = max(len(done.bytes) // SECTOR for done in record if done.kind == 'w')
    compare(f'the longest write has {longest} sectors, {MANY}', MANY.start <= longest < MANY.stop, True)


def long_records(made, form, dice, count):
    """Records whose data is written with the gate after it, up to 37 sectors at once. Stops are tried after each such call, and at some
    other moments. Each record begins or ends a checkpoint, whose syncs come before the answers."""
    print(f'long records, a disk that begins in {FORMS[form]}', flush=True)
    whole = the_run(made, Serving(reading.Register(), long_lines()), form, count, together=MOST)
    if not whole:
        return
    all_moments = list(moments(*whole))
    count.case('the writes', many_sectors, whole[1])
    count.case('the end', the_end, made.place, all_moments[-1], whole[2])
    for name, change in DATA_BUGS.items():
        count.case(name, bug_found, whole, change, dice)
    after_runs = [moment for moment in all_moments if len(moment.disk.last) > 1 and moment.disk.pending]
    for number, moment in enumerate([*after_runs, *dice.sample(all_moments, OTHERS)], 1):
        count.case(f'stop {number} of long records', judged, moment, dice)


def takes(record, most):
    compare('the longest write', max(len(done.bytes) for done in record if done.kind == 'w'), most)


def in_parts(made, form, most, dice, count, words):
    """The same where a write takes only so many bytes: others write what is left."""
    print(f'{most} bytes a write, a disk that begins in {FORMS[form]}', flush=True)
    whole = the_run(made, Serving(reading.Register(), lines(dice, words.lines)), form, count, together=TOGETHER, MOST=most)
    if not whole:
        return
    all_moments = list(moments(*whole))
    count.case('the writes', takes, whole[1], most)
    count.case('the end', the_end, made.place, all_moments[-1], whole[2])
    for number, moment in enumerate(dice.sample(all_moments, SECOND), 1):
        count.case(f'stop {number} between such writes', judged, moment, dice)


def main():
    words = options(__doc__, seconds=20, lines=110)
    print(f'seed {words.seed}', flush=True)
    dice, count = random.Random(words.seed), Count()
    for form in FORMS:
        with place(words.program, MEMORY) as folder, recorder(folder) as made:
            recording(made, form, dice, count, words)
            lines_together(made, form, dice, count, words)
            long_records(made, form, dice, count)
            for most in PARTS:
                in_parts(made, form, most, dice, count, words)
    count.end()


if __name__ == '__main__':
    main()
