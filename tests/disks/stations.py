#!/usr/bin/env python3
"""Runs the files of many stations on one disk: the worked cases, each once and again; 8 stations of 500 lines and 64 stations, on
disks where checkpoints go on beside and where none does; files that are named twice, too many, missing, or can't be read to their
end; slow syncs, and stations without a thread. The independent reading (tests/reading/) judges what such a run prints and leaves on
the disk, and has to refuse outputs and disks that are changed here. So it is where only some stations may give orders. Prints the seed, the first cases that fail, and last
'N passed, M failed'.
Usage: tests/run stations PROGRAM [--lines N] [--seed N] (the program itself, not a script that starts it)"""
import contextlib
import os
import random
import subprocess
import time

import preloading
import reading
import refusing
import rows
from changed_outputs import CHANGES, kept_of
from disk_files import DISK, MEMORY, MISSING, file_fault, place, register_of, shows_all, text, untouched
from made_disks import FORMS
from many_files import LONG, SHORTEST, Files, by_chance, empty, formats, ordered, ran, runs, stands_for, told_to_each
from progress import SLOW
from reading_disks import NUMBERED, layout_on, opens, records_in, told_in
from reading_orders import NoOrder, answered, is_troubled, judged, parts
from recorder import recorder
from running import SECONDS, Differs, compare
from station_lines import data_of
from testing import Count, options

P, ATTACH = '1 0 rule 234-14-0/24 1 99 1 3600', '2 10 mm 234-14-2001 7 10:260'
FIRST, SECOND = text([P, ATTACH]), text(['1 20 mm 234-14-2001 8 10:200', 'where 234-14-2001', 'count'])
SHOWN = 'where 234-14-2001 station 2 la 8 present'
ONCE = text(['station 1 a.txt', '1 ok 1 -', '2 ok 2 8:56', 'station 2 b.txt', '1 ok 3 8:50', SHOWN, 'count 3'])
AGAIN = text(['station 1 a.txt', '1 no old-sequence 2', '2 kept 2 8:56', 'station 2 b.txt', '1 kept 3 8:50', SHOWN, 'count 3'])
WATCHER = [b'count', b'# a remark', b'where 234-14-2001', b'mail 234-14-2002', b'groups 234-14-2001', b'members 234-14-1000', b'rules', b'radios',
           b'items', b'due 3600', b'waiting 1', b'last 1', b'room', b'dump', b'mark here', b'station', b'count']


# Worked cases

@contextlib.contextmanager
def held_open(path):
    """A pipe under this name, which a program can open at once and read once something is written."""
    os.mkfifo(path)
    pipe = os.open(path, os.O_RDWR)
    try:
        yield pipe
    finally:
        with contextlib.suppress(OSError):
            os.close(pipe)


def waits_for(place, count):
    """Until so many commands are on the disk."""
    until = time.monotonic() + SECONDS
    while register_of(place.image()).count < count:
        if time.monotonic() > until:
            raise Differs(f'{count} commands are not on the disk')
        time.sleep(0.01)


def a_session(place):
    """The first station's commands reach the disk while the second one's file has nothing to read yet."""
    place.format()
    place.write('a.txt', FIRST)
    words = [*place.command, 'run', DISK, 'a.txt', 'b.txt']
    how = {'cwd': place.folder, 'stdin': subprocess.DEVNULL, 'stdout': subprocess.PIPE, 'stderr': subprocess.PIPE}
    with held_open(place.path('b.txt')) as pipe, subprocess.Popen(words, **how) as program:
        try:
            waits_for(place, 2)
            os.write(pipe, SECOND)
            waits_for(place, 3)
            os.close(pipe)
            compare('output', program.communicate(timeout=SECONDS), (ONCE, b''))
            compare('status', program.returncode, 0)
        finally:
            program.kill()
    place.path('b.txt').unlink()
    place.write('b.txt', SECOND)
    place.gives(['run', DISK, 'a.txt', 'b.txt'], 0, AGAIN)
    place.gives(['show', DISK, 'where', '234-14-2001'], 0, text([SHOWN]))


def a_worked_case(place, given, wanted):
    """Its lines as station 1 are answered as the case says, beside a station that only asks; and again by the reading."""
    formats(place, 4, SHORTEST)
    files = Files([reading.lines_of(text(given)), WATCHER])
    files.write(place)
    place.write(files.names[0], text(given))
    done = ran(place, files)
    compare('the first station', parts(done.out, files.names)[0], wanted)
    order = ordered(empty(4), files, done.out)
    compare('status and standard error', (done.status, done.err), (int(is_troubled(done.out)), b''))
    stands_for(place, order.registers[-1])
    runs(place, files, order.registers[-1])


# Many lines, many stations

def checkpoints(place, least):
    if opens(place.image()).epoch <= least:
        raise Differs(f'{opens(place.image()).epoch - 1} checkpoints')


def once_and_again(place, files):
    """What was printed at first, and its order."""
    files.write(place)
    done = ran(place, files)
    compare('standard error', done.err, b'')
    order = ordered(empty(len(files.lines)), files, done.out)
    compare('status', done.status, int(is_troubled(done.out)))
    stands_for(place, order.registers[-1])
    runs(place, files, order.registers[-1])
    return done.out, order


def beside_no_checkpoint(place, files):
    formats(place, len(files.lines), LONG)
    once_and_again(place, files)
    compare('the epoch', opens(place.image()).epoch, 1)


def beside_checkpoints(place, files):
    formats(place, len(files.lines), SHORTEST)
    out, order = once_and_again(place, files)
    checkpoints(place, 2)
    return out, order


def from_layout_1(place, dice):
    files = by_chance(dice, 4, 400)
    for form in FORMS:
        place.begins(form)
        once_and_again(place, files)
        compare('the layout of the current side', opens(place.image()).form, NUMBERED)


def with_orders_of(place, dice, orders):
    """Of four stations these alone may give orders. A run of other lines in which all may goes on from what they did."""
    formats(place, 4, SHORTEST)
    files = by_chance(dice, 4, 200, orders)
    files.write(place)
    done = ran(place, files)
    compare('standard error', done.err, b'')
    order = ordered(empty(4), files, done.out)
    compare('status', done.status, int(is_troubled(done.out)))
    refused = [station for station, said in enumerate(parts(done.out, files.names), 1) if any(line.endswith(' no forbidden') for line in said)]
    compare('stations of which an order was forbidden', refused, [station for station in range(1, 5) if station not in orders])
    for others in None, {1, 2}, {2, 3, 4}:
        as_if = Files(files.lines, orders=others)
        compare(f'the judge takes it for orders of {others}', is_given(as_if, done.out, kept_of(order)), (others or {1, 2, 3, 4}) == orders)
    stands_for(place, order.registers[-1])
    again = runs(place, files, order.registers[-1])
    files = by_chance(dice, 4, 50)
    files.write(place)
    runs(place, files, again.registers[-1])


def all_shown(place, dice):
    """After a run of four stations `show` prints what the reading does."""
    formats(place, 4, SHORTEST)
    files = by_chance(dice, 4, 60)
    files.write(place)
    shows_all(place, runs(place, files, empty(4)).registers[-1])


# What the judge refuses

def is_given(files, out, kept):
    """Whether some order gives this output and what the disk keeps."""
    try:
        return kept == kept_of(judged(empty(len(files.lines)), files.lines, out, files.names, files.orders))
    except NoOrder:
        return False


def changes_refused(count, dice, files, out, order):
    for change in CHANGES:
        count.case(f'the judge refuses {change.__name__}', refused, change, dice, files, out, order)


def refused(change, dice, files, out, order):
    stations = [answered(lines, said) for lines, said in zip(files.lines, parts(out, files.names))]
    changed, kept = change(dice, stations, order)
    compare('anything is changed', (changed, kept) != (out, kept_of(order)), True)
    compare('some order gives it', is_given(files, changed, kept), False)


# Faults

def prepared(place):
    formats(place, 4, SHORTEST)
    for name in ('a.txt', 'b.txt', 'c.txt', 'e.txt'):
        place.write(name, text(['1 0 expire']))


def refuses(place, names, status, fault):
    """Before a line is served."""
    with untouched(place.path()):
        place.gives(['run', DISK, *names], status, err=fault)


def twice(name):
    return f'fault: {name} is named twice\n'.encode()


def named_twice(place):
    prepared(place)
    refuses(place, ['a.txt', 'a.txt'], 2, twice('a.txt'))
    refuses(place, ['a.txt', 'b.txt', 'b.txt', 'a.txt'], 2, twice('b.txt'))
    refuses(place, ['a.txt', 'b.txt', 'c.txt', 'e.txt', 'f.txt', 'a.txt'], 2, twice('a.txt'))
    refuses(place, ['', 'no.txt', ''], 2, twice(''))
    place.gives(['run', 'no.img', 'a.txt', 'a.txt'], 2, err=twice('a.txt'))


def not_served(station):
    return f'fault: station {station} of --orders is not served\n'.encode()


def orders_of_nobody(place):
    """A station of `--orders` has no file. That is found after a name twice, and before the disk is opened."""
    prepared(place)
    refuses(place, ['a.txt', 'b.txt', '--orders', '3'], 2, not_served(3))
    refuses(place, ['--orders', '65535', 'a.txt', '--orders', '2'], 2, not_served(65535))
    refuses(place, ['--orders=1', '--orders=3', '--orders=4', 'a.txt', 'b.txt'], 2, not_served(3))
    refuses(place, ['--orders', '3', 'a.txt', 'a.txt'], 2, twice('a.txt'))
    place.gives(['run', '--orders', '2', 'no.img', 'no.txt'], 2, err=not_served(2))


def one_file_under_two_names(place):
    prepared(place)
    runs(place, Files([[b'1 0 expire'], [b'1 0 expire']], ['a.txt', './a.txt']), empty(4))


def too_many(place):
    """More files than stations: that is found once the disk is opened, and before a file is."""
    prepared(place)
    fault, names = b'fault: more files than stations\n', ['a.txt', 'b.txt', 'c.txt', 'e.txt', 'no.txt']
    refuses(place, names, 2, fault)
    place.gives(['run', 'no.img', *names], 4, err=file_fault('no.img', MISSING))
    place.write('zeros.img', bytes(len(place.path().read_bytes())))
    place.gives(['run', 'zeros.img', *names], 5, err=b'fault: unformatted\n')


def not_opened(place):
    """All files are opened before any is served; the first that can't be is reported."""
    prepared(place)
    for names in (['no.txt', 'a.txt'], ['a.txt', 'no.txt'], ['a.txt', 'no.txt', 'none.txt']):
        refuses(place, names, 4, file_fault('no.txt', MISSING))


def cut(lines, files, station, out):
    """The order of a run in which this station's file could be read for so many lines."""
    return ordered(empty(len(files.lines)), Files([one[:lines] if k == station else one for k, one in enumerate(files.lines, 1)]), out)


def not_read(place):
    """A folder opens, and can't be read. Its status comes before that of a bad line."""
    formats(place, 4, SHORTEST)
    files = Files([[b'1 0 expire', b'no such'], [], [b'1 0 expire', b'count'], []], ['s1.txt', '.', 's3.txt', '..'])
    for station in (0, 2):
        place.write(files.names[station], data_of(files.lines[station]))
    done = ran(place, files)
    compare('status and standard error', (done.status, done.err), (4, file_fault('.')))
    stands_for(place, ordered(empty(4), files, done.out).registers[-1])


def not_read_to_its_end(place, made, dice):
    """The station's answers so far are printed, and the others are served to their ends."""
    formats(place, 4, SHORTEST)
    files = by_chance(dice, 4, 40)
    files.write(place)
    done = ran(place, files, env=made.environment(breaks=15, files=[files.names[1]]))
    compare('status and standard error', (done.status, done.err), (4, file_fault(files.names[1])))
    stands_for(place, cut(15, files, 2, done.out).registers[-1])


def without_a_thread(place, made, number):
    """The station for which no thread can be made is out of memory before its first line. The others are served."""
    files, env = Files([[b'%d 0 expire' % sequence for sequence in range(1, 6)]] * 3), refusing.environment(made, 0, thread=number)
    for words in files.words, files.served:
        formats(place, 3, SHORTEST)
        files.write(place)
        done = ran(place, files, words, env=env)
        compare('status and standard error', (done.status, done.err), (5, b'fault: memory\n'))
        told = told_to_each(place, files, words, done.out)
        compare('lines answered', [len(one) for one in told], [0 if station == number else 5 for station in (1, 2, 3)])
        compare('commands on the disk', register_of(place.image()).count, 10)


def shared_syncs(place):
    """While a sync is slow, the next commands of all stations come together, and are one record."""
    stations, commands = 8, 5
    formats(place, stations, LONG)
    files = Files([[b'%d 0 expire' % sequence for sequence in range(1, commands + 1)]] * stations)
    files.write(place)
    with preloading.library(SLOW) as slow:
        done = ran(place, files, env=preloading.environment(slow, SYNCS=3 * commands * 2))
    compare('status and standard error', (done.status, done.err), (0, b''))
    image = place.image()
    layout = layout_on(image)
    records, _ = records_in(image, layout.half(0), layout.half(1), NUMBERED, 0)
    compare('commands', sum(len(told_in(record).commands) for record in records), stations * commands)
    compare(f'{len(records)} records of {stations * commands} commands', 2 * len(records) <= stations * commands, True)


# The whole

def in_a_place(count, words, folder, name, call, *arguments):
    with place(words.program, folder) as there:
        return count.case(name, call, there, *arguments)


def worked(count, words):
    in_a_place(count, words, None, 'a session of two stations', a_session)
    for file in sorted(rows.FOLDER.glob('*.txt')):
        for name, given, wanted in rows.cases(file.read_text()):
            if 'service' not in given:  # these are answered by figures where stations are served
                in_a_place(count, words, MEMORY, f'{file.name}, {name}', a_worked_case, given, wanted)


def with_slow_syncs_and_few_threads(count, words):
    in_a_place(count, words, MEMORY, 'shared_syncs', shared_syncs)
    with refusing.library() as made:
        for number in 1, 2, 3:
            in_a_place(count, words, MEMORY, f'without the thread of station {number}', without_a_thread, made, number)


def many(count, words, dice):
    eight, most = by_chance(dice, 8, words.lines), by_chance(dice, 64, 20)
    for name, folder in (('on a device', None), ('in memory', MEMORY)):
        in_a_place(count, words, folder, f'8 stations {name}', beside_no_checkpoint, eight)
        in_a_place(count, words, folder, f'8 stations {name}, checkpoints beside', beside_checkpoints, eight)
    in_a_place(count, words, None, '64 stations', beside_no_checkpoint, most)
    in_a_place(count, words, MEMORY, '64 stations, checkpoints beside', beside_checkpoints, most)
    in_a_place(count, words, MEMORY, 'disks of both layouts', from_layout_1, dice)
    in_a_place(count, words, MEMORY, 'what is shown', all_shown, dice)
    for orders in {1}, {3}, {2, 4}, {1, 2, 3, 4}:
        in_a_place(count, words, MEMORY, f'orders of {orders}', with_orders_of, dice, orders)


def changed(count, words, dice):
    files = by_chance(dice, 8, 300)
    done = in_a_place(count, words, MEMORY, '8 stations whose output is changed', beside_checkpoints, files)
    if done:
        changes_refused(count, dice, files, *done)


def faulty(count, words, dice):
    for case in named_twice, orders_of_nobody, one_file_under_two_names, too_many, not_opened, not_read:
        in_a_place(count, words, MEMORY, case.__name__, case)
    with place(words.program, MEMORY) as there, recorder(there) as made:
        count.case('not_read_to_its_end', not_read_to_its_end, there, made, dice)


def main():
    words = options(__doc__, lines=500)
    print(f'seed {words.seed}', flush=True)
    dice, count = random.Random(words.seed), Count()
    worked(count, words)
    changed(count, words, dice)
    faulty(count, words, dice)
    with_slow_syncs_and_few_threads(count, words)
    many(count, words, dice)
    count.end()


if __name__ == '__main__':
    main()
