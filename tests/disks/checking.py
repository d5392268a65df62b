#!/usr/bin/env python3
"""Runs `check` of the built program over disks of both layouts: worked ones (checked_disks.py), those that runs and stops leave, a disk
with each byte that opening reads changed, and files that are no disks. The program must print what the independent reading
(tests/reading/) says, or the case, and end with its status. It must report as lost the sector that `show` reports as damaged, and
write nothing. On each disk `check --rest` must print the register that is left (rests.py). Prints the seed, a line for each part, the first cases that fail, and last 'N passed, M failed'.
Usage: tests/run checking PROGRAM [--seed N]"""
import collections
import fcntl
import itertools
import os
import random
import subprocess

import batches
import changed_disks
import refusing
import rests
from changed_disks import GATE_BYTES, LABEL_BYTES, ROOT_BYTES, gates, with_byte, with_sector
from checked_disks import cases
from disk_files import DISK, HELD, LINES, MEMORY, MISSING, NOT_A_FILE, fault_line, file_fault, place, settings, text, untouched
from file_cases import BAD_GEOMETRY, COUNT, STREAMS, UNFORMATTED, opened_to_write, with_closed
from hostile_disks import lengths
from made_disks import FORMS, as_plain
from pending import Disk, choices
from reading_checks import DAMAGED, SOUND, checked
from reading_disks import LABEL, NUMBERED, PLAIN, ROOTS, BadGeometry, Unformatted, data_sectors, layout_on, opens_from
from reading_rows import SECTOR, row_in
from reading_stores import Store
from running import SECONDS, compare, ends, started
from station_lines import data_of, lines
from streams import U, groups, messages
from testing import Count, options

CHECK = ['check', DISK]
RUNS, LINES_OF_A_RUN = 40, 5
# A small disk: its limits, and batches of two stations for each of its images. Each command is accepted. The last record has two data
# sectors
SMALL, SMALL_SECTORS = {'rules': 4, 'radios': 4, 'mail': 8, 'stations': 2, 'journal': 38}, 117
V = messages.V
BATCHES = [[['1 1 0 rule 234-14-0/24 1 99 1 3600'],
            [f'1 2 10 mm {U} 7 10:260', f'2 1 10 mm {V} 8 10:260', f'1 3 11 {groups.grouping([groups.attaching(1000)])}'],
            [f'1 4 11 sds {U} {V} 32:82040107']],
           [['2 2 12 rule 234-15-0/24 1 99 1 60'], [f'1 5 13 sds {U} {V} 40:8204025A00', f'2 3 14 delete {V} {U} 1 m'], ['1 6 15 expire']],
           [['1 7 16 unrule 234-15-0/24'], ['2 4 17 expire', f'1 8 18 mm {U} 9 10:260'],
            [f'1 9 19 sds {U} {V} 1920:820408{"A5" * 237}', f'2 5 19 sds {V} {U} 1920:820409{"5A" * 237}']]]
# How many of the bytes that are ignored, or have to be 0, are changed in a sector, and how many zeros at its end may belong to a row
OTHERS, ZEROS = 2, 4
STOPS = 250


# What is printed

def wanted(image):
    """How `check` has to end: its status, output and standard error."""
    try:
        status, told = checked(image)
        return status, text(told), b''
    except (Unformatted, BadGeometry) as fault:
        return 5, b'', fault_line(fault)


def shown_beside(status, out, err):
    """How `show` has to answer `count` where `check` ends so."""
    if err:
        return status, b'', err
    word, *figures = out.splitlines()[-1].split(b' ')
    if word == b'lost':
        return 5, b'', b'fault: damaged %s\n' % b' '.join(figures)
    return 0, b'count %s\n' % figures[-1], b''


def prints(place, status, out, err):
    """Checks both commands on a disk as it is. Returns the first word of the last line."""
    with untouched(place.path()):
        place.gives(CHECK, status, out, err)
        place.gives(COUNT, *shown_beside(status, out, err))
    return (err or out.splitlines()[-1]).split(b' ')[0].decode()


def an_image(place, image):
    """One rest in eight is loaded."""
    place.put(image)
    out = rests.gives_rest(place, image)
    if out and sum(out) % 8 == 0:
        rests.loads(place, image, out)
    return prints(place, *wanted(image))


def the_images(place, name, images, count):
    told = [count.case(f'{name}, image {k}', an_image, place, image) for k, image in enumerate(images)]
    print(f'{name}: {len(told)} images, {dict(collections.Counter(told))}', flush=True)


# Worked disks

def worked(place, image, told):
    status = SOUND if told[-1].startswith('ok ') else DAMAGED
    compare('the reading', checked(image), (status, told))
    place.put(image)
    prints(place, status, text(told), b'')


def the_worked(place, count):
    for name, image, told in cases():
        count.case(name, worked, place, image, told)


# What runs and stops leave

def sides_used(image):
    """How many sides are whole."""
    return sum(' epoch ' in line for line in checked(image)[1][:2])


def after_runs(place, form, dice):
    """Nothing is damaged after a run. After some runs both sides are used."""
    place.begins(form)
    given, used = lines(dice, RUNS * LINES_OF_A_RUN), set()
    for k in range(RUNS):
        compare('the last line', prints(place, *wanted(place.image())), 'ok')
        used.add(sides_used(place.image()))
        place.write(LINES, data_of(given[LINES_OF_A_RUN * k:LINES_OF_A_RUN * (k + 1)]))
        subprocess.run([*place.command, 'run', DISK, LINES], cwd=place.folder, stdin=subprocess.DEVNULL, stdout=subprocess.DEVNULL, check=False)
    compare('sides used', used, {1, 2})


def stops(image, dice):
    """What a stop may leave while a checkpoint begins, goes on or is made at once."""
    store, disk = Store(image), Disk(image)
    for batch in batches.batches(50):
        is_under_way = store.beside
        parts, _ = store.serves(batches.split(batch))
        for call in parts.joined():
            disk.call(call)
            if is_under_way or parts.begun or parts.closed:
                yield from map(disk.image, choices(disk, dice, 1))


def left_by_a_stop(place, image):
    compare('the last line', an_image(place, image), 'ok')


def the_stops(place, images, dice, count):
    for form, image in images.items():
        left = list(stops(image, dice))
        for k, image in enumerate(dice.sample(left, min(STOPS, len(left)))):
            count.case(f'{FORMS[form]}, stop {k} in a checkpoint', left_by_a_stop, place, image)
        print(f'{FORMS[form]}, stops in checkpoints: {min(STOPS, len(left))} of {len(left)} images', flush=True)


# Each byte

def small(place):
    """A small disk as it is made, in both layouts."""
    place.write('s.toml', settings(**SMALL).encode())
    place.gives(['format', 's.toml', 'small.img'], 0, text([f'formatted {SMALL_SECTORS} sectors']))
    made = place.image('small.img')
    return {NUMBERED: made, PLAIN: as_plain(made)}


def two_sides(image):
    """The small disk after two checkpoints, with records on both sides, in both layouts."""
    store = Store(image)
    for k, given in enumerate(BATCHES):
        if k > 0:
            store.checkpoint()
        for batch in given:
            store.commit(batches.split(batch))
    compare('accepted commands', store.register.count, sum(len(batch) for given in BATCHES for batch in given))
    compare('epoch and side', (store.epoch, store.side), (3, 0))
    return {NUMBERED: store.image, PLAIN: as_plain(store.image)}


def written(sector):
    """How many of a row's or record's bytes are read at most."""
    return min(len(sector.rstrip(b'\0')) + ZEROS, SECTOR)


def read_sectors(image):
    """The sectors that opening reads on either side, each with the number of its first bytes that matter."""
    layout = layout_on(image)
    yield LABEL, LABEL_BYTES
    yield from ((root, ROOT_BYTES) for root in ROOTS)
    for side in (0, 1):
        opening, slot = opens_from(image, layout, side), layout.slot(side)
        rows = 1 + sum(row_in(image[slot]).numbers)
        yield from ((at, written(image[at])) for at in range(slot, slot + rows))
        for gate, first in gates(image, layout, opening):
            yield gate, GATE_BYTES
            if first:
                yield from ((at, written(image[at])) for at in range(first, first + data_sectors(image[first], opening.form)))


def each_byte(image, dice):
    """Each of these bytes with two other values: one that is likely to be judged, and any. Some of the other bytes with one."""
    for at, count in read_sectors(image):
        others = dice.sample(range(count, SECTOR), min(OTHERS, SECTOR - count))
        for place in [*range(count), *others]:
            byte = image[at][place]
            near = dice.choice(changed_disks.other_bytes(byte))
            far = dice.choice([it for it in range(256) if it not in (byte, near)])
            for value in (near, far)[:2 if place < count else 1]:
                yield with_sector(image, at, with_byte(image[at], place, value))


def the_damaged(place, images, dice, count):
    for form, image in images.items():
        name = FORMS[form]
        the_images(place, f'{name}, each byte changed', each_byte(image, dice), count)
        the_images(place, f'{name}, headers changed', changed_disks.headers_changed(image), count)
        the_images(place, f'{name}, sectors changed', changed_disks.sectors_changed(image, dice, 100), count)
    the_images(place, 'put together', changed_disks.put_together(), count)


# Files

def a_length(place, data):
    """A file that may end within a sector."""
    place.write(DISK, data)
    prints(place, *wanted(place.image()))


def both_say(place, status, err, **how):
    for words in (CHECK, COUNT):
        place.gives(words, status, err=err, **how)


def no_disk(place):
    both_say(place, 4, file_fault(DISK, MISSING))
    compare('a disk is there', place.path().exists(), False)
    place.path().mkdir()
    both_say(place, 4, file_fault(DISK, NOT_A_FILE))


def other_files(place):
    os.symlink('/dev/null', place.path())
    both_say(place, 5, UNFORMATTED)
    os.remove(place.path())
    os.mkfifo(place.path())
    both_say(place, 5, UNFORMATTED)
    os.remove(place.path())
    for data, err in (b'', UNFORMATTED), (bytes(SMALL_SECTORS * SECTOR), UNFORMATTED), (b'TETRALOC' + bytes(SECTOR), BAD_GEOMETRY):
        place.write(DISK, data)
        with untouched(place.path()):
            both_say(place, 5, err)


def held_by_another(place):
    place.format()
    with open(place.path(), 'rb') as other, untouched(place.path()):
        fcntl.flock(other, fcntl.LOCK_EX)
        both_say(place, 4, file_fault(DISK, HELD))
    prints(place, *wanted(place.image()))


def held_by_a_run(place):
    place.format()
    os.mkfifo(place.path('pipe'))
    command = [*place.command, 'run', DISK, 'pipe']
    with started(command, cwd=place.folder, stdin=subprocess.DEVNULL, stdout=subprocess.PIPE) as program:
        pipe = opened_to_write(place.path('pipe'))
        both_say(place, 4, file_fault(DISK, HELD))
        os.close(pipe)
        compare('output', ends(program, 0), b'station 1 pipe\n')
    prints(place, *wanted(place.image()))


def closed_streams(place):
    """What is printed does not get into the disk."""
    place.format()
    _, out, _ = wanted(place.image())
    with untouched(place.path()), open('/dev/full', 'wb') as full:
        for closed in STREAMS:
            with_closed(place, CHECK, closed, out)
        place.gives(CHECK, 4, err=file_fault('-'), stdout=full)


def other_words(place):
    """`check` takes one name, and a name may begin with a dash after `--`."""
    place.format()
    place.copy(DISK, '-d')
    for words in (['check'], [*CHECK, DISK], ['check', '-d']):
        with started([*place.command, *words], cwd=place.folder, stdin=subprocess.DEVNULL, stdout=subprocess.PIPE) as program:
            compare('output', program.communicate()[0], b'')
            compare('status', program.returncode, 2)
    place.gives(['check', '--', '-d'], *wanted(place.image('-d')))


def memory_that_ends(place, image, rows):
    """Each allocation in turn is refused. Then no line is printed: the fault is that of memory, and once damage was found always the first of
    these damaged rows."""
    lacks, found = ((5, b'', b'fault: ' + word + b'\n') for word in (b'memory', b'damaged sector %d' % (rows or [0])[0]))
    place.put(image)
    refused = []
    with refusing.library() as made, untouched(place.path()):
        for number in itertools.count(1):
            ended = subprocess.run([*place.command, *CHECK], cwd=place.folder, stdin=subprocess.DEVNULL, capture_output=True, timeout=SECONDS,
                                   env=refusing.environment(made, number))
            told = ended.returncode, ended.stdout, ended.stderr
            if told not in (lacks, found):
                break
            refused.append(told)
    before = refused.count(lacks)
    compare('what is printed', told, wanted(image))
    compare('the order of faults', refused, [lacks] * before + [found] * (len(refused) - before))
    compare('allocations were refused before damage, and after', (before > 0, len(refused) > before), (True, bool(rows)))


def the_refused(command, images, count):
    """On a disk that is sound, and on those with a damaged row on either side, or on both."""
    for form, image in images.items():
        a, b = (layout_on(image).slot(side) + 1 for side in (0, 1))
        for name, rows in ('sound', []), ('side A damaged', [a]), ('side B damaged', [b]), ('both damaged', [a, b]):
            disk = image
            for row in rows:
                disk = with_sector(disk, row, bytes(SECTOR))
            with place(command, MEMORY) as folder:
                count.case(f'{FORMS[form]}, {name}, allocations refused', memory_that_ends, folder, disk, rows)
                count.case(f'{FORMS[form]}, {name}, allocations of a rest refused', rests.memory_that_ends, folder, disk)


def the_files(command, images, count):
    for case in no_disk, other_files, held_by_another, held_by_a_run, closed_streams, other_words:
        with place(command, MEMORY) as folder:
            count.case(case.__name__, case, folder)
    for form, image in images.items():
        for data in lengths(b''.join(image)):
            with place(command, MEMORY) as folder:
                count.case(f'{FORMS[form]}, a file of {len(data)} bytes', a_length, folder, data)


def main():
    words = options(__doc__)
    print(f'seed {words.seed}', flush=True)
    dice, count = random.Random(words.seed), Count()
    with place(words.program, MEMORY) as folder:
        rests.the_rests(folder, count)
        the_worked(folder, count)
        for form, name in FORMS.items():
            count.case(f'{name}, after runs', after_runs, folder, form, dice)
        new = count.case('a small disk', small, folder)
        images = new and count.case('a disk with two sides', two_sides, new[NUMBERED])
        if images:
            the_stops(folder, new, dice, count)
            the_damaged(folder, images, dice, count)
            the_refused(words.program, images, count)
            the_files(words.program, images, count)
    count.end()


if __name__ == '__main__':
    main()
