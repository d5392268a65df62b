#!/usr/bin/env python3
"""Writes down each call of the disk file and of its folder while the program's `format` makes a disk (record.c, compiled and
preloaded). The file gets its length and zeros in each sector, both synced, and the folder is synced; then the sides are written and
synced, and at last the label. Nothing is written after the last sync. A stop between two of these calls leaves a disk without a
whole label, or one that the independent reading (tests/reading/) opens to an empty register. Each sync fails in a run of its own,
each write of the disk's parts and some of the zeros, some for want of space, and each allocation gets no memory.
`show` and `run` sync a disk once and then only read it before they serve, whatever it holds; `show` writes nothing. A read of the
station's file fails after some lines, whose answers are printed first; and a file is read in 4,500 pieces. Prints the seed, the
first cases that fail, and last 'N passed, M failed'.
Usage: tests/run making PROGRAM [--seed N]"""
import errno
import itertools
import os
import random
import subprocess

import faulty_disks
import made_disks
import reading
import refusing
from disk_files import DISK, EXISTS, LINES, MEMORY, SECTORS, SETTINGS, fault_line, file_fault, is_private, pieces_of_zeros, place, settings
from images import fault_of
from made_disks import FORMS
from pending import Disk, choices
from reading_disks import MOST, BadGeometry, Damaged, Layout, Unformatted, opens
from reading_rows import SECTOR
from recorder import follow, recorder
from running import SECONDS, compare
from station_lines import Serving, data_of, lines, printed
from testing import Count, options

WORDS, FORMATTED = ['format', 's.toml'], f'formatted {SECTORS} sectors\n'.encode()
ON_DEVICE, ON_MEMORY = b'fault: device\n', b'fault: memory\n'
LAYOUT, ZEROS = Layout(tuple(SETTINGS[name] for name in MOST), SETTINGS['journal']), bytes(SECTOR)
# The header of an empty register of epoch 1, of layout 2
HEADER = bytes.fromhex('16 0000000000000001') + bytes(24)
PIECES_OF_ZEROS = pieces_of_zeros(SECTORS)
# The length and its sync, the zeros and theirs, the folder; then the five sectors of the sides, and the label
KINDS = f'ta{"w" * len(PIECES_OF_ZEROS)}sdwwwwwsws'
PARTS = len('wwwwwsws')
DRAWS, SOME_ZEROS, PIECES = 20, 4, 4500


def empty():
    return reading.Register()


def kinds(record):
    return ''.join(done.kind for done in record)


# A disk made

def sectors_of(written):
    """The place and the bytes of each sector of these calls, which write whole ones, in order."""
    compare('writes of whole sectors', [done for done in written if done.number % SECTOR or len(done.bytes) % SECTOR], [])
    return [(done.number // SECTOR + k, done.bytes[k * SECTOR:][:SECTOR]) for done in written for k in range(len(done.bytes) // SECTOR)]


def is_made(record):
    """The calls of a disk that is made, by their kinds and places."""
    compare('the calls', kinds(record), KINDS)
    compare('the length', record[0].number, SECTORS * SECTOR)
    written = [done for done in record if done.kind == 'w']
    compare('the calls that write zeros', [len(done.bytes) // SECTOR for done in written[:len(PIECES_OF_ZEROS)]], PIECES_OF_ZEROS)
    sectors = sectors_of(written)
    compare('the sectors of zeros', sectors[:SECTORS], [(at, ZEROS) for at in range(SECTORS)])
    at, parts = [at for at, _ in sectors[SECTORS:]], dict(sectors[SECTORS:])
    sides = [1, 2, LAYOUT.slot(0), LAYOUT.half(0), LAYOUT.half(1)]
    compare('the sectors of the sides, and the label', (sorted(at[:-1]), at[-1]), (sides, 0))
    compare('the header', parts[LAYOUT.slot(0)], HEADER.ljust(SECTOR, b'\0'))


def making(made, disk=DISK):
    """The calls of a `format`; the disk holds an empty register."""
    made.place.write('s.toml', settings().encode())
    record = made.does([*WORDS, disk], 0, FORMATTED, disk=disk)
    is_made(record)
    is_private(made.place.path(disk))
    compare('the disk stands for', fault_of(made.place.image(disk), [empty()]), None)
    return record


def in_a_folder(made):
    """The folder in which the disk lies is the one that is synced."""
    os.mkdir(made.place.path('in'))
    making(made, 'in/d.img')


def has_no_label(image):
    """Whether an image has no label, or a part of one."""
    try:
        opens(image)
    except (Unformatted, BadGeometry):
        return True
    return False


def stops(record, dice):
    """Stops after each call that makes the disk ready; how many images these leave."""
    disk, count = Disk([ZEROS] * SECTORS), 0
    for done in record[-PARTS:]:
        follow(disk, done)
        for image in (disk.image(chosen) for chosen in choices(disk, dice, DRAWS)):
            count += 1
            if not has_no_label(image):
                compare('an image stands for', fault_of(image, [empty()]), None)
    compare('the disk in the end stands for', fault_of(disk.lasting, [empty()]), None)
    compare('what no sync made last', disk.pending, {})
    print(f'{count} images of a disk that is being made')


# Calls of `format` that fail

def numbers(dice):
    """The calls that fail, from 1: all but the zeros, and some of these."""
    zeros = [KINDS.index('w') + 1 + k for k in range(len(PIECES_OF_ZEROS))]
    others = [k + 1 for k in range(len(KINDS)) if k + 1 not in zeros]
    return sorted([*others, zeros[0], zeros[-1], *dice.sample(zeros[1:-1], SOME_ZEROS)])


def a_call_fails(made, record, number):
    """After the failed call `format` does nothing more. The file stays, and a second `format` refuses it. It has a label only if the label
    was written."""
    made.place.path().unlink()
    failed = made.does([*WORDS, DISK], 5, err=ON_DEVICE, fails=number)
    compare('the calls before', failed[:-1], record[:number - 1])
    compare('the last call', failed[-1].kind, 'f')
    compare('the disk has no label', has_no_label(made.place.image()), number < len(KINDS))
    made.place.gives([*WORDS, DISK], 4, err=file_fault(DISK, EXISTS))


def no_space(made, number, error):
    """The call finds no space, as the file gets its sectors."""
    made.place.path().unlink()
    failed = made.does([*WORDS, DISK], 4, err=file_fault(DISK, 'no space'), fails=number, ERROR=error)
    compare('the last call', failed[-1].kind, 'f')


def no_memory(made):
    """Each allocation in turn gets none; what is left of the file is removed by hand, and then the disk is made."""
    statuses = []
    with refusing.library() as refused:
        while statuses[-1:] != [0]:
            made.place.path().unlink(missing_ok=True)
            program = subprocess.run([*made.place.command, *WORDS, DISK], stdin=subprocess.DEVNULL, capture_output=True, timeout=SECONDS,
                                     cwd=made.place.folder, env=refusing.environment(refused, len(statuses) + 1))
            statuses.append(program.returncode)
            wanted = (b'', ON_MEMORY) if program.returncode else (FORMATTED, b'')
            compare(f'what allocation {len(statuses)} gives', (program.stdout, program.stderr), wanted)
    compare('statuses', (set(statuses), len(statuses) > 4), ({0, 5}, True))
    compare('the disk stands for', fault_of(made.place.image(), [empty()]), None)


# A disk opened

def is_opened(record):
    """One sync, then reads, or none where the disk is empty; and nothing else but questions for lines."""
    compare('one sync, then reads', kinds(record).rstrip('r').rstrip('p'), 's')


def opened(made, image):
    """`show` and `run` over this image; the file of the run has no line."""
    try:
        status, err, count = 0, b'', opens(image).register.count
    except (Unformatted, BadGeometry, Damaged) as fault:
        status, err, count = 5, fault_line(fault), None
    made.place.put(image)
    is_opened(made.does(['show', DISK, 'count'], status, b'' if status else f'count {count}\n'.encode(), err))
    is_opened(made.does(['run', DISK, LINES], status, b'' if status else printed([]), err))
    compare('the disk is as it was', made.place.image() == image, True)


def the_sync_fails(made):
    """Nothing is read then."""
    for words in ['show', DISK, 'count'], ['run', DISK, LINES]:
        compare('the calls', kinds(made.does(words, 5, err=ON_DEVICE, fails=1)), 'f')


# The station's file

def a_read_fails(made, form, serving, asked):
    """The read after so many lines: their answers are printed, and their commands kept."""
    made.place.put(made_disks.image(form=form))
    out, err = printed(serving.answers[:asked]), file_fault(LINES)
    made.does(['run', DISK, LINES], 4, out, err, breaks=asked)
    compare('the disk stands for', fault_of(made.place.image(), [serving.registers[serving.counts[asked - 1]]]), None)


def many_pieces(made):
    made.place.put(made_disks.image())
    made.place.write(LINES, b'count\n' * PIECES)
    record = made.does(['run', DISK, LINES], 0, printed([['count 0']] * PIECES))
    compare('reads of the file', kinds(record).count('r') > PIECES, True)


# The whole

def all_opened(made, count):
    made.place.write(LINES, b'')
    good = [made_disks.image(form=form) for form in FORMS]
    for number, image in enumerate([*good, *(image for image, _ in faulty_disks.cases())]):
        count.case(f'image {number}', opened, made, image)


def all_served(made, dice, count):
    serving = Serving(empty(), lines(dice, 60))
    made.place.write(LINES, data_of(serving.lines))
    for form, asked in itertools.product(FORMS, (1, 2, 30, 59, 60)):
        count.case(f'{FORMS[form]}, a read fails after {asked} lines', a_read_fails, made, form, serving, asked)
    count.case('many pieces', many_pieces, made)


def all_made(made, dice, count):
    record = count.case('a disk made', making, made)
    count.case('in a folder', in_a_folder, made)
    if record:
        count.case('stops', stops, record, dice)
        for number in numbers(dice):
            count.case(f'call {number} fails', a_call_fails, made, record, number)
        for number, error in itertools.product([1, 2, 3, KINDS.index('s') + 1, KINDS.index('d') + 1], [errno.ENOSPC, errno.EDQUOT]):
            count.case(f'call {number} finds no space, error {error}', no_space, made, number, error)
    count.case('no memory', no_memory, made)


def main():
    words = options(__doc__)
    print(f'seed {words.seed}', flush=True)
    dice, count = random.Random(words.seed), Count()
    with place(words.program, MEMORY) as folder, recorder(folder) as made:
        all_made(made, dice, count)
        all_opened(made, count)
        count.case('the sync fails', the_sync_fails, made)
        all_served(made, dice, count)
    count.end()


if __name__ == '__main__':
    main()
