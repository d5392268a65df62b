#!/usr/bin/env python3
"""Gives the program disks of both layouts that open to no register, files that are no disks, and command files and settings that
can't be read (file_cases.py). The program must report the fault that the independent reading (tests/reading/) finds, or that the
case names, and end with its status. `show` must write nothing to the disk. Prints the seed, a line for each part, the first cases
that fail, and last 'N passed, M failed'.
Usage: tests/run hostile_disks PROGRAM [--seed N]"""
import random

import file_cases
import reading
from changed_disks import kinds, put_together
from disk_files import DISK, LINES, MEMORY, fault_line, place, text, untouched
from images import are_same
from made_disks import FORMS, as_plain
from reading_disks import NUMBERED, PLAIN, BadGeometry, Damaged, Unformatted, opens
from reading_rows import SECTOR
from running import Differs, compare
from station_lines import Serving, apart, data_of, lines
from testing import Count, options

READY, COMMANDS = 'ready.img', 60


def told_of(image):
    """How the program has to answer `count`: its status, output and standard error."""
    try:
        return 0, text([f'count {opens(image).register.count}']), b''
    except (Unformatted, BadGeometry, Damaged) as fault:
        return 5, b'', fault_line(fault)


def shown(place):
    """Checks that `show` prints what the disk opens to, or its fault, and writes nothing to the disk. Returns the line of the fault."""
    status, out, err = told_of(place.image())
    with untouched(place.path()):
        place.gives(['show', DISK, 'count'], status, out, err)
    return err


def run(place):
    """`run` says the same; its file has no line, so it writes nothing."""
    status, out, err = told_of(place.image())
    with untouched(place.path()):
        place.gives(['run', DISK, LINES], status, out and text([f'station 1 {LINES}']), err)


def an_image(place, image, is_run):
    place.put(image)
    if is_run:
        run(place)
    return shown(place)


def the_images(place, disks, dice, count):
    """All are shown, and one in ten is served too."""
    all_kinds = {f'{FORMS[form]}, {name}': images for form, image in disks.items() for name, images in kinds(image, dice).items()}
    for name, images in {**all_kinds, 'put together': put_together()}.items():
        told = [count.case(f'{name}, image {k}', an_image, place, image, k % 10 == 0) for k, image in enumerate(images)]
        print(f'{name}: {len(told)} images, {sum(bool(fault) for fault in told)} of them faulty', flush=True)


def lengths(data):
    """Files that end within a sector or at its end."""
    for length in (0, 1, 511, 512, 513, 1023, 4 * SECTOR, len(data) - SECTOR, len(data) - 1):
        yield data[:length]
    yield from (data + b'\1', data + b'\1' * SECTOR)


def a_length(place, data):
    place.write(DISK, data)
    run(place)
    shown(place)


def the_lengths(place, disks, count):
    for form, image in disks.items():
        for data in lengths(b''.join(image)):
            count.case(f'{FORMS[form]}, a file of {len(data)} bytes', a_length, place, data)


def the_files(command, count):
    for case in file_cases.CASES:
        with place(command) as folder:
            count.case(case.__name__, case, folder)


def made(place, dice):
    """A disk of each layout whose two sides are open, with a record or more after the image: that of the last command at least."""
    serving = Serving(reading.Register(), apart(lines(dice, COMMANDS)))
    place.format(READY)
    place.write(LINES, data_of(serving.lines))
    place.gives(['run', READY, LINES], int(serving.troubled), serving.text())
    numbered = place.image(READY)
    disks = {NUMBERED: numbered, PLAIN: as_plain(numbered)}
    for form, image in disks.items():
        opening = opens(image)
        if opening.epoch == 1 or not are_same(opening.register, serving.registers[-1]):
            raise Differs(f'a disk of epoch {opening.epoch} and {opening.register.count} commands')
        compare('the layout of the current side', opening.form, form)
    return disks


def main():
    words = options(__doc__)
    print(f'seed {words.seed}', flush=True)
    dice, count = random.Random(words.seed), Count()
    with place(words.program, MEMORY) as folder:
        disks = count.case('disks made', made, folder, dice)
        if disks:
            folder.write(LINES, b'')
            the_images(folder, disks, dice, count)
            the_lengths(folder, disks, count)
    the_files(words.program, count)
    count.end()


if __name__ == '__main__':
    main()
