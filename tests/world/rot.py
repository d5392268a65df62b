#!/usr/bin/env python3
"""Flips bits below a file system with checksums (btrfs, on loop devices), under a disk file that four stations have written.
- With one copy, a byte of any block: the file system is not mounted, the program ends with a named fault, or the register is the same.
- With two copies (raid1), a byte of one copy of a block of the disk file: `check` and `dump` notice nothing, and a scrub mends it.
- In a file without such a file system: some flips give another register, which `check` takes; its `dump` has another checksum.
The independent reading (tests/reading/) has the register. What is not installed or can't be used is named. Prints the seed, what was
found, and last 'N passed, M failed'.
Usage: tests/run rot PROGRAM [--flips N] [--seed N]"""
import collections
import contextlib
import hashlib
import os
import pathlib
import random
import tempfile

from base_stations import STATIONS
from disk_files import DISK, MEMORY, Place
from many_files import SHORTEST, by_chance, empty, formats, runs
from reading_texts import text_of
from running import Differs, compare
from testing import Count, end_on_signals, options
from tools import ran, tried

TOOLS = 'losetup', 'mount', 'umount', 'mkfs.btrfs', 'btrfs'
SIZE, BLOCK, LINES = 128 << 20, 4096, 60
FAULT_OF_DEVICE, NOT_MOUNTED, SAME = 'fault: device', 'not mounted', 'the same register'


# Devices

@contextlib.contextmanager
def loops(images):
    """A loop device for each image."""
    made = []
    try:
        for path in images:
            made.append(ran('losetup', '--find', '--show', path).decode().strip())
        yield made
    finally:
        for one in made:
            tried('losetup', '--detach', one)


@contextlib.contextmanager
def mounted(images, point):
    """The file system on these images; None where it can't be mounted. Nothing of it stays in memory."""
    with loops(images) as devices:
        how = ','.join(f'device={one}' for one in devices)
        done = tried('mount', '-t', 'btrfs', '-o', how, devices[0], point)
        try:
            yield point if done.returncode == 0 else None
        finally:
            if done.returncode == 0:
                ran('umount', point)


class Volume:
    """A file system with so many copies of all that it keeps, and a disk file on it."""

    def __init__(self, program, folder, copies):
        self.folder, self.point = pathlib.Path(folder), pathlib.Path(folder) / 'point'
        self.point.mkdir()
        self.images = [self.folder / f'image.{number}' for number in range(copies)]
        for path in self.images:
            path.touch()
            os.truncate(path, SIZE)
        self.place, profile = Place(program, self.point), 'raid1' if copies > 1 else 'single'
        with loops(self.images) as devices:
            ran('mkfs.btrfs', '-q', '-d', profile, '-m', profile, *devices)

    def mounted(self):
        return mounted(self.images, self.point)

    def flip(self, number, at, bit):
        """Turns a bit of an image; the byte before."""
        with open(self.images[number], 'r+b') as image:
            image.seek(at)
            byte = image.read(1)[0]
            image.seek(at)
            image.write(bytes([byte ^ 1 << bit]))
        return byte

    def byte(self, number, at):
        with open(self.images[number], 'rb') as image:
            image.seek(at)
            return image.read(1)[0]


def written(place, dice):
    """The text of the register on a new disk, once stations have written it."""
    formats(place, STATIONS, SHORTEST)
    files = by_chance(dice, STATIONS, LINES)
    files.write(place)
    return text_of(runs(place, files, empty(STATIONS)).registers[-1])


def blocks(data):
    """The places of the blocks that hold anything."""
    return [at for at in range(0, len(data), BLOCK) if data[at:at + BLOCK].strip(b'\0')]


def places_in(raw, data):
    """Where a device has each block of a file that holds anything and that it has once."""
    there = collections.defaultdict(list)
    for at in blocks(raw):
        there[raw[at:at + BLOCK]].append(at)
    return {at: there[data[at:at + BLOCK]][0] for at in blocks(data) if len(there[data[at:at + BLOCK]]) == 1}


# What a program finds

def found(place, text):
    """What `check` and `dump` find, which must be a named fault or this register."""
    checked, dumped = (tried(*place.command, word, DISK, cwd=place.folder) for word in ('check', 'dump'))
    for one in checked, dumped:
        if one.returncode:
            compare('a named fault', (one.returncode, one.stderr), (5, f'{FAULT_OF_DEVICE}\n'.encode()))
            return FAULT_OF_DEVICE
    compare('the register', dumped.stdout, text)
    return SAME


def one_copy(program, folder, flips, dice):
    volume = Volume(program, folder, 1)
    with volume.mounted():
        text = written(volume.place, dice)
        data = volume.place.path().read_bytes()
    raw, told, image, copy = volume.images[0].read_bytes(), [], volume.images[0], volume.folder / 'copy'
    ran('cp', '--sparse=always', image, copy)
    own, all_blocks = list(places_in(raw, data).values()), blocks(raw)
    compare('the disk file is found on the device', own != [], True)
    for number in range(flips):
        at, bit = dice.choice([own, all_blocks][number % 2]) + dice.randrange(BLOCK), dice.randrange(8)
        volume.flip(0, at, bit)
        with volume.mounted() as there:
            told.append(found(volume.place, text) if there else NOT_MOUNTED)
        ran('cp', '--sparse=always', copy, image)
    print(f'one copy, {flips} flips: ' + ', '.join(f'{told.count(one)} {one}' for one in (FAULT_OF_DEVICE, NOT_MOUNTED, SAME)), flush=True)
    compare('a flip ends in a fault', FAULT_OF_DEVICE in told, True)


def two_copies(program, folder, flips, dice):
    volume = Volume(program, folder, 2)
    with volume.mounted():
        text = written(volume.place, dice)
        data = volume.place.path().read_bytes()
    there = [places_in(path.read_bytes(), data) for path in volume.images]
    compare('the disk file is found on both devices', all(there), True)
    for _ in range(flips):
        number, bit = dice.randrange(2), dice.randrange(8)
        at = dice.choice(list(there[number].values())) + dice.randrange(BLOCK)
        byte = volume.flip(number, at, bit)
        with volume.mounted():
            compare('what is found', found(volume.place, text), SAME)
            ran('btrfs', 'scrub', 'start', '-B', volume.point)
        compare('the byte after a scrub', volume.byte(number, at), byte)
    print(f'two copies, {flips} flips: all mended', flush=True)


def no_checksums(program, folder, flips, dice):
    there = Place(program, folder)
    text = written(there, dice)
    data, unseen = there.path().read_bytes(), 0
    used = [at for at, byte in enumerate(data) if byte]
    for _ in range(flips):
        at = dice.choice(used)
        there.write(DISK, data[:at] + bytes([data[at] ^ 1 << dice.randrange(8)]) + data[at + 1:])
        if tried(*there.command, 'check', DISK, cwd=there.folder).returncode == 0:
            dumped = ran(*there.command, 'dump', DISK, cwd=there.folder)
            unseen += hashlib.sha256(dumped).digest() != hashlib.sha256(text).digest()
    print(f'no checksums, {flips} flips: check takes {unseen} whose dump has another checksum', flush=True)
    compare('check takes a flip', unseen > 0, True)


# The whole

def can_mount(count):
    """Whether btrfs can be mounted from a loop device here. If not, prints why."""
    if not count.has('rot on btrfs', *TOOLS):
        return False
    with tempfile.TemporaryDirectory(dir=MEMORY) as folder, contextlib.suppress(Differs):
        with Volume(['true'], folder, 1).mounted() as there:
            if there:
                return True
    count.leaves_out('rot on btrfs', "btrfs can't be mounted from a loop device")
    return False


def main():
    words, count = options(__doc__, flips=12), Count()
    end_on_signals()
    print(f'seed {words.seed}', flush=True)
    dice = random.Random(words.seed)
    cases = [(one_copy, words.flips), (two_copies, words.flips), (no_checksums, 10 * words.flips)]
    for case, flips in cases if can_mount(count) else cases[-1:]:
        with tempfile.TemporaryDirectory(dir=MEMORY) as folder:
            count.case(case.__name__, case, words.program, folder, flips, dice)
    count.end()


if __name__ == '__main__':
    main()
