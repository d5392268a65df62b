"""Disks with as many radios as a register can have, and with as many items, for the benchmarks over real files. The reading in tests/ is then
on the path, too."""
import os
import random
import sys

from measuring import TOP

sys.path.insert(0, str(TOP / 'tests/reading'))

import reading
from reading_pdus import read_sds
from reading_rows import LATEST, SECTOR, header_row, number, radio_row, rows, rule_row

STATIONS, RADIOS = 64, 65_536
LARGE = {'rules': 16, 'radios': RADIOS, 'mail': 256, 'stations': STATIONS}
RULE = 1, 99, 1, 3600
MANY, FOR_ONE, JOURNAL = 65_536, 128, 8192
FULL = {'rules': 16, 'radios': MANY, 'mail': MANY, 'stations': STATIONS}


def scattered(count):
    """So many identities, anywhere in their 48 bits, in order."""
    dice = random.Random(1)
    return sorted({format(dice.getrandbits(48), '048b') for _ in range(count + 100)})[:count]


def large_disk(path, journal, sides=1):
    """A disk with a rule for everybody and all radios in the image of side A, or in those of both sides; no records."""
    rows = 1 + sum(LARGE.values())
    with path.open('wb') as disk:
        disk.truncate((3 + 2 * rows + 2 * journal) * SECTOR)
        disk.write((b'TETRALOC' + number(1, 2) + b''.join(number(it, 4) for it in [*LARGE.values(), journal])).ljust(SECTOR, b'\0'))
        for side in (0, 1):
            disk.write(number(int(side < sides), 1).ljust(SECTOR, b'\0'))
        for side in range(sides):
            disk.seek((3 + side * rows) * SECTOR)
            disk.write(header_row(1 + side, RADIOS, (1, RADIOS, 0, 0)) + rule_row('', RULE))
            for k, itsi in enumerate(scattered(RADIOS)):
                disk.write(radio_row(itsi, (1, 1 + k % 99, True), []))


def filled(path):
    """Holes of a file become bytes of it, as a disk's are."""
    data = path.read_bytes()
    with path.open('wb') as disk:
        disk.write(data)
        os.fsync(disk.fileno())


def identity(number):
    return format(number, '048b')


def message(reference):
    """An SDS-TRANSFER without text, as it waits."""
    return read_sds('10000010' '0000' '0000' + format(reference, '08b'))


def full_register(radios):
    """A register with so many radios and all its items."""
    made = reading.Register(FULL)
    made.count = MANY
    made.rules = {'': RULE}
    made.radios = {identity(7919 * k): (1 + k % 64, 1 + k % 99, True) for k in range(radios)}
    made.mail = {(identity(7919 * (k // FOR_ONE)), identity(k), k % FOR_ONE, b'm'): reading.Item(k + 1, LATEST, message(k % FOR_ONE), None)
                 for k in range(MANY)}
    return made


def full_disk(path, radios=MANY):
    """Epoch 1 on side A, no record; the holes of the file are filled."""
    sectors = 3 + 2 * (1 + sum(FULL.values())) + 2 * JOURNAL
    label = (b'TETRALOC' + number(1, 2) + b''.join(number(it, 4) for it in [*FULL.values(), JOURNAL])).ljust(SECTOR, b'\0')
    image = label + b'\1'.ljust(SECTOR, b'\0') + bytes(SECTOR) + b''.join(rows(1, full_register(radios)))
    path.write_bytes(image.ljust(sectors * SECTOR, b'\0'))
