"""Disks of registers with thousands of items, and commits beside which a whole checkpoint of such a register is made."""
import subprocess

import reading
import registers
from base_stations import on_streams, serving
from disk_files import DISK
from images import are_same
from loaded import layout_of, sectors_of
from made_disks import OPEN
from reading_disks import NUMBERED, ROOTS, opens
from reading_rows import SECTOR
from running import SECONDS, compare

ROWS_A_COMMIT = 8


def full(items, others=0):
    """A register with so many items for many radios, and so many rules and radios."""
    register = reading.Register({'rules': max(others, 1), 'radios': max(others, 1), 'mail': items, 'stations': 2})
    register.count = items
    register.rules = {registers.identity(k << 8)[:40]: (1, 9, 0, 60) for k in range(others)}
    register.radios = {registers.identity(k << 8): (1, 7, True) for k in range(others)}
    for k in range(items):
        key = registers.identity(k // 100), registers.identity(1), k % 100, b'm'
        register.mail[key] = reading.Item(k + 1, k + 1, registers.message(k % 100), None)
    return register


def journal_for(items):
    """Sectors of a half in which a checkpoint beside has time to end. A commit of one command takes two sectors; one begins once half of
    the sectors are used."""
    return 80 + 4 * items // ROWS_A_COMMIT


def disk_of(register, changes={}, journal=None):
    """A disk both of whose sides stand for the register. Side A counts, with epoch 2. Other sectors are in these places."""
    journal = journal or journal_for(len(register.mail))
    sides = [sectors_of(register, journal, side, 2 - side, NUMBERED) for side in (0, 1)]
    sectors = {**sides[1], **sides[0], **dict.fromkeys(ROOTS, OPEN), **changes}
    return [sectors.get(at, bytes(SECTOR)) for at in range(layout_of(register.limits, journal).sectors())]


def served_beside(place, items):
    """Serves commits of one command each until a checkpoint that began beside them must have ended, and before a half is full. The side
    has changed once then, with all items and commands. Returns what is left of the output, and standard error."""
    register = full(items)
    place.put(disk_of(register))
    commits = journal_for(items) // 2 - 4
    with serving(place, ['serve', DISK], stdin=subprocess.PIPE) as program:
        station = on_streams(program)
        for sequence in range(1, commits + 1):
            compare('the answer', station.ask(b'%d 0 expire' % sequence), [f'{sequence} ok {items + sequence} -'])
        station.end()
        said = program.communicate(timeout=SECONDS)
        compare('status', program.returncode, 0)
    opening = opens(place.image())
    compare('epoch and side', (opening.epoch, opening.side), (3, 1))
    register.count = items + commits
    register.served[1] = commits, register.count, None
    compare('the register is the same', are_same(opening.register, register), True)
    return said
