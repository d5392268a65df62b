"""An independent reading of what `check --rest` prints of a disk, from docs/operate.md and docs/formats/disk.md alone: the text of the
register as far as it can be read, and the lines on what it lacks. Disks are read by reading_disks.py, the lines of `check` by
reading_checks.py."""
import collections

from reading_checks import DAMAGED, ROW_NAMES, SIDES, SOUND, checked, is_within
from reading_disks import (NUMBERED, RECORD_HEAD, ROOTS, MOST_COMMANDS, Damaged, accepts, copied, form_of, is_open, layout_on, opens, record_at,
                           told_in)
from reading_rows import SECTOR, Header, Image, NoRow, row_in
from reading_texts import text_of

# What is left of a side: its epoch, its register, how many rows of each kind are left out, the first record of which not all commands
# are applied (None if there is none), and how many after it can be read
Rest = collections.namedtuple('Rest', 'side epoch register left_out stop later')


# Rows

def copy_of(image):
    """An image of which a row is tried: a row that may not come changes some of it."""
    copy = Image.__new__(Image)
    copy.register, copy.last = copied(image.register), dict(image.last)
    return copy


def with_row(image, row):
    """The image with a row after the others of its kind, or None if it may not come there."""
    copy = copy_of(image)
    try:
        copy.put(row)
    except NoRow:
        return None
    return copy


def rows_left(sectors, header, limits):
    """The register of the rows that may come, one after another, and how many of each kind may not."""
    image, left_out, at = Image(header, limits), [], 0
    for kind, number in zip(ROW_NAMES, header.numbers):
        missing = 0
        for _ in range(number):
            at += 1
            row = row_in(sectors[at])
            more = with_row(image, row) if type(row) is kind else None
            image, missing = more or image, missing + (more is None)
        left_out.append(missing)
    return image.register, left_out


# Records

def applied(register, record):
    """The register after the commands of a record, up to the first that it does not accept; and whether there is none."""
    register = copied(register)
    return register, all(accepts(register, command) for command in told_in(record).commands)


def record_on(image, gate, end, form, before):
    """The record at a gate and the next gate; None where the gate is closed."""
    if not is_open(image[gate]):
        return None
    if gate + 1 == end:
        raise Damaged(gate)
    return record_at(image, gate + 1, end, form, before)


def passed_over(image, at, end, form, before):
    """The gate after a record that can't be read, by the numbers in its first sector, and the commands before it; or None."""
    first = image[at]
    commands, size = int.from_bytes(first[:2], 'big'), int.from_bytes(first[10:14] if form == NUMBERED else first[2:6], 'big')
    gate = at + -(-(RECORD_HEAD[form] + size) // SECTOR)
    return (gate, before + commands) if commands <= MOST_COMMANDS and gate < end else None


def later_from(image, gate, end, form, before):
    """How many records can be read from a gate on."""
    later = 0
    try:
        while found := record_on(image, gate, end, form, before):
            record, gate = found
            before, later = before + len(told_in(record).commands), later + 1
    except Damaged:
        pass
    return later


def with_records(image, layout, side, header, register):
    """The register with the commands of a side's records as far as they are accepted, the first record at fault, and the number later."""
    gate, end, form, before = layout.half(side), layout.half(side + 1), form_of(image, layout, side), header.count
    try:
        while found := record_on(image, gate, end, form, before):
            record, gate = found
            before += len(told_in(record).commands)
            register, are_all = applied(register, record)
            if not are_all:
                return register, record.at, later_from(image, gate, end, form, before)
    except Damaged as fault:
        at = fault.args[0]
        on = None if at == gate else passed_over(image, at, end, form, before)
        return register, at, later_from(image, on[0], end, form, on[1]) if on else 0
    return register, None, 0


# Sides

def rest_from(image, layout, side):
    """What is left of a side; None if its root is closed or its header is damaged."""
    slot = layout.slot(side)
    header = row_in(image[slot])
    if not is_open(image[ROOTS[side]]) or not isinstance(header, Header) or not is_within(header, layout):
        return None
    limits = dict(zip(('rules', 'radios', 'mail', 'stations'), layout.limits))
    register, left_out = rows_left(image[slot:slot + layout.rows()], header, limits)
    register, stop, later = with_records(image, layout, side, header, register)
    return Rest(side, header.epoch, register, left_out, stop, later)


def rest_in(image):
    """What is left of a disk: of the side that it opens to, else of that with more commands, or the newer one if both have as many."""
    layout = layout_on(image)
    sides = [rest_from(image, layout, side) for side in (0, 1)]
    try:
        return sides[opens(image).side]
    except Damaged:
        return max(filter(None, sides), key=lambda it: (it.register.count, it.epoch, -it.side), default=None)


def rest_line(rest):
    if rest is None:
        return 'rest none'
    rows = ' '.join(f'{word} {number}' for word, number in zip(('rules', 'radios', 'items', 'stations'), rest.left_out))
    records = 'none' if rest.stop is None else f'from {rest.stop} and {rest.later} later'
    return f'rest side {SIDES[rest.side]} epoch {rest.epoch} count {rest.register.count} lacks {rows} records {records}'


def rested(image):
    """The status, the text and the lines of a disk; or Unformatted or BadGeometry."""
    lines, rest = checked(image)[1], rest_in(image)
    status = DAMAGED if lines[-1].startswith('lost') else SOUND
    return status, b'' if rest is None else text_of(rest.register), [*lines, rest_line(rest)]
