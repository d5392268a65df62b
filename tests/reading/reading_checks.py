"""An independent reading of what `check` prints of a disk, from docs/operate.md and docs/formats/disk.md alone: a line for each side,
or for each damaged sector of it and for what it loses, and a line for the whole disk. Disks are read by reading_disks.py."""
from reading import LAST_NUMBER
from reading_disks import ROOTS, Damaged, figures, form_of, is_open, layout_on, opens_from, records_in
from reading_rows import Header, Mail, Radio, Rule, Served, row_in

SIDES = 'A', 'B'
SOUND, DAMAGED = 0, 5
HEADER, LAST_GATE = 'header', 'last gate'
ROW_NAMES = {Rule: 'row of a rule', Radio: 'row of a radio', Mail: 'row of an item', Served: 'row of a station'}


# The damaged sectors of a side, each with what it has to hold and what is wrong with it

def is_within(header, layout):
    return header.count <= LAST_NUMBER and all(number <= limit for number, limit in zip(header.numbers, layout.limits))


def rows_due(header):
    """The kinds of the rows after the header, in order."""
    return [kind for kind, number in zip(ROW_NAMES, header.numbers) for _ in range(number)]


def bad_record(image, layout, side, header):
    """The first record that can't be read."""
    try:
        records_in(image, layout.half(side), layout.half(side + 1), form_of(image, layout, side), header.count)
    except Damaged as fault:
        return fault.args[0]
    return None


def bad_rows(image, slot, due, first):
    """Of the row at which opening stops, and of each later one that is no row or of another kind."""
    for at, kind in enumerate(due, slot + 1):
        row = row_in(image[at])
        if at == first or at > first and type(row) is not kind:
            yield at, ROW_NAMES[kind], 'out of place' if row else 'unreadable'


def record_part(image, layout, side, at):
    """A record, with the number of commands that its first sector states. The last sector of a half can only be a gate."""
    return LAST_GATE if at == layout.half(side + 1) - 1 else f'record of {image[at][0] * 256 + image[at][1]} commands'


def damaged(image, layout, side, first):
    slot = layout.slot(side)
    header = row_in(image[slot])
    if not isinstance(header, Header):
        return [(first, HEADER, 'unreadable')]
    if not is_within(header, layout):
        return [(first, HEADER, 'beyond the limits')]
    record = bad_record(image, layout, side, header)
    if first >= layout.half(0):
        return [(first, record_part(image, layout, side, first), 'command refused' if record is None else 'unreadable')]
    records = [] if record is None else [(record, record_part(image, layout, side, record), 'unreadable')]
    return [*bad_rows(image, slot, rows_due(header), first), *records]


def lost(damage):
    """The entries of damaged rows, and the records from the damaged one on; without its header all of a side."""
    parts = [part for _, part, _ in damage]
    if HEADER in parts:
        return 'loses all'
    rows = ' '.join(f'{word} {parts.count(name)}' for word, name in zip(('rules', 'radios', 'items', 'stations'), ROW_NAMES.values()))
    records = [f'from {at}' for at, part, _ in damage if part not in ROW_NAMES.values()]
    return f'loses {rows} records {records[0] if records else "none"}'


# The lines

def found(image, layout, side):
    """What a side stands for, its first damaged sector, or None if it is unused."""
    if not is_open(image[ROOTS[side]]):
        return None
    try:
        return opens_from(image, layout, side)
    except Damaged as fault:
        return fault


def side_texts(image, layout, side, of_side):
    if of_side is None:
        return ['unused']
    if isinstance(of_side, Damaged):
        damage = damaged(image, layout, side, *of_side.args)
        return [*(f'damaged sector {at}: {part}, {reason}' for at, part, reason in damage), lost(damage)]
    return [f'epoch {of_side.epoch} count {of_side.register.count} gate {of_side.gate}']


def disk_text(image, of_sides):
    """The figures are those that `show` answers to `disk`."""
    try:
        told = figures(image)
    except Damaged as fault:
        return f'lost sector {fault}'
    is_kept = any(isinstance(of_side, Damaged) for of_side in of_sides)
    return told.replace('disk', 'kept' if is_kept else 'ok')


def checked(image):
    """The status and the lines of a disk; or Unformatted or BadGeometry."""
    layout = layout_on(image)
    of_sides = [found(image, layout, side) for side in (0, 1)]
    last = disk_text(image, of_sides)
    lines = [f'side {SIDES[side]} {told}' for side in (0, 1) for told in side_texts(image, layout, side, of_sides[side])]
    return SOUND if last.startswith('ok') else DAMAGED, [*lines, last]
