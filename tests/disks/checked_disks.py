"""Disks of both layouts, and the lines that `check` prints of each, written here by hand."""
import itertools

from layouts import full_half, moved
from made_disks import CLOSED, GATE, NONE, OPEN, OTHER_GATE, OTHER_SLOT, SLOT, expire, image, record, records, text_of
from reading_disks import NUMBERED, PLAIN
from reading_rows import LAST_EPOCH, SECTOR, header_row, rule_row

LAYOUTS = {1: PLAIN, 2: NUMBERED}
JUNK, RULE, ONE_RULE = b'\xa5' * SECTOR, rule_row('01', (1, 2, 0, 0)), (1, 0, 0, 0)
# Of the disk with two sides: side B counts
A, B = 'side A epoch 5 count 8 gate 591', 'side B epoch 6 count 10 gate 632'
BY_A, BY_B = 'side A epoch 5 left 4611686018427387899 gate 591 free 37 count 8', 'side B epoch 6 left 4611686018427387898 gate 632 free 35 count 10'
NO_A, NO_B = 'side A unused', 'side B unused'
# The commands that sectors of junk state
JUNK_RECORD = 'record of 42405 commands, unreadable'
NO_ROWS = 'rules 0 radios 0 items 0 stations 0'
LOST_ROWS = {'rule': 'rules 1 radios 0 items 0 stations 0', 'radio': 'rules 0 radios 1 items 0 stations 0'}


def one(side, sector, what):
    """The lines of a side with this damaged sector alone."""
    yield f'side {side} damaged sector {sector}: {what}'
    if what.startswith('header'):
        yield f'side {side} loses all'
    elif what.startswith('row of a '):
        yield f"side {side} loses {LOST_ROWS[what.split(',')[0].split()[-1]]} records none"
    else:
        yield f'side {side} loses {NO_ROWS} records from {sector}'


JUNK_RULE_A, JUNK_RULE_B = (list(one(side, sector, 'row of a rule, unreadable')) for side, sector in (('A', 4), ('B', 297)))


def sound():
    """One side, or both."""
    for number, form in LAYOUTS.items():
        yield (f'layout {number}, made ready', image(form=form), 'side A epoch 1 count 0 gate 589', NO_B,
               f'ok layout {number} side A epoch 1 left 4611686018427387903 gate 589 free 39 count 0')
        yield (f'layout {number}, a full half', image(full_half(form)[0], form), 'side A epoch 1 count 19 gate 627', NO_B,
               f'ok layout {number} side A epoch 1 left 4611686018427387903 gate 627 free 1 count 19')
        last = {1: CLOSED, 2: OPEN, OTHER_SLOT: header_row(LAST_EPOCH, 9, NONE, form), SLOT: JUNK}
        yield (f'layout {number}, side B alone with the last epoch', image(last, form), NO_A,
               'side B epoch 4611686018427387904 count 9 gate 628',
               f'ok layout {number} side B epoch 4611686018427387904 left 0 gate 628 free 39 count 9')
    yield ('side A of layout 1 and side B of layout 2', moved(11), 'side A epoch 1 count 10 gate 609', 'side B epoch 2 count 11 gate 630',
           'ok layout 2 side B epoch 2 left 4611686018427387902 gate 630 free 37 count 11')


def two_sides(form, changes={}):
    """A rule in each slot. Side A has a record, side B has two. Other sectors are in these places."""
    first = {SLOT: header_row(5, 7, ONE_RULE, form), SLOT + 1: RULE, **records(GATE, form, [expire(1)], 7)[0]}
    second = {OTHER_SLOT: header_row(6, 8, ONE_RULE, form), OTHER_SLOT + 1: RULE, **records(OTHER_GATE, form, [expire(2), expire(3)], 8)[0]}
    return image({2: OPEN, **first, **second, **changes}, form)


def at(first, sectors):
    """The same sectors, counted from this one on."""
    return {first + place: sector for place, sector in sectors.items()}


# Damage to a slot or a half: the sectors that differ, the place of the damaged one, what it has to hold, and what is wrong with it

def no_headers(form):
    yield from (({0: sector}, 0, 'header, unreadable') for sector in (JUNK, RULE, bytes(SECTOR), header_row(0, 7, ONE_RULE, form)))


def bad_rows(epoch, count, form):
    for sector, reason in (JUNK, 'unreadable'), (bytes(SECTOR), 'unreadable'), (header_row(epoch, count, ONE_RULE, form), 'out of place'):
        yield {1: sector}, 1, f'row of a rule, {reason}'
    # A header that can't be one of this disk, or that other rows must follow
    for number, rows, place, what in ((2 ** 62 + 1, ONE_RULE, 0, 'header, beyond the limits'), (count, (17, 0, 0, 0), 0, 'header, beyond the limits'),
                                      (count, (1, 0, 0, 5), 0, 'header, beyond the limits'), (count, (0, 1, 0, 0), 1, 'row of a radio, out of place'),
                                      (count, (1, 1, 0, 0), 2, 'row of a radio, unreadable')):
        yield {0: header_row(epoch, number, rows, form)}, place, what
    yield {0: header_row(epoch, count, (2, 0, 0, 0), form), 2: RULE}, 2, 'row of a rule, out of place'


def bad_records(before, form):
    """After so many commands. The first command here has the sequence 9."""
    texts = {name: text_of(form, commands, before + 1) for name, commands in
             {'good': [expire(9)], 'refused': [expire(9, station=5)], 'twice': [expire(9)] * 2, 'none': [expire(9, tag=9)]}.items()}
    for data, commands in ((JUNK, 42405), (bytes(SECTOR), 0), (texts['good'] + b'\1', 1), (texts['none'], 1),
                           (text_of(form, [expire(9)], before + 1, size=500), 1)):
        yield record(0, data), 1, f'record of {commands} commands, unreadable'
    for data, commands in (texts['refused'], 1), (texts['twice'], 2):
        yield record(0, data), 1, f'record of {commands} commands, command refused'
    for first, second, what in (('good', JUNK, JUNK_RECORD), ('refused', JUNK, JUNK_RECORD),
                                ('good', text_of(form, [expire(9)], before + 2), 'record of 1 commands, command refused')):
        yield {**record(0, texts[first]), **record(2, second)}, 3, what
    many, gate = records(0, form, map(expire, range(9, 28)), before)
    yield {**many, gate: OPEN}, gate, 'last gate, unreadable'
    if form == NUMBERED:
        yield from ((record(0, text_of(form, [expire(9)], first)), 1, 'record of 1 commands, unreadable') for first in (0, before, before + 2, 2 ** 64 - 1))


# Disks with damage

def damage_to_a(number, form):
    """Where slot A has no header, the disk does not open; it does in each other case."""
    for sectors, place, what in no_headers(form):
        yield at(SLOT, sectors), *one('A', SLOT + place, what), B, 'lost sector 3'
    slots, halves = ((first, part) for first, part in ((SLOT, bad_rows(5, 7, form)), (GATE, bad_records(7, form))))
    for first, part in (slots, halves):
        for sectors, place, what in part:
            yield at(first, sectors), *one('A', first + place, what), B, f'kept layout {number} {BY_B}'


def damage_to_b(number, form):
    for first, part in ((OTHER_SLOT, no_headers(form)), (OTHER_SLOT, bad_rows(6, 8, form)), (OTHER_GATE, bad_records(8, form))):
        for sectors, place, what in part:
            yield at(first, sectors), A, *one('B', first + place, what), f'lost sector {first + place}'


def damage_to_both(number, form):
    yield ({SLOT: JUNK, OTHER_SLOT: JUNK}, *one('A', 3, 'header, unreadable'), *one('B', 296, 'header, unreadable'), 'lost sector 3')
    yield {SLOT + 1: JUNK, OTHER_SLOT + 1: JUNK}, *JUNK_RULE_A, *JUNK_RULE_B, 'lost sector 297'
    yield {GATE + 1: JUNK, OTHER_GATE + 1: JUNK}, *one('A', 590, JUNK_RECORD), *one('B', 629, JUNK_RECORD), 'lost sector 629'
    yield {SLOT + 1: JUNK, OTHER_GATE + 3: JUNK}, *JUNK_RULE_A, *one('B', 631, JUNK_RECORD), 'lost sector 631'
    yield {1: CLOSED, OTHER_SLOT: JUNK}, NO_A, *one('B', 296, 'header, unreadable'), 'lost sector 296'
    yield {2: CLOSED, SLOT + 1: JUNK}, *JUNK_RULE_A, NO_B, 'lost sector 4'


# The kinds of rows after a header of two rules, a radio, an item and a station; and of these the damaged ones, in the slot from there on
ROWS = 2, 1, 1, 1


def of_each_kind(side, first, record=None):
    """With a damaged record in this sector, if any."""
    yield f'side {side} damaged sector {first}: row of a rule, unreadable'
    yield f'side {side} damaged sector {first + 2}: row of a radio, out of place'
    yield f'side {side} damaged sector {first + 3}: row of an item, unreadable'
    yield f'side {side} damaged sector {first + 4}: row of a station, out of place'
    if record:
        yield f'side {side} damaged sector {record}: {JUNK_RECORD}'
    yield f"side {side} loses rules 1 radios 1 items 1 stations 1 records {f'from {record}' if record else 'none'}"


def each_kind(first):
    return at(first, {0: JUNK, 1: RULE, 2: RULE, 3: bytes(SECTOR), 4: RULE})


def rule_and_record(side, rule, record):
    """The lines of a side with a damaged rule and a damaged record."""
    yield f'side {side} damaged sector {rule}: row of a rule, unreadable'
    yield f'side {side} damaged sector {record}: {JUNK_RECORD}'
    yield f'side {side} loses rules 1 radios 0 items 0 stations 0 records from {record}'


def more_damage(number, form):
    """More than one damaged sector on a side."""
    kept = f'kept layout {number} {BY_B}'
    rows_a = {SLOT: header_row(5, 7, ROWS, form), **each_kind(SLOT + 1)}
    rows_b = {OTHER_SLOT: header_row(6, 8, ROWS, form), **each_kind(OTHER_SLOT + 1)}
    yield rows_a, *of_each_kind('A', 4), B, kept
    yield {**rows_a, GATE + 1: JUNK}, *of_each_kind('A', 4, 590), B, kept
    yield rows_b, A, *of_each_kind('B', 297), 'lost sector 297'
    yield {**rows_a, **rows_b, OTHER_GATE + 3: JUNK}, *of_each_kind('A', 4), *of_each_kind('B', 297, 631), 'lost sector 297'
    yield {SLOT + 1: JUNK, GATE + 1: JUNK}, *rule_and_record('A', 4, 590), B, kept
    yield ({SLOT + 1: JUNK, GATE + 1: JUNK, OTHER_SLOT + 1: JUNK, OTHER_GATE + 3: JUNK},
           *rule_and_record('A', 4, 590), *rule_and_record('B', 297, 631), 'lost sector 297')
    # Rows after the first damaged one are judged by themselves: equal rules are not named again
    yield ({SLOT: header_row(5, 7, (4, 0, 0, 0), form), **at(SLOT + 2, {0: RULE, 1: RULE, 2: JUNK})},
           'side A damaged sector 5: row of a rule, out of place', 'side A damaged sector 7: row of a rule, unreadable',
           'side A loses rules 2 radios 0 items 0 stations 0 records none', B, kept)
    # Another count: numbered records do not follow it
    yield ({SLOT: header_row(5, 6, (2, 0, 0, 0), form)}, 'side A damaged sector 5: row of a rule, unreadable',
           *(['side A damaged sector 590: record of 1 commands, unreadable', 'side A loses rules 1 radios 0 items 0 stations 0 records from 590']
             if form == NUMBERED else ['side A loses rules 1 radios 0 items 0 stations 0 records none']), B, kept)
    # An open gate in the last sector of a half, which holds no record
    many, gate = records(GATE, form, map(expire, range(9, 28)), 7)
    yield ({SLOT + 1: JUNK, **many, gate: OPEN}, 'side A damaged sector 4: row of a rule, unreadable', 'side A damaged sector 627: last gate, unreadable',
           'side A loses rules 1 radios 0 items 0 stations 0 records from 627', B, kept)
    # Nothing is named after a header or a record, nor a refused command after a row
    yield {SLOT: JUNK, SLOT + 1: JUNK, GATE + 1: JUNK}, *one('A', 3, 'header, unreadable'), B, 'lost sector 3'
    yield {SLOT: header_row(5, 7, (17, 0, 0, 0), form), SLOT + 1: JUNK, GATE + 1: JUNK}, *one('A', 3, 'header, beyond the limits'), B, kept
    yield {OTHER_GATE + 1: JUNK, OTHER_GATE + 3: JUNK}, A, *one('B', 629, JUNK_RECORD), 'lost sector 629'
    yield {SLOT + 1: JUNK, GATE + 1: text_of(form, [expire(9, station=5)], 8).ljust(SECTOR, b'\0')}, *JUNK_RULE_A, B, kept


def other_roots(number, form):
    """Roots and gates that read closed, which nobody can tell from sound ones; and sides that can't both count."""
    yield {1: CLOSED}, NO_A, B, f'ok layout {number} {BY_B}'
    yield {2: CLOSED}, A, NO_B, f'ok layout {number} {BY_A}'
    yield {2: b'\2' * SECTOR, OTHER_SLOT: JUNK}, A, NO_B, f'ok layout {number} {BY_A}'
    yield {1: CLOSED, 2: CLOSED}, NO_A, NO_B, 'lost sector 1'
    yield {1: JUNK, 2: JUNK, SLOT: JUNK, OTHER_SLOT: JUNK}, NO_A, NO_B, 'lost sector 1'
    yield {GATE: CLOSED}, 'side A epoch 5 count 7 gate 589', B, f'ok layout {number} {BY_B}'
    gate = f'ok layout {number} side B epoch 6 left 4611686018427387898 gate 630 free 37 count 9'
    yield {OTHER_GATE + 2: CLOSED}, A, 'side B epoch 6 count 9 gate 630', gate
    same, older = ({OTHER_SLOT: header_row(epoch, 8, ONE_RULE, form)} for epoch in (5, 4))
    yield same, A, 'side B epoch 5 count 10 gate 632', 'lost sector 2'
    yield {**same, SLOT + 1: JUNK}, *JUNK_RULE_A, 'side B epoch 5 count 10 gate 632', 'lost sector 2'
    yield {**same, OTHER_GATE + 3: JUNK}, A, *one('B', 631, JUNK_RECORD), 'lost sector 2'
    yield older, A, 'side B epoch 4 count 10 gate 632', f'ok layout {number} {BY_A}'
    yield {**older, OTHER_SLOT + 1: JUNK}, A, *JUNK_RULE_B, f'kept layout {number} {BY_A}'
    yield {**older, SLOT + 1: JUNK}, *JUNK_RULE_A, 'side B epoch 4 count 10 gate 632', 'lost sector 4'


def changed():
    for number, form in LAYOUTS.items():
        yield f'layout {number}, two sides', two_sides(form), A, B, f'ok layout {number} {BY_B}'
        for part in damage_to_a, damage_to_b, damage_to_both, more_damage, other_roots:
            for k, (changes, *lines) in enumerate(part(number, form)):
                yield (f'layout {number}, {part.__name__}, case {k}', two_sides(form, changes), *lines)


def cases():
    """The name of each, its image, and the lines."""
    return ((name, image, lines) for name, image, *lines in itertools.chain(sound(), changed()))
