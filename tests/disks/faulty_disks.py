"""Images of disks of both layouts that open to no register, put together by hand, and the fault of each: the first one in the order in
which a disk is opened."""
import itertools

from made_disks import (CLOSED, FORMS, GATE, NONE, OPEN, OTHER_GATE, OTHER_SLOT, SLOT, expire, head, image, label, record, records,
                        text_of)
from reading_disks import NUMBERED, PLAIN, BadGeometry, Damaged, Unformatted
from reading_rows import LAST_EPOCH, SECTOR, header_row, number, rule_row

JUNK = b'\xa5' * SECTOR
# A copy of a group message that is wrongly marked as a report, and has the PDU of a report: item 5 for 234-14-2002
COPY_OF_A_REPORT = '15 0000000000000005 0000000000000e74 3a800e0007d2 3a800e0007d1 05 01 3a800e0003e8 0020 82100005'


def short_data(sequence):
    """A command of 277 bytes."""
    return head(1, sequence, 0, 4) + bytes(12) + number(2016, 2) + b'\x82' + bytes(251)


def labels():
    yield [], Unformatted()
    yield image({0: label(b'TETRALOD')}), Unformatted()
    yield image({0: bytes(SECTOR)}), Unformatted()
    for name, values in {'layout': (0, 2), 'rules': (0, 4097), 'radios': (0, 65_537), 'mail': (0, 65_537), 'stations': (0, 65),
                         'journal': (37, 40, 65_537)}.items():
        yield from ((image({0: label(**{name: value}), 1: CLOSED}), BadGeometry()) for value in values)
    yield image({1: CLOSED})[:-1], BadGeometry()
    yield image({1: CLOSED}), Damaged(1)
    yield image({1: b'\2' * SECTOR, 2: b'\xff' * SECTOR}), Damaged(1)


def sides(form):
    for bad in (JUNK, rule_row('', (1, 2, 0, 0)), header_row(0, 0, NONE, form), header_row(LAST_EPOCH + 1, 0, NONE, form)):
        yield image({SLOT: bad}), Damaged(SLOT)
        yield image({2: OPEN, OTHER_SLOT: bad}), Damaged(OTHER_SLOT)
        yield image({2: OPEN, SLOT: bad, OTHER_SLOT: bad}), Damaged(SLOT)
        yield image({1: CLOSED, 2: OPEN, SLOT: bad, OTHER_SLOT: bad}), Damaged(OTHER_SLOT)
    for other in FORMS:
        yield image({2: OPEN, OTHER_SLOT: header_row(1, 0, NONE, other)}, form), Damaged(2)
        yield image({2: OPEN, OTHER_SLOT: header_row(1, 9, (17, 0, 0, 0), other)}, form), Damaged(2)


def images(form):
    for numbers in (3, LAST_EPOCH + 1, NONE), (3, 0, (17, 0, 0, 0)), (3, 0, (0, 0, 0, 5)):
        header = header_row(*numbers, form)
        yield image({SLOT: header, GATE: OPEN}), Damaged(SLOT)
        yield image({2: OPEN, OTHER_SLOT: header, GATE: OPEN}), Damaged(OTHER_SLOT)
    rule = rule_row('01', (1, 2, 0, 0))
    yield image({SLOT: header_row(3, 1, (2, 0, 0, 0), form), 4: rule, 5: rule, GATE: OPEN}), Damaged(5)
    yield image({SLOT: header_row(3, 1, (1, 0, 0, 1), form), 4: rule, 5: rule}), Damaged(5)
    yield image({SLOT: header_row(3, 1, (1, 0, 0, 0), form), 4: JUNK}), Damaged(4)
    copy = bytes.fromhex(COPY_OF_A_REPORT).ljust(SECTOR, b'\0')
    yield image({SLOT: header_row(3, 5, (0, 0, 1, 0), form), 4: copy}), Damaged(4)


def heads(form):
    """Records whose numbers of commands or bytes are wrong, or whose commands are; and records that leave no room for a gate."""
    one, two, tail = expire(1), expire(2), bytes(494 if form == PLAIN else 486) + b'\1'
    texts = [text_of(form, [one], count=0), text_of(form, [one], count=65), text_of(form, [one], count=2),
             text_of(form, [one, two], count=1), text_of(form, [one], size=10), text_of(form, [one], size=12),
             text_of(form, [one], size=282), text_of(form, [one]) + b'\1', text_of(form, [one]) + tail,
             text_of(form, [expire(0)]), text_of(form, [expire(1, tag=9)])]
    behind = record(GATE + 3, text_of(form, [one]))
    yield from ((image({**record(GATE, text), **behind}, form), Damaged(GATE + 1)) for text in texts)
    small = record(GATE, text_of(form, [one]))
    for commands in ([one, two[:-1]], []):
        yield image({**small, **record(GATE + 2, text_of(form, commands, 2))}, form), Damaged(GATE + 3)
    # The first record has one data sector, the other 35 or 36: then its next gate is the half's last sector, or outside it
    long = [short_data(k + 2) for k in range(63)]
    yield image({**small, **record(GATE + 2, text_of(form, long, 2)), GATE + 38: OPEN}, form), Damaged(GATE + 38)
    longer = text_of(form, [*long, short_data(99)], 2, size=18_000)
    yield image({**small, **record(GATE + 2, longer), GATE + 38: OPEN}, form), Damaged(GATE + 3)


def refused(form):
    """All records are read before the first command is applied."""
    ahead = record(GATE, text_of(form, [expire(3)]))
    for commands in ([expire(3)], [expire(2)], [expire(4), expire(4)], [expire(4, station=0)], [expire(4), expire(1, station=5)]):
        behind = {**ahead, **record(GATE + 2, text_of(form, commands, 2))}
        yield image(behind, form), Damaged(GATE + 3)
        after = record(GATE + 4, text_of(form, [expire(5)], 2 + len(commands), size=3))
        yield image({**behind, **after}, form), Damaged(GATE + 5)
    twice = {**record(GATE, text_of(form, [short_data(1)])), **record(GATE + 2, text_of(form, [short_data(1)], 2))}
    yield image(twice, form), Damaged(GATE + 1)


def first_numbers():
    """Records whose first number is not the count before them plus 1. They are found before a command is applied."""
    refused_later = record(GATE, text_of(NUMBERED, [expire(3), expire(3)]))
    for first in (0, 1, 2, 4, 2 ** 32 + 3, 2 ** 62 + 1, 2 ** 63 + 3, 2 ** 64 - 1):
        yield image({**refused_later, **record(GATE + 2, text_of(NUMBERED, [expire(4)], first))}), Damaged(GATE + 3)
    two = record(GATE, text_of(NUMBERED, [expire(1), expire(2)]))
    for first in (1, 2, 4):
        yield image({**two, **record(GATE + 2, text_of(NUMBERED, [expire(3)], first))}), Damaged(GATE + 3)
    for count, first in (1, 1), (1, 3), (256, 1), (10, 10), (LAST_EPOCH - 1, 1):
        yield image({SLOT: header_row(3, count, NONE), **record(GATE, text_of(NUMBERED, [expire(1)], first))}), Damaged(GATE + 1)


def other_forms():
    """Records of another form than the header in their side's slot gives. The last disk's record has the form of the other side."""
    one = [expire(1)]
    for form, other in (PLAIN, NUMBERED), (NUMBERED, PLAIN):
        yield image(record(GATE, text_of(other, one)), form), Damaged(GATE + 1)
        yield image(records(GATE, form, one)[0] | record(GATE + 2, text_of(other, [expire(2)], 2)), form), Damaged(GATE + 3)
        both = {2: OPEN, OTHER_SLOT: header_row(2, 0, NONE, other)}
        yield image({**both, **record(OTHER_GATE, text_of(form, one))}, form), Damaged(OTHER_GATE + 1)


def cases():
    by_form = (part(form) for form in FORMS for part in (sides, images, heads, refused))
    return itertools.chain(labels(), *by_form, first_numbers(), other_forms())
