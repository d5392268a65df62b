"""An independent reading of registers as text, from docs/formats/text.md and docs/formats/disk.md alone: the text of a register, and
the register that a text makes under some limits, or its first fault. A register is as reading.py has it, a row as reading_rows.py."""
import collections
import itertools

from reading import MOST_GROUPS, BadLine, Item, bit_string, identity, number, prefix, print_bits, print_identity
from reading_pdus import Message, Refused, Report, read_sds
from reading_rows import (HEADER, LAST_AREA, LAST_SEQUENCE, LATEST, ORDER, Header, Image, Mail, NoRow, Radio, Rule, Served, want)

FORM, LONGEST = 'tetra-switch register 1', 4096
# The words before the four numbers of the first two lines, and the limits that the first line has
NAMES, LIMITS = ('rules', 'radios', 'items', 'stations'), ('rules', 'radios', 'mail', 'stations')
PDUS = {b'm': Message, b'r': Report}
FIRST_LINE, SPELLING, PLACE, CUT = 'first line', 'spelling', 'place', 'cut'


class BadText(Exception):
    """The number of the first line at fault, and the cause."""


# Writing

def numbered(numbers):
    return ' '.join(f'{name} {value}' for name, value in zip(NAMES, numbers))


def first_line(limits):
    return f'{FORM} {numbered(limits[kind] for kind in LIMITS)}'


def count_line(row):
    return f'count {row.count} {numbered(row.numbers)}'


def rule_line(row):
    return ' '.join(['rule', f'{print_identity(row.prefix.ljust(48, "0"))}/{len(row.prefix)}', *map(str, row.kept)])


def radio_line(row):
    station, area, present = row.kept
    groups = [f' {print_identity(gtsi)} {usage} {life}' for gtsi, (usage, life) in row.groups]
    return f'radio {print_identity(row.itsi)} station {station} la {area} {"present" if present else "absent"}{"".join(groups)}'


def item_line(row):
    (destination, source, reference, kind), kept = row
    words = ['item', kept.number, print_identity(destination), kind.decode(), print_identity(source), reference, kept.deadline,
             print_bits(kept.pdu.kept)]
    return ' '.join(map(str, words + ([print_identity(kept.group)] if kept.group else [])))


def last_line(row):
    sequence, accepted, pdu = row.kept
    return f'last {row.station} {sequence} {accepted} {print_bits(pdu)}'


LINES = {Header: count_line, Rule: rule_line, Radio: radio_line, Mail: item_line, Served: last_line}


def row_line(row):
    """The one spelling of a row."""
    return LINES[type(row)](row).encode()


def rows_of(register):
    """The rows of a register in the order of an image, the header with epoch 1."""
    groups = collections.defaultdict(tuple)
    for (itsi, gtsi), attached in sorted(register.groups.items()):
        groups[itsi] += (gtsi, attached),
    mail = sorted(register.mail.items(), key=lambda it: (it[1].number, it[0]))
    tables = [[Rule(*it) for it in sorted(register.rules.items())],
              [Radio(itsi, kept, groups[itsi]) for itsi, kept in sorted(register.radios.items())],
              [Mail(*it) for it in mail], [Served(*it) for it in sorted(register.served.items())]]
    yield Header(1, register.count, tuple(map(len, tables)), HEADER)
    yield from itertools.chain(*tables)


def text_of(register):
    """The text of a register, in bytes."""
    lines = [first_line(register.limits).encode(), *map(row_line, rows_of(register))]
    return b''.join(line + b'\n' for line in lines)


# Reading a line

def below(bits, word, least=0):
    """A number of so many bits."""
    return number(word, least, 2 ** bits - 1)


def count_in(words):
    count, _, rules, _, radios, _, items, _, stations = words
    return Header(1, below(64, count), tuple(below(32, word) for word in (rules, radios, items, stations)), HEADER)


def rule_in(words):
    under, low, high, life, keep = words
    kept = number(low, 0, LAST_AREA), number(high, 0, LAST_AREA), below(2, life), below(32, keep)
    want(kept[0] <= kept[1])
    return Rule(prefix(under), kept)


def group_in(gtsi, usage, life):
    return identity(gtsi), (below(3, usage), below(2, life))


def radio_in(words):
    itsi, _, station, _, area, presence, *groups = words
    want(len(groups) % 3 == 0 and len(groups) <= 3 * MOST_GROUPS)
    kept = below(16, station), number(area, 0, LAST_AREA), presence == b'present'
    return Radio(identity(itsi), kept, tuple(group_in(*groups[at:at + 3]) for at in range(0, len(groups), 3)))


def item_in(words):
    accepted, destination, kind, source, reference, deadline, bits, *group = words
    want(len(group) <= 1 and kind in PDUS)
    key, pdu = (identity(destination), identity(source), below(8, reference), kind), read_sds(bit_string(bits))
    want(isinstance(pdu, PDUS[kind]) and pdu.reference == key[2])
    want(kind == b'm' or not group)
    return Mail(key, Item(below(64, accepted), number(deadline, 0, LATEST), pdu, identity(group[0]) if group else None))


def last_in(words):
    station, sequence, accepted, bits = words
    pdu = None if bits == b'-' else bit_string(bits)
    want(pdu != '')
    return Served(below(16, station), (number(sequence, 1, LAST_SEQUENCE), below(64, accepted), pdu))


FORMS = {b'count': count_in, b'rule': rule_in, b'radio': radio_in, b'item': item_in, b'last': last_in}


def row_in(line):
    """The row that a line spells; None where it is no row's line. ValueError is another number of words."""
    keyword, *words = line.split(b' ')
    if keyword not in FORMS:
        return None
    try:
        row = FORMS[keyword](words)
    except (ValueError, BadLine, NoRow, Refused):
        return None
    return row if row_line(row) == line else None


def is_first(line):
    try:
        numbers = [below(32, word) for word in line.split(b' ')[4::2]]
    except BadLine:
        return False
    return len(numbers) == len(NAMES) and line == f'{FORM} {numbered(numbers)}'.encode()


def stated_in(line):
    """How many lines follow, if it states that, as the answer to the listing `dump` begins; else None."""
    word, _, count = line.partition(b' ')
    try:
        return below(64, count) if word == b'dump' else None
    except BadLine:
        return None


# Reading a text

class Loading:
    """What the lines so far make, and the kinds of rows that are still to come. Before the first line all kinds are."""

    def __init__(self, limits):
        self.limits, self.is_begun, self.image, self.due = limits, False, None, collections.deque([Header])
        self.stated = None

    def fault(self, line):
        """Takes a line. None, or the cause for which it can't be taken."""
        if not self.is_begun:
            if self.stated is None and stated_in(line) is not None:
                self.stated = stated_in(line)
                return None
            self.is_begun = is_first(line)
            return None if self.is_begun else FIRST_LINE
        row = row_in(line)
        if row is None:
            return SPELLING
        try:
            self.put(row)
        except NoRow:
            return PLACE
        return None

    def put(self, row):
        want(self.due and isinstance(row, self.due.popleft()))
        if not isinstance(row, Header):
            return self.image.put(row)
        want(self.stated in (None, 2 + sum(row.numbers)))
        self.image = Image(row, self.limits)
        for kind, count in zip(ORDER, row.numbers):
            self.due.extend([kind] * count)

    def end_fault(self, rest):
        """None, or the cause for which the text can't end with these bytes after its last line feed."""
        if len(rest) > LONGEST:
            return SPELLING if self.is_begun else FIRST_LINE
        return CUT if rest or self.due else None


def register_in(text, limits):
    """The register that a text makes under these limits, or BadText."""
    *lines, rest = text.split(b'\n')
    loading = Loading(limits)
    for place, line in enumerate(lines, 1):
        cause = loading.fault(line)
        if cause:
            raise BadText(place, cause)
    cause = loading.end_fault(rest)
    if cause:
        raise BadText(len(lines) + 1, cause)
    return loading.image.register
