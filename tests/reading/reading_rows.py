"""An independent reading of the rows that a register is kept as, from docs/formats/disk.md alone, and their writing. A register is as
reading.py has it, its identities and prefixes as strings of 0 and 1; a row is a sector of 512 bytes."""
import collections
import functools

from reading import LAST_NUMBER, MOST_GROUPS, MOST_ITEMS, Item, Register
from reading_pdus import Message, Refused, Report, read_sds

SECTOR = 512
HEADER, RULE, RADIO, MAIL, SERVED, COPY = 22, 17, 18, 19, 20, 21
# The tag of a header of layout 1, which is read too
PLAIN_HEADER = 16
LAST_EPOCH, LATEST, LAST_AREA, LAST_SEQUENCE = 2 ** 62, 8_589_934_590, 16_383, 2 ** 32 - 1
MOST_BITS = 2048
# The kinds of waiting items: the letter that names each, and the class of its PDU
KINDS = {0: (b'm', Message), 1: (b'r', Report)}

# Rows as values: a key, and what a register keeps under it. A radio's groups are pairs, in the order of the row. A header has the tag
# with which it was read.
Header = collections.namedtuple('Header', 'epoch count numbers tag')
Rule = collections.namedtuple('Rule', 'prefix kept')
Radio = collections.namedtuple('Radio', 'itsi kept groups')
Mail = collections.namedtuple('Mail', 'key kept')
Served = collections.namedtuple('Served', 'station kept')


class NoRow(Exception):
    """Bytes that are no row, or a row that may not be at its place."""


class BadSector(Exception):
    """The place of the first sector that breaks the format, or is missing."""


def want(holds):
    if not holds:
        raise NoRow


def rise(places):
    return all(a < b for a, b in zip(places, places[1:]))


# Reading a row

class Fields:
    """What is left of a row's bytes."""

    def __init__(self, sector):
        self.bytes, self.at = sector, 0

    def take(self, count):
        want(self.at + count <= len(self.bytes))
        self.at += count
        return self.bytes[self.at - count:self.at]

    def number(self, count, least=0, most=None):
        value = int.from_bytes(self.take(count), 'big')
        want(least <= value and (most is None or value <= most))
        return value

    def bits(self, length, count):
        """The first bits of so many bytes; the others only fill."""
        bits = format(self.number(count), f'0{8 * count}b') if count else ''
        want('1' not in bits[length:])
        return bits[:length]

    def identity(self):
        return self.bits(48, 6)

    def prefix(self):
        return self.bits(self.number(1, most=48), 6)

    def string(self):
        length = self.number(2, most=MOST_BITS)
        return self.bits(length, (length + 7) // 8)


def header_in(fields, tag=HEADER):
    epoch, count = fields.number(8, 1, LAST_EPOCH), fields.number(8)
    return Header(epoch, count, tuple(fields.number(4) for _ in range(4)), tag)


def plain_header_in(fields):
    return header_in(fields, PLAIN_HEADER)


def rule_in(fields):
    prefix, low, high = fields.prefix(), fields.number(2, most=LAST_AREA), fields.number(2, most=LAST_AREA)
    want(low <= high)
    return Rule(prefix, (low, high, fields.number(1, most=3), fields.number(4)))


def group_in(fields):
    gtsi, attached = fields.identity(), fields.number(1, most=4 * 7 + 3)
    return gtsi, (attached // 4, attached % 4)


def radio_in(fields):
    itsi, station, area = fields.identity(), fields.number(2), fields.number(2, most=LAST_AREA)
    present = fields.number(1, most=1) == 1
    return Radio(itsi, (station, area, present), tuple(group_in(fields) for _ in range(fields.number(1))))


def mail_kind_in(fields):
    return KINDS[fields.number(1, most=1)]


def mail_in(fields, is_copy=False):
    number, deadline = fields.number(8), fields.number(8, most=LATEST)
    destination, source, reference = fields.identity(), fields.identity(), fields.number(1)
    kind, told = mail_kind_in(fields)
    want(told is Message or not is_copy)
    group = fields.identity() if is_copy else None
    try:
        pdu = read_sds(fields.string())
    except Refused:
        raise NoRow
    want(isinstance(pdu, told) and pdu.reference == reference)
    return Mail((destination, source, reference, kind), Item(number, deadline, pdu, group))


def copy_in(fields):
    return mail_in(fields, is_copy=True)


def served_in(fields):
    station, sequence, number = fields.number(2), fields.number(4, 1), fields.number(8)
    return Served(station, (sequence, number, fields.string() or None))


FORMS = {HEADER: header_in, PLAIN_HEADER: plain_header_in, RULE: rule_in, RADIO: radio_in, MAIL: mail_in, SERVED: served_in,
         COPY: copy_in}


@functools.lru_cache(maxsize=4096)
def row_in(sector):
    """The row that a sector holds; None where its bytes are no row."""
    fields = Fields(sector)
    try:
        form = FORMS.get(fields.number(1))
        return form and form(fields)
    except NoRow:
        return None


# Reading an image

class Image:
    """The register that rows make, and the last of them in the order of their kind."""

    def __init__(self, header, limits):
        self.register, self.last = Register(limits), {}
        self.register.count = header.count
        most = [self.register.limits[kind] for kind in ('rules', 'radios', 'mail', 'stations')]
        want(header.count <= LAST_NUMBER and all(number <= limit for number, limit in zip(header.numbers, most)))

    def put(self, row):
        kind = type(row)
        place, table = ORDER[kind](self, row)
        want(kind not in self.last or self.last[kind] < place)
        want(row[0] not in table)
        self.last[kind], table[row[0]] = place, row.kept

    def rule(self, row):
        return row.prefix, self.register.rules

    def radio(self, row):
        want(self.is_station(row.kept[0]) and len(row.groups) <= MOST_GROUPS)
        want(rise([gtsi for gtsi, _ in row.groups]))
        self.register.groups.update(((row.itsi, gtsi), attached) for gtsi, attached in row.groups)
        return row.itsi, self.register.radios

    def mail(self, row):
        want(self.is_number(row.kept.number))
        want(sum(key[0] == row.key[0] for key in self.register.mail) < MOST_ITEMS)
        return (row.kept.number, row.key), self.register.mail

    def served(self, row):
        want(self.is_station(row.station) and self.is_number(row.kept[1]))
        return row.station, self.register.served

    def is_station(self, number):
        return 1 <= number <= self.register.limits['stations']

    def is_number(self, number):
        return 1 <= number <= self.register.count


# The kinds of rows after the header, in their order
ORDER = {Rule: Image.rule, Radio: Image.radio, Mail: Image.mail, Served: Image.served}


def row_of(kind, sectors, place):
    want(place < len(sectors))
    row = row_in(sectors[place])
    want(type(row) is kind)
    return row


def read_image(sectors, limits):
    """The epoch and the register in these sectors, from the first on, or BadSector. Sectors after the image are ignored."""
    place = 0
    try:
        header = row_of(Header, sectors, 0)
        image = Image(header, limits)
        for kind, number in zip(ORDER, header.numbers):
            for _ in range(number):
                place += 1
                image.put(row_of(kind, sectors, place))
    except NoRow:
        raise BadSector(place)
    return header.epoch, image.register


# Writing

def number(value, count):
    return value.to_bytes(count, 'big')


def left(bits, count):
    """These bits in so many bytes, with zeros after them."""
    return number(int(bits.ljust(8 * count, '0') or '0', 2), count)


def string(bits):
    return number(len(bits), 2) + left(bits, (len(bits) + 7) // 8)


def sector(tag, *fields):
    return (number(tag, 1) + b''.join(fields)).ljust(SECTOR, b'\0')


def header_row(epoch, count, numbers, tag=HEADER):
    return sector(tag, number(epoch, 8), number(count, 8), *(number(rows, 4) for rows in numbers))


def rule_row(prefix, kept):
    low, high, life, keep = kept
    return sector(RULE, number(len(prefix), 1), left(prefix, 6), number(low, 2), number(high, 2), number(life, 1), number(keep, 4))


def radio_row(itsi, kept, groups):
    """Of a radio and pairs of a GTSI and its class and lifetime."""
    station, area, present = kept
    told = [left(gtsi, 6) + number(4 * usage + life, 1) for gtsi, (usage, life) in groups]
    return sector(RADIO, left(itsi, 6), number(station, 2), number(area, 2), number(int(present), 1), number(len(told), 1), *told)


def mail_row(key, kept, bits=None):
    """Of what waits, with other bits than its PDU's where they are given."""
    destination, source, reference, kind = key
    group = [] if kept.group is None else [left(kept.group, 6)]
    return sector(COPY if group else MAIL, number(kept.number, 8), number(kept.deadline, 8), left(destination, 6), left(source, 6),
                  number(reference, 1), number(b'mr'.index(kind), 1), *group, string(kept.pdu.kept if bits is None else bits))


def served_row(station, kept):
    sequence, count, pdu = kept
    return sector(SERVED, number(station, 2), number(sequence, 4), number(count, 8), string(pdu or ''))


def rows(epoch, register, tag=HEADER):
    """The sectors of a register's image, whose header has this tag."""
    mail = sorted(register.mail.items(), key=lambda it: (it[1].number, it[0]))
    tables = [[rule_row(prefix, kept) for prefix, kept in sorted(register.rules.items())],
              [radio_row(itsi, kept, sorted(register.groups_of(itsi).items())) for itsi, kept in sorted(register.radios.items())],
              [mail_row(key, kept) for key, kept in mail],
              [served_row(station, kept) for station, kept in sorted(register.served.items())]]
    return [header_row(epoch, register.count, map(len, tables), tag)] + sum(tables, [])
