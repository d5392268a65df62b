"""The PDUs as reading.py has them: bits are strings of 0 and 1, taken from the left. A missing bit is
the fault of its place."""

MOST_ITEMS = 32
GROUP_UPLINK, GROUP_DOWNLINK = 8, 7


class Refused(Exception):
    """A refusal by its word, with what it carries."""

    def __init__(self, word, carried=None):
        super().__init__(word)
        self.word, self.carried = word, carried


class Bits:
    """What is left of a string of bits, and the fault where it runs out."""

    def __init__(self, bits, wanting='mm-short'):
        self.bits, self.at, self.wanting = bits, 0, wanting

    def left(self):
        return len(self.bits) - self.at

    def take(self, width):
        if self.left() < width:
            raise Refused(self.wanting)
        self.at += width
        return self.bits[self.at - width:self.at]

    def number(self, width):
        return int(self.take(width), 2)

    def flag(self):
        return self.take(1) == '1'

    def elements(self):
        """Each type 3 or 4 element up to the M-bit 0: its identifier and its bits."""
        while self.flag():
            identifier = self.number(4)
            yield identifier, self.take(self.number(11))

    def skip_optional(self, widths):
        """The O-bit, type 2 elements of these widths, and what follows."""
        if self.flag():
            for width in widths:
                if self.flag():
                    self.take(width)
            for _ in self.elements():
                pass


# Mobility management

class Item:
    """An item of a group PDU: whether it detaches, its class or reason, its address as it came."""

    def __init__(self, bits):
        self.detaches = bits.flag()
        self.detail = bits.take(2 if self.detaches else 3)
        self.kind = bits.take(2)
        if self.kind in ('10', '11'):
            raise Refused('mm-unsupported-address')
        self.gssi = bits.take(24)
        self.extension = bits.take(24) if self.kind == '01' else ''
        self.address = self.kind + self.gssi + self.extension

    def group(self, itsi):
        """The GTSI; a GSSI alone is of the radio's own network."""
        return (self.extension or itsi[:24]) + self.gssi


def group_items(elements):
    """The items of all group identity uplink elements, joined."""
    items = []
    for identifier, inside in elements:
        if identifier != GROUP_UPLINK:
            continue
        bits = Bits(inside, 'mm-bad-element')
        count = bits.number(6)
        if len(items) + count > MOST_ITEMS:
            raise Refused('mm-too-many')
        items += [Item(bits) for _ in range(count)]
        if bits.left():
            raise Refused('mm-bad-element')
    return items


def read_up(bits):
    """('detach', None), ('demand', location update type) or ('groups', (detach all first, items))."""
    left = Bits(bits)
    kind = left.number(4)
    if kind == 1:
        left.skip_optional([24])
        value = 'detach', None
    elif kind == 2:
        update = left.number(3)
        left.take(1)
        if left.flag():
            left.take(10)
        left.skip_optional([24, 3, 15, 24, 24])
        value = 'demand', update
    elif kind == 7:
        left.take(1)
        first = left.flag()
        value = 'groups', (first, group_items(left.elements()) if left.flag() else [])
    else:
        raise Refused('mm-unknown-type')
    if left.left():
        raise Refused('mm-trailing')
    return value


def accept(update):
    return '0101' + format(update, '03b') + '0'


def reject(update, cause):
    return '0111' + format(update, '03b') + format(cause, '05b') + '00'


def acknowledgement(results):
    """Of each attach item its address and its (class, lifetime), or None where it is rejected."""
    head = '1011' + ('1' if any(given is None for _, given in results) else '0') + '0'
    if not results:
        return head + '0'
    inside = format(len(results), '06b')
    for address, given in results:
        inside += '100' + address if given is None else f'0{given[1]:02b}{given[0]:03b}' + address
    return head + f'11{GROUP_DOWNLINK:04b}{len(inside):011b}' + inside + '0'


def read_acknowledged(bits):
    """An item of an acknowledgement: whether it detaches, its (lifetime, class) or its reason, and its address."""
    detaches = bits.flag()
    detail = (bits.number(2),) if detaches else (bits.number(2), bits.number(3))
    kind = bits.number(2)
    return detaches, detail, bits.take(24), bits.take(24) if kind == 1 else ''


def read_down(bits):
    """('accept', (type,)), ('reject', (type, cause)) or ('acknowledgement', (one is rejected, items)), as the switch writes them."""
    left = Bits(bits)
    kind = left.number(4)
    if kind == 5:
        return 'accept', (left.number(3),)
    if kind == 7:
        return 'reject', (left.number(3), left.number(5))
    is_rejected, _ = left.flag(), left.take(1)
    inside = [Bits(one) for _, one in left.elements()] if left.flag() else []
    return 'acknowledgement', (is_rejected, [read_acknowledged(one) for one in inside for _ in range(one.number(6))])


# The short data transport layer

class Message:
    """An SDS-TRANSFER: the report it asks for, its reference, and its bits as they are kept."""

    def __init__(self, bits, left, flags):
        self.request = int(flags[:2], 2)
        self.reference = left.number(8)
        self.kept = bits


class Report:
    """An SDS-REPORT; two reserved bits are kept as 0."""

    def __init__(self, bits, left, flags):
        self.answered = flags[0] == '1'
        self.status, self.reference = left.number(8), left.number(8)
        self.kept = bits[:13] + '00' + bits[15:]


class Acknowledgement:
    """An SDS-ACK. Its status says nothing."""

    def __init__(self, bits, left, flags):
        left.take(8)
        self.reference = left.number(8)
        if left.left():
            raise Refused('sds-trailing')


def read_sds(bits):
    """A Message, Report or Acknowledgement."""
    if len(bits) > 2047:
        raise Refused('too-long')
    left = Bits(bits, 'sds-short')
    if left.number(8) < 128:
        raise Refused('not-sds-tl')
    kind = left.number(4)
    if kind > 2:
        raise Refused('sds-unknown-type')
    flags = left.take(4)
    if kind != 2 and flags[3] == '1':
        raise Refused('storage-control')
    return (Message, Report, Acknowledgement)[kind](bits, left, flags)
