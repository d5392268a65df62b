"""Streams of hostile input, by what they try. Each module's KINDS are functions that yield the inputs of
one kind; this file has what they share. All dice are seeded: every run tries the same."""
import reading

U = '234-14-2001'
RULE_BODY = 'rule 234-14-0/24 1 99 1 3600'
RULE = f'1 0 {RULE_BODY}'
NO_COMMANDS = ('where', 'look', 'groups', 'members', 'mail', 'count', 'rules', 'radios', 'items', 'due', 'waiting', 'last', 'room', 'dump', 'mark', 'station', '#', '')


def binary(value, width):
    return format(value, f'0{width}b') if width else ''


def bits_of(pdu):
    count, digits = pdu.split(':')
    return ''.join(binary(int(d, 16), 4) for d in digits)[:int(count)]


def mobility_body(bits, itsi=U, area=7):
    return f'mm {itsi} {area} {reading.print_bits(bits)}'


def mobility(sequence, bits, itsi=U, area=7):
    return f'{sequence} 0 {mobility_body(bits, itsi, area)}'


def demand(update, itsi=U, area=7):
    """A location update demand of this type."""
    return mobility_body('0010' + binary(update, 3) + '000', itsi, area)


def detach(itsi=U, area=7):
    return mobility_body('00010', itsi, area)


def changed(bits):
    """Every single-bit change and every cut of these bits, they themselves, and one bit more."""
    yield from (bits[:k] + '10'[int(bits[k])] + bits[k + 1:] for k in range(len(bits)))
    yield from (bits[:k] for k in range(len(bits) + 1))
    yield from (bits + '0', bits + '1')


def damaged(dice, bits):
    """The bits with one turned, put in or taken out, or cut."""
    at = dice.randrange(len(bits))
    before, turned, after = bits[:at], '10'[int(bits[at])], bits[at + 1:]
    return dice.choice([before + turned + after, before + turned + bits[at:], before + after, before]) or '0'


def text(lines):
    return ''.join(line + '\n' for line in lines).encode()


def numbered(bodies):
    """The text of these bodies as commands of rising sequence, and of the queries and comments among them.
    A command with a moment is a pair, others have moment 0."""
    pairs = [(0, body) if isinstance(body, str) else body for body in bodies]
    return text(body if body.split(' ')[0] in NO_COMMANDS else f'{sequence} {moment} {body}'
                for sequence, (moment, body) in enumerate(pairs, 1))
