"""Rules and location updates: prefixes of every length, every short PDU, PDUs changed, cut and extended."""
import random

import reading
from streams import RULE, RULE_BODY, U, binary, bits_of, changed, demand, detach, mobility, numbered, text

WORKED = ['10:260', '10:200', '10:220', '10:2A0', '10:2E0', '5:10', '31:1CEA0038', '59:267400002130068', '8:56',
          '14:7610', '60:7380480A00007D0', '7:74', '48:820405014849']


def prefixes():
    """Prefixes of every length, with and without a 1 past it, and what they serve."""
    lines = []
    for length in range(50):
        for ssi in (2001, 0, 1 << (47 - length) if 24 <= length < 48 else 5):
            lines.append(f'{len(lines) + 1} 0 rule 234-14-{ssi}/{length} 1 9 0 1')
    kept = [f'{k} 0 rule {name} 1 {10 + k} 0 1' for k, name in enumerate(
        ['0-0-0/0', '234-0-0/10', '234-14-0/24', '234-14-2000/44', '234-14-2001/48'], 200)]
    asks = [f'{k} 0 mm {name} {area} 10:260' for k, (name, area) in enumerate(
        [(n, a) for n in (U, '234-14-2002', '234-14-4000', '234-15-1', '1-1-1', '1023-16383-16777215') for a in (210, 211, 212, 213, 214, 215)], 300)]
    yield text(lines)
    yield text(kept + asks)


def nested():
    """Rules under every length of one identity, up to the limit, set, looked up and removed in random order."""
    dice = random.Random(4)
    value = int(binary(234, 10) + binary(14, 14) + binary(2001, 24), 2)
    names = [f'{reading.print_identity(binary(value >> (48 - n) << (48 - n), 48))}/{n}' for n in range(49)]
    others = [reading.print_identity(binary(value ^ 1 << k, 48)) for k in range(48)]
    for _ in range(20):
        bodies = []
        for _ in range(300):
            at = dice.randrange(49)
            bodies.append(dice.choice([f'rule {names[at]} {at} {at + dice.randrange(3)} {dice.randrange(4)} {dice.randrange(2 ** 32)}',
                                       f'unrule {names[at]}', f'unrule {dice.choice(others)}/48', demand(3, area=dice.randrange(50))]))
            bodies += [f'look {U}', f'look {dice.choice(others)}']
        yield numbered(bodies)


def rule_removed():
    """A radio, its groups and its mail once the rule that served them is gone."""
    rest = ['where ' + U, 'look ' + U, demand(0), demand(2), 'sds 234-14-2001 234-14-2001 48:820405014849', detach(), 'where ' + U]
    yield numbered([RULE_BODY, demand(3), 'sds 234-14-2001 234-14-2001 48:820405014849', 'unrule 234-14-0/24', *rest, 'mail ' + U, (3600, 'expire'),
                    'mail ' + U, 'unrule 234-14-0/24', RULE_BODY, *rest])
    for length in range(49):
        yield numbered([RULE_BODY, demand(3), f'unrule 234-14-0/{length}', *rest])


def short_pdus():
    """Every PDU of up to 12 bits."""
    every = [binary(v, w) for w in range(13) for v in range(2 ** w)]
    yield text([RULE] + [mobility(k, bits) for k, bits in enumerate(every, 2)])


def changed_pdus():
    """Every single-bit change and every cut of each worked PDU, and each with one bit more."""
    every = [bits for pdu in WORKED for bits in changed(bits_of(pdu))]
    yield text([RULE] + [mobility(k, bits) for k, bits in enumerate(every, 2)])


def extended_pdus():
    """Demands and detaches with random optional elements, cut at random and not."""
    dice = random.Random(3)
    lines = [RULE]
    for sequence in range(2, 4000):
        head, widths = dice.choice([('0001', [24]), ('0010' + binary(dice.randrange(8), 3) + '00', [24, 3, 15, 24, 24])])
        body = head + '1'
        for width in widths:
            body += dice.choice(['0', '1' + binary(dice.getrandbits(width), width)])
        for _ in range(dice.randrange(5)):
            length = dice.choice([0, 1, 6, 7, 31, 200])
            body += '1' + binary(dice.randrange(16), 4) + binary(length, 11) + binary(dice.getrandbits(length + 1) >> 1, length)
        body += '0'
        lines.append(mobility(sequence, dice.choice([body, body, body[:dice.randrange(len(body))], body + '1'])))
    yield text(lines)


KINDS = [prefixes, nested, rule_removed, short_pdus, changed_pdus, extended_pdus]
