"""Group attachment: group PDUs changed, cut, with counts and lengths that don't fit, and joined; the
lifetimes, the 32 groups of a radio, the members of a group, and long random lives of a few radios."""
import random

from streams import RULE, RULE_BODY, U, binary, bits_of, changed, damaged, demand, detach, mobility_body, numbered, text

V, G = '234-14-2002', '234-14-1000'
WORKED = ['60:7380480A00007D0', '84:7380780A20007D075001E', '7:74', '7:70', '8:78']


def address(group):
    """A GSSI alone, or all of a GTSI given as text."""
    if isinstance(group, int):
        return '00' + binary(group, 24)
    mcc, mnc, ssi = map(int, group.split('-'))
    return '01' + binary(ssi, 24) + binary(mcc, 10) + binary(mnc, 14)


def attaching(group, usage=4):
    return '0' + binary(usage, 3) + address(group)


def leaving(group, reason=0):
    return '1' + binary(reason, 2) + address(group)


def element(inside, identifier=8, more=0):
    """A type 3 or 4 element, its length off by `more`."""
    return '1' + binary(identifier, 4) + binary(max(len(inside) + more, 0) % 2048, 11) + inside


def uplink(items, count=None, more=0):
    """A group identity uplink element, with another count than its items have where one is given."""
    return element(binary(len(items) if count is None else count, 6) + ''.join(items), 8, more)


def group_pdu(*elements, first=False, report='0'):
    return '0111' + report + '01'[first] + ('1' + ''.join(elements) + '0' if elements else '0')


def grouping(items, itsi=U, first=False):
    """The command with a group PDU of these items; `first` detaches all groups before."""
    return mobility_body(group_pdu(uplink(items), first=first), itsi)


def attached(radios, groups):
    return [f'groups {name}' for name in radios] + [f'members {name}' for name in groups]


def changed_group_pdus():
    """Worked group PDUs and longer ones, changed and cut, each after the same two attachments."""
    longer = [group_pdu(uplink([leaving(1000, 2)]), report='1'),
              group_pdu(uplink([leaving(G), attaching('234-14-1001', 3)])),
              group_pdu(uplink([attaching(1001)]), element('101', 3), uplink([]),
                        uplink([attaching('235-14-1', 7), leaving(1002)]), first=True)]
    settled = grouping([attaching(1000, 1), attaching(1002, 2)], first=True)
    bodies = [RULE_BODY, demand(3)]
    for bits in [bits_of(pdu) for pdu in WORKED] + longer:
        for other in changed(bits):
            bodies += [settled, mobility_body(other), f'groups {U}']
    yield numbered(bodies)


def counts():
    """Counts that fit and that don't, over fewer and more items, in elements too short and too long."""
    bodies = [RULE_BODY, demand(3)]
    for make in (attaching, leaving, lambda group: attaching(f'234-14-{group}')):
        for count in (0, 1, 2, 31, 32, 33, 63):
            for real in {0, 1, count - 1, count, count + 1, 32}:
                for more in (-40, -6, -1, 0, 1, 40):
                    pdu = group_pdu(uplink([make(1000 + k) for k in range(real)], count, more), first=True)
                    if len(pdu) <= 2048:
                        bodies += [mobility_body(pdu), f'groups {U}']
    yield numbered(bodies)


def short_elements():
    """Elements cut at each bit, before the end, another element and nothing, and with each identifier."""
    bodies = [RULE_BODY, demand(3)]
    starts = [binary(1, 6) + attaching(1000), binary(1, 6) + leaving(G), binary(2, 6) + attaching(1000) + leaving(1),
              binary(1, 6) + '010010', binary(1, 6) + '10011' + '1' * 60, binary(40, 6), binary(0, 6) + '1']
    for start in starts:
        for length in range(len(start) + 1):
            cut = element(start[:length])
            bodies += map(mobility_body, [group_pdu(cut), group_pdu(cut)[:-1], group_pdu(cut, uplink([attaching(1003)]))])
    for identifier in range(16):
        for inside in starts:
            pdu = group_pdu(element(inside, identifier), uplink([attaching(1004)]), first=True)
            bodies += [mobility_body(pdu), f'groups {U}']
    yield numbered(bodies)


def joined_elements():
    """Two and three elements that together have up to 32 items, and more, with others between."""
    bodies = [RULE_BODY, demand(3)]
    pairs = [(a, b) for a in (0, 1, 16, 31, 32, 33) for b in (0, 1, 16, 31, 32)]
    for sizes in pairs + [(0, 0, 33), (10, 11, 11), (10, 11, 12), (32, 0, 1), (63, 0, 0)]:
        groups = iter(range(1000, 1100))
        elements = [uplink([leaving(next(groups)) if size % 2 else attaching(next(groups)) for _ in range(size)])
                    for size in sizes]
        for between in ('', element('', 15), element('110', 8)):
            pdu = group_pdu(*[part + between for part in elements], first=True)
            bodies += [mobility_body(pdu), f'groups {U}'] if len(pdu) <= 2048 else []
    yield numbered(bodies)


def made_group_pdus():
    """Random group PDUs: elements of any kind in any order, changed, cut and lengthened at random."""
    dice = random.Random(4)
    for _ in range(3):
        bodies = [RULE_BODY, demand(3)]
        for k in range(1500):
            elements = []
            for _ in range(dice.randrange(4)):
                items = random_items(dice, [1000, 1001, G, '234-14-1001', '235-14-1000'], dice.choice([0, 1, 1, 2, 3, 9]))
                noise = element(binary(dice.getrandbits(20), 20)[:dice.randrange(21)], dice.randrange(16))
                elements += dice.choice([[uplink(items)], [uplink(items)], [noise], [noise, uplink(items)]])
            bits = group_pdu(*elements, first=dice.randrange(8) == 0, report=dice.choice('01'))
            for _ in range(dice.choice([0, 0, 0, 1, 3])):
                bits = damaged(dice, bits)
            bodies += [mobility_body(bits)] + attached([U], [G] if k % 5 == 0 else [])
        yield numbered(bodies)


def random_items(dice, groups, size):
    return [dice.choice([attaching, attaching, leaving])(dice.choice(groups), dice.randrange(4)) for _ in range(size)]


def lifetimes():
    """Each location update after attachments of each lifetime, of a radio that is present or was detached."""
    groups = [f'234-14-{1000 + life}' for life in range(4)]
    bodies = [RULE_BODY] + [f'rule {name}/48 1 1 {life} 0' for life, name in enumerate(groups)]
    for update in range(8):
        for detached in (False, True):
            for area in (7, 100):
                bodies += [demand(3), demand(3, V)]
                bodies += [grouping([attaching(1000 + k, k) for k in range(4)], name, first=True) for name in (U, V)]
                bodies += [detach()] if detached else []
                bodies += [demand(update, area=area), f'where {U}'] + attached([U, V], groups)
    # An attachment keeps the lifetime that its group's rule had
    one = grouping([attaching(1001, 1)])
    bodies += [one, f'rule {groups[1]}/48 1 1 3 0', f'groups {U}', demand(0), f'groups {U}', one, f'groups {U}', demand(0), f'groups {U}']
    yield numbered(bodies)


def rooms():
    """Round the 32 groups of a radio: one by one, all at once, in turn, replaced and rejected."""
    full = grouping([attaching(1000 + k) for k in range(32)], first=True)
    joined, left = [attaching(2000 + k) for k in range(16)], [leaving(1000 + k) for k in range(16)]
    others = [[attaching(2000)], [leaving(1031), attaching(2000)], [attaching(2001), leaving(1030)], [attaching(2002), leaving(1)],
              [attaching(1005, 6)], [attaching('235-14-1')], [attaching('235-14-1'), attaching(2003)],
              [attaching(2003), attaching(2003), leaving(2003)], joined + left, left + joined,
              [attaching(3000 + k) for k in range(32)], [leaving(1000 + k) for k in range(32)]]
    bodies = [RULE_BODY, demand(3)] + [grouping([attaching(1000 + k)]) for k in range(34)] + [f'groups {U}']
    for items in others:
        for first in (False, True):
            bodies += [full, grouping(items, first=first), f'groups {U}']
    yield numbered(bodies)
    dice = random.Random(5)
    bodies = [RULE_BODY, 'rule 234-14-1010/47 1 2 3 0', 'rule 235-0-0/10 1 9 2 0', demand(3)]
    groups = [*range(1000, 1045)] * 2 + [f'235-14-{k}' for k in range(9)] * 10 + ['236-1-1'] * 60
    for _ in range(1500):
        bodies += [grouping(random_items(dice, groups, dice.choice([1, 2, 5, 20, 32])), first=dice.randrange(40) == 0)]
        bodies += [demand(dice.choice([0, 2, 3]))] if dice.randrange(30) == 0 else []
        bodies += [f'groups {U}'] if dice.randrange(5) == 0 else []
    yield numbered(bodies)


def many_members():
    """16 radios with 32 groups each; members in order of identity, the present ones alone."""
    radios = [f'{mcc}-{mnc}-{ssi}' for mcc in (9, 1023) for mnc in (0, 10, 9, 16383) for ssi in (16777215, 7)]
    groups = [f'{mcc}-2-{ssi}' for mcc in (10, 9) for ssi in range(95, 111)]
    bodies = ['rule 0-0-0/0 1 9 1 0']
    for radio in radios:
        bodies += [demand(3, radio), grouping([attaching(name, int(name[-1]) % 8) for name in groups], radio)]
    bodies += attached(radios, groups)
    for radio, group in zip(radios, groups):
        bodies += [grouping([leaving(group), attaching(groups[-1], 0)], radio), detach(radio)]
        bodies += attached([radio], [group, groups[-1]])
    bodies += [demand(0, radio) for radio in radios[::3]] + [demand(3, '9-0-1')] + attached(radios, groups)
    yield numbered(bodies)


def random_body(dice, prefixes, radios, groups):
    radio, kind = dice.choice(radios), dice.randrange(10)
    if kind == 0:
        low = dice.choice([0, 0, 0, 1, 4])
        return f'rule {dice.choice(prefixes)} {low} {low + dice.randrange(-1, 30)} {dice.randrange(4)} 5'
    if kind < 4:
        return demand(dice.choice([0, 2, 3, 3, 3, 4, 6, dice.randrange(8)]), radio, dice.randrange(1, 7))
    if kind == 4 and dice.randrange(2):
        return detach(radio, dice.randrange(9))
    element = uplink(random_items(dice, groups + [1000, 1001, 1002], dice.randrange(5)))
    bits = group_pdu(*[element] * dice.choice([0, 1, 1, 1, 1, 2]), first=dice.randrange(6) == 0)
    return mobility_body(damaged(dice, bits) if dice.randrange(8) == 0 else bits, radio)


def lives():
    """Random rules, demands, detaches, group PDUs, queries, resends and bad lines over a few radios and groups."""
    radios = [U, U, V, V, '235-14-2001', '1-1-1']
    groups = [G, '234-14-1001', '234-14-1002', '235-14-1000', '235-15-1000', U]
    prefixes = ['234-14-0/24', '234-14-0/24', '234-14-1000/48', '234-14-1002/47', '235-14-0/24', '235-0-0/10', '0-0-0/0', f'{U}/48']
    for seed in range(24):
        dice = random.Random(100 + seed)
        said, sequence = [RULE], 1
        for _ in range(500):
            sequence += dice.choice([1, 1, 1, 1, 1, 1, 1, 5, 0, -1])
            command = f'{sequence} {dice.randrange(100)} {random_body(dice, prefixes[:2 + seed % 7], radios, groups)}'
            query = dice.choice([f'where {dice.choice(radios)}', f'groups {dice.choice(radios)}', f'members {dice.choice(groups)}', 'count'])
            said.append(dice.choice([command] * 5 + [query] * 3 + [dice.choice(said), dice.choice(said)[:-1]]))
        yield text(said + attached(radios, groups))


KINDS = [changed_group_pdus, counts, short_elements, joined_elements, made_group_pdus, lifetimes, rooms, many_members, lives]
