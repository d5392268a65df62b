"""Messages to groups: PDUs changed and of every type; who may send to which group and who gets a copy;
copies that are reported, confirmed, expired and deleted one by one; full mailboxes and a full centre with
all copies or none; long random lives."""
import itertools
import random

import reading
from streams import RULE_BODY, U, binary, bits_of, changed, damaged, demand, detach, numbered
from streams.groups import attaching, grouping, leaving
from streams.messages import ABSENT, ALL_OUT, RULELESS, STRANGER, V, W, WORKED, acknowledgement, life, mails, message, report, sds

G, OTHER, UNRULED = '234-14-1000', '234-14-1001', '235-14-1000'
# U, V, W and one that then leaves its cell are attached to G; W alone to OTHER
HERE = [RULE_BODY] + [body for radio in (W, U, ABSENT, V) for body in (demand(3, radio), grouping([attaching(1000)], radio))]
HERE += [grouping([attaching(1001)], W), detach(ABSENT)]


def gsds(source, group, bits):
    return f'gsds {source} {group} {reading.print_bits(bits)}'


def changed_group_messages():
    """Worked PDUs and longer ones, changed and cut, from a member while nothing or a copy waits."""
    bodies = HERE[:]
    longer = [message(9, 2, '10101', '1'), report(5, 2, '1', '11', '1001'), acknowledgement(5, 7, '1111')]
    for bits in [bits_of(pdu) for pdu in WORKED] + longer:
        for other in changed(bits):
            bodies += [ALL_OUT, gsds(U, G, other), gsds(V, OTHER, other)] + mails(U, V, W)
    yield numbered(bodies)


def heads_to_groups():
    """Every type and set of flags at the lengths that matter, to groups with a rule and without one."""
    bodies = HERE[:]
    for identifier, kind, flags in itertools.product((0, 127, 128, 130, 255), range(5), range(16)):
        bits = binary(identifier, 8) + binary(kind, 4) + binary(flags, 4) + binary(5, 8) * 3
        for length, group in itertools.product((0, 8, 12, 16, 23, 24, 32, 33), (G, UNRULED)):
            bodies += [gsds(U, group, bits[:length])]
        bodies += mails(U, V, W) + [ALL_OUT]
    for length in range(2040, 2049):
        bodies += [gsds(W, G, message(length % 256, 1) + '1' * (length - 24))] + mails(U)
    yield numbered(bodies)


def who_to_which():
    """Senders that are present, absent, never seen and no members, to groups with many members, one and none."""
    senders, groups = [U, V, W, ABSENT, STRANGER, RULELESS], [G, OTHER, '234-14-1002', UNRULED, U, '1-1-1']
    extra = [f'rule {RULELESS}/48 1 99 1 60', demand(3, RULELESS), grouping([attaching(G)], RULELESS)]
    for ruled in (False, True):
        bodies = HERE + (extra if ruled else [])
        for source, group in itertools.product(senders, groups):
            for bits in (message(1), message(1), message(2, 0), report(1), acknowledgement(1), message(1)[:23]):
                bodies += [gsds(source, group, bits)]
            bodies += mails(*senders)
        yield numbered(bodies)
    # A group whose rule goes, and members that leave the group or the cell one by one
    bodies = HERE[:]
    for k, body in enumerate([grouping([leaving(1000)], V), detach(W), 'unrule 234-14-0/24', RULE_BODY, grouping([leaving(1000)], U),
                              demand(0, W), demand(3, ABSENT), detach(V), grouping([attaching(1000)], U), detach(U), demand(3, U)]):
        bodies += [body, f'members {G}'] + [gsds(name, G, message(k)) for name in (U, V, W)] + mails(U, V, W, ABSENT)
    yield numbered(bodies)


def copies_apart():
    """Each copy ends by its own key: reported, confirmed, deleted, expired; and keeps its reference busy."""
    for request in range(4):
        ends = [[f'sent {V} {U} 5 m'], [f'delete {V} {U} 5 m'], [sds(V, U, report(5, 0))], [sds(V, U, report(5, 2, '1')), sds(U, V, acknowledgement(5))],
                [sds(V, U, report(5, 1)), sds(W, U, report(5, 0))], [f'sent {W} {U} 5 m', sds(V, U, report(5, 2))], [detach(V)], [f'delete {U} {U} 5 m'],
                [sds(U, G, report(5, 2))], [f'delete {G} {U} 5 m', f'sent {G} {U} 5 m', f'mail {G}']]
        bodies = HERE[:]
        for end in ends:
            bodies += [ALL_OUT, demand(0, V), (1, sds(W, U, message(7))), (2, gsds(U, G, message(5, request)))] + mails(U, V, W) + end
            bodies += mails(U, V, W) + [(3, gsds(U, G, message(5, request))), (4, sds(U, V, message(5))), (5, gsds(W, G, message(5))), (6, gsds(U, G, message(6)))]
            bodies += mails(U, V, W)
        yield numbered(bodies)


def kept_for_groups():
    """A copy is kept for as long as the group's rule says, whatever its member's rule says."""
    edges = (0, 1, 60, 2147483648, 4294967294, 4294967295)
    for keep in (0, 1, 60, 4294967295):
        bodies = HERE + [f'rule {G}/48 1 99 1 {keep}', f'rule {V}/48 1 99 1 7', f'rule {W}/48 1 99 1 {4294967295 - keep}']
        for k, moment in enumerate(edges):
            bodies += [(moment, gsds(U, G, message(k))), (moment, sds(U, V, message(k + 100)))]
        bodies += mails(V, W)
        for moment in edges:
            for at in sorted({max(moment + keep + change, 0) for change in (-1, 0, 1)}):
                bodies += [(at, 'expire')] + mails(V, W) if at < 2 ** 32 else []
        yield numbered(bodies)


def all_or_none():
    """Round 128 items for one of the members and 256 in all: every member has its copy, or nobody."""
    filled = [sds(U, V, message(k, k % 4)) for k in range(128)]
    others = [sds(V, W, message(k)) for k in range(124)]
    tries = [gsds(U, G, message(200)), gsds(V, G, message(200)), gsds(W, G, message(200)), gsds(U, OTHER, message(201)), gsds(U, OTHER, message(200))]
    for few, more in itertools.product((0, 1, 126, 127, 128), (0, 1, 120, 123, 124)):
        bodies = HERE + filled[:few] + others[:more] + tries + mails(U, V, W)
        for end in (f'delete {V} {U} 3 m', f'delete {W} {V} 3 m', detach(V), demand(3, ABSENT), detach(W), demand(0, W), demand(0, V)):
            bodies += [end] + tries + [gsds(U, G, message(202)), gsds(ABSENT, G, message(203))] + mails(V, W, ABSENT)
        yield numbered(bodies)


def many_copies():
    """16 members, each of whom writes to all others until the centre is full."""
    radios = [f'{mcc}-{mnc}-{ssi}' for mcc in (9, 1023) for mnc in (0, 10, 9, 16383) for ssi in (16777215, 7)]
    bodies = ['rule 0-0-0/0 1 9 1 9'] + [body for name in radios for body in (demand(3, name), grouping([attaching('1-1-1')], name))]
    for k, name in enumerate(radios):
        bodies += [(k, gsds(name, '1-1-1', message(k))), (k, gsds(name, '1-1-1', message(k + 100)))] + mails(*radios[::5])
    for k, name in enumerate(radios):
        bodies += [(k + 9, 'expire'), detach(name), (k + 20, gsds(radios[-1], '1-1-1', message(k)))] + mails(*radios[::5])
    yield numbered(bodies + mails(*radios))


def random_body(dice, radios, groups):
    source, name, kind = dice.choice(radios), dice.choice(radios), dice.randrange(24)
    reference, group = dice.choice([1, 1, 2, 255]), dice.choice(groups)
    if kind == 0:
        prefix = dice.choice(['234-14-0/24', f'{G}/48', f'{UNRULED}/48', f'{V}/48'])
        return f'{dice.choice(["rule", "rule", "unrule"])} {prefix}' + ('' if dice.randrange(9) == 0 else f' 0 99 1 {dice.choice([0, 1, 10, 50])}')
    if kind < 4:
        return dice.choice([demand(3, name), demand(0, name), detach(name)])
    if kind < 8:
        return grouping([dice.choice([attaching, attaching, leaving])(group)], name, first=dice.randrange(9) == 0)
    if kind == 8:
        return 'expire'
    if kind < 11:
        return f'{dice.choice(["sent", "delete"])} {name} {source} {reference} {dice.choice("mmr")}'
    if kind < 14:
        return sds(name, source, dice.choice([report(reference, dice.choice([0, 1, 2])), message(reference), acknowledgement(reference)]))
    bits = message(reference, dice.randrange(4), dice.choice(['', '1', '0101']))
    bits = dice.choice([bits] * 8 + [report(reference), damaged(dice, bits)])
    return gsds(source, group, bits)


def group_message_lives():
    """Random rules, attaches, detaches, group changes, messages to groups and radios, reports and expiries."""
    for seed in range(24):
        dice = random.Random(500 + seed)
        radios = [U, V, W, RULELESS, '234-14-2005'][:3 + seed % 3]
        groups = [G, G, OTHER, UNRULED][:2 + seed % 3]
        query = lambda: dice.choice([f'mail {dice.choice(radios)}'] * 3 + [f'members {dice.choice(groups)}'])
        yield life(dice, radios, lambda: random_body(dice, radios, groups), query)


KINDS = [changed_group_messages, heads_to_groups, who_to_which, copies_apart, kept_for_groups, all_or_none, many_copies, group_message_lives]
