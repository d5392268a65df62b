"""Listings: rules and radios under prefixes of every length; items, what is due of them round each deadline, and what waits at each station
while radios come and go; mailboxes that are equally full; the last command after each kind of line; long random lives of a few radios."""
import itertools
import random

import reading
from streams import RULE, RULE_BODY, U, demand, detach, numbered, text
from streams.group_messages import G, HERE, OTHER, UNRULED, gsds, random_body
from streams.messages import ALL_OUT, RULELESS, V, W, life, message, report, sds

ALL = ['rules', 'radios', 'items', 'due 0', 'due 4294967295', 'waiting 1', 'last 1', 'room', 'dump']
FIRST, LAST = '0-0-0', '1023-16383-16777215'


def under(bits, length):
    return f'{reading.print_identity(bits[:length].ljust(48, "0"))}/{length}'


def turned(bits, at):
    return bits[:at] + '10'[int(bits[at])] + bits[at + 1:]


def radios_under_prefixes():
    """Radios that differ in one bit from each other, present and absent; those under each prefix of one and beside it."""
    for name, ats in ((U, (0, 1, 9, 10, 13, 23, 24, 46, 47)), (FIRST, (0, 5, 24, 47)), (LAST, (0, 9, 24, 47))):
        bits = reading.identity(name.encode())
        radios = [reading.print_identity(one) for one in [bits, *(turned(bits, at) for at in ats)]]
        bodies = ['rule 0-0-0/0 0 99 1 60'] + [demand(3, one) for one in radios] + [detach(one) for one in radios[1::2]]
        for length in range(49):
            bodies += [f'radios {under(bits, length)}'] + [f'radios {under(turned(bits, length - 1), length)}'] * (length > 0)
        yield numbered(bodies + ['radios'])


def rules_under_prefixes():
    """Rules of prefixes that begin each other, set and removed in several orders, past the limit of 16."""
    bits = reading.identity(U.encode())
    prefixes = [under(bits, length) for length in (0, 1, 2, 9, 10, 23, 24, 25, 47, 48)]
    prefixes += [under(turned(bits, length - 1), length) for length in (1, 2, 10, 24, 25, 47, 48)] + [f'{FIRST}/48', f'{LAST}/48']
    for order in (prefixes, prefixes[::-1], sorted(prefixes), prefixes[1::2] + prefixes[::2]):
        bodies = [body for k, one in enumerate(order) for body in (f'rule {one} {k} 16383 {k % 4} {4294967295 - k}', 'rules')]
        yield numbered(bodies + [body for one in order[::3] + order for body in (f'unrule {one}', 'rules', 'room')])


def items_that_are_due():
    """Messages, copies and reports with rising, falling and equal deadlines, listed and removed at each of them."""
    moments = [(5, 4, 3, 2, 1, 0), (0, 0, 9, 9, 0, 0), (1, 60, 2, 59, 3, 58), (4294967295, 0, 4294967235, 4294967234, 7, 7)]
    for keep, each in itertools.product((0, 60, 4294967295), moments):
        bodies = HERE + [f'rule {V}/48 1 99 1 {keep}', f'rule {G}/48 1 99 1 {keep // 2}']
        for k, moment in enumerate(each):
            bodies += [(moment, sds(U, V, message(k, 3, '1' * k))), (moment, gsds(W, G, message(k))), (moment, sds(V, U, report(k, 1)))]
        edges = sorted({max(at + change, 0) for moment in each for at in (moment, moment + keep, moment + keep // 2, moment + 3600) for change in (-1, 0)})
        for at in (at for at in edges if at < 2 ** 32):
            bodies += [f'due {at}', (at, 'expire'), f'due {at}', 'items', 'room']
        yield numbered(bodies)


def items_that_wait_here():
    """Messages, copies and reports for radios that leave one after another and come back; also of each other station."""
    posted = [sds(U, V, message(1)), gsds(W, G, message(2)), sds(V, U, report(1, 1)), sds(U, W, message(3)), sds(W, V, message(4))]
    asked = [f'waiting {station}' for station in (0, 1, 2, 4, 65535)]
    for leaving in itertools.permutations((U, V, W)):
        bodies = HERE + [line for one in posted for line in (one, 'waiting 1')] + asked
        for change in detach, lambda one: demand(3, one):
            bodies += [line for one in leaving for line in (change(one), 'waiting 1', 'items')]
        yield numbered(bodies + asked)


def full_boxes():
    """Boxes that become equally full and stop being so; 128 items for one radio, and 256 in all."""
    bodies = HERE[:]
    for k in range(20):
        posted = sds(U, (V, W, U)[k * k % 3], message(k)), sds(W, (W, V)[k % 2], message(k)), gsds(V, (G, OTHER)[k % 2], message(k + 50))
        bodies += [line for body in posted for line in (body, 'room')]
    for k in range(20):
        bodies += [f'delete {(V, W, U)[k % 3]} {U} {k} m', 'room', f'delete {(W, V)[k // 2 % 2]} {W} {k} m', 'room']
    yield numbered(bodies + ['items', ALL_OUT, 'room', 'items'])
    fill = [sds(source, name, message(k)) for k in range(129) for source, name in ((U, V), (V, W), (W, U))]
    yield numbered(HERE + fill[::3] + ['room'] + fill + ALL + [f'delete {V} {U} 0 m', 'room'] + fill + ['room', 'due 3599', 'due 3600'])


def last_commands():
    """After commands of each kind, accepted, kept and refused, and bad lines; of each station."""
    lasts = [f'last {station}' for station in (0, 1, 2, 4, 5, 64, 65, 65535)]
    lines = [RULE, RULE, f'9 0 {demand(3)}', f'9 0 {demand(3)}', f'8 0 {demand(3)}', f'10 0 {demand(7)}', f'11 0 {demand(3, RULELESS)}', f'12 0 {detach()}',
             '12 1 count', '0 0 expire', '4294967295 7 unrule 0-0-0/0', '4294967295 8 expire', '4294967296 8 expire', '13 8 expire']
    yield text(lasts + [line for one in lines for line in [one, *lasts]])


def listing_lives():
    """Random lives in which any listing is asked for."""
    for seed in range(24):
        dice = random.Random(700 + seed)
        radios, groups = [U, V, W, RULELESS, '234-14-2005'][:3 + seed % 3], [G, OTHER, UNRULED]
        prefix = lambda: under(reading.identity(dice.choice(radios).encode()), dice.choice([0, 1, 10, 14, 24, 44, 46, 47, 48, dice.randrange(49)]))
        query = lambda: dice.choice(['rules', 'radios', f'radios {prefix()}', 'items', f'due {dice.randrange(900)}', f'waiting {dice.randrange(1, 3)}', 'waiting 1', 'last 1', 'room', 'room', 'dump'])
        yield life(dice, radios, lambda: random_body(dice, radios, groups), query) + text(ALL)


KINDS = [radios_under_prefixes, rules_under_prefixes, items_that_are_due, items_that_wait_here, full_boxes, last_commands, listing_lives]
