"""Short messages: PDUs changed, cut and of every head; who may send what to whom; reports of each status,
acknowledgements and sent items; full mailboxes and a full centre; deadlines; long random lives."""
import itertools
import random

import reading
from streams import RULE, RULE_BODY, U, binary, bits_of, changed, damaged, demand, detach, numbered, text

V, W, ABSENT, STRANGER, RULELESS = '234-14-2002', '234-14-2003', '234-14-2004', '234-14-9', '235-1-1'
WORKED = ['48:820405014849', '48:820C05014849', '32:82100005', '32:82100205', '32:82200005']
HERE = [RULE_BODY, demand(3), demand(3, V), demand(3, W), demand(3, ABSENT), detach(ABSENT)]
ALL_OUT = 4294967295, 'expire'


def message(reference=5, request=1, data='', selection='0', identifier=130):
    return binary(identifier, 8) + '0000' + binary(request, 2) + selection + '0' + binary(reference, 8) + data


def report(reference=5, status=0, answered='0', reserved='00', data=''):
    return '100000100001' + answered + reserved + '0' + binary(status, 8) + binary(reference, 8) + data


def acknowledgement(reference=5, status=0, reserved='0000'):
    return '100000100010' + reserved + binary(status, 8) + binary(reference, 8)


def sds(source, destination, bits):
    return f'sds {source} {destination} {reading.print_bits(bits)}'


def mails(*radios):
    return [f'mail {radio}' for radio in radios]


def changed_sds_pdus():
    """Worked PDUs and longer ones, changed and cut, where a message with its report waits each way."""
    bodies = HERE[:]
    waiting = [sds(U, V, message(5, 3)), sds(V, U, report(5, 1, '1')), sds(V, U, message(5, 0)), sds(U, V, report(5, 3))]
    longer = [message(9, 2, '10101', '1'), report(5, 2, '1', '11', '1001'), acknowledgement(5, 7, '1111')]
    for bits in [bits_of(pdu) for pdu in WORKED] + longer:
        for other in changed(bits):
            bodies += [ALL_OUT] + waiting + [sds(V, U, other)] + mails(U, V)
    yield numbered(bodies)


def heads():
    """PDUs of every identifier, and of every type and set of flags for some, at the lengths that matter."""
    bodies = HERE[:]
    for identifier, kind, flags in itertools.chain(
            itertools.product(range(256), (0,), (0, 1)), itertools.product((0, 127, 128, 130, 255), range(16), range(16))):
        bits = binary(identifier, 8) + binary(kind, 4) + binary(flags, 4) + binary(5, 8) * 3
        short = kind < 4 and flags % 8 < 2 and identifier > 126
        bodies += [sds(U, V, bits[:length]) for length in ((0, 1, 7, 8, 11, 12, 15, 16, 23, 24, 31, 32, 33) if short else (16, 24, 32))]
        bodies += mails(U, V) + [ALL_OUT]
    yield numbered(bodies)


def long_pdus():
    """PDUs round 2,047 bits, and lines that carry them."""
    bodies = HERE[:]
    for length in range(2040, 2049):
        for head in (message(length % 256, 1), report(length % 256, 0, '1', '11'), acknowledgement(length % 256), '0' * 8):
            bits = head + '1' * (length - len(head))
            bodies += [sds(U, V, bits), sds(V, U, bits)] + mails(U, V)
    yield numbered(bodies)


def who_to_whom():
    """Each body between radios that are present, absent, never seen and without a rule, where its item waits
    and where it does not."""
    radios = [U, V, ABSENT, STRANGER, RULELESS]
    for ruled, source, destination in itertools.product((True, False), radios, radios):
        bodies = HERE + [demand(3, ABSENT)] + ([f'rule {RULELESS}/48 1 99 1 60', demand(3, RULELESS)] if ruled else [])
        bodies += [sds(source, destination, message()), sds(destination, source, report(5, 1)), detach(ABSENT)] + mails(*radios)
        for bits in (message(), message(6), report(), report(6), acknowledgement(), acknowledgement(6), message()[:20]):
            bodies += [sds(source, destination, bits)] + mails(source, destination)
        for word, kind, reference in itertools.product(('sent', 'delete'), 'mr', (5, 6)):
            bodies += [f'{word} {destination} {source} {reference} {kind}', f'{word} {source} {destination} {reference} {kind}']
        yield numbered(bodies + mails(*radios))


def reports():
    """Reports of each status on messages of each request, with an older report and without, to another radio
    and to oneself; then what waits is confirmed, sent and deleted."""
    flags = (('0', '00'), ('1', '11'))
    olds = [(status, older) for status in (0, 1, 2, 3, 130, 255) for older in (None, 0, 1, 2) if older is None or status in (0, 2, 255)]
    for radio in (V, U):
        ends = [[f'sent {U} {radio} 5 r'], [f'sent {radio} {U} 5 m', f'sent {radio} {U} 5 m'], [sds(U, radio, acknowledgement(5, 3, '1010'))],
                [sds(radio, U, acknowledgement())], [f'delete {U} {radio} 5 r'], [f'delete {radio} {U} 5 m'], [sds(U, radio, message(5, 2))]]
        bodies = HERE[:]
        for request, (status, older), (answered, reserved), end in itertools.product(range(4), olds, flags, ends):
            bodies += [ALL_OUT, sds(U, radio, message(5, request, '11')), (1, sds(W, U, message(7)))]
            bodies += [(2, sds(radio, U, report(5, older, '1')))] if older is not None else []
            bodies += [(3, sds(radio, U, report(5, status, answered, reserved, '01')))] + mails(U) + end + mails(U, V)
        yield numbered(bodies)


def keys():
    """Items that share all of their key but one part, taken away one by one."""
    bodies = HERE[:]
    pairs = [(a, b) for a in (U, V, W) for b in (U, V, W)]
    for reference in (0, 1, 255):
        for source, destination in pairs:
            bodies += [sds(source, destination, message(reference, 3)), sds(destination, source, report(reference, 1))] + mails(source)
    for source, destination in pairs:
        for reference, kind in ((1, 'm'), (255, 'r'), (1, 'm'), (2, 'r')):
            bodies += [f'delete {destination} {source} {reference} {kind}'] + mails(destination)
        bodies += [f'sent {destination} {source} 0 r', sds(destination, source, acknowledgement(0)), sds(source, destination, report(0, 2))]
        bodies += mails(U, V, W)
    yield numbered(bodies)


def full_mailboxes():
    """128 items for one radio, 256 in all; then what takes an item's place, and what needs one more."""
    fill = {name: [sds(source, name, message(k, k % 4)) for k in range(129)] for name, source in ((V, U), (U, V), (W, W))}
    every = [sds(V, U, report(k, 1, '1')) for k in range(128)]
    reported = [(1, sds(V, U, report(k, k % 3, '1'))) for k in range(20, 129)]
    last = [sds(U, V, message(128)), sds(W, V, message(1)), sds(V, U, report(3, 0)), sds(W, V, message(1)),
            sds(V, U, report(4, 1)), sds(V, U, report(4, 2)), sds(U, V, message(3)), sds(U, U, message(200)), sds(U, U, report(200, 0)),
            sds(U, W, message(1)), sds(W, U, report(1, 1)), sds(W, U, report(1, 2)), sds(V, U, message(77, 0)), sds(U, V, report(77, 0)),
            f'sent {V} {U} 9 m', sds(U, V, message(9)), f'delete {V} {U} 10 m', sds(U, V, message(9)), sds(U, V, message(10)),
            sds(U, V, message(11)), sds(U, W, message(12)), sds(V, W, message(12)), sds(W, W, message(12)), sds(W, W, report(12, 2)),
            sds(V, U, report(11, 3)), sds(V, U, report(11, 2)), sds(W, V, report(12, 0)),
            (3600, 'expire'), sds(U, W, message(13)), (3601, 'expire'), sds(U, W, message(13))]
    last = [line for body in last for line in [body] + mails(U, V, W)]
    for parts in ([fill[V]], [fill[V], every], [fill[V], every[:5], fill[U], every], [fill[V], fill[U]], [fill[V], reported],
                  [fill[V], fill[U], reported], [fill[U][:127], fill[V], fill[W]], [fill[V][:128], fill[W][:128], reported],
                  [fill[V], fill[U], [f'sent {V} {U} {k} m' for k in range(129)], fill[W]]):
        yield numbered(HERE + [body for part in parts for body in part] + last)


def deadlines():
    """Each keep, moments that rise and fall, and expiry before, at and after each deadline."""
    edges = (0, 1, 2, 60, 2147483647, 2147483648, 4294967294, 4294967295)
    for keep in (0, 1, 60, 2147483648, 4294967295):
        bodies = HERE + [f'rule {V}/48 1 99 1 {keep}', f'rule {W}/48 1 9 1 {max(keep - 1, 0)}']
        for moment in edges:
            reference = moment % 251
            posted = [sds(U, V, message(reference)), sds(V, W, message(reference, 3)), sds(W, V, report(reference, 1))]
            bodies += [(moment, body) for body in posted]
        bodies += mails(V, W)
        for moment in edges:
            for at in {max(moment + keep + change, 0) for change in (-2, -1, 0, 1)}:
                bodies += [(at, 'expire')] + mails(V, W) if at < 2 ** 32 else []
        bodies += [f'rule {V}/48 1 99 1 5', sds(U, V, message(252)), *mails(V), (4, 'expire'), *mails(V), (5, 'expire'), *mails(V)]
        yield numbered(bodies)


def random_body(dice, radios):
    source, destination, kind = dice.choice(radios), dice.choice(radios), dice.randrange(20)
    reference, name = dice.choice([1, 1, 2, 255]), dice.choice(radios)
    if kind == 0:
        prefix = dice.choice(['234-14-0/24', '234-14-2000/44', f'{RULELESS}/48', f'{V}/48'])
        return f'rule {prefix} 0 99 1 {dice.choice([0, 1, 10, 50, 4294967295])}'
    if kind < 4:
        return dice.choice([demand(3, name), demand(0, name), demand(3, name), detach(name)])
    if kind == 4:
        return 'expire'
    if kind < 7:
        return f'{dice.choice(["sent", "delete"])} {destination} {source} {reference} {dice.choice("mr")}'
    posted = message(reference, dice.randrange(4), dice.choice(['', '1', '0101']))
    told = report(reference, dice.choice([0, 0, 1, 2]), dice.choice('01'), '01')
    bits = dice.choice([posted, posted, told, told, acknowledgement(reference)])
    return sds(source, destination, damaged(dice, bits) if dice.randrange(10) == 0 else bits)


def life(dice, radios, body, query):
    """The radios attach, and 500 random lines: commands in order and out of it, queries, resends and bad lines."""
    said, sequence, moment = [RULE] + [f'{k} 0 {demand(3, name)}' for k, name in enumerate(radios, 2)], 10, 0
    for _ in range(500):
        sequence += dice.choice([1, 1, 1, 1, 1, 1, 1, 5, 0, -1])
        moment = max(moment + dice.choice([0, 1, 1, 2, 9, -3]), 0)
        command = f'{sequence} {moment} {body()}'
        said.append(dice.choice([command] * 6 + [query()] * 3 + [dice.choice(said[-30:]), dice.choice(said[-30:])[:-1], 'count']))
    return text(said + mails(*radios))


def message_lives():
    """Random rules, attaches, detaches, messages, reports and expiries."""
    for seed in range(24):
        dice = random.Random(300 + seed)
        radios = [U, V, W, RULELESS][:2 + seed % 3]
        yield life(dice, radios, lambda: random_body(dice, radios), lambda: f'mail {dice.choice(radios)}')


KINDS = [changed_sds_pdus, heads, long_pdus, who_to_whom, reports, keys, full_mailboxes, deadlines, message_lives]
