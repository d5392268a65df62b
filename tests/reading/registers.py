"""Registers for tests of rows: of the worked cases, made by chance, and at their greatest."""
import contextlib
import random

import reading
import rows
from reading_pdus import read_sds
from reading_rows import LAST_EPOCH, LATEST

SEED = 20
SMALL = {'rules': 4, 'radios': 6, 'mail': 8, 'stations': 3}
LAST_NUMBER, LAST_IDENTITY, LAST_AREA = reading.LAST_NUMBER, 2 ** 48 - 1, 16_383


def identity(number):
    return format(number, '048b')


def message(reference, text='', request=0):
    """An SDS-TRANSFER as it waits."""
    return read_sds('10000010' '0000' + format(request, '02b') + '00' + format(reference, '08b') + text)


def report(reference, text='', status=0, answered=0):
    """An SDS-REPORT as it waits."""
    return read_sds('10000010' '0001' + format(answered, 'b') + '000' + format(status, '08b') + format(reference, '08b') + text)


def some_number(chance, least, most):
    return chance.choice([least, most, min(most, least + 1), chance.randint(least, most), chance.randint(least, min(most, least + 20))])


def some_bits(chance, most):
    length = chance.choice([0, 1, 7, 8, 9, chance.randint(0, most), most])
    return format(chance.getrandbits(length), f'0{length}b') if length else ''


def some_identity(chance):
    """One of few, so that some meet, or any."""
    return identity(chance.choice([0, LAST_IDENTITY, chance.getrandbits(48)] + [0x3a800e0007d0 + k for k in range(4)]))


def some_rule(chance):
    low, high = sorted(some_number(chance, 0, LAST_AREA) for _ in range(2))
    return low, high, chance.randrange(4), some_number(chance, 0, 2 ** 32 - 1)


def some_item(chance, count):
    """An item, under its key."""
    kind, told = chance.choice([(b'm', message), (b'r', report)])
    reference, most = some_number(chance, 0, 255), chance.choice([40, 40, 40, 2015])
    group = some_identity(chance) if told is message and chance.random() < 0.3 else None
    kept = reading.Item(some_number(chance, 1, count), some_number(chance, 0, LATEST), told(reference, some_bits(chance, most)), group)
    return (some_identity(chance), some_identity(chance), reference, kind), kept


def some_served(chance, count):
    pdu = some_bits(chance, chance.choice([16, 16, 16, 2048])) or None
    return some_number(chance, 1, 2 ** 32 - 1), some_number(chance, 1, count), pdu


def some_register(chance, limits):
    """A register within these limits: what it holds, and how much, by chance."""
    register = reading.Register(limits)
    register.count = some_number(chance, 1, LAST_NUMBER)
    for _ in range(chance.randint(0, limits['rules'])):
        register.rules[some_identity(chance)[:some_number(chance, 0, 48)]] = some_rule(chance)
    for _ in range(chance.randint(0, limits['radios'])):
        itsi = some_identity(chance)
        register.radios[itsi] = chance.randint(1, limits['stations']), some_number(chance, 0, LAST_AREA), chance.random() < 0.5
        for _ in range(chance.randint(0, 3)):
            register.groups[itsi, some_identity(chance)] = chance.randrange(8), chance.randrange(4)
    register.mail.update(some_item(chance, register.count) for _ in range(chance.randint(0, limits['mail'])))
    for station in range(1, limits['stations'] + 1):
        if chance.random() < 0.7:
            register.served[station] = some_served(chance, register.count)
    return register


def by_chance(count):
    """Epochs and registers within the limits SMALL, and the chance that each was made by."""
    for k in range(count):
        chance = random.Random(f'{SEED} {k}')
        yield chance, some_number(chance, 1, LAST_EPOCH), some_register(chance, SMALL)


def ends():
    """The registers at the ends of the worked cases of lines."""
    for file in sorted(rows.FOLDER.glob('*.txt')):
        for _, given, _ in rows.cases(file.read_text()):
            register = reading.Register()
            for line in given:
                with contextlib.suppress(reading.BadLine):
                    reading.answer(register, 1, line.encode())
            yield register


def longest():
    """Registers of one row each, that has the most bytes that a radio's, a copy's, a report's and a station's can have. The radio's line in a
    dump has the most, too."""
    first, second, text = identity(1), identity(2), '01' * 1011 + '1'
    made = [reading.Register({'rules': 1, 'radios': 1, 'mail': 1, 'stations': 2}) for _ in range(4)]
    for register in made:
        register.count = 9
    last = identity(LAST_IDENTITY)
    made[0].radios[last] = 2, LAST_AREA, True
    made[0].groups = {(last, identity(LAST_IDENTITY - 7 * k)): (k % 8, k % 4) for k in range(32)}
    made[1].mail[first, second, 3, b'm'] = reading.Item(4, LATEST, message(3, text), identity(77))
    made[2].mail[second, first, 3, b'r'] = reading.Item(4, 0, report(3, text[8:]), None)
    made[3].served[1] = 7, 9, '10' * 1024
    return made


def crowded(items):
    """A register in which so many items wait for one radio, and one for another."""
    register = reading.Register({'rules': 1, 'radios': 1, 'mail': 256, 'stations': 1})
    register.count = 1000
    register.mail = {(identity(1), identity(k // 256), k % 256, b'm'): reading.Item(k + 1, k, message(k % 256), None) for k in range(items)}
    register.mail[identity(2), identity(1), 0, b'm'] = reading.Item(1000, 0, message(0), None)
    return register
