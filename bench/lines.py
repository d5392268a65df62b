#!/usr/bin/env python3
"""Writes a stream of N command lines of station 1 to standard output: rules, ITSI attaches, roaming
updates, detaches, resends, `where`, and one line in a hundred that is bad; with `messages` as third
argument also short messages, reports, acknowledgements, `sent`, `delete`, `expire` and `mail` mixed in.
Usage: lines.py N [SEED [messages]]"""
import random
import sys

RADIOS = [f'234-14-{2001 + k}' for k in range(16)]
RULES = ['234-14-0/24', '234-14-2000/44', '234-14-2001/48', '0-0-0/0', '234-14-0/40']
BAD = ['x', '1 0 rule', 'where', 'where 1024-0-1', '0 0 mm 234-14-2001 7 10:260', 'count 1', '1 2 mm 234-14-2001 7 10:2']


def rule(dice, sequence):
    return f'{sequence} {sequence} rule {dice.choice(RULES)} 1 99 1 3600'


def mobility(dice, sequence):
    pdu = dice.choices(['10:260', '10:200', '5:10'], [3, 4, 2])[0]
    return f'{sequence} {sequence} mm {dice.choice(RADIOS)} {dice.randint(1, 99)} {pdu}'


def short_data(dice, sequence):
    """A message of 3 to 16 octets, or a report or an acknowledgement on one."""
    source, destination = dice.sample(RADIOS, 2)
    reference = dice.randrange(8)
    kind = dice.choices(['message', 'report', 'acknowledgement'], [5, 3, 2])[0]
    if kind == 'message':
        data = dice.randbytes(dice.randint(0, 13)).hex().upper()
        pdu = f'820{dice.choice("048C")}{reference:02X}{data}'
    elif kind == 'report':
        pdu = f'8210{dice.choice(["00", "02"])}{reference:02X}'
    else:
        pdu = f'822000{reference:02X}'
    return f'{sequence} {sequence} sds {source} {destination} {4 * len(pdu)}:{pdu}'


def message(dice, sequence):
    draw = dice.random()
    if draw < 0.7:
        return short_data(dice, sequence)
    if draw < 0.75:
        return f'{sequence} {sequence} expire'
    form = 'sent' if draw < 0.9 else 'delete'
    source, destination = dice.sample(RADIOS, 2)
    return f'{sequence} {sequence} {form} {destination} {source} {dice.randrange(8)} {dice.choice("mmr")}'


def stream(count, seed, messages):
    dice = random.Random(seed)
    sequence, last = 0, None
    for number in range(count):
        draw = dice.random()
        if number < 5:
            sequence += 1
            last = f'{sequence} 0 rule {RULES[number]} 1 99 1 3600'
            yield last
        elif draw < 0.01:
            yield dice.choice(BAD)
        elif messages and dice.random() < 0.4:
            if dice.random() < 0.1:
                yield f'mail {dice.choice(RADIOS)}'
                continue
            sequence += 1
            last = message(dice, sequence)
            yield last
        elif draw < 0.21:
            yield f'where {dice.choice(RADIOS)}'
        elif draw < 0.26:
            yield last
        else:
            sequence += 1
            last = rule(dice, sequence) if draw < 0.28 else mobility(dice, sequence)
            yield last


def main():
    count = int(sys.argv[1])
    seed = int(sys.argv[2]) if len(sys.argv) > 2 else 1
    messages = sys.argv[3:] == ['messages']
    sys.stdout.writelines(line + '\n' for line in stream(count, seed, messages))


main()
