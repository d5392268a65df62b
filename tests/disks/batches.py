"""Batches of lines for a register that is kept on a disk, made by chance: rules, attaches, group changes, messages, reports and
expiries of a few stations, refused ones and resends among them. A line is a station and what it says, with a space between."""
import random

import reading
from streams import RULE_BODY, U, demand, group_messages, groups, messages

SEED = 21
RADIOS = [U, messages.V, messages.W, messages.RULELESS, '234-14-2005', '234-14-2006']
GROUPS = [group_messages.G, group_messages.OTHER, group_messages.UNRULED]
PREFIXES = ['234-14-0/24', '234-14-1000/48', '234-14-1002/47', '235-0-0/10', f'{U}/48']
# How many lines most batches have, and the most that one can have
SIZES, MOST = [0, 1, 1, 1, 2, 3, 5, 8, 13, 21, 34, 63, 64], 64
LAST_STATION = 4


class Stations:
    """Stations that say lines one after the other."""

    def __init__(self, dice):
        self.dice, self.moment = dice, 0
        self.sequences, self.said = {}, {}

    def new(self, body, moment=None):
        """A line of a sequence that its station has not used."""
        dice = self.dice
        station = dice.choice([1, 1, 2, 3, LAST_STATION])
        self.moment += dice.choice([0, 0, 1, 1, 2, 9])
        self.sequences[station] = self.sequences.get(station, 0) + dice.choice([1, 1, 1, 4])
        self.said[station] = f'{station} {self.sequences[station]} {moment or self.moment} {body}'
        return self.said[station]

    def again(self):
        """A line that is no new one: a resend, one of an old sequence, or one of no station."""
        dice, line = self.dice, self.said[self.dice.choice(sorted(self.said))]
        station, sequence, rest = line.split(' ', 2)
        old = f'{station} {dice.randint(1, int(sequence))} {rest}'
        stranger = f'{dice.choice([0, LAST_STATION + 1, 65535])} {sequence} {rest}'
        return dice.choice([line, line, line, old, stranger])


def is_command(words):
    """Whether a line of these words is a command."""
    try:
        reading.answer(reading.Register(), 1, f'1 0 {words}'.encode())
    except reading.BadLine:
        return False
    return True


def body(dice):
    makers = [lambda: messages.random_body(dice, RADIOS), lambda: groups.random_body(dice, PREFIXES, RADIOS, GROUPS),
              lambda: group_messages.random_body(dice, RADIOS, GROUPS), lambda: demand(3, dice.choice(RADIOS))]
    words = dice.choice(makers)()
    return words if is_command(words) else body(dice)


def line(stations):
    if stations.said and stations.dice.random() < 0.12:
        return stations.again()
    return stations.new(body(stations.dice))


def long_messages(stations, count):
    """Messages of 2,047 bits, from a radio to itself."""
    bits = [messages.message(k, 1, '10' * 1011 + '1') for k in range(count)]
    return [stations.new(messages.sds(U, U, text)) for text in bits]


def cleared(stations):
    """What makes room for long messages: nothing waits any more, and their radio is served and there."""
    latest, words = messages.ALL_OUT
    return [*map(stations.new, [RULE_BODY, f'unrule {U}/48', demand(3)]), stations.new(words, latest)]


def batches(count):
    """So many batches. The fourth of each 50 has as many and as long messages as a batch can have: its record fills a half of
    39 sectors."""
    stations = Stations(random.Random(SEED))
    yield [stations.new(RULE_BODY)]
    yield [stations.new(demand(3))]
    for k in range(2, count):
        if k % 50 == 2:
            yield cleared(stations)
        elif k % 50 == 3:
            yield long_messages(stations, MOST)
        else:
            yield [line(stations) for _ in range(stations.dice.choice(SIZES))]


def split(batch):
    """Each line of a batch with its station."""
    return [(int(said.split(' ', 1)[0]), said.split(' ', 1)[1].encode()) for said in batch]


def answers(register, batch):
    """The lines that answer a batch."""
    told = []
    for said in batch:
        station, words = said.split(' ', 1)
        told += reading.answer(register, int(station), words.encode())
    return told
