"""An independent reading of a run of many stations: whether some order of their commands gives what each of them was answered. The
rules of the register are those of reading.py.

The numbers in the answers name the order of the accepted commands: they go on from the register's count without a gap, each once.
Applied in that order, each command has to be accepted with the answer that its station has. Any other line of a station has to be
answered as the register answers after some prefix of the order. The prefixes of one station never get shorter, and each one holds
all of its commands that were accepted before the line, and none that was accepted after it. To take the shortest such prefix for
each line finds prefixes for all lines wherever there are any. Nothing is asked of the prefixes of different stations: their answers
say nothing of the time."""
import collections
import re

import reading
from reading_disks import copied
from reading_queries import LISTS, OF_STATION, PLAIN, QUERIES, is_service

# A line of a station with the lines that answer it; these are None where nothing is known of its answer
Answered = collections.namedtuple('Answered', 'line told')


class NoOrder(Exception):
    """What no order of the commands gives."""


# Output

def is_query(words):
    return (words[0], len(words) - 1) in {**QUERIES, **PLAIN}


def lines_told(line, first):
    """How many lines answer this one, by the first of them."""
    words = line.split(b' ')
    is_list = is_query(words) and words[0] in LISTS
    return 1 + int(first.rsplit(' ', 1)[1]) if is_list and first.startswith(words[0].decode()) else 1


def is_silent(line):
    return len(line) <= 1024 and (not line or line.startswith(b'#'))


def answered(lines, said):
    """Each line with its answer, where these are all answers of a station."""
    at, pairs = 0, []
    for line in lines:
        count = 0 if is_silent(line) else lines_told(line, said[at]) if at < len(said) else 1
        if at + count > len(said):
            raise NoOrder(f'line {len(pairs) + 1} has no answer')
        pairs.append(Answered(line, said[at:at + count]))
        at += count
    if at < len(said):
        raise NoOrder(f'{len(said) - at} lines answer nothing')
    return pairs


def is_title(line):
    """Whether it begins the answers of a station in what a run prints. The answer to `station` has two words, and names no file; nor does
    the line of a station's figures."""
    return line.startswith('station ') and line.count(' ') > 1 and not re.fullmatch(OF_STATION.format(r'\d+'), line)


def parts(out, names):
    """What a run with these files prints, as the lines of each station."""
    said = out.decode(errors='replace').split('\n')
    if said.pop():
        raise NoOrder('the output ends within a line')
    heads = [k for k, line in enumerate(said) if is_title(line)]
    wanted = [f'station {number} {name}' for number, name in enumerate(names, 1)]
    if [said[k] for k in heads] != wanted or said[:1] != wanted[:1]:
        raise NoOrder(f'the titles {[said[k] for k in heads][:9]}')
    return [said[start + 1:end] for start, end in zip(heads, [*heads[1:], len(said)])]


# The order

def number_of(told):
    """The number of a command that was accepted, by its answer, or None."""
    words = told[0].split(' ') if told else []
    return int(words[2]) if len(words) == 4 and words[1] == 'ok' and words[2].isdigit() else None


class Order:
    """Accepted commands, each a station and its line: the register at first and after each of them, and their answers. Of the stations
    all may give orders, or these."""

    def __init__(self, base, commands, orders=None):
        self.commands, self.registers, self.answers, self.places, self.orders = list(commands), [base], [], {}, orders
        for place, (station, line) in enumerate(self.commands, 1):
            now = copied(self.registers[-1])
            self.answers.append(reading.answer(now, station, line, orders))
            if now.count != base.count + place:
                raise NoOrder(f'the command {base.count + place} of the order, {line!r} of station {station}, is not accepted')
            self.registers.append(now)
            self.places[station, line] = place

    def has(self, station, line):
        return (station, line) in self.places

    def told(self, place, station, number, line):
        """How a line is answered after so many commands of the order, and whether that changes nothing."""
        now = copied(self.registers[place])
        try:
            return reading.answer(now, station, line, self.orders), now.count == self.registers[place].count
        except reading.BadLine as fault:
            return [f'line {number} bad {fault}'], True


def is_command(line):
    words = line.split(b' ')
    return not line.startswith(b'#') and len(words) > 2 and (words[2], len(words) - 3) in reading.COMMANDS


def order_of(base, stations, orders=None):
    """The order that the numbers in the answers name. Of each station, in turn, its lines with their answers."""
    numbered = {}
    for station, pairs in enumerate(stations, 1):
        for line, told in pairs:
            number = number_of(told) if told and is_command(line) else None
            if number in numbered:
                raise NoOrder(f'two commands have the number {number}')
            if number is not None:
                numbered[number] = station, line
    if sorted(numbered) != list(range(base.count + 1, base.count + len(numbered) + 1)):
        raise NoOrder(f'the numbers of {len(numbered)} commands have a gap')
    return Order(base, [numbered[number] for number in sorted(numbered)], orders)


# What a station was answered

def accepted_at(order, station, line, after):
    """The command's place in the order, where it comes after so many others; or None."""
    place = order.places.get((station, line), 0)
    return place if place > after else None


def place_of(order, after, station, number, pair):
    """The shortest prefix of the order, no shorter than this one, that holds a command or answers a line so."""
    accepted = is_command(pair.line) and number_of(pair.told) is not None
    if accepted:
        place = accepted_at(order, station, pair.line, after)
        return place if place and order.answers[place - 1] == pair.told else None
    if pair.line == b'service':
        return after if is_service(pair.told) else None
    fits = (place for place in range(after, len(order.registers)) if order.told(place, station, number, pair.line) == (pair.told, True))
    return next(fits, None)


def place_unknown(order, after, station, number, line, before):
    """The same for a line whose answer nobody knows: a command that the order has, one that comes again, or one that is refused. These
    lines came before it."""
    if is_command(line) and order.has(station, line):
        return after if line in before else accepted_at(order, station, line, after)
    return next((place for place in range(after, len(order.registers)) if order.told(place, station, number, line)[1]), None)


def follows(order, station, pairs, after=0):
    """A station's answers are those of prefixes of the order that never get shorter; answers the last of these prefixes."""
    before = set()
    for number, (line, told) in enumerate(pairs, 1):
        if told is None:
            place = place_unknown(order, after, station, number, line, before)
        else:
            place = place_of(order, after, station, number, Answered(line, told))
        if place is None:
            raise NoOrder(f'station {station}, line {number}, {line!r}: {told!r} is no answer after {after} commands or more')
        before.add(line)
        after = place
    return after


def order_that_answers(base, stations, orders=None):
    """The order over this register that gives all answers: of each station, in turn, its lines with these; NoOrder where there is none."""
    order = order_of(base, stations, orders)
    for station, pairs in enumerate(stations, 1):
        follows(order, station, pairs)
    return order


def judged(base, lines, out, names, orders=None):
    """The order that a run had over this register, with its last register; NoOrder where there is none."""
    return order_that_answers(base, [answered(one, said) for one, said in zip(lines, parts(out, names))], orders)


def is_troubled(out):
    """Whether a line was bad. No other word of trouble comes where the disk and the memory are well."""
    return any(line.startswith(b'line ') and b' bad ' in line for line in out.split(b'\n'))
