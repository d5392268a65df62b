#!/usr/bin/env python3
"""Base stations that leave within a line, with answers that nobody read, and come back as docs/operate.md says, over the built program.
First the independent reading judges the way itself: of each form in docs/formats/lines.md, lines are cut at every byte and ended by a
mark; none may be a command, a query or a mark. So it is with texts of any bytes, and with marks of any word. Then a station is cut at each
of these bytes, before a new client of it comes back: it must be told the last command that came whole, and the register must be the one of
the whole lines alone. Clients before it left answers that nobody read, those of their own marks too. Some leave pipes that are full on
both sides.
Prints the seed, the first cases that fail, and last 'N passed, M failed'.
Usage: tests/run coming_back PROGRAM [--seed N] (the program itself, not a script that starts it)"""
import contextlib
import os
import random
import re
import select

import reading
from base_stations import Station, finish, make_pipes, names_of, serving_pipes
from disk_files import MEMORY, place, text
from many_files import LONG, empty, formats, stands_for
from program import TOP
from reading_queries import PLAIN, QUERIES
from running import SECONDS, compare
from testing import Count, options

FORMS = TOP / 'docs' / 'formats' / 'lines.md'
STATIONS = 4
# For each word of a form in capitals an ordinary one and a long one. The sequence number is the next one of the station.
WORDS = {'MOMENT': ('10', '4294967295'), 'PREFIX': ('234-14-0/24', '1023-16383-16777215/48'), 'LOW': ('1', '16382'), 'HIGH': ('99', '16383'),
         'LIFE': ('1', '3'), 'KEEP': ('3600', '4294967295'), 'ITSI': ('234-14-2001', '1023-16383-16777215'), 'LA': ('7', '16383'),
         'PDU': ('10:260', '478:7382284A0000FA080003E8A0000FA480003E9A0000FA880003EAA0000FAC80003EBA0000FB130077023C3A8001F41D40073A000FA27'
                 '5001C80001F48'),
         'SOURCE': ('234-14-2001', '1023-16383-16777214'), 'DEST': ('234-14-2002', '1023-16383-16777215'), 'REF': ('5', '255'), 'KIND': ('m', 'r'),
         'GTSI': ('234-14-1000', '1023-16383-16777215'), 'ID': ('234-14-2001', '1023-16383-16777215'), 'STATION': ('1', '65535'),
         'WORD': ('here', '!~' * 16)}
# Words of marks: random ones, and such as other forms have
MARKS = [b'1f', b'0123456789abcdef' * 2, b'?', b'expire', b'count', b'1', b'm', b'10:260', b'234-14-2001', b'234-14-0/24', b'mark', b'~' * 32]


# The lines

def forms():
    """The words of each form in lines.md, in its lists of commands and queries."""
    found = re.findall(r'^- (`.*?`):', FORMS.read_text().partition('## Commands')[2].partition('## Lines that are not')[0], re.M)
    asked = [one.split(' ') for line in found for one in re.findall('`(.*?)`', line)]
    return [words for words in asked if words[:2] == ['SEQ', 'MOMENT'] and words[2].islower() or words[0].islower()]


def kinds(words):
    """Its keyword, and how many words follow it."""
    at = 2 if words[0] == 'SEQ' else 0
    return words[at].encode(), len(words) - at - 1


def lines_of(words, sequence):
    """An ordinary line of a form, and a long one."""
    for place in 0, 1:
        yield ' '.join(str(sequence) if word == 'SEQ' else WORDS[word][place] if word.isupper() else word for word in words).encode()


def has_each_form(found):
    compare('commands and queries', sorted(map(kinds, found)), sorted([*reading.COMMANDS, *PLAIN, *QUERIES]))


# By the reading alone

def is_no_line(line):
    """Whether it is no command and no query."""
    try:
        reading.answer(empty(STATIONS), 1, line)
        return False
    except reading.BadLine:
        return True


def never_completed(words):
    """By a mark no cut line of a form becomes another one. A whole line is one, and so is a mark alone."""
    for line in lines_of(words, 1):
        compare('a whole line', is_no_line(line), False)
        for word in MARKS:
            compare('a mark', reading.answer(empty(STATIONS), 1, b'mark ' + word), [f'mark {word.decode()}'])
            for at in range(1, len(line) + 1):
                compare(f'{line[:at]!r} and a mark', is_no_line(line[:at] + b'mark ' + word), True)


def any_bytes_before_a_mark(dice):
    """Whatever comes before a mark in its line, that is a bad line or a remark."""
    parts = [b'1', b' ', b' ', b'10', b'mark', b'mark ', b'm', b'expire', b'unrule', b'rule', b'last', b'#', b'\r', b'-', b'/', b':', b'\xff', b'\0', b'x' * 1020]
    for _ in range(20_000):
        before = b''.join(dice.choices(parts, k=dice.randrange(1, 7)))
        compare(f'{before!r} and a mark', before.startswith(b'#') or is_no_line(before + b'mark ' + dice.choice(MARKS)), True)


def completed_by_nothing(found):
    """An empty line would end some of these cuts as commands, as in the sample of the manual."""
    cut = [line[:at] for words in found for line in lines_of(words, 2) for at in range(len(line)) if words[0] == 'SEQ' and not is_no_line(line[:at])]
    compare('cut commands that are commands', (len(cut) > 20, b'2 10 rule 234-14-0/24 1 99 1 36' in cut), (True, True))


# By the program

@contextlib.contextmanager
def held(there, orders=()):
    """The program, which serves a station by pipes of which both ends are open, as the unit's shell has them."""
    make_pipes(there, 1)
    kept = [os.open(there.path(name), os.O_RDWR) for name in names_of(1)]
    try:
        with serving_pipes(there, 1, orders) as program:
            yield program
            for one in kept:
                os.close(one)
            kept.clear()
            compare('status', program.wait(SECONDS) in (0, 1), True)
            finish(program, program.returncode)
    finally:
        for one in kept:
            os.close(one)


class Whole:
    """The register that whole lines give, and the next sequence number."""

    def __init__(self):
        self.register, self.sequence = empty(STATIONS), 1

    def send(self, station, bodies):
        """Sends these commands, and reads no answer."""
        for body in bodies:
            line = b'%d 0 %s' % (self.sequence, body)
            station.send(line)
            reading.answer(self.register, 1, line)
            self.sequence += 1

    def answer(self, line):
        return text(reading.answer(self.register, 1, line)).decode().rstrip('\n')


def with_number(line, sequence):
    """With the next sequence number, so that half of it would be accepted."""
    return b'%d %s' % (sequence, line.partition(b' ')[2])


def cut_after(line, end):
    """Without its last bytes; the end is 0 for a whole line."""
    return line[:len(line) + end]


def leaves(station, cut):
    """It leaves within this line."""
    os.write(station.to, cut)
    station.leave()


def comes_back(there, program, whole, mark):
    """A new client is told the last whole command, and goes on after it."""
    station = Station(1).connect_pipes(there, program)
    compare('last', station.come_back(mark), whole.answer(b'last 1'))
    whole.send(station, [b'expire'])
    compare('the next command', station.receive(), f'{whole.sequence - 1} ok {whole.register.count} -')
    return station


def some_unread(dice):
    """Lines whose answers nobody reads: of earlier marks and of `last` too."""
    return dice.choices([b'last 1', b'mark %d-2' % dice.randrange(2 ** 24, 2 ** 25), b'station', b'items', b'no such'], k=dice.choice([0, 1, 5, 40]))


def cut_at_each_byte(there, dice, found):
    """Before each cut some answers are left unread."""
    formats(there, STATIONS, LONG)
    whole, marks = Whole(), iter(dice.sample(range(2 ** 24), 10_000))
    with held(there) as program:
        station = Station(1).connect_pipes(there, program)
        for words in found:
            for line in lines_of(words, whole.sequence):
                for at in range(len(line) + 1):
                    for query in some_unread(dice):
                        station.send(query)
                    whole.send(station, [b'expire'] * dice.choice([0, 1, 3]))
                    leaves(station, cut_after(with_number(line, whole.sequence) if words[0] == 'SEQ' else line, at - len(line)) if at else b'')
                    station = comes_back(there, program, whole, next(marks))
        station.leave()
    stands_for(there, whole.register)


def fill(station, line):
    """Writes lines until the program takes no more for half a second; how many bytes. The last line is cut anywhere."""
    data, sent = line * 1000, 0
    while select.select([], [station.to], [], 0.5)[1]:
        sent += os.write(station.to, data[sent % len(data):])
    return sent


def pipes_full_on_both_sides(there, dice):
    """A client that reads nothing writes until the program takes no more, also within a line, and leaves."""
    formats(there, STATIONS, LONG)
    whole = Whole()
    with held(there) as program:
        for turn in range(4):
            station = Station(1).connect_pipes(there, program)
            station.come_back(turn)
            compare('bytes whose answers nobody reads', fill(station, [b'mark %d-2\n' % turn, b'last 1\n', b'count\n'][turn % 3]) > 65536, True)
            station.leave()
            comes_back(there, program, whole, dice.randrange(2 ** 23, 2 ** 24)).leave()
    stands_for(there, whole.register)


def main():
    words = options(__doc__)
    print(f'seed {words.seed}', flush=True)
    dice, count, found = random.Random(words.seed), Count(), forms()
    count.case('has_each_form', has_each_form, found)
    count.case('completed_by_nothing', completed_by_nothing, found)
    count.case('any_bytes_before_a_mark', any_bytes_before_a_mark, dice)
    for one in found:
        count.case(' '.join(one), never_completed, one)
    for case, *more in (cut_at_each_byte, found), (pipes_full_on_both_sides,):
        with place(words.program, MEMORY) as there:
            count.case(case.__name__, case, there, dice, *more)
    count.end()


if __name__ == '__main__':
    main()
