"""The lines of one station, made by chance: commands of rising sequence, which the rules accept or refuse, some of them sent
twice, and queries, comments and bad lines among them."""
import batches
import reading
from disk_files import LINES, text
from reading_disks import copied
from streams import RULE_BODY, demand, groups

OTHERS = ['count', 'where 234-14-2001', 'mail 234-14-2002', 'rules', 'radios', 'radios 234-14-2000/46', 'items', 'due 300', 'waiting 1', 'waiting 2', 'last 1', 'last 3', 'room', 'dump',
          'mark here', 'mark', 'station', '# a remark', '', 'no such', 'where 1-2', '0 0 expire']


def bodies(dice):
    """What the commands say: first a rule, and each radio attached and in a group."""
    yield RULE_BODY
    for radio in batches.RADIOS:
        yield demand(3, radio)
        yield groups.grouping([groups.attaching(1000)], radio)
    while True:
        yield batches.body(dice)


def lines(dice, count):
    """So many lines."""
    made, sequence, moment, said = [], 0, 0, bodies(dice)
    while len(made) < count:
        draw = dice.random()
        if made and draw < 0.05:
            made.append(made[-1])
        elif draw < 0.15:
            made.append(dice.choice(OTHERS))
        else:
            sequence, moment = sequence + dice.choice([1, 1, 1, 4]), moment + dice.choice([0, 0, 1, 9])
            made.append(f'{sequence} {moment} {next(said)}')
    return [line.encode() for line in made]


def apart(lines):
    """These lines with a query after each, so that no two commands are done together."""
    return [one for line in lines for one in (line, b'count')]


def data_of(lines):
    return b''.join(line + b'\n' for line in lines)


def printed(answers):
    """What the program prints that answers the lines of the file so."""
    return text([f'station 1 {LINES}', *(line for told in answers for line in told)])


class Serving:
    """Lines that a register has served: their answers, whether it was troubled, its state at first and after each command that it
    accepted, and how many of the commands it had accepted after each line."""

    def __init__(self, register, lines, orders=None):
        self.lines, now = lines, copied(register)
        self.answers, self.troubled, self.registers, self.counts = [], False, [register], []
        for told, is_bad in reading.answered(now, 1, lines, orders):
            self.answers.append(told)
            self.troubled |= is_bad
            if now.count > self.registers[-1].count:
                self.registers.append(copied(now))
            self.counts.append(len(self.registers) - 1)

    def text(self):
        """What the program prints."""
        return printed(self.answers)
