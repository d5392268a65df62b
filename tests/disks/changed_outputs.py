"""Outputs of runs of many stations, changed so that no order of the commands gives them; and what the disk keeps. Each change
has the answers of the stations and their order, and gives the output and what the disk keeps: the number of commands, and each
station's last one."""
from reading_orders import is_command, is_title, number_of


def kept_of(order):
    register = order.registers[-1]
    return register.count, register.served


def said_by(stations):
    """The lines of each station."""
    return [[line for pair in pairs for line in pair.told] for pairs in stations]


def printed(said):
    """The output in which the stations are answered by these lines."""
    titled = ([f'station {number} s{number}.txt', *lines] for number, lines in enumerate(said, 1))
    return ''.join(line + '\n' for lines in titled for line in lines).encode()


def places(stations, fits):
    """Where an answer is that fits, as a station's place and the answer's among its lines."""
    return [(k, at) for k, lines in enumerate(said_by(stations)) for at, line in enumerate(lines) if fits(line)]


def with_number(line, number):
    words = line.split(' ')
    return ' '.join([*words[:2], str(number), *words[3:]])


def is_accepted(line):
    return number_of([line]) is not None


def accepted(stations):
    return places(stations, is_accepted)


def swapped(said, first, second):
    """The numbers of two accepted commands swapped."""
    numbers = [number_of([said[k][at]]) for k, at in (first, second)]
    for (k, at), number in zip((first, second), reversed(numbers)):
        said[k][at] = with_number(said[k][at], number)
    return said


def other_numbers(said, number_for):
    """Each number of an accepted command replaced."""
    return [[with_number(line, number_for(number_of([line]))) if is_accepted(line) else line for line in lines] for lines in said]


def two_numbers_of_a_station_swapped(dice, stations, order):
    mine = [place for place in accepted(stations) if place[0] == 0]
    return printed(swapped(said_by(stations), *dice.sample(mine, 2))), kept_of(order)


def the_last_numbers_of_two_stations_swapped(dice, stations, order):
    """The disk has these numbers."""
    last = dict(accepted(stations))
    first, second = dice.sample(sorted(last.items()), 2)
    return printed(swapped(said_by(stations), first, second)), kept_of(order)


def a_number_twice(dice, stations, order):
    total = len(order.commands)
    return printed(other_numbers(said_by(stations), lambda number: min(number, total - 1))), kept_of(order)


def a_gap_in_the_numbers(dice, stations, order):
    gap = dice.randint(1, len(order.commands))
    return printed(other_numbers(said_by(stations), lambda number: number + (number >= gap))), kept_of(order)


def an_answer_left_out(dice, stations, order):
    said = said_by(stations)
    k = dice.randrange(len(said))
    del said[k][dice.randrange(len(said[k]))]
    return printed(said), kept_of(order)


def an_answer_twice(dice, stations, order):
    said = said_by(stations)
    k, at = dice.choice(accepted(stations))
    said[k].insert(at, said[k][at])
    return printed(said), kept_of(order)


def an_answer_of_another_station(dice, stations, order):
    """Both have an answer of another."""
    said = said_by(stations)
    mine, theirs = ([place for place in accepted(stations) if place[0] == k] for k in (2, 5))
    (k, at), (other, there) = dice.choice(mine), dice.choice(theirs)
    said[k][at], said[other][there] = said[other][there], said[k][at]
    return printed(said), kept_of(order)


def all_answers_of_two_stations_swapped(dice, stations, order):
    said = said_by(stations)
    said[0], said[1] = said[1], said[0]
    return printed(said), kept_of(order)


def an_accepted_command_missing_on_the_disk(dice, stations, order):
    register = order.registers[-2]
    return printed(said_by(stations)), (register.count, register.served)


def one_more_command_on_the_disk(dice, stations, order):
    """The disk has all commands, and the last accepted one is answered as a fault that changes nothing."""
    said = said_by(stations)
    k, at = next((k, at) for k, at in accepted(stations) if number_of([said[k][at]]) == len(order.commands))
    said[k][at] = f'{said[k][at].split(" ")[0]} no no-such-message'
    return printed(said), kept_of(order)


def another_pdu(dice, stations, order):
    said = said_by(stations)
    k, at = dice.choice(places(stations, lambda line: is_accepted(line) and line.endswith(' 8:56')))
    said[k][at] = said[k][at].replace(' 8:56', ' 8:50')
    return printed(said), kept_of(order)


def another_refusal(dice, stations, order):
    said = said_by(stations)
    k, at = dice.choice(places(stations, lambda line: line.split(' ')[1:] == ['no', 'no-such-message']))
    said[k][at] = said[k][at].replace('no-such-message', 'rules-full')
    return printed(said), kept_of(order)


def a_count_before_its_own_command(dice, stations, order):
    """A station that asks how many commands there are is answered with none."""
    said = said_by(stations)
    asked = [(k, at) for k, at in places(stations, lambda line: line.startswith('count ')) if any(map(is_accepted, said[k][:at]))]
    k, at = dice.choice(asked)
    own = max(number_of([line]) for line in said[k][:at] if is_accepted(line))
    said[k][at] = f'count {own - 1}'
    return printed(said), kept_of(order)


def a_count_after_a_later_command(dice, stations, order):
    said = said_by(stations)
    asked = [(k, at) for k, at in places(stations, lambda line: line.startswith('count ')) if any(map(is_accepted, said[k][at:]))]
    k, at = dice.choice(asked)
    said[k][at] = f'count {min(number_of([line]) for line in said[k][at:] if is_accepted(line))}'
    return printed(said), kept_of(order)


def an_entry_listed_twice(dice, stations, order):
    """The first entry of a listing in place of its last."""
    said = said_by(stations)
    lists = places(stations, lambda line: line.split(' ')[0] in ('rules', 'radios', 'items') and not line.endswith((' 0', ' 1')))
    k, at = dice.choice(lists)
    said[k][at + int(said[k][at].split(' ')[-1])] = said[k][at + 1]
    return printed(said), kept_of(order)


def a_resend_carried_out(dice, stations, order):
    """Answered as a new command that comes last."""
    said = said_by(stations)
    k, at = dice.choice(places(stations, lambda line: line.split(' ')[1:2] == ['kept']))
    words = said[k][at].split(' ')
    said[k][at] = ' '.join([words[0], 'ok', str(len(order.commands) + 1), *words[3:]])
    return printed(said), kept_of(order)


def titles_swapped(dice, stations, order):
    lines = printed(said_by(stations)).split(b'\n')
    heads = [k for k, line in enumerate(lines) if is_title(line.decode())]
    lines[heads[0]], lines[heads[1]] = lines[heads[1]], lines[heads[0]]
    return b'\n'.join(lines), kept_of(order)


CHANGES = [
    two_numbers_of_a_station_swapped, the_last_numbers_of_two_stations_swapped, a_number_twice, a_gap_in_the_numbers, an_answer_left_out,
    an_answer_twice, an_answer_of_another_station, all_answers_of_two_stations_swapped, an_accepted_command_missing_on_the_disk,
    one_more_command_on_the_disk, another_pdu, another_refusal, a_count_before_its_own_command, a_count_after_a_later_command,
    an_entry_listed_twice, a_resend_carried_out, titles_swapped,
]
