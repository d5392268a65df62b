"""An independent reading of the queries, from docs/formats/lines.md alone: each answers the lines of its answer, of a register as
reading.py has it and the words after its first. LISTS has the queries whose first line ends in the number of lines that follow it.
PLAIN has those that ask nothing of the register: they get the number of the station instead. Of the figures of a service only the form is
known."""
import collections
import re

from reading_words import identity, number, prefix, print_bits, print_identity, printable


# Words of answers

def whereabouts(kept):
    station, area, present = kept
    return f'station {station} la {area} {"present" if present else "absent"}'


def rule_words(under, rule):
    """A rule after its prefix."""
    return ' '.join([f'{print_identity(under.ljust(48, "0"))}/{len(under)}', *map(str, rule)])


def counted(words, lines):
    """A list: its words with the number of its lines, and these."""
    return [f'{words} {len(lines)}', *lines]


def waiting(register, is_listed):
    """The items under their keys for which this holds, by number, then by key."""
    return sorted((item.number, key, item) for key, item in register.mail.items() if is_listed(key, item))


def item_line(entry, names_destination=False):
    """An item, with its destination or without, and with its group if it is a copy."""
    number, (destination, source, reference, kind), item = entry
    words = [kind.decode(), print_identity(source), str(reference), str(item.deadline), print_bits(item.pdu.kept)]
    before, after = [print_identity(destination)] if names_destination else [], [print_identity(item.group)] if item.group else []
    return ' '.join(['item', str(number), *before, *words, *after])


def fullest(register):
    """The destination for which most items wait, of several the one whose first item is the oldest; and how many. Or None."""
    boxes = collections.Counter(key[0] for _, key, _ in waiting(register, lambda key, item: True))
    return max(boxes.items(), key=lambda box: box[1], default=None)


# Of one radio, group or station

def where(register, words):
    itsi, name = identity(words[0]), words[0].decode()
    return [f'where {name} {whereabouts(register.radios[itsi]) if itsi in register.radios else "unknown"}']


def look(register, words):
    found, name = register.look(identity(words[0])), words[0].decode()
    return [f'look {name} {rule_words(*found) if found else "none"}']


def groups(register, words):
    attached = sorted(register.groups_of(identity(words[0])).items())
    return counted(f'groups {words[0].decode()}', [f'group {print_identity(group)} {usage} {life}' for group, (usage, life) in attached])


def members(register, words):
    attached = sorted(register.members_of(identity(words[0])).items())
    return counted(f'members {words[0].decode()}',
                   [f'member {print_identity(radio)} {usage}' for radio, (usage, _) in attached if register.present(radio)])


def mail(register, words):
    itsi = identity(words[0])
    return counted(f'mail {words[0].decode()}', [item_line(entry) for entry in waiting(register, lambda key, item: key[0] == itsi)])


def last(register, words):
    station = number(words[0], 0, 65535)
    sequence, accepted, pdu = register.served.get(station, (None, None, None))
    return [f'last {station} ' + ('none' if sequence is None else f'{sequence} {accepted} {print_bits(pdu)}')]


# Of the whole register

def total(register, words):
    return [f'count {register.count}']


def rules(register, words):
    """A prefix comes before its extensions, as in the order of strings."""
    return counted('rules', [f'rule {rule_words(under, rule)}' for under, rule in sorted(register.rules.items())])


def radios(register, words):
    """All, or those under a prefix."""
    under = prefix(words[0]) if words else ''
    listed = sorted(entry for entry in register.radios.items() if entry[0].startswith(under))
    return counted(' '.join(['radios', *(word.decode() for word in words)]),
                   [f'radio {print_identity(itsi)} {whereabouts(kept)}' for itsi, kept in listed])


def items(register, words):
    return counted('items', [item_line(entry, True) for entry in waiting(register, lambda key, item: True)])


def due(register, words):
    moment = number(words[0], 0, 2 ** 32 - 1)
    return counted(f'due {moment}', [item_line(entry, True) for entry in waiting(register, lambda key, item: item.deadline <= moment)])


def waiting_at(register, words):
    """Those for radios that are present at the station."""
    station = number(words[0], 0, 65535)
    there = {itsi for itsi, (at, _, present) in register.radios.items() if present and at == station}
    return counted(f'waiting {station}', [item_line(entry, True) for entry in waiting(register, lambda key, item: key[0] in there)])


def room(register, words):
    used = {'rules': register.rules, 'radios': register.radios, 'items': register.mail, 'stations': register.served}
    limits, box = {**register.limits, 'items': register.limits['mail']}, fullest(register)
    parts = [f'{name} {len(held)}/{limits[name]}' for name, held in used.items()]
    return [' '.join(['room', *parts, 'fullest', f'{print_identity(box[0])} {box[1]}/{register.most_items}' if box else 'none'])]


def dump(register, words):
    from reading_texts import text_of
    return counted('dump', text_of(register).decode().splitlines())


# Of no register

def mark(station, words):
    return [f'mark {printable(words[0])}']


def own_station(station, words):
    return [f'station {station}']


def service(station, words):
    """Where stations are served, the figures of the service are listed (`is_service`)."""
    return counted('service', [])


SERVICE = [rf'{name} (?:0|[1-9]\d*)' for name in ('rounds', 'commands', 'syncs', 'checkpoints', 'epoch', 'free')]
OF_STATION = r'station {} ' + ' '.join(rf'{name} (?:0|[1-9]\d*)' for name in ('lines', 'accepted', 'refused', 'kept')) + ' waits (?:yes|no)'


def is_service(lines):
    """Whether these lines are figures of a service, in their form, and those of one station or more."""
    forms = SERVICE + [OF_STATION.format(station) for station in range(1, len(lines) - len(SERVICE))]
    return len(forms) > len(SERVICE) and re.fullmatch('\n'.join([f'service {len(forms)}', *forms]), '\n'.join(lines), re.ASCII) is not None


PLAIN = {(b'mark', 1): mark, (b'station', 0): own_station, (b'service', 0): service}
QUERIES = {(b'where', 1): where, (b'look', 1): look, (b'groups', 1): groups, (b'members', 1): members, (b'mail', 1): mail, (b'count', 0): total,
           (b'rules', 0): rules, (b'radios', 0): radios, (b'radios', 1): radios, (b'items', 0): items, (b'due', 1): due,
           (b'waiting', 1): waiting_at, (b'last', 1): last, (b'room', 0): room, (b'dump', 0): dump}
LISTS = {b'groups', b'members', b'mail', b'rules', b'radios', b'items', b'due', b'waiting', b'dump', b'service'}
