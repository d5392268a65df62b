#!/usr/bin/env python3
"""An independent reading of docs/formats/lines.md, docs/formats/pdus.md and docs/decisions.md, from these
documents alone, in another language and by another road than the program: texts by regular expressions,
bits as strings of 0 and 1, the state as dictionaries. It answers command lines as `tetra-switch` has to.
Usage: tests/run reading [STATION] < lines > answers (exit status 1 where an answer was troubled)"""
import collections
import sys

from reading_pdus import Message, Refused, Report, accept, acknowledgement, read_sds, read_up, reject
from reading_queries import PLAIN, QUERIES
from reading_words import BadLine, bad_value, bit_string, identity, number, prefix, print_bits, print_identity

LAST_NUMBER = 2 ** 62
LIMITS = {'rules': 16, 'radios': 16, 'mail': 256, 'stations': 4}
CAUSES = {'unknown-identity': 1, 'la-not-allowed': 3, 'congestion': 6, 'migration': 12}
MOST_GROUPS, MOST_ITEMS = 32, 128
# The lifetimes of the attachments that an accepted location update of each type ends
ENDED = {0: (3,), 2: (), 3: (1, 2, 3), 4: (3,), 6: (3,)}

# What waits for a destination: under a key of destination, source, reference and b'm' or b'r'
Item = collections.namedtuple('Item', 'number deadline pdu group', defaults=[None])


# The register

class Register:
    most_items = MOST_ITEMS

    def __init__(self, limits=None):
        self.limits = dict(LIMITS, **(limits or {}))
        self.rules, self.radios, self.served, self.count = {}, {}, {}, 0
        self.groups, self.mail = {}, {}

    def look(self, bits):
        """The longest prefix of these bits that has a rule, and the rule; or None."""
        under = [p for p in self.rules if bits.startswith(p)]
        longest = max(under, key=len, default=None)
        return None if longest is None else (longest, self.rules[longest])

    def rule_of(self, bits):
        found = self.look(bits)
        return found and found[1]

    def apply(self, station, sequence, moment, body):
        """('ok' or 'kept', number, PDU), or Refused."""
        if not 1 <= station <= self.limits['stations']:
            raise Refused('unknown-station')
        if station in self.served:
            last, kept, pdu = self.served[station]
            if sequence < last:
                raise Refused('old-sequence', str(last))
            if sequence == last:
                return 'kept', kept, pdu
        if self.count == LAST_NUMBER:
            raise Refused('numbers-used-up')
        pdu = body(self, station, moment)
        self.count += 1
        self.served[station] = sequence, self.count, pdu
        return 'ok', self.count, pdu

    def set_rule(self, under, rule):
        if under not in self.rules and len(self.rules) >= self.limits['rules']:
            raise Refused('rules-full')
        self.rules[under] = rule

    def clear_rule(self, under):
        self.rules.pop(under, None)

    def present(self, itsi):
        return itsi in self.radios and self.radios[itsi][2]

    def mobility(self, station, itsi, area, bits):
        kind, value = read_up(bits)
        if kind == 'demand':
            return self.locate(station, itsi, area, value)
        if not self.present(itsi):
            raise Refused('not-attached')
        if kind == 'groups':
            return self.attach(itsi, *value)
        self.radios[itsi] = self.radios[itsi][:2] + (False,)
        return None

    def locate(self, station, itsi, area, update):
        refusal = self.locate_refusal(itsi, area, update)
        if refusal == 'unsupported-type':
            raise Refused(refusal)
        if refusal:
            raise Refused(refusal, print_bits(reject(update, CAUSES[refusal])))
        self.radios[itsi] = station, area, True
        self.groups = {pair: kept for pair, kept in self.groups.items()
                       if pair[0] != itsi or kept[1] not in ENDED[update]}
        return accept(update)

    def locate_refusal(self, itsi, area, update):
        if update == 7:
            return 'unsupported-type'
        if update not in ENDED:
            return 'migration'
        rule = self.rule_of(itsi)
        if rule is None:
            return 'unknown-identity'
        if not rule[0] <= area <= rule[1]:
            return 'la-not-allowed'
        if itsi not in self.radios and len(self.radios) >= self.limits['radios']:
            return 'congestion'
        return None

    def groups_of(self, itsi):
        return {group: kept for (radio, group), kept in self.groups.items() if radio == itsi}

    def members_of(self, gtsi):
        return {radio: kept for (radio, group), kept in self.groups.items() if group == gtsi}

    def attach(self, itsi, first, items):
        """The acknowledgement; `first` detaches all groups before the items come."""
        after, results = {} if first else self.groups_of(itsi), []
        for item in items:
            group = item.group(itsi)
            rule = self.rule_of(group)
            if item.detaches:
                after.pop(group, None)
                continue
            if rule:
                after[group] = int(item.detail, 2), rule[2]
            results.append((item.address, after[group] if rule else None))
        if len(after) > MOST_GROUPS:
            raise Refused('too-many-groups')
        others = {pair: kept for pair, kept in self.groups.items() if pair[0] != itsi}
        self.groups = {**others, **{(itsi, group): kept for group, kept in after.items()}}
        return acknowledgement(results)

    def short_data(self, moment, source, destination, bits):
        value = read_sds(bits)
        rule = self.rule_of(destination)
        if rule is None:
            raise Refused('unknown-destination')
        if not self.present(source):
            raise Refused('not-attached')
        if isinstance(value, Message):
            self.post(moment + rule[3], (destination, source, value.reference, b'm'), value)
        elif isinstance(value, Report):
            self.report(moment + rule[3], source, destination, value)
        else:
            self.delete((source, destination, value.reference, b'r'))

    def group_short_data(self, moment, source, group, bits):
        """A message for the present members of a group but its sender: all get a copy, or nobody."""
        value, rule = read_sds(bits), self.rule_of(group)
        if not isinstance(value, Message):
            raise Refused('not-a-transfer')
        if rule is None:
            raise Refused('unknown-destination')
        if not self.present(source):
            raise Refused('not-attached')
        keys = [(radio, source, value.reference, b'm') for radio in self.members_of(group) if radio != source and self.present(radio)]
        if not keys:
            raise Refused('no-members')
        if any(key in self.mail for key in keys):
            raise Refused('reference-busy')
        if any(sum(other[0] == key[0] for other in self.mail) >= self.most_items for key in keys):
            raise Refused('mailbox-full')
        if len(self.mail) + len(keys) > self.limits['mail']:
            raise Refused('centre-full')
        self.mail.update((key, Item(self.count + 1, moment + rule[3], value, group)) for key in keys)

    def post(self, deadline, key, message):
        if key in self.mail:
            raise Refused('reference-busy')
        self.keep_with(self.mail, key, deadline, message)

    def report(self, deadline, reporter, origin, report):
        """The report, on its way to where the message came from."""
        key = reporter, origin, report.reference, b'm'
        if key not in self.mail:
            raise Refused('no-such-message')
        ended = report.status == 2 or report.status == 0 and self.mail[key].pdu.request in (0, 1)
        told = origin, reporter, report.reference, b'r'
        left = {k: item for k, item in self.mail.items() if k != told and not (ended and k == key)}
        self.keep_with(left, told, deadline, report)

    def keep_with(self, others, key, deadline, value):
        """These other items and a new one, where there is room."""
        if sum(other[0] == key[0] for other in others) >= self.most_items:
            raise Refused('mailbox-full')
        if len(others) >= self.limits['mail']:
            raise Refused('centre-full')
        self.mail = {**others, key: Item(self.count + 1, deadline, value)}

    def sent(self, key):
        if not self.present(key[0]):
            raise Refused('not-attached')
        if key not in self.mail:
            raise Refused('no-such-message')
        value = self.mail[key].pdu
        if not (value.request if isinstance(value, Message) else value.answered):
            del self.mail[key]

    def expire(self, moment):
        self.mail = {key: item for key, item in self.mail.items() if item.deadline > moment}

    def delete(self, key):
        if key not in self.mail:
            raise Refused('no-such-message')
        del self.mail[key]


# Lines

def rule_body(words):
    under = prefix(words[0])
    low, high = number(words[1], 0, 16383), number(words[2], 0, 16383)
    life, keep = number(words[3], 0, 3), number(words[4], 0, 2 ** 32 - 1)
    if low > high:
        bad_value()
    return lambda register, station, moment: register.set_rule(under, (low, high, life, keep))


def unrule_body(words):
    under = prefix(words[0])
    return lambda register, station, moment: register.clear_rule(under)


def mobility_body(words):
    itsi, area, bits = identity(words[0]), number(words[1], 0, 16383), bit_string(words[2])
    return lambda register, station, moment: register.mobility(station, itsi, area, bits)


def short_data_body(words):
    source, destination, bits = identity(words[0]), identity(words[1]), bit_string(words[2])
    return lambda register, station, moment: register.short_data(moment, source, destination, bits)


def group_short_data_body(words):
    source, group, bits = identity(words[0]), identity(words[1]), bit_string(words[2])
    return lambda register, station, moment: register.group_short_data(moment, source, group, bits)


def key_of(words):
    key = identity(words[0]), identity(words[1]), number(words[2], 0, 255), words[3]
    if words[3] not in (b'm', b'r'):
        bad_value()
    return key


def sent_body(words):
    key = key_of(words)
    return lambda register, station, moment: register.sent(key)


def expire_body(words):
    return lambda register, station, moment: register.expire(moment)


def delete_body(words):
    key = key_of(words)
    return lambda register, station, moment: register.delete(key)


COMMANDS = {(b'rule', 5): rule_body, (b'unrule', 1): unrule_body, (b'mm', 3): mobility_body, (b'sds', 3): short_data_body,
            (b'gsds', 3): group_short_data_body, (b'sent', 4): sent_body, (b'expire', 0): expire_body, (b'delete', 4): delete_body}
ORDERS = b'rule', b'unrule', b'delete', b'expire'


def command(register, station, words, orders):
    """Of a station that may give no orders these are refused before anything is asked of the register."""
    sequence = number(words[0], 1, 2 ** 32 - 1)
    moment = number(words[1], 0, 2 ** 32 - 1)
    body = COMMANDS[words[2], len(words) - 3](words[3:])
    if words[2] in ORDERS and orders is not None and station not in orders:
        return [f'{sequence} no forbidden']
    try:
        word, kept, pdu = register.apply(station, sequence, moment, body)
        return [f'{sequence} {word} {kept} {print_bits(pdu)}']
    except Refused as refused:
        return [' '.join(filter(None, [str(sequence), 'no', refused.word, refused.carried]))]


def answer(register, station, line, orders=None):
    """The answer's lines, or BadLine; nothing for an empty line or a comment. With a set of stations only these may give orders."""
    if len(line) > 1024:
        raise BadLine('too-long')
    if not line or line.startswith(b'#'):
        return []
    words = line.split(b' ')
    if len(words) > 2 and (words[2], len(words) - 3) in COMMANDS:
        return command(register, station, words, orders)
    if (words[0], len(words) - 1) in PLAIN:
        return PLAIN[words[0], len(words) - 1](station, words[1:])
    if (words[0], len(words) - 1) in QUERIES:
        return QUERIES[words[0], len(words) - 1](register, words[1:])
    raise BadLine('syntax')


def lines_of(data):
    parts = data.split(b'\n')
    last = parts.pop()
    lines = [part[:-1] if part.endswith(b'\r') else part for part in parts]
    return lines + [last] if last else lines


def answers(data, station=1, limits=None, orders=None):
    """For each line of these bytes the lines of its answer, and whether it is a bad line."""
    return answered(Register(limits), station, lines_of(data), orders)


def answered(register, station, lines, orders=None):
    """The same for lines that a register is given."""
    for place, line in enumerate(lines, 1):
        try:
            yield answer(register, station, line, orders), False
        except BadLine as fault:
            yield [f'line {place} bad {fault}'], True


def serve(data, station=1, limits=None, orders=None):
    """The text that answers these bytes, and whether the run was troubled."""
    out, troubled = [], False
    for told, bad in answers(data, station, limits, orders):
        out += told
        troubled |= bad
    return ''.join(line + '\n' for line in out).encode(), troubled


if __name__ == '__main__':
    text, trouble = serve(sys.stdin.buffer.read(), int(sys.argv[1]) if len(sys.argv) > 1 else 1)
    sys.stdout.buffer.write(text)
    sys.exit(int(trouble))
