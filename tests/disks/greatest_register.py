#!/usr/bin/env python3
"""Fills a register on a disk up to its greatest limits: 4,096 rules, 65,536 radios, a group of 1,000 members, and 65,536 waiting
messages of 2,047 bits, up to 128 of them for one radio. It is listed, opened again and listed, drained, and opened once more. The half
of the journal is so small that it fills several times meanwhile, and each time the whole register is written to the other side of the
disk. Every answer is compared with what this script computes. The disk is a sparse file in a folder of its own, which goes at the end.
Prints a line for each part, and last 'N passed, M failed'.
Usage: tests/run greatest_register PROGRAM"""
import collections
import functools
import mmap
import subprocess
import time

from disk_files import DISK, LINES, MEMORY, place, text
from reading import identity, print_bits
from reading_disks import layout_in, side_in
from reading_pdus import acknowledgement, reject
from reading_rows import SECTOR, row_in
from running import compare
from testing import Count, options

RULES, RADIOS, ITEMS, STATIONS, JOURNAL = 4096, 65_536, 65_536, 64, 4096
MEMBERS, MOST_GROUPS, MOST_FOR_ONE = 1000, 32, 128
SECTORS = 3 + 2 * (1 + RULES + RADIOS + ITEMS + STATIONS) + 2 * JOURNAL
SECONDS = 600
# The demands, and their answers: an ITSI attach, and its acceptance; a detach; a detach of all groups, and what acknowledges it
ATTACH, ACCEPTED, CONGESTION, DETACH, LEAVE, LEFT = '10:260', '8:56', 6, '5:10', '7:74', '7:B0'
ITSI_ATTACH, CLASS = 3, 4
# When all is sent, and the group to which the first radios belong, and its sender
MOMENT, GROUP, SENDER = 10, 5 * 4096 + 4095, 0
# The first radio that is not in the group, and the radio that sends to the radios from there on
FIRST, SOURCE = MEMBERS, 1


# What there is. A rule serves the 4,096 identities under a prefix of 36 bits, 16 of which are radios'.

def named(ssi):
    return f'234-14-{ssi}'


def radio(number):
    """The name of a radio."""
    return named(number // 16 * 4096 + number % 16)


def prefix(number):
    return f'{named(number * 4096)}/36'


def rule_of(ssi):
    """The least and the greatest location area, the lifetime of attachments, and for how long items are kept."""
    number = ssi // 4096
    return number, number + 100, number % 4, 1000 + number


def area(number):
    """Where a radio is."""
    return number // 16 + number % 16


def deadline(ssi):
    return MOMENT + rule_of(ssi)[3]


def message(reference, number):
    """An SDS-TRANSFER of 2,047 bits that asks for no report, and has a number in its text."""
    return f'2047:8200{reference:02X}{2 * number:0506X}'


def bits_of(word):
    """The bits of a GSSI alone, as an item of a group PDU has its address."""
    return '00' + identity(word.encode())[24:]


def joining(groups):
    """A PDU with which a radio attaches itself to groups of its own network, and what acknowledges it."""
    inside = format(len(groups), '06b') + ''.join('0' + format(CLASS, '03b') + bits_of(named(group)) for group in groups)
    given = [(bits_of(named(group)), (CLASS, rule_of(group)[2])) for group in groups]
    return print_bits('0111' '00' '1' '1' '1000' + format(len(inside), '011b') + inside + '0'), print_bits(acknowledgement(given))


def own_groups():
    """Those of the radio that is in as many as one may be."""
    return [GROUP] + [k * 4096 + 4000 for k in range(1, MOST_GROUPS)]


def letters():
    """What is sent beside the copies: destination, reference and number, up to 128 items for a radio, until there is no room."""
    for k in range(ITEMS - (MEMBERS - 1)):
        yield FIRST + k // MOST_FOR_ONE, k % MOST_FOR_ONE, k


@functools.lru_cache(maxsize=None)
def destinations():
    return sorted({destination for destination, _, _ in letters()})


# Lines and their answers

class Script:
    """The lines of a run, the answers to them, how many commands were accepted since the disk was made, and the last PDU."""
    accepted, sequence, pdu = 0, 0, '-'

    def __init__(self):
        self.lines, self.answers = [], []

    def command(self, words, pdu='-', moment=MOMENT):
        """A command that is accepted."""
        Script.accepted, Script.sequence, Script.pdu = Script.accepted + 1, Script.sequence + 1, pdu
        self.lines.append(f'{Script.sequence} {moment} {words}')
        self.answers.append(f'{Script.sequence} ok {Script.accepted} {pdu}')

    def refused(self, words, word):
        """A command that is refused. Its sequence is the next one, and is not used up by it."""
        self.lines.append(f'{Script.sequence + 1} {MOMENT} {words}')
        self.answers.append(f'{Script.sequence + 1} no {word}')

    def query(self, line, *answers):
        self.lines.append(line)
        self.answers += answers

    def run(self, place):
        """Serves them, and compares the answers."""
        place.write(LINES, text(self.lines))
        ran(place, ['run', DISK, LINES], text([f'station 1 {LINES}', *self.answers]))


def ran(place, words, out):
    ended = subprocess.run([*place.command, *words], stdin=subprocess.DEVNULL, capture_output=True, cwd=place.folder, timeout=SECONDS)
    compare('standard error', ended.stderr, b'')
    if ended.stdout != out:
        told, wanted = ended.stdout.split(b'\n'), out.split(b'\n')
        at = next((k for k, pair in enumerate(zip(told, wanted)) if pair[0] != pair[1]), min(len(told), len(wanted)))
        compare(f'{len(told)} lines for {len(wanted)}, and line {at + 1}', told[at:at + 1], wanted[at:at + 1])
    compare('status', ended.returncode, 0)


def fill(script):
    """Rules, radios, a group and its copies, and messages, each up to the limit."""
    for k in range(RULES):
        low, high, life, keep = rule_of(k * 4096)
        script.command(f'rule {prefix(k)} {low} {high} {life} {keep}')
    for k in range(RADIOS):
        script.command(f'mm {radio(k)} {area(k)} {ATTACH}', ACCEPTED)
    join, joined = joining([GROUP])
    for k in range(MEMBERS):
        script.command(f'mm {radio(k)} {area(k)} {join}', joined)
    script.command('mm {} {} {}'.format(radio(SENDER), area(SENDER), joining(own_groups()[1:])[0]), joining(own_groups()[1:])[1])
    copies = script.accepted + 1
    script.command(f'gsds {radio(SENDER)} {named(GROUP)} {message(7, 1)}')
    first = script.accepted + 1
    for destination, reference, k in letters():
        script.command(f'sds {radio(SOURCE)} {radio(destination)} {message(reference, k)}')
    return copies, first


def over(script):
    """One more of each than there may be."""
    spare = RADIOS - 1
    script.refused(f'rule {named(0)}/48 1 2 3 4', 'rules-full')
    script.refused(f'mm {named(16)} 0 {ATTACH}', f'congestion {print_bits(reject(ITSI_ATTACH, CONGESTION))}')
    script.refused('mm {} {} {}'.format(radio(SENDER), area(SENDER), joining([4 * 4096])[0]), 'too-many-groups')
    script.refused(f'sds {radio(SOURCE)} {radio(FIRST)} {message(200, 1)}', 'mailbox-full')
    script.refused(f'sds {radio(SOURCE)} {radio(FIRST)} {message(0, 1)}', 'reference-busy')
    script.refused(f'sds {radio(SOURCE)} {radio(spare)} {message(1, 1)}', 'centre-full')
    script.refused(f'gsds {radio(SENDER)} {named(GROUP)} {message(7, 1)}', 'reference-busy')
    script.refused(f'gsds {radio(SENDER)} {named(GROUP)} {message(8, 1)}', 'centre-full')


# Queries

def list_rules(script, are_there=True):
    for k in range(RULES):
        told = ' '.join([prefix(k), *map(str, rule_of(k * 4096))]) if are_there else 'none'
        script.query(f'look {named(k * 4096 + 4095)}', f'look {named(k * 4096 + 4095)} {told}')


def list_radios(script, word='present'):
    for k in range(RADIOS):
        script.query(f'where {radio(k)}', f'where {radio(k)} station 1 la {area(k)} {word}')


def list_members(script, members):
    script.query(f'members {named(GROUP)}', f'members {named(GROUP)} {len(members)}', *(f'member {radio(k)} {CLASS}' for k in members))


def list_groups(script, groups):
    told = [f'group {named(group)} {CLASS} {rule_of(group)[2]}' for group in sorted(groups)]
    script.query(f'groups {radio(SENDER)}', f'groups {radio(SENDER)} {len(told)}', *told)


def list_copies(script, number):
    """Of the members: all but the sender have one."""
    for k in range(MEMBERS):
        item = f'item {number} m {radio(SENDER)} 7 {deadline(GROUP)} {message(7, 1)} {named(GROUP)}'
        script.query(f'mail {radio(k)}', f'mail {radio(k)} {int(k != SENDER)}', *([item] if k != SENDER else []))


def list_letters(script, first, is_left=lambda destination, reference: True):
    """What waits of the messages, the first of which has this number."""
    waiting = {destination: [] for destination in destinations()}
    for destination, reference, k in letters():
        if is_left(destination, reference):
            waiting[destination].append((reference, k))
    for destination, left in waiting.items():
        ends = deadline(destination // 16 * 4096)
        items = [f'item {first + k} m {radio(SOURCE)} {reference} {ends} {message(reference, k)}' for reference, k in left]
        script.query(f'mail {radio(destination)}', f'mail {radio(destination)} {len(items)}', *items)


def count(script):
    script.query('count', f'count {script.accepted}')
    script.query('last 1', f'last 1 {script.sequence} {script.accepted} {script.pdu}')
    script.query('last 64', 'last 64 none')


# Listings

def list_all_rules(script):
    script.query('rules', f'rules {RULES}', *(' '.join(['rule', prefix(k), *map(str, rule_of(k * 4096))]) for k in range(RULES)))


def list_all_radios(script, word='present'):
    lines = [f'radio {radio(k)} station 1 la {area(k)} {word}' for k in range(RADIOS)]
    for under, some in (named(0) + '/24', lines), (prefix(5), lines[80:96]), (radio(81) + '/48', lines[81:82]), (named(16) + '/48', []):
        script.query(f'radios {under}', f'radios {under} {len(some)}', *some)
    script.query('radios', f'radios {RADIOS}', *lines)


def items(copies, first, is_left=lambda destination, reference: True):
    """What waits, the oldest first: destination, deadline and line, of the copies with this number, if it is given, and of the messages
    that are left."""
    for k in range(1, MEMBERS) if copies else ():
        yield k, deadline(GROUP), f'item {copies} {radio(k)} m {radio(SENDER)} 7 {deadline(GROUP)} {message(7, 1)} {named(GROUP)}'
    for destination, reference, k in letters():
        if is_left(destination, reference):
            ends = deadline(destination // 16 * 4096)
            yield destination, ends, f'item {first + k} {radio(destination)} m {radio(SOURCE)} {reference} {ends} {message(reference, k)}'


def list_items(script, waiting):
    """All of them, as all radios that they are for are at station 1; those that are due at the middle of the deadlines and just before."""
    waiting = list(waiting)
    for query in 'items', 'waiting 1':
        script.query(query, f'{query} {len(waiting)}', *(line for _, _, line in waiting))
    script.query('waiting 2', 'waiting 2 0')
    deadlines = sorted(ends for _, ends, _ in waiting)
    for moment in [deadlines[len(deadlines) // 2] - 1, deadlines[len(deadlines) // 2]] if waiting else [2 ** 32 - 1]:
        due = [line for _, ends, line in waiting if ends <= moment]
        script.query(f'due {moment}', f'due {moment} {len(due)}', *due)
    return collections.Counter(destination for destination, _, _ in waiting)


def list_room(script, boxes, rules):
    """Of so many items for each destination, the first of which has the oldest."""
    box = max(boxes, key=boxes.get, default=None)
    told = 'none' if box is None else f'{radio(box)} {boxes[box]}/{MOST_FOR_ONE}'
    script.query('room', f'room rules {rules}/{RULES} radios {RADIOS}/{RADIOS} items {sum(boxes.values())}/{ITEMS} stations 1/{STATIONS} fullest {told}')


def list_all(script, copies, first):
    list_rules(script)
    list_radios(script)
    list_members(script, range(MEMBERS))
    list_groups(script, own_groups())
    list_copies(script, copies)
    list_letters(script, first)
    list_all_rules(script)
    list_all_radios(script)
    list_room(script, list_items(script, items(copies, first)), RULES)
    count(script)


# Draining

def drain(script, copies, first):
    """Messages are deleted, sent, and end by themselves; the members leave the group, the radios the switch, and the rules go."""
    for destination, reference, _ in letters():
        if reference % 4 == 3:
            script.command(f'delete {radio(destination)} {radio(SOURCE)} {reference} m')
    for k in range(1, MEMBERS):
        script.command(f'sent {radio(k)} {radio(SENDER)} 7 m')
    middle = deadline(destinations()[len(destinations()) // 2] // 16 * 4096)
    script.command('expire', moment=middle)
    is_left = lambda destination, reference: reference % 4 != 3 and deadline(destination // 16 * 4096) > middle
    list_letters(script, first, is_left)
    list_room(script, list_items(script, items(None, first, is_left)), RULES)
    script.command('expire', moment=2 ** 32 - 1)
    list_letters(script, first, lambda destination, reference: False)
    for k in range(0, MEMBERS, 2):
        script.command(f'mm {radio(k)} {area(k)} {LEAVE}', LEFT)
    list_groups(script, [])
    list_members(script, range(1, MEMBERS, 2))
    for k in range(RADIOS):
        script.command(f'mm {radio(k)} {area(k)} {DETACH}')
    list_members(script, [])
    for k in range(RULES):
        script.command(f'unrule {prefix(k)}')
    count(script)


def list_nothing(script, first):
    """Nothing is left but the radios, which are absent."""
    list_rules(script, are_there=False)
    list_radios(script, 'absent')
    list_members(script, [])
    list_letters(script, first, lambda destination, reference: False)
    script.query('rules', 'rules 0')
    list_all_radios(script, 'absent')
    list_room(script, list_items(script, []), 0)
    count(script)


# The disk

class Sectors:
    """The sectors of a file, read when they are asked for."""

    def __init__(self, file):
        self.bytes = mmap.mmap(file.fileno(), 0, access=mmap.ACCESS_READ)

    def __len__(self):
        return len(self.bytes) // SECTOR

    def __getitem__(self, at):
        return self.bytes[at * SECTOR:(at + 1) * SECTOR]


def epoch(place):
    """That of the disk's current side: one more than how often the whole register was written."""
    with place.path().open('rb') as file:
        image = Sectors(file)
        layout = layout_in(image[0], len(image))
        return row_in(image[layout.slot(side_in(image, layout))]).epoch


def is_written_again(place, before, times):
    """The whole register was written so many times more, at least."""
    now = epoch(place)
    compare(f'the register was written again after epoch {before}, so that it is {now}', now >= before + times, True)
    return now


def made(place):
    numbers = {'rules': RULES, 'radios': RADIOS, 'mail': ITEMS, 'stations': STATIONS, 'journal': JOURNAL}
    place.write('s.toml', text([f'{key} = {value}' for key, value in numbers.items()]))
    ran(place, ['format', 's.toml', DISK], text([f'formatted {SECTORS} sectors']))
    compare('sectors', place.path().stat().st_size, SECTORS * SECTOR)


class Timed(Count):
    """Prints how long each case took."""

    def part(self, name, call, *arguments):
        start = time.monotonic()
        answer = self.case(name, call, *arguments)
        print(f'{name}: {time.monotonic() - start:.1f} s', flush=True)
        return answer


def served(place, parts):
    """A run of lines that these parts make."""
    script = Script()
    made = [part(script, *arguments) for part, *arguments in parts]
    script.run(place)
    return made[0]


def main():
    words, told = options(__doc__), Timed()
    with place(words.program, MEMORY) as folder:
        told.part('a disk made', made, folder)
        copies, first = told.part('filled and listed', served, folder, [(fill,), (over,), (list_members, range(MEMBERS)), (count,)]) or (0, 0)
        if not told.failed:
            told.part('written to the other side', is_written_again, folder, 1, 2)
            told.part('opened again and listed', served, folder, [(list_all, copies, first)])
            told.part('shown', ran, folder, ['show', DISK, 'count'], text([f'count {Script.accepted}']))
            before = epoch(folder)
            told.part('drained', served, folder, [(drain, copies, first)])
            told.part('written again', is_written_again, folder, before, 1)
            told.part('opened once more', served, folder, [(list_nothing, first)])
    told.end()


if __name__ == '__main__':
    main()
