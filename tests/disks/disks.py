#!/usr/bin/env python3
"""Gives a program (crates/probe_disks) batches of lines for a register on a disk, and follows each call to the disk. The program makes
one disk ready. The test itself writes another one, of layout 1, which moves to layout 2 at its first checkpoint.
- The calls of each batch must be those of the independent reading (tests/reading/), also while a checkpoint goes on beside.
- The disk is stopped after each call and within each write. By the reading, the image must open to the register before the batch or
  after it. Once the batch is answered, it must open to the register after it.
- The reading must report the faults of images put together by hand, and the test must find bugs planted in the calls.
Prints a line for each part, the first case of a part that is wrong, and last 'N passed, M failed'.
Usage: tests/run disks COMMAND..."""
import collections
import functools
import random
import subprocess
import sys

import batches
import faulty_disks
import reading
from images import fault_of, told_as
from made_disks import FORMS, GATE, expire, image, ready, records
from pending import SYNC, Disk, Write, choices
from reading_disks import LABEL, NUMBERED, PLAIN, ROOTS, Damaged, copied, layout_in, opens
from reading_rows import SECTOR, number, rows
from reading_stores import Store

BATCHES, DRAWS = 200, 2
CLOSED = b'\0' * SECTOR
# What a disk got in a commit, and how its lines were answered. All commits, after the calls that made the disk ready and those
# that opened it, and the form of the first side's records.
Commit = collections.namedtuple('Commit', 'calls answers')
Stream = collections.namedtuple('Stream', 'sectors commits form')


# What the program says

def call_in(line):
    if line == 'sync':
        return SYNC
    word, at, digits = line.split(' ')
    if word != 'write':
        raise ValueError(line)
    return Write(int(at), bytes.fromhex(digits).ljust(SECTOR, b'\0'))


def commit_in(lines):
    told = [line.removeprefix('answer ') for line in lines if line.startswith('answer ')]
    return Commit([call_in(line) for line in lines[:len(lines) - len(told)]], told)


def stream_in(text, form):
    """The first line gives the number of sectors of the disk. An empty line ends each commit."""
    first, *lines = text.split('\n')[:-1]
    ends = [k for k, line in enumerate(lines) if line == '']
    parts = [lines[start:end] for start, end in zip([0] + [end + 1 for end in ends], ends)]
    return Stream(int(first.removeprefix('disk ')), [commit_in(part) for part in parts], form)


def given(sectors):
    """How the program is given a disk: the sectors that are written. It makes one ready where there are none."""
    return ''.join(f'{at} {sector.hex()}\n' for at, sector in sectors.items()) + '\n'


def ran(command, script, form, half={}):
    """What the program says to these batches, over a disk that it makes ready, or over one of layout 1 with these records."""
    disk = given({**ready(form), **half} if form == PLAIN else {})
    said = ''.join(''.join(line + '\n' for line in batch) + '\n' for batch in script)
    ended = subprocess.run(command, input=(disk + said).encode(), stdout=subprocess.PIPE, timeout=120)
    if ended.returncode:
        sys.exit(f'the program ended with status {ended.returncode}')
    return stream_in(ended.stdout.decode(), form)


def stops(disk, dice, commit, before, after):
    """For each stop in a commit and at its end its fault, or None."""
    for call in commit.calls:
        disk.call(call)
        for chosen in choices(disk, dice, DRAWS):
            yield fault_of(disk.image(chosen), (before, after))
    for chosen in choices(disk, dice, DRAWS):
        yield fault_of(disk.image(chosen), (after,))


class Script:
    """Batches, the register after each, and the answers."""

    def __init__(self, count):
        self.batches, self.answers = list(batches.batches(count)), []
        self.registers = [reading.Register()]
        for batch in self.batches:
            register = copied(self.registers[-1])
            self.answers.append(batches.answers(register, batch))
            self.registers.append(register)


def new_disk(sectors, dice):
    """A disk of random bytes. Each sector begins with the byte 1, so that each root and gate that is not written is open."""
    return Disk([b'\1' + dice.randbytes(SECTOR - 1) for _ in range(sectors)])


def run(disk, calls):
    for call in calls:
        disk.call(call)


def faults(script, stream):
    """For each stop since the disk was made ready the number of the batch, 0 while it was opened, and the fault or None."""
    dice = random.Random(batches.SEED)
    disk = new_disk(stream.sectors, dice)
    first, *commits = stream.commits
    run(disk, first.calls)
    registers = script.registers[:1] + script.registers
    for place, commit in enumerate(commits):
        for fault in stops(disk, dice, commit, *registers[place:place + 2]):
            yield place, fault


# The calls of a commit in their parts, by the reading

@functools.lru_cache(maxsize=4)
def all_parts(script, form):
    """Of each batch, over a disk that was made ready in this layout."""
    store = Store(image(form=form))
    return [store.serves(batches.split(batch))[0] for batch in script.batches]


# Bugs planted in the calls of a commit. Each is given the layout, the register before the commit and after it, and the parts

def with_record(change):
    """A bug in the record of a commit; none where it has no record."""
    return lambda layout, before, after, told: change(told) if told.record else None


def without_sync(told, number):
    """The calls without a sync of the record, the first or the second."""
    kept = [*told.record, *told.also, *[SYNC] * number, *told.gates, *[SYNC] * (1 - number)]
    return [*told._replace(record=(), gates=(), also=(), rows=(), end=(), begun=()).joined(), *kept, *told.rows, *told.end, *told.begun]


def record_left_out(told):
    return told._replace(record=(), also=(), gates=()).joined()


def with_head(change):
    """A bug in the first data sector of the record of the current half."""
    return with_record(lambda told: told._replace(
        record=[told.record[0]._replace(bytes=change(told.record[0].bytes, told.form)), *told.record[1:]]).joined())


def first_number_of_the_next(first, form):
    told = int.from_bytes(first[2:10], 'big') + 1
    return first[:2] + number(told, 8) + first[10:] if form == NUMBERED else first


def in_the_other_form(first, form):
    return first[:2] + first[10:] + bytes(8) if form == NUMBERED else first[:2] + number(1, 8) + first[2:-8]


HEAD_BUGS = {
    'the number of the next command': first_number_of_the_next,
    'a record in the form of the other layout': in_the_other_form,
}
RECORD_BUGS = {
    'a gate opened in the sync of its data': lambda told: without_sync(told, 0),
    'a record without its last sector': lambda told: told._replace(record=[*told.record[:-2], told.record[-1]]).joined(),
    'the next gate left open': lambda told: told._replace(record=told.record[:-1]).joined(),
    'an answer before the last sync': lambda told: without_sync(told, 1),
    'an answer and no record': record_left_out,
}


def with_image(change):
    """A bug in the checkpoint that makes room for a commit; none where it needs none."""
    return lambda layout, before, after, told: change(layout, told) if told.image else None


def root_before_the_image(layout, told):
    sync, root, last = told.switch
    return [*told.closed, root, sync, *told.image, last, *told._replace(closed=(), image=(), switch=()).joined()]


def root_in_the_sync_of_the_image(layout, told):
    sync, root, last = told.switch
    return told._replace(switch=[root, sync, last]).joined()


def image_in_the_current_slot(layout, told):
    there = layout.slot(0) + layout.slot(1) - 2 * told.image[0].at
    return told._replace(image=[row._replace(at=row.at + there) for row in told.image]).joined()


def header_of_layout_1(layout, told):
    """The records that follow are numbered ones."""
    header = told.image[0]
    return told._replace(image=[header._replace(bytes=number(PLAIN, 1) + header.bytes[1:]), *told.image[1:]]).joined()


def first_gate_left_open(layout, told):
    return told._replace(closed=[*told.closed[:-2], SYNC]).joined()


IMAGE_BUGS = {
    'a root opened before the image': root_before_the_image,
    'a root opened in the sync of the image': root_in_the_sync_of_the_image,
    'an image without its last row': lambda layout, told: told._replace(image=told.image[:-1]).joined(),
    'an image in the slot of the side that counts': image_in_the_current_slot,
    'an image with the header of layout 1': header_of_layout_1,
    'the first gate of the other half left open': first_gate_left_open,
}


def beside(part, change):
    """A bug in this part of a checkpoint that goes on beside; none where a commit has none of it."""
    return lambda layout, before, after, told: change(before, after, told) if getattr(told, part) else None


def other_record_left_out(before, after, told):
    return told._replace(also=(), gates=told.gates[:1]).joined()


def root_opened_with_the_gates(before, after, told):
    """In the sync of the last record, before the last rows are safe."""
    _, root, _ = told.end
    return told._replace(gates=[*told.gates, root], end=[SYNC]).joined()


def root_opened_in_the_sync_of_the_rows(before, after, told):
    sync, root, last = told.end
    return told._replace(end=[root, sync, last]).joined()


def rows_of_the_register_now(before, after, told):
    """Where the image begins its header counts the commands of this commit too."""
    header = told.rows[0]
    epoch = int.from_bytes(header.bytes[1:9], 'big')
    if header.bytes[0] != NUMBERED:
        return None
    return told._replace(rows=[header._replace(bytes=rows(epoch, after)[0]), *told.rows[1:]]).joined()


def root_left_open(before, after, told):
    return told._replace(begun=told.begun[1:]).joined() if told.begun[0].at in ROOTS else None


BESIDE_BUGS = {
    'the record of the other half left out': beside('also', other_record_left_out),
    'a root opened in the sync of the last record': beside('end', root_opened_with_the_gates),
    'a root opened in the sync of the last rows': beside('end', root_opened_in_the_sync_of_the_rows),
    'a row skipped': beside('rows', lambda before, after, told: told._replace(rows=told.rows[:-1]).joined()),
    'rows of the register as it is now': beside('rows', rows_of_the_register_now),
    'a root left open where a checkpoint begins': beside('begun', root_left_open),
}
BUGS = {**{name: with_head(change) for name, change in HEAD_BUGS.items()},
        **{name: with_record(change) for name, change in RECORD_BUGS.items()},
        **{name: with_image(change) for name, change in IMAGE_BUGS.items()}, **BESIDE_BUGS}


def is_found(script, stream, bug):
    """Whether a program that makes this mistake in each batch is found out."""
    label = next(call.bytes for call in stream.commits[0].calls if call is not SYNC and call.at == LABEL)
    layout, changed = layout_in(label, stream.sectors), []
    around = zip(script.registers, script.registers[1:], all_parts(script, stream.form), stream.commits[2:])
    for before, after, told, commit in around:
        calls = bug(layout, before, after, told)
        changed.append(commit if calls is None else commit._replace(calls=calls))
    return any(fault for _, fault in faults(script, stream._replace(commits=stream.commits[:2] + changed)))


# The parts of the test: each returns its name, the number of its cases, and what is wrong

def the_answers(script, stream):
    got = [commit.answers for commit in stream.commits[2:]]
    wrong = [f'batch {k} is answered {told!r:.300}, wanted {wanted!r:.300}'
             for k, (told, wanted) in enumerate(zip(got, script.answers), 1) if told != wanted]
    if len(got) != len(script.answers):
        wrong.append(f'{len(got)} batches are answered')
    return 'batches', len(script.answers), wrong


def side_of(image):
    """The current side, the tag of its slot and its epoch; or the image's fault."""
    try:
        return opens(image)[:3]
    except Damaged as fault:
        return told_as(fault)


def the_calls(script, stream):
    """Of each batch those of the reading."""
    told = zip(all_parts(script, stream.form), stream.commits[2:])
    return 'calls', len(script.batches), [f'batch {k}: {shown(commit.calls):.600}, wanted {shown(parts.joined()):.600}'
                                          for k, (parts, commit) in enumerate(told, 1) if parts.joined() != commit.calls]


def the_checkpoints(script, stream):
    """There are some of each kind, and each makes the other side count, by the next epoch and in layout 2."""
    disk, made, wrong, told = new_disk(stream.sectors, random.Random(batches.SEED)), 0, [], all_parts(script, stream.form)
    run(disk, [call for commit in stream.commits[:2] for call in commit.calls])
    for commit, parts in zip(stream.commits[2:], told):
        run(disk, commit.calls)
        made += bool(parts.image) + bool(parts.end)
        side = side_of(disk.image({at: held[-1] for at, held in disk.pending.items()}))
        if side != (made % 2, NUMBERED if made else stream.form, made + 1):
            wrong.append(f'after {made} checkpoints the side, tag and epoch {side}')
    at_once, beside, begun = (sum(bool(getattr(parts, name)) for parts in told) for name in ('image', 'end', 'begun'))
    if at_once < 2 or beside < 2 or begun <= beside:
        wrong.append(f'{at_once} at once, {begun} begun beside, {beside} ended')
    return f'{at_once} checkpoints at once, {begun} begun beside and {beside} ended', len(stream.commits), wrong


def the_stops(script, stream):
    told = list(faults(script, stream))
    return 'stops', len(told), [f'batch {number}: {fault}' for number, fault in told if fault]


def the_bugs(script, stream):
    return 'bugs planted', len(BUGS), [f'not found: {name}' for name, bug in BUGS.items() if not is_found(script, stream, bug)]


def the_faulty_disks():
    told = [(fault_of(image, ()), told_as(fault)) for image, fault in faulty_disks.cases()]
    return 'faulty disks', len(told), [f'{got}, wanted {wanted}' for got, wanted in told if got != wanted]


# Worked commits

def sector(digits):
    return bytes.fromhex(digits).ljust(SECTOR, b'\0')


def calls_wanted(words):
    """Calls as `N DIGITS`, a write of a sector that begins so, and `sync`, with a comma between them."""
    return [SYNC if word.strip() == 'sync' else Write(int(word.split()[0]), sector(''.join(word.split()[1:]))) for word in words.split(',')]


def shown(calls):
    return ', '.join('sync' if call is SYNC else f'{call.at} {call.bytes.rstrip(bytes(1)).hex()}' for call in calls)


P, ATTACH = '1 1 0 rule 234-14-0/24 1 99 1 3600', '1 2 10 mm 234-14-2001 7 10:260'
P_BYTES = '0001 00000001 00000000 01 18 3a800e000000 0001 0063 01 00000e10'
ATTACH_BYTES, EXPIRE_BYTES = '0001 00000002 0000000a 03 3a800e0007d1 0007 000a 2600', '0001 00000003 00000000 06'
# The calls of a batch on a disk made ready, by the form
ONE = {PLAIN: f'590 0001 0000001b {P_BYTES}, 591 00, sync, 589 01, sync',
       NUMBERED: f'590 0001 0000000000000001 0000001b {P_BYTES}, 591 00, sync, 589 01, sync'}
THREE = {PLAIN: f'590 0003 0000003d {P_BYTES} {ATTACH_BYTES} {EXPIRE_BYTES}, 591 00, sync, 589 01, sync',
         NUMBERED: f'590 0003 0000000000000001 0000003d {P_BYTES} {ATTACH_BYTES} {EXPIRE_BYTES}, 591 00, sync, 589 01, sync'}
# Of the 20th command on a disk of layout 1 whose half is full: a checkpoint, and then the record
MOVED = ('628 00, sync, 296 16 0000000000000002 0000000000000013 00000001 00000000 00000000 00000001, 297 11 18 3a800e000000 0001 0063 '
         '01 00000e10, 298 14 0001 00000013 0000000000000013 0000, sync, 2 01, sync')
# The image of ten commands, written beside the eleventh
TEN = ('296 16 0000000000000002 000000000000000a 00000001 00000000 00000000 00000001, 297 11 18 3a800e000000 0001 0063 01 00000e10, '
       '298 14 0001 0000000a 000000000000000a 0000')
TWENTIETH = '629 0001 0000000000000014 0000000b 0001 00000014 00000000 06, 630 00, sync, 628 01, sync'


def commit_differs(stream, wanted, place=-1):
    """What is wrong with the calls of the last commit, or of another."""
    got = stream.commits[place].calls
    return [] if got == calls_wanted(wanted) else [f'{shown(got)}, wanted {shown(calls_wanted(wanted))}']


def a_full_half():
    """The 19 records of P and of 18 `expire`, each of layout 1, and what they make."""
    commands = [bytes.fromhex(P_BYTES), *(expire(k) for k in range(2, 20))]
    sectors, gate = records(GATE, PLAIN, commands)
    return sectors, opens(image(sectors, PLAIN)).register


def stops_of_the_move(calls, register):
    """The disk at each stop in a checkpoint that moves it: of layout 1 or of layout 2, with all 19 commands."""
    disk, dice = Disk(image(a_full_half()[0], PLAIN)), random.Random(batches.SEED)
    for call in calls:
        disk.call(call)
        for torn in (disk.image(chosen) for chosen in choices(disk, dice, DRAWS)):
            fault, side = fault_of(torn, (register,)), side_of(torn)
            if fault or side not in ((0, PLAIN, 1), (1, NUMBERED, 2)):
                yield fault or f'the side, tag and epoch {side}'


def the_move(command):
    sectors, register = a_full_half()
    stream = ran(command, [['1 20 0 expire']], PLAIN, sectors)
    calls = stream.commits[-1].calls
    wrong = commit_differs(stream, f'{MOVED}, {TWENTIETH}') + list(stops_of_the_move(calls[:len(calls_wanted(MOVED))], register))
    if stream.commits[-1].answers != ['20 ok 20 -']:
        wrong.append(f'the answers {stream.commits[-1].answers}')
    return wrong


def one_by_one(count):
    """P, and `expire` until there are so many commands, a batch each."""
    return [[P], *([f'1 {k} 0 expire'] for k in range(2, count + 1))]


def a_record_of(form, sequence):
    plain = f'0000000b 0001 {sequence:08x} 00000000 06'
    return f'0001 {sequence:016x} {plain}' if form == NUMBERED else f'0001 {plain}'


def beside_the_commits(command, form):
    """With the tenth command a checkpoint begins; with the eleventh it ends, and the twelfth is a record of its half alone."""
    ten, eleven, also, twelve = (a_record_of(*one) for one in ((form, 10), (form, 11), (NUMBERED, 11), (NUMBERED, 12)))
    stream = ran(command, one_by_one(12), form)
    wanted = {-4: '606 {}, 607 00, sync, 605 01, sync'.format(a_record_of(form, 9)),
              -3: f'608 {ten}, 609 00, sync, 607 01, sync, 628 00, sync',
              -2: f'610 {eleven}, 611 00, 629 {also}, 630 00, sync, 609 01, 628 01, sync, {TEN}, sync, 2 01, sync',
              -1: f'631 {twelve}, 632 00, sync, 630 01, sync'}
    return [wrong for place, words in wanted.items() for wrong in commit_differs(stream, words, place)]


def the_worked_commits(command):
    cases = [the_move(command)]
    for form in FORMS:
        cases.append(beside_the_commits(command, form))
        cases.append(commit_differs(ran(command, [[P]], form), ONE[form]))
        cases.append(commit_differs(ran(command, [[P, ATTACH, '1 3 0 expire']], form), THREE[form]))
    return 'worked commits', len(cases), [wrong[0] for wrong in cases if wrong]


def part_of(name, part, script, stream):
    """A part over a disk that begins in the layout of this name."""
    what, *told = part(script, stream)
    return f'{name}, {what}', *told


PARTS = [the_answers, the_calls, the_checkpoints, the_stops, the_bugs]


def main():
    command, passed, failed = sys.argv[1:], 0, 0
    if not command:
        sys.exit(__doc__)
    script = Script(BATCHES)
    told = [the_faulty_disks, functools.partial(the_worked_commits, command)]
    for form, name in FORMS.items():
        stream = ran(command, script.batches, form)
        told += [functools.partial(part_of, name, part, script, stream) for part in PARTS]
    for part in told:
        name, count, wrong = part()
        passed, failed = passed + count - len(wrong), failed + len(wrong)
        print(f'{name}: {count} cases, {len(wrong)} wrong', flush=True)
        if wrong:
            print(f'  {wrong[0]}')
    print(f'made by chance from the seed {batches.SEED}')
    print(f'{passed} passed, {failed} failed')
    sys.exit(1 if failed else 0)


if __name__ == '__main__':
    main()
