"""Reads, writes and syncs of the disk file that fail while the program serves a station's file, one in each run. If the call fails
while the program opens the disk, the program ends with a fault. Otherwise it answers the current command `device` and each later
command `broken`. It answers each query as if no more commands had come. From then on it leaves the file alone. The file opens to a
prefix of the accepted commands that contains every answered one.
- A call that writes several sectors also fails after some of its bytes. Then the file opens to just the answered commands.
- A write that is interrupted is made again, and the run is as without that."""
import errno

import reading
from images import fault_of
from reading_rows import SECTOR
from recorder import Done, is_run, sectors_of
from running import compare
from station_lines import printed

RUNS, ON_DEVICE = 20, b'fault: device\n'
# How many bytes a call writes before it fails: a sector, or more than one; and how many such runs there are of each
PARTS, PARTED, INTERRUPTED = (SECTOR, 700), 5, 4


def when_broken(register, line, told):
    """How a line is answered after the fault, by the register of that moment and what the line is answered else."""
    first = told[0].split(' ')[0] if told else ''
    if first in ('', 'line'):
        return told
    return [f'{first} no broken'] if first.isdigit() else reading.answer(register, 1, line)


def answers(serving, place):
    """The answers where the line at this place, from 0, meets the fault."""
    sequence = serving.answers[place][0].split(' ')[0]
    register = serving.registers[[0, *serving.counts][place]]
    later = zip(serving.lines[place + 1:], serving.answers[place + 1:])
    return [*serving.answers[:place], [f'{sequence} no device'], *(when_broken(register, line, told) for line, told in later)]


def call(record, number):
    """The place in the record of the call of this number, from 1, and how many lines were answered by then; None where no line
    was asked for."""
    place = [k for k, done in enumerate(record) if done.kind != 'r'][number - 1]
    asked = [done.number for done in record[:place] if done.kind == 'r']
    return place, asked[-1] if asked else None


def run(recorder, serving, asked, **fails):
    """What the program does where a call fails while it opens the disk, or serves a line; and the registers that are allowed."""
    if asked is None:
        return recorder.run(5, b'', ON_DEVICE, **fails), serving.registers[:1]
    kept = [0, *serving.counts][asked]
    return recorder.run(5, printed(answers(serving, asked)), ON_DEVICE, **fails), serving.registers[kept:kept + 2]


def calls_of(record):
    return [done for done in record if done.kind != 'r']


def a_call_fails(recorder, whole, number):
    """Of a run that went well before: the image that it began with, the record, and the serving."""
    image, record, serving = whole
    place, asked = call(record, number)
    recorder.place.put(image)
    failed, registers = run(recorder, serving, asked, fails=number)
    compare('the calls before', calls_of(failed)[:-1], calls_of(record[:place]))
    compare('the disk stands for', fault_of(recorder.place.image(), registers), None)


def fails_in_part(recorder, whole, number, part):
    """A record's data and the gate after it: so many bytes are written. Its own gate is still closed."""
    image, record, serving = whole
    place, asked = call(record, number)
    recorder.place.put(image)
    failed, registers = run(recorder, serving, asked, fails=number, PART=part)
    *before, last = calls_of(failed)
    compare('the calls before', before, calls_of(record[:place]))
    compare('what the call writes', last, record[place]._replace(kind='f', bytes=record[place].bytes[:part]))
    compare('the file has it', b''.join(recorder.place.image())[last.number:last.number + part], last.bytes)
    compare('the disk stands for', fault_of(recorder.place.image(), registers[:1]), None)


def is_interrupted(recorder, whole, number):
    """The same sectors are written one by one, and all else is done as without the interruption."""
    image, record, serving = whole
    calls, interrupted = calls_of(record), Done('f', calls_of(record)[number - 1].number)
    recorder.place.put(image)
    again = recorder.run(int(serving.troubled), serving.text(), fails=number, ERROR=errno.EINTR)
    one_by_one = [sectors_of(calls[number - 1], slice(k, k + 1)) for k in range(len(calls[number - 1].bytes) // SECTOR)]
    compare('the calls', calls_of(again), [*calls[:number - 1], interrupted, *one_by_one, *calls[number:]])


def fail_in_part(recorder, whole, dice, count):
    """Some calls that write several sectors fail after a part of their bytes; these and some other writes are interrupted."""
    calls = calls_of(whole[1])
    runs = [number for number, done in enumerate(calls, 1) if is_run(done)]
    others = [number for number, done in enumerate(calls, 1) if done.kind == 'w' and number not in runs]
    for part in PARTS:
        for number in dice.sample(runs, PARTED):
            count.case(f'call {number} fails after {part} bytes', fails_in_part, recorder, whole, number, part)
    for number in [*dice.sample(runs, INTERRUPTED), *dice.sample(others, INTERRUPTED)]:
        count.case(f'call {number} is interrupted', is_interrupted, recorder, whole, number)


def fail(recorder, whole, dice, count):
    """Each call that opens the disk, and some by chance."""
    record = whole[1]
    calls, opening = len(calls_of(record)), len(calls_of(record[:[done.kind for done in record].index('r')]))
    numbers = [*range(1, opening + 1), *dice.sample(range(opening + 1, calls + 1), RUNS)]
    for number in numbers:
        count.case(f'call {number} fails', a_call_fails, recorder, whole, number)
    print(f'{len(numbers)} of {calls} calls failed, {opening} of them while the disk was opened')
    fail_in_part(recorder, whole, dice, count)
