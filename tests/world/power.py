#!/usr/bin/env python3
"""Cuts the power of a virtual machine (QEMU, with Debian's cloud kernel), whose disk is a block device of this test. Of the sectors
written since the last flush the device keeps some and loses others when the power goes.
- While 4 stations talk over consoles, on ext4, xfs and btrfs, and checkpoints go on beside. A station sends the unanswered line to the
  next machine again.
- Within `format` and `load`.
After each start `check` must find no damage, and `dump` must print a prefix of the accepted commands that contains every answered one;
no number comes twice. What `format` or `load` reported must be there, and else no disk or a whole one. The independent reading
(tests/reading/) judges all of this. A device that reports flushes too early must be found out. A machine that hangs is killed after 10
minutes, and its case fails. What is not installed is named. Prints the seed, what was found, and last 'N passed, M failed'.
Usage: tests/run power PROGRAM [--cuts N] [--seed N] (the program itself, not a script that starts it)"""
import collections
import contextlib
import functools
import random

import reading
from base_stations import LAST, STATIONS, at_once, order_from
from block_device import Device
from disk_files import SECTORS, settings
from loaded import LIMITS, loaded_line
from machines import TOOLS, AtConsole, blank, kernel, machines
from reading_orders import number_of
from reading_texts import BadText, register_in, text_of
from registers import some_register
from running import Differs, compare
from serve_stops import is_prefix
from station_lines import lines
from testing import Count, end_on_signals, options

SAID = {'format': f'formatted {SECTORS} sectors\n'.encode(), 'load': loaded_line(LIMITS)}
# What was reported before a start, and whether a disk is found
MADE = {(True, True): 'reported', (False, True): 'made and not reported', (False, False): 'not made'}
# What a start finds: the text of the register, None where there is no whole disk, and whether a checkpoint had begun
Found = collections.namedtuple('Found', 'text within')
FILE_SYSTEMS = 'ext4', 'xfs', 'btrfs'
# Cuts on one disk; requests until a cut; the most lines that a station sends by then; cuts within which a false device is found out
ROUND, REQUESTS, MOST, SOON = 20, 400, 400, 15
UNFORMATTED = b'fault: unformatted\n', 5


# What a start finds

def register_of_dump(text):
    try:
        return register_in(text, LIMITS)
    except BadText as fault:
        raise Differs(f'the dump, line {fault.args[0]}: {fault.args[1]}')


def found(machine, fs, job):
    """Gives a machine its job; what it finds on its disk."""
    machine.send(f'{fs} {job}'.encode())
    machine.waits_for(b'ready')
    compare('the file system is mounted', b'== mounted\n' in machine.said(), True)
    reports = machine.reports()
    if reports.get('check') in (None, UNFORMATTED):
        return Found(None, False)
    said, status = reports['check']
    line = said.decode(errors='replace').rstrip('\n').split('\n')[-1]
    compare(f'check, with {line!r}', (status, line.split(' ')[0]), (0, 'ok'))
    compare('the status of dump', reports['dump'][1], 0)
    return Found(reports['dump'][0], ' epoch 1 ' not in line and b' unused\n' in said)


# Stations served

def most_answered(stations):
    return max([number_of(pair.told) or 0 for station in stations for pair in station.pairs], default=0)


def talk_until_dark(machine, device, stations, requests):
    """The stations talk until the device has answered so many requests more. Then the machine has no power."""
    device.goes_dark_after(requests)

    def cut():
        machine.waits(device.is_dark.is_set)
        machine.kill()
    at_once([*(functools.partial(station.talk_to, machine) for station in stations), cut])


class Served:
    """Stations on a device whose power is cut again and again."""

    def __init__(self, machines, fs, device, dice, cuts):
        self.machines, self.fs, self.device, self.dice = machines, fs, device, dice
        self.stations = [AtConsole(number, lines(dice, cuts * MOST + LAST)) for number in range(1, STATIONS + 1)]
        self.registers, self.found = [], []

    def start(self, call):
        """One machine. Its disk has every answered command; then the stations are connected, and this is called."""
        with self.machines.started(self.device) as machine:
            one = found(machine, self.fs, 'serve')
            compare('a disk is there', one.text is not None, bool(self.found))
            register = register_of_dump(one.text) if one.text else reading.Register(LIMITS)
            compare('every answered command is there', register.count >= most_answered(self.stations), True)
            self.found.append(one)
            self.registers.append(register)
            for station in self.stations:
                station.connect_console(machine)
            call(machine)
        self.device.lose_power(self.dice)

    def cut(self):
        self.start(lambda machine: talk_until_dark(machine, self.device, self.stations, self.dice.randrange(REQUESTS)))

    def go_on(self):
        self.start(lambda machine: at_once([functools.partial(station.talk_to, machine, LAST) for station in self.stations]))

    def judge(self):
        """How many commands were accepted."""
        order = order_from(self.stations)
        for register in self.registers:
            is_prefix(order, register)
        return len(order.commands)

    def within(self):
        """How many cuts came within a checkpoint."""
        return sum(one.within for one in self.found)


def serves(machines, fs, dice, cuts):
    device = Device(blank(fs))
    served = Served(machines, fs, device, dice, cuts)
    for _ in range(cuts):
        served.cut()
    served.go_on()
    accepted, kept = served.judge(), sum(station.kept() for station in served.stations)
    print(f'{fs}: {cuts} cuts while serving, {served.within()} of them within a checkpoint; {accepted} commands, {kept} of them kept and '
          f'sent again; {told_of(device)}', flush=True)
    return served


def told_of(device):
    return f'{device.flushes} flushes, of the unflushed sectors {device.kept} kept and {device.lost} lost'


def finds_out(machines, dice):
    """Once a disk is made, the device reports flushes too early. That leaves what no order of the commands gives."""
    served = Served(machines, 'ext4', Device(blank('ext4')), dice, SOON)
    served.cut()
    served.device.is_false = True
    served.cut()
    for cut in range(1, SOON):
        try:
            served.cut()
        except Differs as fault:
            print(f'a device that reports flushes too early is found out after cut {cut}: {fault}'[:300], flush=True)
            return
    raise Differs('a device that reports flushes too early is not found out')


# Disks made

class Made:
    """A device on which `format` or `load` makes a disk again and again, each time cut."""

    def __init__(self, machines, job, text, fs, dice):
        self.machines, self.job, self.text, self.fs, self.device, self.dice = machines, job, text, fs, Device(blank(fs)), dice
        self.reported, self.requests, self.found = False, 0, []

    def start(self, call):
        """One machine. Its disk is that of the last one, if that reported it, and else a whole one or none."""
        with self.machines.started(self.device) as machine:
            text = found(machine, self.fs, self.job).text
            if self.reported or text is not None:
                compare(f'the disk after {self.job}', text, self.text)
            self.found.append((self.reported, text is not None))
            call(machine)
        self.device.lose_power(self.dice)

    def make(self, machine):
        """Cuts the power at a request, but the first time when all is done, which shows how many requests that takes."""
        before = self.device.requests
        self.device.goes_dark_after(self.dice.randrange(self.requests + 1) if self.requests else None)
        machine.send(b'now')
        machine.waits(lambda: self.device.is_dark.is_set() or self.job in machine.reports())
        machine.kill()
        self.requests = max(self.requests, self.device.requests - before)
        self.reported = self.job in machine.reports()
        if self.reported:
            compare(self.job, machine.reports()[self.job], (SAID[self.job], 0))


def makes(machines, job, text, fs, dice, cuts):
    made = Made(machines, job, text, fs, dice)
    for _ in range(cuts):
        made.start(made.make)
    made.start(lambda machine: None)
    told = [f'{sum(one == it for one in made.found[1:])} {name}' for it, name in MADE.items()]
    print(f'{fs}: {cuts} cuts within {job}, {", ".join(told)}; {told_of(made.device)}', flush=True)


# All rounds

def rounds(cuts):
    """The cuts of each round."""
    return [min(ROUND, cuts - done) for done in range(0, cuts, ROUND)]


def tried(machines, texts, dice, cuts, count):
    """As many cuts while serving on each file system, within `format` and within `load`."""
    there, told = [fs for fs in FILE_SYSTEMS if count.has(f'serving on {fs}', f'mkfs.{fs}')], []
    for number in rounds(cuts // 5):
        for fs in there:
            told.append(count.case(f'serving on {fs}', serves, machines, fs, dice, number))
        for job in SAID:
            fs = dice.choice(there)
            count.case(f'{job} on {fs}', makes, machines, job, texts[job], fs, dice, number)
    count.case('a cut came within a checkpoint', compare, 'any', any(one and one.within() for one in told), True)
    count.case('a cut has lost a sector', compare, 'any', any(one and one.device.lost for one in told), True)
    count.case('a false device', finds_out, machines, dice)


def main():
    words, count = options(__doc__, cuts=20), Count()
    end_on_signals()
    print(f'seed {words.seed}', flush=True)
    dice = random.Random(words.seed)
    register = some_register(dice, LIMITS)
    texts = {'format': text_of(reading.Register(LIMITS)), 'load': text_of(register)}
    files = {'settings.toml': settings().encode(), 'register.txt': texts['load']}
    if not kernel():
        count.leaves_out('power', 'linux-image-cloud-amd64 is not installed')
    elif count.has('power', *TOOLS, 'mkfs.ext4'):
        with contextlib.ExitStack() as stack:
            made = count.case('a machine that has booted', stack.enter_context, machines(words.program[0], files))
            if made:
                tried(made, texts, dice, words.cuts, count)
    count.end()


if __name__ == '__main__':
    main()
