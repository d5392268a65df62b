#!/usr/bin/env python3
"""Runs the clients of examples/ over the built program. desk.py: its words for people, on a pseudo terminal and as a command; lines of a
script; as a module, over streams of lines and over a program that is killed and started again, with many lines in flight; what it warns
of; the texts that it makes and shows. forget.py: radios that leave a register. The independent reading judges answers, texts and disks.
Prints the seed, the first cases that fail, and last 'N passed, M failed'.
Usage: tests/run clients PROGRAM [--lines N] [--stops N] [--seed N] (the program itself, not a script that starts it)"""
import contextlib
import functools
import importlib.util
import io
import os
import pty
import random
import re
import select
import shutil
import signal
import subprocess
import sys
import threading
import time

import reading
import reading_pdus
from base_stations import STATIONS, make_pipes, names_of, serving_pipes
from coming_back import held
from disk_files import DISK, MEMORY, file_fault, place, register_of, text
from many_files import LONG, empty, formats, stands_for
from program import TOP, receives
from running import SECONDS, Differs, compare, started
from serve_scripts import free_port, script
from station_lines import lines
from testing import Count, options

DESK, FORGET = (TOP / 'examples' / name for name in ('desk.py', 'forget.py'))
RULE, FROM, TO, GROUP = 'rule 234-14-0/24 1 99 1 3600', '234-14-2001', '234-14-2002', '234-14-1000'
KEEP = 3600
# Seconds for a client that starts anew again and again on a busy machine
PATIENCE = 300


def module():
    """examples/desk.py."""
    described = importlib.util.spec_from_file_location('desk', DESK)
    made = importlib.util.module_from_spec(described)
    sys.dont_write_bytecode = True
    described.loader.exec_module(made)
    return made


desk = module()


def client(there, **how):
    """A client of station 1, at moment 10, whose warnings are kept."""
    warnings = []
    made = desk.Client(desk.link_to(str(there.folder), 1), 1, clock=lambda: 10, warn=warnings.append, **{'patience': PATIENCE, **how})
    made.warnings = warnings
    return made


def called(there, *words, data=None, status=0, err=b''):
    """What the desk prints, started with these words."""
    done = subprocess.run([DESK, '--wait', str(PATIENCE), there.folder, '1', *words], input=data, stdin=None if data else subprocess.DEVNULL,
                          capture_output=True, timeout=PATIENCE)
    compare(f'status and standard error of {words}', (done.returncode, done.stderr), (status, err))
    return done.stdout.decode()


@contextlib.contextmanager
def serves(there, orders=()):
    """The program over an empty register, as the unit serves it."""
    formats(there, STATIONS, LONG)
    with held(there, orders) as program:
        yield program


# Texts

def texts_as_documented(_):
    """The sample of the documents, and the least and the greatest texts of both codings."""
    compare('HI', desk.text_pdu('HI', 5, True), '48:820405014849')
    compare('Latin', desk.text_pdu('\xe9', 255), '40:8200FF01E9')
    compare('UTF-16', desk.text_pdu('\u20ac', 0), '48:8200001A20AC')
    compare('no text', desk.text_pdu('', 1), '32:82000101')
    compare('the longest ones', [desk.text_pdu(one, 0).split(':')[0] for one in ('x' * 251, '\u20ac' * 125)], ['2040', '2032'])
    for one in 'x' * 252, '\u20ac' * 126:
        try:
            raise Differs(f'a PDU for a text that is too long: {desk.text_pdu(one, 0)}')
        except desk.WrongWords:
            pass


def texts_again(_, dice):
    """Each text is read as it was made, and its PDU is the message that it should be."""
    for _ in range(200):
        said = ''.join(chr(dice.choice([dice.randrange(32, 127), dice.randrange(160, 256), dice.randrange(0x400, 0x500)]))
                       for _ in range(dice.randrange(0, 125)))
        reference, report = dice.randrange(256), dice.random() < 0.5
        pdu = desk.text_pdu(said, reference, report)
        value = reading_pdus.read_sds(reading.bit_string(pdu.encode()))
        compare('a message', (type(value).__name__, value.request, value.reference), ('Message', int(report), reference))
        compare('the text', desk.text_in(pdu), said)


def other_pdus(_):
    """A text with a time stamp is shown without it; what is no text is shown as it is."""
    for pdu, wanted in [('72:8200018112345648 49'.replace(' ', ''), 'HI'), ('40:8300010148', None), ('44:82000101484', None), ('24:820001', None),
                        ('40:8200010048', None), ('48:8200011A4849'.replace('4849', '20AC'), '\u20ac'), ('32:82100005', None)]:
        compare(pdu, desk.text_in(pdu), wanted)


# Words for people, as a command

def raw_and_in_words(there):
    """A message for people and its answers, as they come where the output is no terminal."""
    register, before = empty(STATIONS), int(time.time())
    with serves(there):
        for number, words in enumerate([RULE.split(' '), ['attach', FROM, '7'], ['mm', TO, '7', '10:260'], ['expire']], 1):
            pdu = '8:56' if number in (2, 3) else '-'
            compare(f'{words}', called(there, *words), f'{number} ok {number} {pdu}\n')
        compare('a text', called(there, 'message', FROM, TO, 'TWO  SPACES', 'report'), '5 ok 5 -\n')
        after, said = int(time.time()), called(there, 'mail', TO).split('\n')
        number, kind, source, reference, deadline, pdu = said[1].split(' ')[1:]
        compare('its item', (said[0], number, kind, source), (f'mail {TO} 1', '5', 'm', FROM))
        compare('its moment is the time', before <= int(deadline) - KEEP <= after, True)
        compare('its PDU', pdu, f'120:8204{int(reference):02X}01' + b'TWO  SPACES'.hex().upper())
        compare('detached', called(there, 'detach', FROM), '6 ok 6 -\n')
        told = called(there, 'message', FROM, TO, 'X', status=1, err=f'{FROM} is not present: `attach` it first\n'.encode())
        compare('of a radio that is away', told, '7 no not-attached\n')
        compare('bad', called(there, 'where', '1-2', status=1)[-11:], ' bad value\n')
        compare('the count', called(there, 'count'), 'count 6\n')
    return register


def to_a_group(there):
    """A text for a group: each present member but the sender gets a copy."""
    with serves(there):
        for body in RULE, f'mm {FROM} 7 10:260', f'mm {TO} 7 10:260', f'mm {TO} 7 60:7380480A00007D0':
            called(there, *body.split(' '))
        compare('accepted', called(there, 'group-message', FROM, GROUP, 'ALL'), '5 ok 5 -\n')
        said = called(there, 'items').split('\n')
        compare('its copy', (said[0], said[1].split(' ')[2], said[1].split(' ')[-1], desk.text_in(said[1].split(' ')[-2])), ('items 1', TO, GROUP, 'ALL'))
        compare('what is to be delivered here', called(there, 'waiting', '1').split('\n'), ['waiting 1 1', *said[1:]])
        compare('and elsewhere', called(there, 'waiting', '2'), 'waiting 2 0\n')
        figures = called(there, 'service').split('\n')
        compare('figures, to their end', ([it.split(' ')[0] for it in figures[:3]], len(figures)), (['service', 'rounds', 'commands'], int(figures[0].split(' ')[1]) + 2))
        with client(there) as one:
            shown = desk.Desk(one, False)
            with contextlib.redirect_stdout(io.StringIO()) as told:
                shown.take(['waiting'])
            compare('in words', told.getvalue().split(' ')[:3], ['waiting', '1:', '1\n5'])


def references_that_are_free(there):
    """Texts of one sender that wait for one radio have references of their own."""
    with serves(there):
        with client(there) as one:
            for body in RULE, f'mm {FROM} 7 10:260':
                one.ask(body)
            shown = desk.Desk(one, True)
            with open(os.devnull, 'w') as nowhere, contextlib.redirect_stdout(nowhere):
                for _ in range(127):
                    shown.take(['message', FROM, TO, 'X'])
            used = [line.split(' ')[4] for line in shown.quietly(f'mail {TO}').told[1:]]
            compare('references', (len(used), len(set(used))), (127, 127))


def wrong_words(there):
    """They are no line, or would harm: nothing is sent."""
    with serves(there):
        for words in (['message', FROM, TO], ['message', FROM, TO, 'TWO', 'WORDS'], ['#'], ['message', FROM, TO, 'x' * 252],
                      ['4000000000', '0', 'expire']):
            done = subprocess.run([DESK, there.folder, '1', *words], stdin=subprocess.DEVNULL, capture_output=True, timeout=PATIENCE)
            compare(f'status and output of {words}', (done.returncode, done.stdout), (2, b''))
        compare('the count', called(there, 'count'), 'count 0\n')


# A script

def a_script(there):
    """Its lines are answered in order, each once; bad ones too. A last line needs no end."""
    said = [RULE, 'count', f'mm {FROM} 7 10:260', 'radios', 'no such', '# a remark', '', f'where {FROM}', 'expire', 'count']
    with serves(there):
        told = called(there, data='\n'.join(said).encode(), status=1)
    wanted = ['1 ok 1 -', 'count 1', '2 ok 2 8:56', 'radios 1', f'radio {FROM} station 1 la 7 present', 'line N bad syntax',
              f'where {FROM} station 1 la 7 present', '3 ok 3 -', 'count 3']
    compare('answers', re.sub(r'line \d+', 'line N', told).split('\n'), [*wanted, ''])


def line_by_line(there):
    """A script may wait for each answer before it sends the next line."""
    with serves(there), started([DESK, there.folder, '1'], stdin=subprocess.PIPE, stdout=subprocess.PIPE) as program:
        for number in range(1, 6):
            program.stdin.write(b'expire\n')
            program.stdin.flush()
            receives(program.stdout, b'%d ok %d -\n' % (number, number))
        program.stdin.close()
        compare('status', program.wait(SECONDS), 0)


# As a module

def bodies(dice, count):
    """Commands without their first two words, and queries; none is silent or sent twice."""
    found = [line.decode() for line in lines(dice, count) if line and not line.startswith(b'#')]
    return [line.split(' ', 2)[2] if line.split(' ')[0].isdigit() else line for line in dict.fromkeys(found) if line != '0 0 expire']


def follows(answered, register):
    """Each line has the answer that the reading gives; the number of a bad line is not told."""
    for line in answered:
        try:
            wanted = reading.answer(register, 1, line.text.encode())
        except reading.BadLine as fault:
            wanted = [f"line {line.told[0].split(' ')[1]} bad {fault}"]
        compare(f'the answer to {line.text}', line.told, wanted)


def as_a_module(there, dice, count):
    """Sixteen lines in flight, and one."""
    register = empty(STATIONS)
    with serves(there):
        for window in 16, 1:
            with client(there, window=window) as one:
                answered = [one.submit(body) for body in bodies(dice, count)]
                compare('lines in flight', 0 < len(one.flight) <= window, True)
                one.finish()
            follows(answered, register)
            compare('warnings', one.warnings, [])
    stands_for(there, register)


def new_pipes(there):
    for name in names_of(1):
        there.path(name).unlink(missing_ok=True)
    make_pipes(there, 1)


def started_again(there, dice, stops, done, ended):
    """Kills the program at random moments, so many times, and starts it again over new pipes; at last it serves until all is said."""
    try:
        for _ in range(stops):
            new_pipes(there)
            with serving_pipes(there, 1) as program:
                time.sleep(dice.uniform(0.05, 0.2))
                program.send_signal(signal.SIGKILL)
                program.wait(SECONDS)
    finally:
        done.set()
    new_pipes(there)
    with serving_pipes(there, 1):
        ended.wait(PATIENCE)


def over_stops(there, dice, stops, window):
    """All commands are carried out once, in order, whatever was in flight at a stop. What is known of an answer is right."""
    formats(there, STATIONS, LONG)
    register, done, ended, answered = empty(STATIONS), threading.Event(), threading.Event(), []
    killing = threading.Thread(target=started_again, args=(there, random.Random(dice.random()), stops, done, ended))
    killing.start()
    try:
        with client(there, window=window, patience=PATIENCE) as one:
            while not done.is_set():
                answered += [one.submit(body) for body in bodies(dice, 30)]
            one.finish()
    finally:
        ended.set()
        killing.join()
    compare('lines that were sent again', any(line.again for line in answered), True)
    compare('warnings', one.warnings, [])
    for line in answered:
        told = answer_of(register, line)
        if line.sequence is not None and line.outcome != 'answered':
            compare(f'the answer to {line.text}', line.told[0].replace(' kept ', ' ok '), told)
    stands_for(there, register)


def answer_of(register, line):
    """The first line of the reading's answer."""
    try:
        return reading.answer(register, 1, line.text.encode())[0]
    except reading.BadLine:
        return ''


# What it warns of

def an_old_number(there):
    """A new command under an old number is not carried out, and the desk says so."""
    with serves(there):
        called(there, 'expire')
        said = '`%s`: number 1 is an old one; a new command under it is not carried out'
        told = called(there, '1', '0', *RULE.split(' '), status=1, err=b'warning: ' + (said % '1 kept 1 -').encode() + b'\n')
        compare('kept', told, '1 kept 1 -\n')
        called(there, 'expire')
        told = called(there, '1', '0', *RULE.split(' '), status=1, err=b'warning: ' + (said % '1 no old-sequence 2').encode() + b'\n')
        compare('old', told, '1 no old-sequence 2\n')
        compare('no rule', called(there, 'rules'), 'rules 0\n')


def an_older_register(there):
    """The program goes on from a backup, beside a client that had answers since, and after another client."""
    formats(there, STATIONS, LONG)
    there.copy(DISK, 'backup')
    new_pipes(there)
    with client(there) as one:
        with serving_pipes(there, 1) as program:
            compare('accepted', [one.ask('expire').number for _ in range(3)], [1, 2, 3])
            program.kill()
            program.wait(SECONDS)
        there.copy('backup', DISK)
        new_pipes(there)
        with serving_pipes(there, 1):
            compare('the next one', one.ask('expire').told, ['4 ok 1 -'])
    compare('warnings', one.warnings, ['the register is an older one: it has commands up to number 0, and had 3'])


def after_half_a_command(there):
    """Another client left half a command, and answers that nobody read, `last` among them: the desk takes neither for its own."""
    with serves(there):
        called(there, *RULE.split(' '))
        to = os.open(there.path('1.in'), os.O_WRONLY)
        os.write(to, b'last 1\nmark 1\n2 0 expire\nstation\nlast 1\ncount\nmark 2\n3 0 rule 234-15-0/24 1 99 1 36')
        os.close(to)
        compare('the next number', called(there, 'expire'), '3 ok 3 -\n')
        compare('one rule', called(there, 'rules').split('\n')[0], 'rules 1')


def marks_and_its_number(there):
    """Also in words, and among other lines in flight."""
    with serves(there):
        compare('a mark', called(there, 'mark', 'here'), 'mark here\n')
        compare('its number', called(there, 'station'), 'station 1\n')
        compare('no mark', re.sub(r'\d+', 'N', called(there, 'mark', 'x' * 33, status=1)), 'line N bad value\n')
        with client(there) as one:
            asked = [one.submit(line) for line in ('mark a', 'expire', 'mark ab', 'station', 'mark a', 'count')]
            one.finish()
            compare('answers', [line.told for line in asked], [['mark a'], ['1 ok 1 -'], ['mark ab'], ['station 1'], ['mark a'], ['count 1']])
            compare('warnings', one.warnings, [])


def orders_that_are_forbidden(there):
    """They are shown as such, and have used no number up."""
    with serves(there, orders=(2,)):
        for words in RULE.split(' '), ['expire'], ['unrule', '234-14-0/24'], ['delete', TO, FROM, '5', 'm']:
            compare('refused', called(there, *words, status=1), '1 no forbidden\n')
        compare('no order', called(there, 'attach', FROM, '7', status=1), '1 no unknown-identity 14:7610\n')
        with client(there) as one:
            line = one.ask('expire')
            compare('in words', desk.shown(line), ['refused: this station may not give orders, as `expire`'])
            compare('its outcome', (line.outcome, line.number, line.pdu, line.is_lost()), ('no', None, None, False))
        compare('the count', called(there, 'count'), 'count 0\n')


def the_link_of_another_station(there):
    """A desk sends no command over it."""
    with serves(there):
        called(there, *RULE.split(' '))
        for name in 'in', 'out':
            there.path(f'2.{name}').symlink_to(there.path(f'1.{name}'))
        done = subprocess.run([DESK, there.folder, '2', 'expire'], stdin=subprocess.DEVNULL, capture_output=True, timeout=PATIENCE)
        compare('the desk', (done.returncode, done.stdout, done.stderr), (3, b'', b'this is the link of station 1, not of station 2\n'))
        one = desk.Client(desk.link_to(str(there.folder), 2), 2)
        for _ in range(2):
            try:
                raise Differs(f'an answer {one.ask("expire").told}')
            except desk.OtherStation:
                compare('the link', one.ends, None)
        compare('the count', called(there, 'count'), 'count 1\n')


def two_desks(there):
    """A station has one client at a time."""
    with serves(there), client(there) as one:
        one.ask('count')
        done = subprocess.run([DESK, '--wait', '0.3', there.folder, '1', 'count'], stdin=subprocess.DEVNULL, capture_output=True, timeout=PATIENCE)
        compare('the second', (done.returncode, done.stdout, done.stderr), (3, b'', b'the switch does not answer: another client has the station\n'))


def nobody_serves(there):
    done = subprocess.run([DESK, '--wait', '0.3', there.folder, '1', 'count'], stdin=subprocess.DEVNULL, capture_output=True, timeout=PATIENCE)
    compare('status and output', (done.returncode, done.stdout, done.stderr[:29]), (3, b'', b'the switch does not answer: ['))


# On a terminal

class Typed:
    """The desk on a pseudo terminal, and what it shows."""

    def __init__(self, there):
        self.master, slave = pty.openpty()
        env = {**os.environ, 'HOME': str(there.folder), 'TERM': 'dumb', 'INPUTRC': os.devnull}
        self.program = subprocess.Popen([DESK, there.folder, '1'], stdin=slave, stdout=slave, stderr=slave, env=env, start_new_session=True,
                                        preexec_fn=functools.partial(os.open, os.ttyname(slave), os.O_RDWR))
        os.close(slave)
        self.text = ''

    def until(self, wanted):
        """What it shows up to this."""
        end = time.monotonic() + SECONDS
        while wanted not in self.text:
            if time.monotonic() > end or not select.select([self.master], [], [], SECONDS)[0]:
                raise Differs(f'the terminal shows {self.text!r}, wanted {wanted!r}')
            self.text += os.read(self.master, 4096).decode().replace('\r\n', '\n')
        shown, _, self.text = self.text.partition(wanted)
        return shown

    def type(self, keys):
        """What it shows between the line that is typed and the next prompt."""
        os.write(self.master, keys.encode())
        self.until('\n')
        return self.until('> ')

    def ends(self):
        with contextlib.suppress(OSError):
            while os.read(self.master, 4096):
                pass
        compare('status', self.program.wait(SECONDS), 0)
        os.close(self.master)


def on_a_terminal(there):
    with serves(there):
        typed = Typed(there)
        try:
            compare('the greeting', typed.until('> '), 'station 1, last 1 none; `help` helps\n')
            compare('a rule', typed.type(RULE + '\n'), 'accepted as number 1\n')
            compare('a radio', typed.type(f'attach {FROM} 7\n'), 'accepted as number 2, PDU for the radio 8:56\n')
            compare('a text', typed.type(f'message {FROM} {TO} "HI  THERE"\n'), 'accepted as number 3\n')
            shown = re.sub(r'message \d+ from', 'message N from', re.sub(r'\d{4}-\d\d-\d\d \d\d:\d\d:\d\d', 'DATE', typed.type(f'mail {TO}\n')))
            compare('mail', shown, f'mail {TO}: 1\n3  message N from {FROM} until DATE: "HI  THERE"\n')
            compare('radios', typed.type('radios\n'), f'radios: 1\n{FROM}  station 1, location area 7, present\n')
            compare('the last line again', typed.type('\x1b[A\n'), f'radios: 1\n{FROM}  station 1, location area 7, present\n')
            compare('no line', typed.type('nonsense\n'), 'no such line (syntax): see `help` and docs/formats/lines.md\n')
            compare('refused', typed.type('mm 1-1-1 7 10:260\n'), 'refused: unknown-identity 14:7610\n')
            compare('no second quote', typed.type(f'message {FROM} {TO} "HI\n'), 'the text needs quotes at both ends\n')
            compare('help', 'message FROM TO "TEXT"' in typed.type('help\n'), True)
            compare('history', typed.type('history\n').count(' : '), 8)
            os.write(typed.master, b'watch 0.1\n')
            typed.until('"HI  THERE"\n')
            os.write(typed.master, b'\x03')
            typed.until('> ')
            compare('after an interrupt', typed.type('count\n'), 'count 3\n')
            os.write(typed.master, b'quit\n')
            typed.ends()
        finally:
            typed.program.kill()
        kept = there.path('.tetra_switch_desk')
        compare('the history of the next session', (RULE in kept.read_text(), oct(kept.stat().st_mode & 0o777)), (True, '0o600'))


def watched(there):
    """What comes and goes is printed once."""
    with serves(there):
        called(there, *RULE.split(' '))
        called(there, 'attach', FROM, '7')
        with started([DESK, '--raw', there.folder, '1', 'watch', '0.05'], stdout=subprocess.PIPE, stdin=subprocess.DEVNULL) as program:
            compare('at first', program.stdout.readline(), f'+ radio {FROM} station 1 la 7 present\n'.encode())
            program.send_signal(signal.SIGINT)
            compare('status', program.wait(SECONDS), 130)


# Over a socket

def over_a_socket(there):
    """Each call is a link of its own: the sample script opens the address again."""
    port = free_port()
    with script(there, 'serve_socat.sh', f'TCP-LISTEN:{port},bind=127.0.0.1,reuseaddr') as program:
        for number in range(1, 4):
            done = subprocess.run([DESK, f'127.0.0.1:{port}', '1', 'expire'], stdin=subprocess.DEVNULL, capture_output=True, timeout=PATIENCE)
            compare('an answer', (done.returncode, done.stdout, done.stderr), (0, b'%d ok %d -\n' % (number, number), b''))
        program.send_signal(signal.SIGTERM)
        program.wait(SECONDS)


# Radios that are forgotten

def forgets(there, *words, status=0):
    done = subprocess.run([FORGET, DISK, 's.toml', 'new.img', *words], env=dict(os.environ, TETRA_SWITCH=there.command[0]), cwd=there.folder,
                          capture_output=True, timeout=PATIENCE)
    compare(f'status of forget {words}', done.returncode, status)
    return done.stdout.decode().split('\n')[-2:-1], done.stderr


def radios_forgotten(there, dice):
    """The new disk has all else: also what waits for them, and who is attached to which group."""
    there.format()
    attached = [f'mm 234-14-{number} 7 10:260' for number in range(2003, 2010)]
    said = [RULE, *attached, *bodies(dice, 200), 'mm 234-14-2003 7 5:10']
    whole = text(f'{number} 9 {body}' for number, body in enumerate(said, 1))
    subprocess.run([*there.command, 'serve', DISK], input=whole, stdout=subprocess.DEVNULL, cwd=there.folder, timeout=SECONDS)
    register = register_of(there.image())
    absent = [bits for bits, kept in register.radios.items() if not kept[2]]
    compare('absent and present radios', (bool(absent), len(register.radios) > len(absent) + 2), (True, True))
    named, prefix = reading.identity(b'234-14-2004'), reading.prefix(b'234-14-2008/47')
    gone = {bits for bits in register.radios if bits in absent or bits == named or bits.startswith(prefix)}
    compare('forgotten', forgets(there, 'absent', '234-14-2004', '234-14-2008/47')[0], [f'forgot {len(gone)} radios'])
    register.radios = {bits: kept for bits, kept in register.radios.items() if bits not in gone}
    register.groups = {pair: kept for pair, kept in register.groups.items() if pair[0] not in gone}
    compare('only its owner may read it', oct(there.path('new.img').stat().st_mode & 0o777), '0o600')
    there.path('new.img').rename(there.path())
    stands_for(there, register)


def not_forgotten(there):
    """Wrong words make no disk, and the program's faults are its own."""
    there.format()
    compare('no identity', forgets(there, '1-2', status=1)[1], b'examples/forget.py: a WORD is an ITSI, a prefix or `absent`\n')
    there.path().unlink()
    compare('no disk', forgets(there, 'absent', status=4)[1], file_fault(DISK, 'no such file'))
    compare('no new disk', there.path('new.img').exists(), False)


# The whole

def reaches(case, *arguments):
    """A case that fails if a client does not reach the program."""
    try:
        case(*arguments)
    except desk.Gone as fault:
        raise Differs(f'the client: {fault}')


def main():
    words = options(__doc__, lines=400, stops=6)
    print(f'seed {words.seed}', flush=True)
    dice, count = random.Random(words.seed), Count()
    cases = [(texts_as_documented,), (texts_again, dice), (other_pdus,), (raw_and_in_words,), (to_a_group,), (references_that_are_free,), (wrong_words,),
             (a_script,), (line_by_line,), (as_a_module, dice, words.lines), (over_stops, dice, words.stops, 16), (over_stops, dice, words.stops, 1),
             (an_old_number,), (an_older_register,), (after_half_a_command,), (marks_and_its_number,), (orders_that_are_forbidden,),
             (the_link_of_another_station,), (two_desks,), (nobody_serves,), (on_a_terminal,), (watched,), (radios_forgotten, dice), (not_forgotten,)]
    for case, *more in [*cases, *[(over_a_socket,)] * bool(shutil.which('socat'))]:
        with place(words.program, MEMORY) as there:
            count.case(case.__name__, reaches, case, there, *more)
    count.end()


if __name__ == '__main__':
    main()
