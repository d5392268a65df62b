#!/usr/bin/env python3
"""A client of the switch for one station: a desk on a terminal, a command for scripts, and a module for base stations.

PLACE is a folder with the named pipes STATION.in and STATION.out, or HOST:PORT. With WORDs they are one line. Without, the lines of
standard input are sent, several at a time; on a terminal there is a prompt with a history.

A line is a query, or a command without its sequence number and moment, which are added: docs/formats/lines.md has them all. Where the
output is a terminal, answers are put in words. There are these words too:

  message FROM TO "TEXT" [report]        sends a text; with `report` its receipt is reported
  group-message FROM GROUP "TEXT"        sends a text to the members of a group
  attach ITSI LA, detach ITSI            makes a radio present, as FROM has to be; makes it absent
  mail [ITSI], radios [PREFIX]           what waits, and where radios are, in words
  waiting [STATION]                      what there is to deliver at a station, or at this one
  watch [SECONDS]                        prints what changes in `radios` and `items`, until it is interrupted
  history, help, quit

Status: 0; 1 if a line was bad, refused or not carried out; 2 for wrong words; 3 if the switch does not answer, or answers as another
station.

A base station does this, from another file beside this one:

    import desk
    with desk.Client(desk.link_to('/run/tetra-switch', 1), 1) as client:
        update = client.ask('mm 234-14-2001 7 10:260')
        print(update.outcome, update.pdu)
        print(client.ask('waiting 1').told[1:])
"""
import argparse
import collections
import contextlib
import fcntl
import os
import random
import re
import select
import shlex
import socket
import sys
import time

LAST_SEQUENCE, WIDEST_GAP, REFERENCES = 2 ** 32 - 1, 1000, 256
COMMANDS = 'rule', 'unrule', 'mm', 'sds', 'gsds', 'sent', 'delete', 'expire'
LISTS = 'groups', 'members', 'mail', 'rules', 'radios', 'items', 'due', 'waiting', 'dump', 'service'
OUTAGES = 'memory', 'device', 'broken', 'epochs', 'closed'
ATTACH, DETACH = '10:260', '5:10'
# Of SDS-TL: the protocol identifier of text messages, and the coding schemes of texts with Python's names for them
TEXT_MESSAGE = 130
CODINGS = {26: 'utf-16-be', **{number: 'iso8859-%d' % number for number in range(1, 11)}}
LATIN, WIDE = 1, 26
MOST_BITS, MOST_FAULTS = 2047, 20
HISTORY = '~/.tetra_switch_desk'


class Gone(Exception):
    """The switch can't be reached, or does not answer."""


class OtherStation(Gone):
    """The link is that of another station: no command was sent over it."""


class WrongWords(Exception):
    """Words that are no line."""


# Texts as PDUs

def text_pdu(text, reference, report=False):
    """An SDS-TRANSFER with a text, in ISO 8859-1 if that has all its characters, else in UTF-16."""
    try:
        data = bytes([LATIN]) + text.encode(CODINGS[LATIN])
    except UnicodeEncodeError:
        data = bytes([WIDE]) + text.encode(CODINGS[WIDE])
    data = bytes([TEXT_MESSAGE, 4 if report else 0, reference]) + data
    if 8 * len(data) > MOST_BITS:
        raise WrongWords('the text is too long: %d bytes of %d' % (len(data) - 4, MOST_BITS // 8 - 4))
    return '%d:%s' % (8 * len(data), data.hex().upper())


def text_in(pdu):
    """The text of a message as text_pdu makes it, also with a time stamp; or None."""
    bits, digits = pdu.split(':')
    data = bytes.fromhex(digits + '0' * (len(digits) % 2))
    if int(bits) % 8 or len(data) < 4 or data[0] != TEXT_MESSAGE or data[1] >> 4:
        return None
    stamped, coding = data[3] >> 7, data[3] & 127
    try:
        return data[7 if stamped else 4:].decode(CODINGS[coding])
    except (KeyError, UnicodeDecodeError):
        return None


def in_words(pdu):
    """What the PDU of a waiting item is."""
    digits = pdu.split(':')[1]
    kind = int(digits[2], 16)
    if kind == 1:
        status = int(digits[4:6], 16)
        return {0: 'received', 2: 'consumed'}.get(status, 'status %d' % status)
    text = text_in(pdu)
    asks = ['', ', asks for a report of receipt', ', asks for a report of use', ', asks for both reports'][int(digits[3], 16) >> 2]
    return (pdu if text is None else '"%s"' % text) + asks


# Links

def pipes_of(folder, station):
    """Both pipes of a station. Nobody else may use them meanwhile: two readers would tear answers apart."""
    back = os.open('%s/%d.out' % (folder, station), os.O_RDONLY | os.O_NONBLOCK)
    try:
        fcntl.flock(back, fcntl.LOCK_EX | fcntl.LOCK_NB)
        return os.open('%s/%d.in' % (folder, station), os.O_WRONLY | os.O_NONBLOCK), back
    except OSError as fault:
        os.close(back)
        raise OSError('another client has the station') if isinstance(fault, BlockingIOError) else fault


def socket_to(host, port):
    with socket.create_connection((host, port), timeout=5) as made:
        made.setblocking(False)
        return os.dup(made.fileno()), os.dup(made.fileno())


def link_to(place, station):
    """What opens a link to a station of the switch: each call gives two descriptors, to write lines to and to read answers from."""
    port = re.fullmatch(r'(.*):(\d+)', place)
    if port:
        return lambda: socket_to(port[1], int(port[2]))
    return lambda: pipes_of(place, station)


# Lines

class Line:
    """A line with its answer. The outcome of a command is `ok`; `kept`, if it was the station's last one already; `no`, refused; `bad`; an
    outage word, of which after `device` it may be on the disk; or `answered`, if it was sent again after a stop and the switch had answered
    it before, nobody knows how. That of a query is `ok`, `bad` or an outage word."""

    def __init__(self, text, sequence=None):
        self.text, self.sequence = text, sequence
        self.told, self.missing, self.again, self.outcome = [], 1, False, None

    def data(self):
        return self.text.encode(errors='surrogateescape') + b'\n'

    def hears(self, line):
        """Takes a line of the answer; whether it is one."""
        if not self.told and not line.startswith('line '):
            begins = self.text if self.sequence is None else self.text.split(' ')[0]
            if not (line + ' ').startswith(begins + ' '):
                return False
            if begins.split(' ')[0] in LISTS:
                self.missing += int(line.split(' ')[-1])
        self.told.append(line)
        self.missing -= 1
        if not self.missing:
            self.outcome = self.judged()
        return True

    def judged(self):
        words = self.told[0].split(' ')
        if words[0] == 'line':
            return 'bad' if words[2] == 'bad' else words[3]
        if self.sequence is not None and words[1] == 'no' and words[2] in OUTAGES:
            return words[2]
        if self.sequence is None:
            return 'ok'
        if self.again and words[1:3] == ['no', 'old-sequence']:
            return 'answered'
        return words[1]

    @property
    def number(self):
        """Of an accepted command, its number among all."""
        return int(self.told[0].split(' ')[2]) if self.is_accepted() else None

    @property
    def pdu(self):
        """The PDU for the radio: the last word of an answer, if it has one."""
        last = self.told[0].split(' ')[-1] if self.told else '-'
        return last if self.sequence is not None and ':' in last else None

    def is_accepted(self):
        return self.sequence is not None and self.outcome in ('ok', 'kept')

    def is_forbidden(self):
        """Whether it is an order, of a station that may give none."""
        return self.outcome == 'no' and self.told[0].split(' ')[2] == 'forbidden'

    def is_lost(self):
        """Whether the number of a command that was not sent before is an old one: a new command under it is not carried out."""
        words = self.told[0].split(' ')
        return self.sequence is not None and not self.again and (words[1] == 'kept' or words[1:3] == ['no', 'old-sequence'])


class Client:
    """A station's way to the switch. It numbers commands and gives them the time, keeps several lines in flight, and answers them in
    order. If the link ends it opens it again, and sends all lines without an answer again: nothing is done twice. It keeps nothing on a
    disk."""

    def __init__(self, opens, station, window=16, patience=60, **calls):
        """The calls: `warn` takes a text, `answered` each line with its answer, `clock` gives the moment."""
        self.opens, self.station, self.window, self.patience = opens, station, window, patience
        self.warn, self.clock = calls.get('warn', lambda text: None), calls.get('clock', time.time)
        self.answered = calls.get('answered', lambda line: None)
        self.flight, self.out, self.rest, self.ends, self.last = collections.deque(), b'', b'', None, None
        self.next, self.accepted, self.faults = 1, 0, 0

    def __enter__(self):
        return self

    def __exit__(self, *_):
        self.close()

    # What a base station calls

    def submit(self, text):
        """Sends a line, once fewer than `window` lines wait for answers. It is a query, a command without its first two words, or one
        with them."""
        if self.ends is None:
            self.come_back()
        line = self.made(text.rstrip('\r\n'))
        while len(self.flight) >= self.window:
            self.turn()
        self.put(line)
        return line

    def ask(self, text):
        """Sends a line, and waits for its answer and for all before it."""
        line = self.submit(text)
        self.finish()
        return line

    def finish(self):
        """Waits until all lines are answered."""
        while self.flight:
            self.turn()

    def close(self):
        for end in self.ends or ():
            os.close(end)
        self.ends = None

    # How a line is made

    def made(self, text):
        words = text.split(' ')
        if not text or text.startswith('#') or '\n' in text:
            raise WrongWords('this is no line')
        if words[0] in COMMANDS:
            if self.next > LAST_SEQUENCE:
                raise WrongWords('the sequence numbers of station %d are used up' % self.station)
            return self.numbered(self.next, '%d %d %s' % (self.next, self.clock(), text))
        if words[0].isdigit() and len(words) > 2:
            return self.numbered(int(words[0]), text)
        return Line(text)

    def numbered(self, sequence, text):
        if sequence > self.next + WIDEST_GAP:
            raise WrongWords('number %d would use up the numbers before it; the next one is %d' % (sequence, self.next))
        self.next = max(self.next, sequence + 1)
        return Line(text, sequence)

    # How lines are sent and answered

    def put(self, line):
        self.flight.append(line)
        self.out += line.data()

    def turn(self, *others):
        """Writes and reads what can be written and read, and comes back if the link has ended. It answers which other descriptors can be
        read."""
        if self.ends is None:
            self.come_back()
        ready = None
        with contextlib.suppress(OSError):
            ready = self.exchange(time.monotonic() + self.patience, others)
        if not self.hear_all() or ready is None:
            self.come_back()
        return ready or []

    def exchange(self, until, others=()):
        """Waits until something can be written or read. It always reads while it writes: the switch reads no line while nobody reads its
        answers."""
        to, back = self.ends
        waits = select.poll()
        for one in (back, *others):
            waits.register(one, select.POLLIN)
        waits.register(to, select.POLLOUT if self.out else 0)
        ready = dict(waits.poll(1000 * max(until - time.monotonic(), 0)))
        if not ready:
            raise Gone('no answer for %d seconds' % self.patience)
        with contextlib.suppress(BlockingIOError):
            if ready.get(to, 0) & select.POLLOUT:
                self.out = self.out[os.write(to, self.out):]
            if back in ready:
                self.rest += self.piece(back)
        if ready.get(to, 0) & select.POLLERR:
            raise ConnectionResetError('nobody reads the lines')
        return [one for one in others if one in ready]

    @staticmethod
    def piece(back):
        piece = os.read(back, 65536)
        if not piece:
            raise ConnectionResetError('the link has ended')
        return piece

    def hear_all(self):
        """Takes the lines that have come; whether each belongs to an answer."""
        while b'\n' in self.rest:
            text, self.rest = self.rest.split(b'\n', 1)
            if not self.flight or not self.flight[0].hears(text.decode(errors='surrogateescape')):
                return False
            if self.flight[0].outcome is not None:
                self.faults = 0
                self.hear(self.flight.popleft())
        return True

    def hear(self, line):
        """Tells of a line with its answer."""
        if line.is_lost():
            self.warn('`%s`: number %d is an old one; a new command under it is not carried out' % (line.told[0], line.sequence))
        if line.is_accepted():
            self.accepted = max(self.accepted, line.sequence)
        self.answered(line)

    # How it comes back

    def come_back(self):
        """Opens the link, and sends all lines without an answer again."""
        self.close()
        self.faults += 1
        if self.faults > MOST_FAULTS:
            raise Gone('the link has ended %d times before an answer to `%s`' % (MOST_FAULTS, self.flight[0].text))
        until = time.monotonic() + self.patience
        while self.ends is None:
            try:
                self.ends = self.opens()
                self.greet(until)
            except OSError as fault:
                self.close()
                if time.monotonic() > until:
                    raise Gone(str(fault)) from fault
                time.sleep(0.1)
        for line in self.flight:
            line.again, line.told, line.missing = True, [], 1
        self.out = b''.join(line.data() for line in self.flight)

    def greet(self, until):
        """Ends a line that was cut, skips what others left unread, looks whose link this is, and takes the number after the last accepted
        one. The first mark may end a cut line, and is lost with it. The second one is answered."""
        dice = random.SystemRandom()
        first, second = ('mark %032x' % dice.getrandbits(128) for _ in range(2))
        self.out, self.rest, told = ('%s\n%s\nstation\nlast %d\n' % (first, second, self.station)).encode(), b'', None
        while told is None:
            self.exchange(until)
            told = re.search(rb'^%s\nstation (\d+)\n(last [^\n]*)\n' % second.encode(), self.rest, re.M)
        self.rest, self.last = self.rest[told.end():], told[2].decode()
        if int(told[1]) != self.station:
            self.close()
            raise OtherStation('this is the link of station %d, not of station %d' % (int(told[1]), self.station))
        words = self.last.split(' ')
        sequence = 0 if words[2] == 'none' else int(words[2])
        if self.next > 1 and sequence >= self.next:
            self.warn('another client has used station %d: its last command is number %d' % (self.station, sequence))
        if sequence < self.accepted:
            self.warn('the register is an older one: it has commands up to number %d, and had %d' % (sequence, self.accepted))
        self.next = max(self.next, sequence + 1)


# Words for people

def takes(*count):
    """How many words may follow the first."""
    def checked(call):
        call.count = count
        return call
    return checked


class Desk:
    """Takes words for people, and shows answers in words or as they come."""

    def __init__(self, client, raw):
        self.client, self.raw, self.trouble, self.told = client, raw, False, []
        client.answered, client.warn = self.answered, lambda text: print('warning: ' + text, file=sys.stderr, flush=True)
        self.shows = True

    def take(self, words):
        """A line in words."""
        call = None if self.raw and words[0] in LISTS else WORDS.get(words[0])
        if call is None:
            self.client.submit(' '.join(words))
        elif len(words) - 1 not in call.count:
            raise WrongWords('wrong number of words after `%s`: see `help`' % words[0])
        else:
            self.client.finish()
            call(self, *words[1:])

    def answered(self, line):
        if self.shows:
            self.told.append((time.strftime('%H:%M:%S'), line))
            self.trouble |= line.outcome not in ('ok', 'kept') or line.is_lost()
            for text in line.told if self.raw else shown(line):
                print(text, flush=True)

    def quietly(self, text):
        """Asks without showing the answer."""
        self.shows = False
        try:
            return self.client.ask(text)
        finally:
            self.shows = True

    def send_text(self, form, report, text):
        """Under the first message reference that no message between the two has; a refusal uses up no number."""
        first = random.randrange(REFERENCES)
        for step in range(REFERENCES):
            line = self.quietly('%s %s' % (form, text_pdu(text, (first + step) % REFERENCES, report)))
            if 'reference-busy' not in line.told[0]:
                break
        self.answered(line)
        if 'not-attached' in line.told[0]:
            print('%s is not present: `attach` it first' % form.split(' ')[1], file=sys.stderr, flush=True)

    @takes(3, 4)
    def message(self, source, destination, text, report=''):
        if report not in ('', 'report'):
            raise WrongWords('the text needs quotes')
        self.send_text('sds %s %s' % (source, destination), bool(report), text)

    @takes(3)
    def group_message(self, source, group, text):
        self.send_text('gsds %s %s' % (source, group), False, text)

    @takes(2)
    def attach(self, itsi, area):
        self.client.ask('mm %s %s %s' % (itsi, area, ATTACH))

    @takes(1)
    def detach(self, itsi):
        self.client.ask('mm %s 0 %s' % (itsi, DETACH))

    @takes(0, 1)
    def mail(self, itsi=None):
        self.client.ask('mail ' + itsi if itsi else 'items')

    @takes(0, 1)
    def waiting(self, station=None):
        self.client.ask('waiting %s' % (station or self.client.station))

    @takes(0, 1)
    def watch(self, seconds='5'):
        """Prints each line that is new, and each that is gone."""
        before = []
        while True:
            now = [text for query in ('radios', 'items') for text in entries(self.quietly(query), self.raw)]
            for sign, some, others in ('-', before, set(now)), ('+', now, set(before)):
                for text in some:
                    if text not in others:
                        print(sign, text, flush=True)
            before = now
            time.sleep(float(seconds))

    @takes(0)
    def history(self):
        for moment, line in self.told:
            print(moment, line.text, ':', line.told[0])

    @takes(0)
    def help(self):
        print(__doc__.partition('\n\n')[2].partition('\n\nStatus')[0])


WORDS = {'message': Desk.message, 'group-message': Desk.group_message, 'attach': Desk.attach, 'detach': Desk.detach, 'mail': Desk.mail,
         'waiting': Desk.waiting, 'watch': Desk.watch, 'history': Desk.history, 'help': Desk.help}


# Answers in words

def entries(line, raw):
    return line.told[1:] if raw else [shown_entry(text) for text in line.told[1:]]


def shown(line):
    """The lines that a person reads."""
    words = line.told[0].split(' ')
    if line.outcome == 'bad':
        return ['no such line (%s): see `help` and docs/formats/lines.md' % words[3]]
    if line.outcome == 'answered':
        return ['%s: answered before the stop; ask whether it was accepted' % line.text]
    if line.is_accepted():
        carried = ', PDU for the radio ' + line.pdu if line.pdu else ''
        return ['%s as number %d%s' % ('accepted' if line.outcome == 'ok' else 'kept', line.number, carried)]
    if line.is_forbidden():
        return ['refused: this station may not give orders, as `%s`' % line.text.split(' ')[2]]
    if line.outcome == 'no':
        return ['refused: ' + ' '.join(words[2:])]
    if line.outcome in OUTAGES:
        return ['not carried out: ' + line.outcome]
    if words[0] == 'dump':
        return line.told
    if words[0] in LISTS:
        return ['%s: %s' % (' '.join(words[:-1]), words[-1]), *entries(line, False)]
    return line.told


def shown_entry(text):
    """A line of a list."""
    words = text.split(' ')
    if words[0] == 'radio':
        return '%s  station %s, location area %s, %s' % (words[1], words[3], words[5], words[6])
    if words[0] != 'item':
        return text
    to = ' to ' + words.pop(2) if '-' in words[2] else ''
    kind, source, reference, deadline, pdu = words[2:7]
    group = ' to group ' + words[7] if len(words) > 7 else ''
    name = {'m': 'message', 'r': 'report'}[kind]
    until = time.strftime('%Y-%m-%d %H:%M:%S', time.localtime(int(deadline)))
    return '%s  %s %s from %s%s%s until %s: %s' % (words[1], name, reference, source, to, group, until, in_words(pdu))


# The program

def words_of(text):
    """The words of a line that a person types: quotes hold some together. Other lines have single spaces."""
    first = text.split(' ')[0]
    if first not in WORDS:
        return text.split(' ')
    try:
        return shlex.split(text)
    except ValueError as fault:
        raise WrongWords('the text needs quotes at both ends') from fault


def take_line(desk, text):
    """A line of standard input; whether others may follow."""
    if text.strip() == 'quit':
        return False
    if text.strip() and not text.startswith('#'):
        try:
            desk.take(words_of(text))
        except WrongWords as fault:
            desk.trouble = True
            print(fault, file=sys.stderr, flush=True)
    return True


def on_a_terminal(desk, client):
    """A prompt; the history of earlier sessions is kept in a file."""
    import readline
    path = os.path.expanduser(HISTORY)
    with contextlib.suppress(OSError):
        readline.read_history_file(path)
    client.come_back()
    print('station %d, %s; `help` helps' % (client.station, client.last))
    goes_on = True
    while goes_on:
        try:
            goes_on = take_line(desk, input('> '))
            client.finish()
        except KeyboardInterrupt:
            client.close()
            print()
        except EOFError:
            goes_on = False
            print()
    desk.trouble = False
    with contextlib.suppress(OSError):
        os.close(os.open(path, os.O_CREAT | os.O_WRONLY, 0o600))
        readline.write_history_file(path)


def from_a_script(desk, client):
    """Takes lines from standard input while it reads the answers to earlier ones."""
    rest, goes_on = b'', True
    while goes_on:
        if client.flight and not client.turn(0):
            continue
        piece = os.read(0, 65536)
        *lines, rest = (rest + piece).split(b'\n') if piece else [rest, b'']
        goes_on = all([take_line(desk, line.decode(errors='surrogateescape')) for line in lines]) and bool(piece)


def main():
    parser = argparse.ArgumentParser(description=__doc__, formatter_class=argparse.RawDescriptionHelpFormatter)
    parser.add_argument('--raw', action='store_true', help='prints answers as they come, also on a terminal')
    parser.add_argument('--wait', type=float, default=60, metavar='SECONDS', help='for the switch, before the desk gives up (60)')
    parser.add_argument('place', metavar='PLACE')
    parser.add_argument('station', metavar='STATION', type=int)
    parser.add_argument('words', metavar='WORD', nargs=argparse.REMAINDER)
    words = parser.parse_args()
    client = Client(link_to(words.place, words.station), words.station, patience=words.wait)
    desk = Desk(client, words.raw or not sys.stdout.isatty())
    try:
        with client:
            if words.words:
                desk.take(words.words)
            elif sys.stdin.isatty():
                on_a_terminal(desk, client)
            else:
                from_a_script(desk, client)
            client.finish()
    except WrongWords as fault:
        parser.error(str(fault))
    except OtherStation as fault:
        print(fault, file=sys.stderr)
        return 3
    except Gone as fault:
        print('the switch does not answer: %s' % fault, file=sys.stderr)
        return 3
    except KeyboardInterrupt:
        return 130
    except BrokenPipeError:
        os.dup2(os.open(os.devnull, os.O_WRONLY), 1)
        return 1
    return int(desk.trouble)


if __name__ == '__main__':
    sys.exit(main())
