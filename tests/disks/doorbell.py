#!/usr/bin/env python3
"""All interleavings of stations and the flusher over the doorbell (crates/served_disk/src/doorbell.rt), as a small machine. Its steps are
read from the sources: each load, store, fetch, ring and park of a `Doorbell` is one step, in the order of the text. A station announces,
puts a command into the queue, waits for its answer and settles; at last it announces its end, puts it and settles. Between lines it may
pause for ever. The flusher takes what is in the queue, an entry a step, rests, and answers each command. `PATIENCE` is small here.

In no state may the flusher sleep for good, while a command waits for its answer or an end for the flusher. While no station asks anything,
the flusher has to fall asleep. Bugs planted in the text have to be found. Prints what differs, and last 'N passed, M failed'.
Usage: tests/run doorbell"""
import collections
import functools
import itertools
import operator
import pathlib
import re
import sys

CRATES = pathlib.Path(__file__).resolve().parents[2] / 'crates'
DOORBELL = 'served_disk/src/doorbell.rt'
# Who calls the doorbell: the file, its functions, and the calls in them that matter, each of which has to come in every run.
STATION = 'stations/src/session_desk.rt', ('apply', 'apply_all'), r'\b(before_entry|submit|submit_all|after_entry)\('
ENDING = 'stations/src/station_job.rt', ('serve',), r'\b(before_entry|finish|after_entry)\('
ROUND = 'flusher/src/flusher.rt', ('round',), r'\b(take_batch|before_commit)\('
RUNNING = 'flusher/src/running.rt'
WATCHES = ('served_disk/src/service_watch.rt', 'served_disk/src/progress.rt')
PASSED_ON = {'before_entry': 'announce', 'after_entry': 'settle', 'before_commit': 'rest'}
# What each other call is to the machine.
STEPS = {'submit': ['put', 'receive'], 'submit_all': ['put', 'receive'], 'finish': ['put_end'], 'take_batch': ['take']}
TESTS = {'<': operator.lt, '<=': operator.le, '==': operator.eq, '>=': operator.ge, '>': operator.gt}

Step = collections.namedtuple('Step', 'kind of value test added jump', defaults=(None,) * 5)
# `queue` has the stations of commands, and -1 less the station for ends. `told` counts the answers that each station has not received.
State = collections.namedtuple('State', 'places announced idle token queue batch told ended')


class Unread(Exception):
    """A text that the machine has no step for."""


def body_of(text, name):
    """The lines of the body of a function, as they are indented within it."""
    found = re.search(rf'^( *)(?:pub(?:\(crate\))? )?fn {name}\b.*?\{{$\n(.*?)^\1\}}$', text, re.M | re.S)
    if not found:
        raise Unread(f'fn {name}')
    return [line[len(found[1]) + 4:] for line in found[2].split('\n') if line.strip()]


def calls_in(text, names, pattern):
    """The calls of this pattern in the functions of these names that are there: the same in each, at its own level, and nothing returns
    before the last of them."""
    lists = [[(line, call) for line in body_of(text, name) for call in re.findall(pattern, line)]
             for name in names if re.search(rf'fn {name}\b', text)]
    for name, calls in zip(names, lists):
        lines = body_of(text, name)
        last = max(at for at, line in enumerate(lines) if re.search(pattern, line))
        if any(line.startswith(' ') for line, _ in calls) or any(re.search(r'\breturn\b|\?;', line) for line in lines[:last]):
            raise Unread(f'{name}: {calls}')
    if len({tuple(call.replace('submit_all', 'submit') for _, call in calls) for calls in lists}) != 1:
        raise Unread(f'{names}: {lists}')
    return [call for _, call in lists[0]]


def step_of(line, patience):
    """The step of a line that is no call of the doorbell itself."""
    value = {'PATIENCE': patience}
    number = lambda word: value.get(word) if word in value else int(word)
    if found := re.fullmatch(r'if self\.(idle|announced)\.(load|fetch_add)\((?:([01]), )?Ordering::SeqCst\) (<|<=|==|>=|>) (\w+) \{', line):
        return Step(f'if_{found[2]}', found[1], number(found[5]), found[4], added=int(found[3] or 0))
    if found := re.fullmatch(r'self\.(idle|announced)\.(store|fetch_add|fetch_sub)\((\d+), Ordering::SeqCst\);', line):
        return Step(found[2], found[1], int(found[3]))
    named = {'if taken > 0 {': 'if_taken', 'self.parker.unpark();': 'unpark'}
    if line in named:
        return Step(named[line])
    raise Unread(line)


def compiled(text, name, patience):
    """The steps of a function of the doorbell, with the calls of its own functions in place."""
    steps, tests, leave = [], [], []
    for line in map(str.strip, body_of(text, name)):
        if line == '}':
            at = tests.pop()
            steps[at] = steps[at]._replace(jump=len(steps) - at)
        elif line == 'return;':
            leave.append(len(steps))
            steps.append(Step('go'))
        elif line == 'self.sleep(rt);':
            steps.append(sleep_of(text))
        elif found := re.fullmatch(r'self\.(ring)\(\);', line):
            steps += compiled(text, found[1], patience)
        elif line != 'thread::yield_now();':
            steps.append(step_of(line, patience))
            if line.startswith('if '):
                tests.append(len(steps) - 1)
    for at in leave:
        steps[at] = steps[at]._replace(jump=len(steps) - at)
    return steps


def sleep_of(text):
    """`sleep` parks, with a limit or without. A sleep that ends by itself loses nothing."""
    lines = [line.strip() for line in body_of(text, 'sleep')]
    wanted = ['match self.longest {', 'Some(longest) => self.parker.park_timeout(rt, longest),', 'None => self.parker.park(rt),', '}']
    if lines != wanted:
        raise Unread(lines)
    return Step('park')


class Machine:
    """The threads of so many stations and of the flusher, each a list of steps."""

    def __init__(self, texts, batches, patience):
        self.steps_of = functools.partial(compiled, texts[DOORBELL], patience=patience)
        for file in WATCHES:
            for name, call in PASSED_ON.items():
                if calls_in(texts[file], (name,), r'self\.doorbell\.(\w+)\(') != [call]:
                    raise Unread(f'{file}: {name}')
        self.stations = [self.station(*(calls_in(texts[file], *calls) for file, *calls in (STATION, ENDING)), each) for each in batches]
        running = re.findall(r'\b(has_ended|round)\(', ' '.join(body_of(texts[RUNNING], 'run')))
        if running != ['has_ended', 'round']:
            raise Unread(f'{RUNNING}: {running}')
        flusher = [Step('end'), *self.listed(calls_in(texts[ROUND[0]], *ROUND[1:]), 1), Step('answer')]
        self.threads = [*self.stations, [*flusher, Step('go', jump=-len(flusher))]]
        self.all_ended = (1 << len(self.stations)) - 1

    def listed(self, calls, commands):
        """The steps of these calls; a submission is of so many commands at once."""
        steps = []
        for call in calls:
            if call in PASSED_ON:
                steps += self.steps_of(name=PASSED_ON[call])
            else:
                steps += [Step(kind) for kind in STEPS[call] for _ in range(commands if call.startswith('submit') else 1)]
        return steps

    def station(self, submits, ends, batches):
        lines = [step for commands in batches for step in [Step('pause'), *self.listed(submits, commands)]]
        return [*lines, Step('pause'), *self.listed(ends, 1), Step('done')]

    def beginning(self):
        count = len(self.stations)
        return State((0,) * (count + 1), 0, 0, False, (), (), (0,) * count, 0)

    def after(self, state, thread, leave=True):
        """The state after the next step of a thread; None where it has to wait. A pause is left only where `leave` says so."""
        step = self.threads[thread][state.places[thread]]
        if step.kind in ('done', 'pause') and not (leave and step.kind == 'pause'):
            return None
        made = getattr(self, step.kind, self.plain)(state, thread, step)
        if made is None:
            return None
        changed, on = made
        places = list(state.places)
        places[thread] += on
        return state._replace(places=tuple(places), **changed)

    def plain(self, state, thread, step):
        value = getattr(state, step.of) if step.of else None
        jumps = step.jump or 1
        if step.kind == 'store':
            return {step.of: step.value}, 1
        if step.kind in ('fetch_add', 'fetch_sub'):
            return {step.of: value + (step.value if step.kind == 'fetch_add' else -step.value)}, 1
        if step.kind in ('if_load', 'if_fetch_add'):
            changed = {step.of: value + step.added} if step.added else {}
            return changed, 1 if TESTS[step.test](value, step.value) else jumps
        return {}, jumps

    def unpark(self, state, thread, step):
        return {'token': True}, 1

    def park(self, state, thread, step):
        return ({'token': False}, 1) if state.token else None

    def put(self, state, thread, step):
        return {'queue': state.queue + (thread,)}, 1

    def put_end(self, state, thread, step):
        return {'queue': state.queue + (-1 - thread,)}, 1

    def receive(self, state, thread, step):
        return ({'told': changed_at(state.told, thread, -1)}, 1) if state.told[thread] else None

    def end(self, state, thread, step):
        """The flusher ends once it has taken each end."""
        return None if state.ended == self.all_ended else ({}, 1)

    def take(self, state, thread, step):
        if not state.queue:
            return {}, 1
        first, queue = state.queue[0], state.queue[1:]
        if first < 0:
            return {'queue': queue, 'ended': state.ended | 1 << -1 - first}, 0
        return {'queue': queue, 'batch': state.batch + (first,)}, 0

    def if_taken(self, state, thread, step):
        return {}, 1 if state.batch else step.jump

    def answer(self, state, thread, step):
        if not state.batch:
            return {}, 1
        return {'batch': state.batch[1:], 'told': changed_at(state.told, state.batch[0], 1)}, 0

    def is_lost(self, state):
        """Whether nobody goes on by itself, although something waits for the flusher."""
        if any(self.after(state, thread, leave=False) for thread in range(len(self.threads))):
            return False
        *at, flusher = [self.threads[thread][place].kind for thread, place in enumerate(state.places)]
        return flusher != 'end' and (bool(state.queue) or 'receive' in at or set(at) == {'done'})

    def falls_asleep(self, state):
        """Whether the flusher sleeps or ends at last, if it alone goes on. Where a station is within a line this is not asked."""
        if any(self.threads[thread][place].kind not in ('pause', 'done') for thread, place in enumerate(state.places[:-1])):
            return True
        for _ in range(200):
            state = self.after(state, len(self.stations))
            if state is None:
                return True
        return False


def changed_at(numbers, place, by):
    return tuple(number + by if at == place else number for at, number in enumerate(numbers))


def explored(machine):
    """Every state that can be reached: how many there are, and what is wrong with the first that is wrong."""
    first = machine.beginning()
    seen, waiting = {first}, [first]
    while waiting:
        state = waiting.pop()
        if machine.is_lost(state):
            return len(seen), f'the flusher sleeps for good: {state}'
        if not machine.falls_asleep(state):
            return len(seen), f'the flusher never sleeps: {state}'
        for thread in range(len(machine.threads)):
            coming = machine.after(state, thread)
            if coming is not None and coming not in seen:
                seen.add(coming)
                waiting.append(coming)
    return len(seen), None


# Machines: the batches of commands of each station, one after the other, and `PATIENCE`
SMALL = [([1, 1], [1, 1])], [1, 2]
OTHERS = [([2], [1])], [1]
RING, IN = 'self.ring();\n', ' ' * 8
ANNOUNCED, SETTLED = (f'self.announced.{call}(1, Ordering::SeqCst);\n' for call in ('fetch_add', 'fetch_sub'))
ANNOUNCES = 'self.watch.before_entry(station);\n'
SUBMITS = f'''let means = Means {{
{IN}    rt: self.rt,
{IN}    alloc,
{IN}    orders: self.orders,
{IN}}};
{IN}let replied = submit(&means, &mut self.session, command);
'''
# A bug, its file, the text and what becomes of it
PLANTS = [
    ('sleeps in the round that took the last end', DOORBELL, '1, Ordering::SeqCst) <= PATIENCE', '1, Ordering::SeqCst) < PATIENCE'),
    ('rings before it announces', DOORBELL, ANNOUNCED + IN + RING, RING + IN + ANNOUNCED),
    ('an announcement rings nothing', DOORBELL, ANNOUNCED + IN + RING, ANNOUNCED),
    ('an end rings nothing', DOORBELL, SETTLED + IN + RING, SETTLED),
    ('rings too late', DOORBELL, 'load(Ordering::SeqCst) >= PATIENCE', 'load(Ordering::SeqCst) > PATIENCE'),
    ('counts from the start before it sleeps', DOORBELL, 'self.sleep(rt);', 'self.idle.store(0, Ordering::SeqCst);\n            self.sleep(rt);'),
    ('sleeps beside an announcement', DOORBELL, 'self.announced.load(Ordering::SeqCst) == 0', 'self.announced.load(Ordering::SeqCst) >= 0'),
    ('is never settled', DOORBELL, SETTLED + IN, ''),
    ('never counts a round', DOORBELL, '1, Ordering::SeqCst) <= PATIENCE', '0, Ordering::SeqCst) <= PATIENCE'),
    ('announces after it has put', STATION[0], ANNOUNCES + IN + SUBMITS, SUBMITS + IN + ANNOUNCES),
    ('announces no command', STATION[0], ANNOUNCES + IN + SUBMITS, SUBMITS),
    ('announces no end', ENDING[0], 'watch.before_entry(station);\n    let ended', 'let ended'),
    ('settles only what was accepted', STATION[0], SUBMITS + IN, SUBMITS + IN + 'if replied.is_ok() {\n    ' + IN),
    ('settles an end before it is put', ENDING[0], 'let ended = session', 'watch.after_entry(station);\n    let ended = session'),
]


def texts():
    return {file: (CRATES / file).read_text() for file in (DOORBELL, STATION[0], ENDING[0], ROUND[0], RUNNING, *WATCHES)}


def is_sound(name, machines):
    """Whether the machines of these numbers of commands, each for each patience, lose and waste nothing."""
    for batches, patience in itertools.product(*machines):
        states, fault = explored(Machine(texts(), batches, patience))
        print(f'{name}: {batches}, patience {patience}: {states:,} states; {fault or "no wake-up is lost"}', flush=True)
        if fault:
            return False
    return True


def is_found(name, file, old, new):
    planted = texts()
    if planted[file].count(old) != 1:
        print(f'{name}: the text {old!r} is not there once')
        return False
    planted[file] = planted[file].replace(old, new)
    for batches, patience in itertools.product(*SMALL):
        try:
            states, fault = explored(Machine(planted, batches, patience))
        except Unread as text:
            fault = f'not every run does so: {text}'
        print(f'planted, {name}: {fault}'[:150], flush=True)
        if fault:
            return True
    return False


def main():
    passed = [is_sound('the sources', machines) for machines in (SMALL, OTHERS)]
    passed += [is_found(*plant) for plant in PLANTS]
    print(f'{passed.count(True)} passed, {passed.count(False)} failed')
    sys.exit(0 if all(passed) else 1)


if __name__ == '__main__':
    main()
