#!/usr/bin/env python3
"""Runs format, run and show of the built program: the sample, each fault line with its status, and what is left of the files. Refuses each
allocation in turn while the files of one station, or of two, are served. Prints the cases that fail, and last 'N passed, M failed'.
Usage: tests/run program_disks PROGRAM (the program itself, not a script that starts it)"""
import fcntl
import os
import pathlib
import re
import resource
import signal
import subprocess
import tempfile

import reading
import refusing
from disk_files import DISK, EXISTS, MEMORY, MISSING, NOT_A_FILE, SECTORS, file_fault, run_cases, settings, text, untouched
from disk_files import place as in_memory
from file_cases import as_nobody
from made_disks import FORMS
from many_files import Files, ordered, ran, stands_for, told_to_each
from program import TOP
from reading_disks import NUMBERED, figures
from reading_orders import Answered, is_command
from running import SECONDS, Differs, compare
from station_lines import apart, data_of
from station_stops import READY, begins, followed, order_left

FORMATTED = f'formatted {SECTORS} sectors\n'.encode()
LINES = b'1 0 rule 234-14-0/24 1 99 1 3600\n2 10 mm 234-14-2001 7 10:260\n'
FIRST = b'1 ok 1 -\n2 ok 2 8:56\n'
AGAIN = b'1 no old-sequence 2\n2 kept 2 8:56\n'
WHERE = b'where 234-14-2001 station 1 la 7 present\n'
NETWORKS = b'234-14', b'234-15'
# The sectors of a journal in which no checkpoint begins beside their commands
LONG_ENOUGH = 128


def fault(text):
    return f'fault: {text}\n'.encode()


def written(place, **changed):
    """The settings, with these numbers changed."""
    place.write('s.toml', settings(**changed).encode())


def without(key):
    """The settings without this number."""
    return ''.join(line + '\n' for line in settings().splitlines() if not line.startswith(key))


def refuses(place, words, status, err, name=DISK):
    """Refused, and the disk is as it was."""
    with untouched(place.path(name)):
        place.gives(words, status, err=err)


# What it does

def the_sample(place):
    place.write('a.txt', LINES)
    for form in FORMS:
        place.begins(form)
        compare('length of the disk', len(place.path().read_bytes()), 667 * 512)
        place.gives(['run', 'd.img', 'a.txt'], 0, b'station 1 a.txt\n' + FIRST)
        place.gives(['run', 'd.img', 'a.txt'], 0, b'station 1 a.txt\n' + AGAIN)
        place.gives(['show', 'd.img', 'where', '234-14-2001'], 0, WHERE)


def the_readme(place):
    """The first commands of README.md, in a folder with examples/: each prints what README.md shows."""
    place.path('examples').symlink_to(TOP / 'examples')
    block = (TOP / 'README.md').read_text().split('```')[1]
    commands = re.findall(r'^\$ (\./tetra-switch .*)\n((?:[^$].*\n)+)', block, re.M)
    compare('commands', [line.split(' ')[1] for line, _ in commands], ['format', 'serve', 'run', 'show'])
    for line, shown in commands:
        place.prints(line, shown)


def what_is_shown(place):
    place.format()
    with untouched(place.path()):
        for words, status, out in [
                (['count'], 0, b'count 0\n'), ([''], 0, b''), (['#', 'x'], 0, b''), (['x'], 1, b'line 1 bad syntax\n'),
                (['1', '0', 'expire'], 1, b'line 1 bad syntax\n'), (['0', '0', 'expire'], 1, b'line 1 bad value\n'),
                (['1', '0', '', 'expire'], 1, b'line 1 bad syntax\n'), (['count\ncount'], 1, b'line 1 bad syntax\n'),
                (['where', ''], 1, b'line 1 bad value\n'), (['where 1-2-3'], 0, b'where 1-2-3 unknown\n'),
                (['disk', 'x'], 1, b'line 1 bad syntax\n'), (['disk', ''], 1, b'line 1 bad syntax\n'), (['', 'disk'], 1, b'line 1 bad syntax\n'),
                (['disk\n'], 1, b'line 1 bad syntax\n'), (['disk', 'count'], 1, b'line 1 bad syntax\n'),
                (['a' * 1024], 1, b'line 1 bad syntax\n'), (['a' * 1025], 1, b'line 1 bad too-long\n'),
                (['#' * 1025], 1, b'line 1 bad too-long\n'), (['mail', '1-2-3'], 0, b'mail 1-2-3 0\n'),
                (['rules'], 0, b'rules 0\n'), (['radios'], 0, b'radios 0\n'), (['radios', '1-2-3/48'], 0, b'radios 1-2-3/48 0\n'),
                (['mark', 'here'], 1, b'line 1 bad syntax\n'), (['station'], 1, b'line 1 bad syntax\n'),
                (['radios', ''], 1, b'line 1 bad value\n'), (['items'], 0, b'items 0\n'), (['due', '7'], 0, b'due 7 0\n'),
                (['due', '4294967296'], 1, b'line 1 bad value\n'), (['waiting', '1'], 0, b'waiting 1 0\n'),
                (['waiting', '65536'], 1, b'line 1 bad value\n'), (['last', '1'], 0, b'last 1 none\n'), (['rules', 'x'], 1, b'line 1 bad syntax\n'),
                (['room'], 0, b'room rules 0/16 radios 0/16 items 0/256 stations 0/4 fullest none\n')]:
            place.gives(['show', 'd.img', *words], status, out)


def shows_figures(place):
    with untouched(place.path()):
        place.gives(['show', DISK, 'disk'], 0, text([figures(place.image())]))


def figures_of_a_disk(place):
    """Of a disk made ready; after two commands; and after ten more, one after another, beside which a checkpoint begins and ends."""
    place.write('a.txt', LINES)
    more = apart([b'%d 20 expire' % sequence for sequence in range(3, 13)])
    place.write('b.txt', data_of(more))
    for form in FORMS:
        place.begins(form)
        shows_figures(place)
        place.gives(['run', DISK, 'a.txt'], 0, b'station 1 a.txt\n' + FIRST)
        shows_figures(place)
        place.gives(['run', DISK, 'b.txt'], 0, text(['station 1 b.txt']) + reading.serve(LINES + data_of(more))[0][len(FIRST):])
        compare('the side that counts', figures(place.image())[:28], 'disk layout 2 side B epoch 2')
        shows_figures(place)


def lines_without_trouble_and_with(place):
    place.format()
    for data, status, out in (b'', 0, b''), (b'\xff', 1, b'line 1 bad syntax\n'), (b'count\n\n#\nx', 1, b'count 0\nline 4 bad syntax\n'):
        place.write('a.txt', data)
        place.gives(['run', 'd.img', 'a.txt'], status, b'station 1 a.txt\n' + out)


def peak(program):
    """The most memory that it has had so far, in KiB."""
    status = pathlib.Path(f'/proc/{program.pid}/status').read_text()
    return int(re.search(r'VmHWM:\s+(\d+) kB', status)[1])


def long_text(program, lines):
    """Sends 1,010,000 lines, of which 1,010 are answered: the last million may take no memory but for their answers."""
    thousand = b'# a line that says nothing\n' * 999 + b'2 10 mm 234-14-2001 7 10:260\n'
    with lines:
        lines.write(LINES + thousand * 10)
        lines.flush()
        before = peak(program)
        lines.write(thousand * 1000)
        lines.flush()
        after = peak(program)
    if after > before + 256:
        raise Differs(f'{after} KiB of memory after 1,010,000 lines, {before} KiB after 10,000')


def a_long_file(place):
    answers = FIRST + b'2 kept 2 8:56\n' * 1010
    os.mkfifo(place.path('a.txt'))
    for words, title in (['run', 'd.img', 'a.txt'], b'station 1 a.txt\n'), (['serve', 'd.img', 'a.txt', '/dev/stdout'], b''), ([], b''):
        place.path().unlink(missing_ok=True)
        place.format()
        with tempfile.TemporaryFile() as out:
            how = {'cwd': place.folder, 'stdin': subprocess.PIPE, 'stdout': out, 'stderr': subprocess.PIPE}
            with subprocess.Popen([*place.command, *words], **how) as program:
                long_text(program, open(place.path('a.txt'), 'wb') if words else program.stdin)
                program.stdin.close()
                compare('standard error', program.stderr.read(), b'')
                compare('status', program.wait(SECONDS), 0)
            out.seek(0)
            compare('output', out.read(), title + answers)


# The command line

def wrong_words(place):
    place.format()
    place.write('a.txt', LINES)
    for words in (['format'], ['format', 's.toml'], ['format', 's.toml', 'e.img', 'x'], ['run'], ['run', 'd.img'],
                  ['serve'], ['serve', 'd.img', 'a.txt'], ['serve', 'd.img', '-'], ['serve', 'd.img', '-', '-', '-'],
                  *(['serve', '--orders', word, 'd.img'] for word in ('0', '65536', 'x', '', '-1', '1.0', '1,2', '0x1', ' 1', '9' * 30, 'd.img')),
                  *([name, *words] for name, more in (('serve', []), ('run', ['a.txt'])) for words in (
                      ['d.img', *more, '--orders'], ['--orders', 'd.img', *more], ['--orders=', 'd.img', *more], ['--orders', '0', 'd.img', *more],
                      ['--order', '1', 'd.img', *more], ['-o', '1', 'd.img', *more], ['--orders', '1', '--orders', 'x', 'd.img', *more])),
                  ['--orders', '1', 'serve', 'd.img'], ['--orders', '1'], ['show', '--orders', '1', 'd.img', 'count'],
                  ['format', '--orders', '1', 's.toml', 'e.img'], ['dump', '--orders', '1', 'd.img'], ['check', '--orders', '1', 'd.img'], ['show'], ['show', 'd.img'], ['dump'], ['dump', 'd.img', 'x'], ['load'],
                  ['load', 'a.txt', 's.toml'], ['load', 'a.txt', 's.toml', 'e.img', 'x'], ['no such'], [''], [b'show', b'd.img', b'\xff']):
        with subprocess.Popen([*place.command, *words], stdin=subprocess.DEVNULL, stdout=subprocess.PIPE, stderr=subprocess.PIPE,
                              cwd=place.folder) as program:
            out, err = program.communicate(timeout=20)
            compare(f'status of {words}', program.returncode, 2)
            compare('output, and another name of the program', (out, b'tetra_switch' in err), (b'', False))
    compare('files', sorted(os.listdir(place.folder)), ['a.txt', 'd.img', 's.toml'])


def told(place, *words):
    """What the program prints on standard output for words that use no disk."""
    program = subprocess.run([*place.command, *words], stdin=subprocess.DEVNULL, capture_output=True, timeout=SECONDS, cwd=place.folder)
    compare(f'status and standard error of {words}', (program.returncode, program.stderr), (0, b''))
    return program.stdout


def help_and_version(place):
    names = [b'format', b'run', b'serve', b'show', b'check', b'dump', b'load']
    for words, parts in (([], [*names, b'--help', b'--version', b'\nExample: tetra-switch < ']),
                         (['format'], [b'SETTINGS', b'DISK', b'\nExample: tetra-switch format ']),
                         (['run'], [b'--orders', b'DISK', b'FILE', b'\nExample: tetra-switch run ']),
                         (['serve'], [b'--orders', b'DISK', b'IN', b'OUT', b'- -', b'\nExample: tetra-switch serve ']),
                         (['show'], [b'DISK', b'WORD', b'\nExample: tetra-switch show ']),
                         (['check'], [b'DISK', b'\nExample: tetra-switch check ']),
                         (['dump'], [b'DISK', b'\nExample: tetra-switch dump ']),
                         (['load'], [b'DUMP', b'SETTINGS', b'DISK', b'\nExample: tetra-switch load '])):
        for flag in '--help', '-h':
            text, usage = told(place, *words, flag), b'Usage: tetra-switch ' + ''.join(words).encode()
            compare(f'parts of the help of {words}', [part for part in [usage, *parts, b'\nExit status: 0 '] if part not in text], [])
            compare('another name of the program', b'tetra_switch' in text, False)
    for flag in '--version', '-V':
        compare('version', told(place, flag), b'tetra-switch 0.1.0 (disk layouts 1 and 2)\n')
    with open('/dev/full', 'wb') as full:
        for words in ['--help'], ['run', '--help'], ['--version']:
            place.gives(words, 4, err=file_fault('-'), stdout=full)


# Faults of format

def bad_settings(place):
    told = [settings(**changed) for changed in ({'mail': '"256"'}, {'mail': '256.0'}, {'stations': -1}, {'rules': 4294967296})]
    for text in (b'\xff', b'rules', b'', *(text.encode() for text in [without('rules'), without('journal'), *told])):
        place.write('s.toml', text)
        place.gives(['format', 's.toml', 'd.img'], 3, err=fault('settings'))
    compare('files', os.listdir(place.folder), ['s.toml'])


def bad_geometry(place):
    for key, values in {'rules': [0, 4097], 'radios': [0, 65537], 'mail': [0, 65537], 'stations': [0, 65], 'journal': [37, 65537, 4294967295]}.items():
        for value in values:
            written(place, **{key: value})
            place.gives(['format', 's.toml', 'd.img'], 5, err=fault('bad geometry'))
    compare('files', os.listdir(place.folder), ['s.toml'])


def settings_that_can_not_be_read(place):
    place.gives(['format', 'no.toml', 'd.img'], 4, err=file_fault('no.toml', MISSING))
    place.gives(['format', '.', 'd.img'], 4, err=file_fault('.', NOT_A_FILE))
    place.gives(['format', '', 'd.img'], 4, err=file_fault('', MISSING))


def a_disk_that_can_not_be_made(place):
    place.format()
    refuses(place, ['format', 's.toml', 'd.img'], 4, file_fault(DISK, EXISTS))
    place.gives(['format', 's.toml', 'no/d.img'], 4, err=file_fault('no/d.img', MISSING))
    place.gives(['format', 's.toml', '.'], 4, err=file_fault('.', EXISTS))


def no_room_for_a_disk(place):
    """Files may have 100,000 bytes."""
    def limited():
        signal.signal(signal.SIGXFSZ, signal.SIG_IGN)
        resource.setrlimit(resource.RLIMIT_FSIZE, (100_000, 100_000))
    written(place)
    place.gives(['format', 's.toml', 'd.img'], 5, err=fault('device'), preexec_fn=limited)


def nowhere_to_say_it(place):
    written(place)
    place.write('a.txt', LINES)
    with open('/dev/full', 'wb') as full:
        place.gives(['format', 's.toml', 'd.img'], 4, err=file_fault('-'), stdout=full)
        place.gives(['run', 'd.img', 'a.txt'], 4, err=file_fault('-'), stdout=full)
        place.gives(['show', 'd.img', 'count'], 4, err=file_fault('-'), stdout=full)
    place.gives(['run', 'd.img', 'a.txt'], 0, b'station 1 a.txt\n' + AGAIN)


# Faults of disks

def disks_that_can_not_be_opened(place):
    place.write('a.txt', LINES)
    for name, cause in ('no.img', MISSING), ('.', NOT_A_FILE), ('no/d.img', MISSING), ('', MISSING):
        for words in (['run', name, 'a.txt'], ['show', name, 'count']):
            place.gives(words, 4, err=file_fault(name, cause))


def hostile_disk(place, form):
    place.begins(form)
    place.gives(['run', 'd.img', 'a.txt'], 0, b'station 1 a.txt\n' + FIRST)
    good = place.path().read_bytes()

    def changed(at, data):
        return good[:at] + data + good[at + len(data):]
    root_2 = 512 * 2
    for disk, err in ((b'', 'unformatted'), (bytes(len(good)), 'unformatted'), (good[:-1], 'bad geometry'), (changed(9, b'\x09'), 'bad geometry'),
                      (changed(512, b'\0'), 'damaged sector 1'), (changed(512 * 3, bytes(512)), 'damaged sector 3'),
                      (changed(root_2, b'\1'), 'damaged sector 296'), (changed(512 * 590, bytes(512)), 'damaged sector 590')):
        place.write('e.img', disk)
        for words in ['show', 'e.img', 'count'], ['run', 'e.img', 'a.txt']:
            refuses(place, words, 5, fault(err), 'e.img')
    place.write('e.img', good + b'rest')
    place.gives(['show', 'e.img', 'count'], 0, b'count 2\n')


def hostile_disks(place):
    place.write('a.txt', LINES)
    for form in FORMS:
        hostile_disk(place, form)


# Faults of files

def files_that_can_not_be_read(place):
    place.format()
    refuses(place, ['run', 'd.img', 'no.txt'], 4, file_fault('no.txt', MISSING))
    place.gives(['run', 'd.img', '.'], 4, b'station 1 .\n', file_fault('.'))
    place.gives(['show', 'd.img', 'count'], 0, b'count 0\n')


def each_cause(place):
    """The second line says why the file is not opened. A name that is too long has none."""
    place.format()
    place.path('folder').mkdir()
    place.write('closed.img', b'')
    place.path('closed.img').chmod(0o000)
    long = 'x' * 256
    with open(place.path(), 'rb') as other:
        fcntl.flock(other, fcntl.LOCK_EX)
        refuses(place, ['show', 'd.img', 'count'], 4, b'fault: file d.img\ncause: held by another process\n')
    refuses(place, ['format', 's.toml', 'd.img'], 4, b'fault: file d.img\ncause: exists\n')
    place.gives(['show', 'no.img', 'count'], 4, err=b'fault: file no.img\ncause: no such file\n')
    place.gives(['show', 'folder', 'count'], 4, err=b'fault: file folder\ncause: not a file\n')
    place.gives(['show', long, 'count'], 4, err=b'fault: file %s\n' % long.encode())
    place.gives(['show', 'closed.img', 'count'], 4, err=b'fault: file closed.img\ncause: not allowed\n', **as_nobody(place))


def the_order_of_faults(place):
    """Of the settings before the disk, of the disk before the file, and of the output last."""
    place.write('d.img', b'')
    place.write('s.toml', b'')
    place.gives(['format', 's.toml', 'd.img'], 3, err=fault('settings'))
    written(place, rules=0)
    place.gives(['format', 's.toml', 'd.img'], 5, err=fault('bad geometry'))
    place.gives(['format', 'no.toml', 'd.img'], 4, err=file_fault('no.toml', MISSING))
    place.gives(['run', 'd.img', 'no.txt'], 5, err=fault('unformatted'))
    place.gives(['run', 'no.img', 'no.txt'], 4, err=file_fault('no.img', MISSING))
    place.gives(['show', 'd.img', 'x'], 5, err=fault('unformatted'))
    with open('/dev/full', 'wb') as full:
        place.gives(['format', 's.toml', 'd.img'], 5, err=fault('bad geometry'), stdout=full)
        place.gives(['show', 'd.img', 'x'], 5, err=fault('unformatted'), stdout=full)
        place.path().unlink()
        place.format()
        for name, cause in ('no.txt', MISSING), ('.', None):
            place.gives(['run', 'd.img', name], 4, err=file_fault(name, cause), stdout=full)


def no_memory(place):
    place.format()
    place.write('a.txt', LINES)
    with refusing.library() as made:
        for words in (['format', 's.toml', 'e.img'], ['run', 'd.img', 'a.txt'], ['show', 'd.img', 'count']):
            place.gives(words, 5, err=fault('memory'), env=refusing.environment(made, 1))


# Memory that ends

def of_network(network):
    """A station's lines: a rule and a radio of this network, six messages whose PDUs take memory, and a query. Each command is accepted
    whatever the stations of other networks send."""
    more = text(f'{sequence} 20 sds 234-14-2001 234-14-2001 392:8200{sequence:02X}' + '5A' * 46 for sequence in range(3, 9))
    return (LINES + more + b'where 234-14-2001').replace(b'234-14', network).split(b'\n')


def known(lines, said):
    """A station's lines with the answers that an order of the commands has to give. A line that memory ran out for is as if it had not come.
    A command may be answered `kept` that was kept when memory ran out before the sessions could see it: so it is accepted, and a query
    after it may not see it."""
    lags = False
    for line, told in zip(lines, said):
        lags |= ' kept ' in told
        is_lost = told.endswith(' no memory') or lags and not is_command(line)
        yield Answered(b'', []) if is_lost else Answered(line, [told.replace(' kept ', ' ok ')])


def order_with_lines_lost(place, files, told):
    """The order of the commands on the disk, which gives all answers. None that memory ran out for is among them."""
    order = order_left(place, files, None)
    for station, (lines, said) in enumerate(zip(files.lines, told), 1):
        followed(order, station, list(known(lines, said)))
        lost = [line for line, one in zip(lines, said) if one.endswith(' no memory')]
        compare('out of memory and on the disk', [line for line in lost if order.has(station, line)], [])
    return order


def with_one_refused(place, made, files, words, number):
    """The program with the allocation of that number refused: how it ends, and how many allocations it asked for. All that it did is judged,
    and the next run, which answers as if nothing had been. Only a station with a fault has lines without answers."""
    place.copy(READY, DISK)
    held = place.path('held')
    done = ran(place, files, words, env=refusing.environment(made, number, held=str(held)))
    asked = refusing.held_blocks(held)[1]
    compare('standard error', done.err, fault('memory') if done.status == 5 else b'')
    told = told_to_each(place, files, words, done.out)
    lacking = [len(lines) - len(said) for lines, said in zip(files.lines, told)]
    compare(f'lines without an answer {lacking}', (min(lacking) >= 0, any(lacking)), (True, done.status == 5))
    left = order_with_lines_lost(place, files, told)
    again = ran(place, files)
    compare('status and standard error of the next run', (again.status, again.err), (0, b''))
    stands_for(place, ordered(left.registers[-1], files, again.out).registers[-1])
    return done, asked


def memory_that_ends(place, made, files, words):
    """Another thread may ask for more or less, so the last numbers are past all of them."""
    statuses, number, every = set(), 0, 1
    while number < every + 3:
        done, asked = with_one_refused(place, made, files, words, number)
        statuses, number, every = statuses | {done.status}, number + 1, max(every, asked)
    compare('statuses', sorted(statuses), [0, 1, 5])


def memory_that_ends_between(place):
    """Each allocation in turn is refused, under one station on disks of both layouts, and under two: that is a fault, or the answer to lines;
    then all is answered as if nothing had been. The lines come together."""
    with in_memory(place.command, MEMORY) as there, refusing.library() as made:
        for form, stations in *((form, 1) for form in FORMS), (NUMBERED, 2):
            files = Files([of_network(network) for network in NETWORKS[:stations]])
            files.write(there)
            begins(there, form, LONG_ENOUGH, READY)
            for words in files.words, files.served:
                memory_that_ends(there, made, files, words)


CASES = [
    the_sample, the_readme, what_is_shown, figures_of_a_disk, lines_without_trouble_and_with, a_long_file, wrong_words, help_and_version, bad_settings, bad_geometry, settings_that_can_not_be_read,
    a_disk_that_can_not_be_made, no_room_for_a_disk, nowhere_to_say_it, disks_that_can_not_be_opened,
    hostile_disks, files_that_can_not_be_read, each_cause, the_order_of_faults, no_memory, memory_that_ends_between,
]


if __name__ == '__main__':
    run_cases(__doc__, CASES)
