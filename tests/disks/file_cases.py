"""Files that are no disk or no command file for the program, one way each; files that it may not open, a disk that another process
holds, and disks without room. Each case has a folder of its own."""
import contextlib
import fcntl
import os
import resource
import shutil
import signal
import subprocess
import time

import reading
from disk_files import (DISK, EXISTS, HELD, LINES, MISSING, NOT_A_FILE, NOT_ALLOWED, SECTORS, file_fault, register_of, settings, text,
                        untouched)
from made_disks import FORMS
from reading_disks import NUMBERED
from reading_rows import SECTOR
from running import SECONDS, Differs, compare, ends, started
from streams import RULE

NOBODY = 65534
COUNT, RUN, FORMAT = ['show', DISK, 'count'], ['run', DISK, LINES], ['format', 's.toml', DISK]
DEVICE, UNFORMATTED, BAD_GEOMETRY = (f'fault: {words}\n'.encode() for words in ('device', 'unformatted', 'bad geometry'))
ATTACH, ATTACHED = '2 10 mm 234-14-2001 7 10:260', '2 ok 2 8:56'
HEAD = text([f'station 1 {LINES}'])
# The half of the disk that counts at first: a gate, a data sector, the next gate
GATE = 589


def ready(place, form=NUMBERED):
    """A disk made ready, and a command file."""
    place.begins(form)
    place.write(LINES, text([RULE, ATTACH]))


def all_say(place, *told, **how):
    """Each subcommand that takes a disk which is there says this."""
    for words in (COUNT, RUN):
        place.gives(words, *told, **how)


# No disk

def no_disk(place):
    place.write(LINES, b'')
    all_say(place, 4, err=file_fault(DISK, MISSING))
    compare('a disk is there', place.path().exists(), False)


def a_folder_as_a_disk(place):
    place.path().mkdir()
    all_say(place, 4, err=file_fault(DISK, NOT_A_FILE))


def strange_names(place):
    ready(place)
    for name, cause in (f'{DISK}/x', MISSING), (f'no/{DISK}', MISSING), ('x' * 300, None), ('', MISSING):
        place.gives(['show', name, 'count'], 4, err=file_fault(name, cause))
        place.gives(['run', name, LINES], 4, err=file_fault(name, cause))


def links_in_a_circle(place):
    os.symlink(DISK, place.path())
    all_say(place, 4, err=file_fault(DISK))


def no_file_as_a_disk(place):
    """Devices without blocks and pipes keep nothing."""
    place.write(LINES, b'')
    for device in '/dev/null', '/dev/zero':
        os.symlink(device, place.path())
        all_say(place, 5, err=UNFORMATTED)
        os.remove(place.path())
    os.mkfifo(place.path())
    all_say(place, 5, err=UNFORMATTED)


def a_disk_of_zeros(place):
    place.write(LINES, b'')
    place.write(DISK, bytes(SECTORS * SECTOR))
    with untouched(place.path()):
        all_say(place, 5, err=UNFORMATTED)


def another_layout(place):
    ready(place)
    image = place.image()
    for number in (0, 2, 9, 256):
        place.put([image[0][:8] + number.to_bytes(2, 'big') + image[0][10:], *image[1:]])
        with untouched(place.path()):
            all_say(place, 5, err=BAD_GEOMETRY)


# Files that are not given to everybody

def as_nobody(place):
    """How a process is started without the rights of root, where this one has them. It may start a copy of the program."""
    if os.geteuid() != 0:
        return {}
    copy = shutil.copy(place.command[0], place.path('program'))
    os.chmod(copy, 0o755)
    place.command = [copy, *place.command[1:]]
    return {'user': NOBODY, 'group': NOBODY, 'extra_groups': []}


def no_permission_for_the_disk(place):
    ready(place)
    how = as_nobody(place)
    for mode in (0o000, 0o444, 0o222):
        os.chmod(place.path(), mode)
        all_say(place, 4, err=file_fault(DISK, NOT_ALLOWED), **how)


def no_permission_for_the_commands(place):
    ready(place)
    os.chmod(place.path(), 0o666)
    os.chmod(place.path(LINES), 0o000)
    with untouched(place.path()):
        place.gives(RUN, 4, err=file_fault(LINES, NOT_ALLOWED), **as_nobody(place))


def no_permission_for_the_settings(place):
    place.write('s.toml', settings().encode())
    os.chmod(place.path('s.toml'), 0o000)
    place.gives(FORMAT, 4, err=file_fault('s.toml', NOT_ALLOWED), **as_nobody(place))


def no_permission_for_the_folder(place):
    place.write('s.toml', settings().encode())
    os.chmod(place.folder, 0o555)
    place.gives(FORMAT, 4, err=file_fault(DISK, NOT_ALLOWED), **as_nobody(place))
    os.chmod(place.folder, 0o755)


# A disk that another process holds

def held_by_another(place):
    ready(place)
    with open(place.path(), 'rb') as other, untouched(place.path()):
        fcntl.flock(other, fcntl.LOCK_EX)
        all_say(place, 4, err=file_fault(DISK, HELD))
    place.gives(COUNT, 0, b'count 0\n')


def opened_to_write(path):
    """A pipe with a name, once its reader is there."""
    until = time.monotonic() + SECONDS
    while time.monotonic() < until:
        with contextlib.suppress(OSError):
            return os.open(path, os.O_WRONLY | os.O_NONBLOCK)
        time.sleep(0.01)
    raise Differs('nobody reads the command file')


def held_by_a_run(place):
    """While the program waits for a line, nobody else gets the disk."""
    ready(place)
    os.mkfifo(place.path('pipe'))
    command = [*place.command, 'run', DISK, 'pipe']
    with started(command, cwd=place.folder, stdin=subprocess.DEVNULL, stdout=subprocess.PIPE) as program:
        pipe = opened_to_write(place.path('pipe'))
        all_say(place, 4, err=file_fault(DISK, HELD))
        place.gives(FORMAT, 4, err=file_fault(DISK, EXISTS))
        os.write(pipe, text([RULE, 'count']))
        os.close(pipe)
        compare('output', ends(program, 0), text(['station 1 pipe', '1 ok 1 -', 'count 1']))
    place.gives(COUNT, 0, b'count 1\n')


# No command file

def no_commands(place):
    ready(place)
    os.remove(place.path(LINES))
    with untouched(place.path()):
        place.gives(RUN, 4, err=file_fault(LINES, MISSING))


def a_folder_of_commands(place):
    """It can be opened, and then not be read."""
    ready(place)
    os.remove(place.path(LINES))
    place.path(LINES).mkdir()
    with untouched(place.path()):
        place.gives(RUN, 4, HEAD, file_fault(LINES))


def the_disk_is_judged_before_the_commands(place):
    place.write(DISK, b'')
    place.gives(RUN, 5, err=UNFORMATTED)
    os.remove(place.path())
    place.gives(RUN, 4, err=file_fault(DISK, MISSING))


def strange_commands(place):
    """The byte FF, a file without an end of line, zeros, and a line that is too long."""
    ready(place)
    for data in (b'\xff', b'', b'count', bytes(5000), b'a' * 2_000_000, b'# ' + b'x' * 1022 + b'\ncount\r\n', b'\n' * 3000 + b'count \n'):
        place.write(LINES, data)
        told, is_troubled = reading.serve(data)
        with untouched(place.path()):
            place.gives(RUN, int(is_troubled), HEAD + told)


# Closed streams

STREAMS = [(0,), (1,), (2,), (0, 1), (0, 2), (1, 2), (0, 1, 2)]


def without(closed):
    """What a process does that is to start with these streams closed."""
    return {'preexec_fn': lambda: [os.close(stream) for stream in closed]}


def with_closed(place, words, closed, out):
    """A closed standard output is a fault. The program reports it unless standard error is closed too."""
    if 1 in closed:
        place.gives(words, 4, b'', b'' if 2 in closed else file_fault('-'), **without(closed))
    else:
        place.gives(words, 0, out, **without(closed))


def nothing_lands_in_the_disk(place):
    """A file may take the number of a stream that is closed: what is printed must not be written there."""
    for closed in STREAMS:
        ready(place)
        with_closed(place, RUN, closed, HEAD + text(['1 ok 1 -', ATTACHED]))
        compare('the commands on the disk', register_of(place.image()).count, 2)
        with untouched(place.path()):
            with_closed(place, COUNT, closed, b'count 2\n')
        os.remove(place.path())
        with_closed(place, FORMAT, closed, text([f'formatted {SECTORS} sectors']))
        compare('the commands on the disk', register_of(place.image()).count, 0)
        os.remove(place.path())


# No room

def at_most(size):
    """What a process does that is to start with files of at most so many bytes; past them a write fails."""
    def limit():
        signal.signal(signal.SIGXFSZ, signal.SIG_IGN)
        resource.setrlimit(resource.RLIMIT_FSIZE, (size, size))
    return {'preexec_fn': limit}


def left_unmade(place):
    """What a `format` without room left is no disk, and is not made again."""
    place.gives(COUNT, 5, err=UNFORMATTED)
    place.gives(FORMAT, 4, err=file_fault(DISK, EXISTS))


def formatted_past_a_limit(place):
    place.write('s.toml', settings().encode())
    for size in (0, 100, 512, 100 * SECTOR + 7, SECTORS * SECTOR - 1):
        place.gives(FORMAT, 5, err=DEVICE, **at_most(size))
        left_unmade(place)
        os.remove(place.path())


@contextlib.contextmanager
def small_file_system(place):
    """One of 64 KiB in memory, in the folder `small`, where this process may make one; answers whether."""
    path = place.path('small')
    path.mkdir()
    mount = ['mount', '-t', 'tmpfs', '-o', 'size=64k,mode=0777', 'tmpfs', path]
    made = subprocess.run(mount, stderr=subprocess.DEVNULL).returncode == 0
    if not made:
        print('no file system may be made here: its case is left out')
    try:
        yield made
    finally:
        if made:
            subprocess.run(['umount', path], check=True)


def formatted_in_a_full_file_system(place):
    place.write('s.toml', settings().encode())
    with small_file_system(place) as made:
        if made:
            place.gives(['format', 's.toml', f'small/{DISK}'], 4, err=file_fault(f'small/{DISK}', 'no space'))


def run_in_a_full_file_system(place):
    """A disk with holes, where there is no room for the first record: the commands that came together are `device`, a later one
    `broken`."""
    ready(place)
    place.write(LINES, text([RULE, ATTACH, 'count', '3 20 expire']))
    image = place.image()
    with small_file_system(place) as made:
        if made:
            name = f'small/{DISK}'
            with_holes(place, image, name)
            place.gives(['run', name, LINES], 5, HEAD + text(['1 no device', '2 no device', 'count 0', '3 no broken']), DEVICE)
            place.gives(['show', name, 'count'], 0, b'count 0\n')


def with_holes(place, image, name):
    """The disk's bytes, but for the sectors of zeros; and a file that takes the room that is left."""
    with open(place.path(name), 'wb') as disk:
        for at, sector in enumerate(image):
            disk.seek(at * SECTOR)
            if any(sector):
                disk.write(sector)
        disk.truncate(len(image) * SECTOR)
    with contextlib.suppress(OSError), open(place.path(f'{name}.rest'), 'wb', buffering=0) as rest:
        while rest.write(bytes(4096)):
            pass


def a_run_past_a_limit(place, form):
    ready(place, form)
    given = [RULE, 'count', ATTACH, 'count', '# a remark', '3 20 expire', 'where 234-14-2001', 'no such', 'radios', 'last 1']
    told = ['1 ok 1 -', 'count 1', '2 no device', 'count 1', '3 no broken', 'where 234-14-2001 unknown', 'line 8 bad syntax', 'radios 0', 'last 1 1 1 -']
    place.write(LINES, text(given))
    place.gives(RUN, 5, HEAD + text(told), DEVICE, **at_most((GATE + 3) * SECTOR + 100))
    compare('the commands on the disk', register_of(place.image()).count, 1)
    place.gives(COUNT, 0, b'count 1\n')
    again = ['1 kept 1 -', 'count 1', ATTACHED, 'count 2', '3 ok 3 -', 'where 234-14-2001 station 1 la 7 present', 'line 8 bad syntax',
             'radios 1', 'radio 234-14-2001 station 1 la 7 present', 'last 1 3 3 -']
    place.gives(RUN, 1, HEAD + text(again))


def run_past_a_limit(place):
    """The first record is within the limit. The data of the second one begin before the limit and end after it."""
    for form in FORMS:
        a_run_past_a_limit(place, form)


CASES = [
    no_disk, a_folder_as_a_disk, strange_names, links_in_a_circle, no_file_as_a_disk, a_disk_of_zeros, another_layout,
    no_permission_for_the_disk, no_permission_for_the_commands, no_permission_for_the_settings, no_permission_for_the_folder,
    held_by_another, held_by_a_run, no_commands, a_folder_of_commands, the_disk_is_judged_before_the_commands, strange_commands,
    nothing_lands_in_the_disk, formatted_past_a_limit, formatted_in_a_full_file_system, run_in_a_full_file_system, run_past_a_limit,
]
