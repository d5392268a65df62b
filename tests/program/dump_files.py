"""`dump` and `load` over files that can't be read, written or made, closed and full streams, without memory or room, while each call
of the new disk fails, and stopped between these calls. Each case has a folder of its own."""
import fcntl
import os
import random
import re
import subprocess

import layouts
import refusing
import registers
from changed_texts import TEXT
from disk_files import DISK, EXISTS, HELD, MISSING, NOT_A_FILE, NOT_ALLOWED, fault_line, file_fault, pieces_of_zeros, place, settings, untouched
from file_cases import STREAMS, as_nobody, at_most, without
from images import fault_of
from loaded import DUMP, LIMITS, LOAD, TOML, dump_fault, dumps, image_of, layout_of, loaded_line, ready
from making import has_no_label, is_opened
from pending import Disk, choices
from reading_disks import Damaged
from reading_rows import SECTOR
from reading_texts import CUT, FIRST_LINE, BadText, register_in, rows_of
from recorder import follow, recorder
from running import SECONDS, compare

REGISTER, LOADED = register_in(TEXT, LIMITS), loaded_line(LIMITS)
SECTORS = layout_of(LIMITS).sectors()
MEMORY, DEVICE, UNFORMATTED, BAD_GEOMETRY, BAD_SETTINGS = (
    f'fault: {words}\n'.encode() for words in ('memory', 'device', 'unformatted', 'bad geometry', 'settings'))
PIECES_OF_ZEROS = pieces_of_zeros(SECTORS)
# The length and its sync, the zeros and theirs, the folder; the sides of an empty register; the rows, and at last the label
KINDS = f'ta{"w" * len(PIECES_OF_ZEROS)}sdwwwwws{"w" * len(list(rows_of(REGISTER)))}sws'
DRAWS, SOME_ZEROS = 10, 3


def begun(place):
    """A text and settings, and no disk; and another disk with a register."""
    ready(place, TEXT)
    place.put(image_of(REGISTER), 'e.img')


def refuses_file(place, words, name, cause=None, **how):
    """`fault: file`, and why on a second line, if it is known."""
    place.gives(words, 4, err=file_fault(name, cause), **how)


def makes_none(place, words, status, err):
    """Refused, and there is no disk."""
    place.gives(words, status, err=err)
    compare('a disk is there', place.path().exists(), False)


# Files that can't be read

def no_dump(place):
    begun(place)
    os.remove(place.path(DUMP))
    refuses_file(place, LOAD, DUMP, MISSING)
    place.path(DUMP).mkdir()
    refuses_file(place, LOAD, DUMP)
    for name, cause in (f'no/{DUMP}', MISSING), (f'{TOML}/x', MISSING), ('x' * 300, None), ('', MISSING):
        refuses_file(place, ['load', name, TOML, DISK], name, cause)
    compare('a disk is there', place.path().exists(), False)


def no_settings(place):
    begun(place)
    for name, cause in ('no.toml', MISSING), ('.', NOT_A_FILE), ('', MISSING):
        refuses_file(place, ['load', DUMP, name, DISK], name, cause)
    for data in b'', b'\xff', b'rules', settings(mail='"256"').encode(), settings(rules=4294967296).encode():
        place.write(TOML, data)
        makes_none(place, LOAD, 3, err=BAD_SETTINGS)
    for changed in {'rules': 4097}, {'radios': 0}, {'mail': 65537}, {'stations': 65}, {'journal': 37}, {'journal': 65537}:
        place.write(TOML, settings(**changed).encode())
        makes_none(place, LOAD, 5, err=BAD_GEOMETRY)


def no_permission(place):
    begun(place)
    how = as_nobody(place)
    os.chmod(place.folder, 0o777)
    for name in DUMP, TOML:
        os.chmod(place.path(name), 0o000)
        refuses_file(place, LOAD, name, NOT_ALLOWED, **how)
        os.chmod(place.path(name), 0o644)
    os.chmod(place.folder, 0o555)
    refuses_file(place, LOAD, DISK, NOT_ALLOWED, **how)
    os.chmod(place.folder, 0o777)
    for mode in 0o000, 0o444, 0o222:
        os.chmod(place.path('e.img'), mode)
        refuses_file(place, ['dump', 'e.img'], 'e.img', NOT_ALLOWED, **how)


def strange_dumps(place):
    """A device, a pipe, and a link to itself. What has no end is read as far as its first fault."""
    begun(place)
    for name, number, cause in ('/dev/null', 1, CUT), ('/dev/zero', 1, FIRST_LINE), ('e.img', 1, FIRST_LINE):
        makes_none(place, ['load', name, TOML, DISK], 3, err=dump_fault(BadText(number, cause)))
    place.path('loop').symlink_to('loop')
    refuses_file(place, ['load', 'loop', TOML, DISK], 'loop')
    place.gives(['load', '/dev/stdin', TOML, DISK], 0, LOADED, stdin=subprocess.PIPE, data=TEXT)
    dumps(place, REGISTER)


def from_one_to_another(place):
    """What `dump` prints goes to `load` through a pipe."""
    begun(place)
    with subprocess.Popen([*place.command, 'dump', 'e.img'], stdout=subprocess.PIPE, cwd=place.folder) as first:
        place.gives(['load', '/dev/stdin', TOML, DISK], 0, LOADED, stdin=first.stdout)
    compare('status', first.returncode, 0)
    dumps(place, REGISTER)


def a_text_in_pieces(place):
    """A pipe with a name gives the bytes of the text one by one."""
    begun(place)
    os.mkfifo(place.path('pipe'))
    command = [*place.command, 'load', 'pipe', TOML, DISK]
    with subprocess.Popen(command, stdout=subprocess.PIPE, stderr=subprocess.PIPE, cwd=place.folder) as program:
        with open(place.path('pipe'), 'wb', buffering=0) as pipe:
            for byte in TEXT:
                pipe.write(bytes([byte]))
        compare('output and standard error', program.communicate(timeout=SECONDS), (LOADED, b''))
    compare('status', program.returncode, 0)
    dumps(place, REGISTER)


# Disks that can't be dumped, or made

def no_disk_to_dump(place):
    for name, cause in ('no.img', MISSING), ('.', NOT_A_FILE), ('no/d.img', MISSING), ('', MISSING):
        refuses_file(place, ['dump', name], name, cause)
    compare('files', os.listdir(place.folder), [])


def damaged_disks(place):
    good = image_of(REGISTER)
    for data, err in ((b'', UNFORMATTED), (bytes(len(good) * SECTOR), UNFORMATTED), (TEXT, UNFORMATTED), (b''.join(good)[:-1], BAD_GEOMETRY),
                      (b''.join([good[0][:9] + b'\x09' + good[0][10:], *good[1:]]), BAD_GEOMETRY)):
        place.write(DISK, data)
        with untouched(place.path()):
            place.gives(['dump', DISK], 5, err=err)
    for at in 1, 3, 4, 8, 13:
        place.put([*good[:at], bytes(SECTOR), *good[at + 1:]])
        place.gives(['dump', DISK], 5, err=fault_line(Damaged(at)))
    for _, image, at in layouts.damaged():
        place.put(image)
        place.gives(['dump', DISK], 5, err=fault_line(Damaged(at)))


def a_disk_that_is_held(place):
    begun(place)
    with open(place.path('e.img'), 'rb') as other, untouched(place.path('e.img')):
        fcntl.flock(other, fcntl.LOCK_EX)
        refuses_file(place, ['dump', 'e.img'], 'e.img', HELD)
    dumps(place, REGISTER, 'e.img')


def a_disk_that_exists(place):
    """It stays as it is, whatever it holds."""
    begun(place)
    for data in b'', b'x', place.path('e.img').read_bytes():
        place.write(DISK, data)
        with untouched(place.path()):
            refuses_file(place, LOAD, DISK, EXISTS)
    with untouched(place.path(DUMP)):
        refuses_file(place, ['load', DUMP, TOML, DUMP], DUMP, EXISTS)
    for name, cause in ('.', EXISTS), ('no/d.img', MISSING), ('', MISSING):
        refuses_file(place, ['load', DUMP, TOML, name], name, cause)


def the_order_of_faults(place):
    """Of the settings before the text, and of the text before the disk."""
    ready(place, b'')
    place.write(DISK, b'x')
    with untouched(place.path()):
        place.gives(LOAD, 3, err=dump_fault(BadText(1, CUT)))
        refuses_file(place, ['load', 'no.txt', TOML, DISK], 'no.txt', MISSING)
        for data, status, err in (settings(rules=0).encode(), 5, BAD_GEOMETRY), (b'', 3, BAD_SETTINGS):
            place.write(TOML, data)
            place.gives(LOAD, status, err=err)
            place.gives(['load', 'no.txt', TOML, DISK], status, err=err)
        refuses_file(place, ['load', 'no.txt', 'no.toml', DISK], 'no.toml', MISSING)


def no_room(place):
    """What is left is no disk, and is not made again."""
    begun(place)
    for size in 0, 512, 100 * SECTOR + 7, SECTORS * SECTOR - 1:
        place.gives(LOAD, 5, err=DEVICE, **at_most(size))
        place.gives(['dump', DISK], 5, err=UNFORMATTED)
        refuses_file(place, LOAD, DISK, EXISTS)
        os.remove(place.path())


# Streams

def nowhere_to_print(place):
    """A full device, a pipe without a reader, and an output that is only read. The loaded disk is there."""
    begun(place)
    read, write = os.pipe()
    os.close(read)
    with open('/dev/full', 'wb') as full, open(os.devnull, 'rb') as only_read, untouched(place.path('e.img')):
        for out in full, write, only_read:
            refuses_file(place, ['dump', 'e.img'], '-', stdout=out)
            refuses_file(place, LOAD, '-', stdout=out)
            dumps(place, REGISTER)
            os.remove(place.path())
    os.close(write)


def closed_streams(place):
    """No file gets what is printed where a stream is closed."""
    begun(place)
    for closed in STREAMS:
        for words, out in (['dump', 'e.img'], TEXT), (LOAD, LOADED):
            ran = subprocess.run([*place.command, *words], capture_output=True, cwd=place.folder, timeout=SECONDS, **without(closed))
            compare('status and output', (ran.returncode, ran.stdout), (4, b'') if 1 in closed else (0, out))
            compare('standard error', ran.stderr, file_fault('-') if 1 in closed and 2 not in closed else b'')
        dumps(place, REGISTER, 'e.img')
        dumps(place, REGISTER)
        os.remove(place.path())


def an_output_that_ends(place):
    """The reader of a long text goes away after some bytes, which begin the text."""
    register = registers.crowded(128)
    for number, key in enumerate(list(register.mail)):
        register.mail[key] = register.mail[key]._replace(pdu=registers.message(key[2], '10' * 1007))
    place.put(image_of(register))
    with subprocess.Popen([*place.command, 'dump', DISK], stdout=subprocess.PIPE, stderr=subprocess.PIPE, cwd=place.folder) as program:
        compare('the first bytes', program.stdout.read(len(b'tetra-switch')), b'tetra-switch')
        program.stdout.close()
        compare('standard error', program.stderr.read(), file_fault('-'))
    compare('status', program.returncode, 4)


# Memory

def memory_that_ends(place, words, made, number):
    """Runs without the memory of the allocation of this number, and returns the status and the output."""
    ran = subprocess.run([*place.command, *words], stdin=subprocess.DEVNULL, capture_output=True, timeout=SECONDS, cwd=place.folder,
                         env=refusing.environment(made, number))
    compare('standard error', ran.stderr, MEMORY if ran.returncode else b'')
    return ran.returncode, ran.stdout


def no_memory_to_dump(place):
    """Each allocation in turn is refused. What is printed before that begins the text."""
    begun(place)
    statuses = []
    with refusing.library() as made, untouched(place.path('e.img')):
        while statuses[-1:] != [0]:
            status, out = memory_that_ends(place, ['dump', 'e.img'], made, len(statuses) + 1)
            compare('the output begins the text', out == TEXT if status == 0 else TEXT.startswith(out), True)
            statuses.append(status)
    compare('statuses', (set(statuses), len(statuses) > 4), ({0, 5}, True))


def no_memory_to_load(place):
    """Each allocation in turn is refused. Then there is no disk, or one without a label."""
    begun(place)
    statuses = []
    with refusing.library() as made:
        while statuses[-1:] != [0]:
            place.path().unlink(missing_ok=True)
            status, out = memory_that_ends(place, LOAD, made, len(statuses) + 1)
            compare('output', out, b'' if status else LOADED)
            compare('a whole disk is there', place.path().exists() and not has_no_label(place.image()), status == 0)
            statuses.append(status)
    compare('statuses', (set(statuses), len(statuses) > 4), ({0, 5}, True))
    dumps(place, REGISTER)


# The calls of the disk file

def in_short(kinds):
    """The kinds of calls, with the number of writes that follow each other."""
    return re.sub('w+', lambda writes: f' {len(writes[0])} ', kinds)


def stops(record, dice):
    """A stop after each call leaves no label, or the whole register."""
    disk, count = Disk([bytes(SECTOR)] * SECTORS), 0
    for done in record[KINDS.index('d'):]:
        follow(disk, done)
        for image in (disk.image(chosen) for chosen in choices(disk, dice, DRAWS)):
            count += 1
            if not has_no_label(image):
                compare('an image stands for', fault_of(image, [REGISTER]), None)
    compare('the disk in the end stands for', (fault_of(disk.lasting, [REGISTER]), disk.pending), (None, {}))
    print(f'{count} images of a disk that is being loaded')


def some_calls(dice):
    """Calls, from 1: all but the zeros, and some of these."""
    first = KINDS.index('w') + 1
    zeros = range(first, first + len(PIECES_OF_ZEROS))
    return [number for number in range(1, len(KINDS) + 1) if number not in zeros or number in (first, *dice.sample(zeros, SOME_ZEROS))]


def a_call_fails(made, record, number):
    """Nothing more is done to the file, which has no label unless that was written."""
    made.place.path().unlink(missing_ok=True)
    failed = made.does(LOAD, 5, err=DEVICE, fails=number)
    compare('the calls', (failed[:-1], failed[-1].kind), (record[:number - 1], 'f'))
    compare('the disk has no label', has_no_label(made.place.image()), number < len(KINDS))
    refuses_file(made.place, LOAD, DISK, EXISTS)


def calls_of_a_dump(place):
    """One sync, then reads. If the sync fails, nothing is read or printed."""
    place.put(image_of(REGISTER))
    with recorder(place) as made:
        is_opened(made.does(['dump', DISK], 0, TEXT))
        compare('the calls', [done.kind for done in made.does(['dump', DISK], 5, err=DEVICE, fails=1)], ['f'])


def a_read_of_the_text_fails(place):
    """After some of its lines; then no disk is made."""
    begun(place)
    with recorder(place) as made:
        for lines in 1, 5, TEXT.count(b'\n'):
            record = made.does(LOAD, 4, err=file_fault(DUMP), files=(DUMP,), breaks=lines)
            compare('calls of a disk', [done.kind for done in record if done.kind in 'tawsd'], [])
            compare('a disk is there', place.path().exists(), False)


def calls_of_a_load(place):
    """They come in order. Stops are tried between them, and each of them fails."""
    begun(place)
    dice = random.Random('calls of load')
    with recorder(place) as made:
        record = made.does(LOAD, 0, LOADED)
        compare('the calls', in_short(''.join(done.kind for done in record)), in_short(KINDS))
        zeros = [done for done in record if done.kind == 'w'][:len(PIECES_OF_ZEROS)]
        compare('the zeros', [(done.number, done.bytes) for done in zeros],
                [(SECTOR * sum(PIECES_OF_ZEROS[:k]), bytes(SECTOR * count)) for k, count in enumerate(PIECES_OF_ZEROS)])
        stops(record, dice)
        for number in some_calls(dice):
            a_call_fails(made, record, number)


CASES = [
    no_dump, no_settings, no_permission, strange_dumps, from_one_to_another, a_text_in_pieces, no_disk_to_dump, damaged_disks,
    a_disk_that_is_held, a_disk_that_exists, the_order_of_faults, no_room, nowhere_to_print, closed_streams, an_output_that_ends,
    no_memory_to_dump, no_memory_to_load, calls_of_a_dump, a_read_of_the_text_fails, calls_of_a_load,
]
