"""Disks in files, and the program's `format`, `run` and `show` over them in a folder of its own, so that their names are short."""
import contextlib
import os
import pathlib
import shutil
import subprocess
import tempfile

import reading
from made_disks import zeroed
from reading_disks import NUMBERED, BadGeometry, Damaged, Unformatted, opens
from reading_rows import SECTOR
from running import Differs, compare, gives
from testing import Count, options

SETTINGS = {'rules': 16, 'radios': 16, 'mail': 256, 'stations': 4, 'journal': 39}
SECTORS = 667
DISK, LINES = 'd.img', 'a.txt'
# Why a file is not opened
HELD, EXISTS, MISSING, NOT_ALLOWED, NOT_A_FILE = 'held by another process', 'exists', 'no such file', 'not allowed', 'not a file'
# A folder that lies in memory, where there is one: its syncs cost nothing
MEMORY = '/dev/shm' if os.access('/dev/shm', os.W_OK) else None


class Place:
    """A folder in which a program is run."""

    def __init__(self, command, folder):
        self.command, self.folder = [os.path.abspath(command[0]), *command[1:]], pathlib.Path(folder)

    def path(self, name=DISK):
        return self.folder / name

    def write(self, name, data):
        self.path(name).write_bytes(data)

    def put(self, image, name=DISK):
        self.write(name, b''.join(image))

    def image(self, name=DISK):
        """The whole sectors of a file; a rest is ignored."""
        data = self.path(name).read_bytes()
        return [data[at:at + SECTOR] for at in range(0, len(data) - SECTOR + 1, SECTOR)]

    def begins(self, form, name=DISK):
        """A disk with an empty register: of layout 2 the program's own, and of layout 1 as it is made in Python."""
        self.path(name).unlink(missing_ok=True)
        if form == NUMBERED:
            self.format(name)
        else:
            self.put(zeroed(form=form), name)

    def copy(self, name, other):
        shutil.copyfile(self.path(name), self.path(other))

    def gives(self, words, status, out=b'', err=b'', **how):
        """Runs a subcommand, and compares all that it does."""
        gives([*self.command, *words], status, out, err, **{'stdin': subprocess.DEVNULL, 'cwd': self.folder, **how})

    def prints(self, line, shown):
        """Runs a command that a document shows: the program's name, its words, and perhaps `<` and the file on standard input, or `>` and
        the file that gets what it prints."""
        line, _, printed = line.partition(' > ')
        words, _, name = line.partition(' < ')
        data = self.path(name).read_bytes() if name else b''
        with open(self.path(printed), 'wb') if printed else contextlib.nullcontext(subprocess.PIPE) as out:
            self.gives(words.split(' ')[1:], 0, shown.encode(), stdin=subprocess.PIPE, data=data, stdout=out)

    def format(self, name=DISK):
        self.write('s.toml', settings().encode())
        self.gives(['format', 's.toml', name], 0, f'formatted {SECTORS} sectors\n'.encode())

    def shows(self, register, query, name=DISK):
        wanted = reading.answer(register, 1, query.encode())
        self.gives(['show', name, *query.split(' ')], 0, text(wanted))


@contextlib.contextmanager
def place(command, folder=None):
    """A new folder, for as long as it is used."""
    with tempfile.TemporaryDirectory(dir=folder) as made:
        os.chmod(made, 0o755)
        yield Place(command, made)


def is_private(path):
    compare(f'who may use {path.name}', oct(path.stat().st_mode & 0o777), '0o600')


@contextlib.contextmanager
def untouched(path):
    """A file that is not written, and has the same bytes in the end."""
    before = path.read_bytes(), path.stat().st_mtime_ns
    yield
    compare('the file is as it was', (path.read_bytes(), path.stat().st_mtime_ns) == before, True)


def settings(**others):
    return ''.join(f'{key} = {value}\n' for key, value in {**SETTINGS, **others}.items())


def pieces_of_zeros(sectors):
    """How many sectors each call fills that writes zeros into so many: 128, and the rest one after another."""
    return [128] * (sectors // 128) + [1] * (sectors % 128)


def text(lines):
    return ''.join(line + '\n' for line in lines).encode()


# What is said of a disk

def fault_line(fault):
    """Of one that stands for nothing."""
    words = {Unformatted: 'unformatted', BadGeometry: 'bad geometry', Damaged: f'damaged sector {fault}'}
    return f'fault: {words[type(fault)]}\n'.encode()


def file_fault(name, cause=None):
    """Of a file; a second line has the cause, if it is known."""
    return text([f'fault: file {name}', *[f'cause: {cause}'] * bool(cause)])


def register_of(image):
    """The register that an image stands for, by the independent reading."""
    try:
        return opens(image).register
    except (Unformatted, BadGeometry, Damaged) as fault:
        raise Differs(f'the disk {fault_line(fault)!r}')


def queries(register):
    """Each query that shows something of a register: of every radio, group, item and rule, and each listing."""
    radios = {*register.radios, *(key[0] for key in register.mail)}
    groups = {group for _, group in register.groups}
    ruled = {under.ljust(48, '0') for under in register.rules}
    yield 'count'
    for words, bits in (('where', radios), ('groups', radios), ('mail', radios), ('members', groups), ('look', radios | groups | ruled)):
        yield from (f'{words} {reading.print_identity(one)}' for one in sorted(bits))
    yield from listings(register)


def listings(register):
    """Each listing: of the radios under the prefix of each rule, the items due at the least and the greatest deadline and before, those
    that wait where a radio was last and at no station, and the last command of every station and of the next."""
    yield from ('rules', 'radios', 'items', 'room', 'dump')
    yield from (f'radios {reading.print_identity(under.ljust(48, "0"))}/{len(under)}' for under in sorted(register.rules))
    deadlines = {item.deadline for item in register.mail.values()} or {0}
    edges = {max(deadline + change, 0) for deadline in (min(deadlines), max(deadlines)) for change in (-1, 0)}
    yield from (f'due {moment}' for moment in sorted(edges) if moment < 2 ** 32)
    yield from (f'waiting {station}' for station in sorted({0, *(station for station, _, _ in register.radios.values())}))
    yield from (f'last {station}' for station in range(register.limits['stations'] + 2))


def shows_all(place, register, name=DISK):
    """Checks that `show` prints what the independent reading answers to each query. Returns the number of queries."""
    asked = list(queries(register))
    for query in asked:
        place.shows(register, query, name)
    return len(asked)


def run_cases(told, cases):
    """Runs each case in a place of its own. `--help` prints `told`."""
    words, count = options(told), Count()
    for case in cases:
        with place(words.program) as there:
            count.case(case.__name__, case, there)
    count.end()
