"""Virtual machines with Debian's cloud kernel, whose first process is guest.sh. Each has a disk of the test's own, four consoles, and a
serial line for reports."""
import contextlib
import gzip
import lzma
import os
import pathlib
import re
import shutil
import socket
import subprocess
import tempfile
import threading
import time

from base_stations import STATIONS, Gone, Resending
from block_device import Device, device_at
from running import Differs, compare
from station_faults import outage
from tools import SECONDS, ran

FOLDER = pathlib.Path(__file__).resolve().parent
TOOLS = 'qemu-system-x86_64', 'busybox', 'cpio', 'ldd'
# What mends file systems, where it is installed
MENDING = 'e2fsck', 'btrfs'
DRIVERS = 'virtio_pci', 'virtio_blk', 'virtio_console', 'crc32c_generic', 'xfs', 'btrfs'
QEMU = 'qemu-system-x86_64 -accel tcg -cpu max -m 192 -nographic -nodefaults -no-reboot -device virtio-serial'.split()
# Nothing on the console, no search for what a trial doesn't need, and an end at once where the kernel fails
BOOT = 'console=ttyS0 quiet loglevel=0 panic=-1 nokaslr mitigations=off cryptomgr.notests tsc=reliable lpj=4000000 no_timer_check'
# The bytes of a disk, of which xfs takes no fewer
SIZE = 320 << 20


def kernel():
    """The newest cloud kernel that is installed, or None."""
    return max(pathlib.Path('/boot').glob('vmlinuz-*-cloud-amd64'), default=None)


# What the machine starts with

def module_file(name):
    folder = pathlib.Path('/lib/modules') / kernel().name.partition('-')[2]
    names = {f'{spelling}.ko{end}' for spelling in (name, name.replace('_', '-')) for end in ('', '.xz', '.gz')}
    return next((pathlib.Path(top) / one for top, _, files in os.walk(folder) for one in names.intersection(files)), None)


def module_bytes(path):
    read = {'.xz': lzma.decompress, '.gz': gzip.decompress}.get(path.suffix, bytes)
    return read(path.read_bytes())


def modules(names, found=None):
    """These modules and those that they need, each after what it needs. What the kernel has built in has no file."""
    found = {} if found is None else found
    for name in names:
        path = module_file(name)
        if name not in found and path:
            data = module_bytes(path)
            needed = re.search(rb'\0depends=([^\0]*)\0', data)[1].decode().split(',')
            modules(filter(None, needed), found)
            found[name] = data
    return found


def libraries(program):
    return re.findall(r'(/\S+)', subprocess.run(['ldd', program], capture_output=True, text=True).stdout)


def image(room, program, files):
    """The first file system: busybox, the program, what mends file systems, their libraries, the modules and these files."""
    tree, tools = room / 'tree', [name for name in ('busybox', *MENDING) if shutil.which(name)]
    copied = {program: '/program', **{shutil.which(name): f'/bin/{name}' for name in tools}}
    for path in [*copied, *(one for path in copied for one in libraries(path))]:
        name = copied.get(path, path)
        (tree / name[1:]).parent.mkdir(parents=True, exist_ok=True)
        shutil.copy(os.path.realpath(path), tree / name[1:])
    shutil.copy(FOLDER / 'guest.sh', tree / 'init')
    found = modules(DRIVERS)
    files = {**{f'{name}.ko': data for name, data in found.items()}, 'modules': ' '.join(found).encode(), **files}
    for name, data in files.items():
        (tree / name).write_bytes(data)
    names = '\n'.join(str(path.relative_to(tree)) for path in tree.rglob('*'))
    with open(room / 'image', 'wb') as made:
        subprocess.run(['cpio', '-o', '-H', 'newc', '--quiet'], input=names.encode(), stdout=made, cwd=tree, check=True)
    shutil.rmtree(tree)


# A machine

class Machine:
    """A machine that runs; `poll` is as a process has it. It is killed when it is late, so that each wait for it ends."""

    def __init__(self, room, process):
        self.room, self.process, self.poll, self.links = room, process, process.poll, {}
        self.is_late = threading.Event()

    @contextlib.contextmanager
    def ended_in_time(self):
        def end():
            self.is_late.set()
            self.process.kill()
        timer = threading.Timer(SECONDS, end)
        timer.start()
        try:
            yield
        finally:
            timer.cancel()
            self.kill()

    def said(self):
        """All that it has reported so far."""
        return (self.room / 'serial').read_bytes().replace(b'\r\n', b'\n')

    def reports(self):
        """What each run of the program printed, and its status, by its subcommand."""
        return {name.decode(): (text, int(status)) for name, text, status in
                re.findall(rb'^== ([a-z]+)\n((?:(?!== ).*\n)*)== status (\d+)\n', self.said(), re.M)}

    def waits(self, is_there):
        while not is_there():
            if self.poll() is not None:
                how = f'was killed after {SECONDS} seconds' if self.is_late.is_set() else 'has ended'
                raise Differs(f'the machine {how}; it said {self.said()[-500:]!r}, and QEMU {(self.room / "errors").read_bytes()!r}')
            time.sleep(0.02)

    def waits_for(self, word):
        self.waits(lambda: b'== ' + word + b'\n' in self.said())

    def console(self, number):
        """The test's end of a console. It stays open, since QEMU drops what it has not read of one that is closed."""
        if number not in self.links:
            self.links[number] = socket.socket(socket.AF_UNIX)
            self.links[number].connect(str(self.room / f'console.{number}'))
        return self.links[number].fileno()

    def send(self, line):
        """Over console 0."""
        os.write(self.console(0), line + b'\n')

    def save(self, path):
        """Leaves its state in this file, and ends it."""
        with socket.socket(socket.AF_UNIX) as link:
            link.connect(str(self.room / 'monitor'))
            link.sendall(f'migrate "exec:cat >{path}"\nquit\n'.encode())
            while link.recv(65536):
                pass
        compare('the status of a machine that was saved', self.process.wait(), 0)

    def kill(self):
        self.process.kill()
        self.process.wait()
        for link in self.links.values():
            link.close()


class Machines:
    """All that a machine with this program and these files starts with, in a folder of its own: also the state of one that has booted,
    and has not yet opened its disk. Each later machine begins with that state."""

    def __init__(self, room, program, files):
        self.room, self.begins = room, ['-kernel', kernel(), '-initrd', room / 'image', '-append', BOOT]
        image(room, os.path.abspath(program), files)
        with self.started(Device(bytes(SIZE))) as machine:
            machine.waits_for(b'booted')
            machine.save(room / 'state')
        self.begins += ['-incoming', f'exec:cat {room}/state']

    @contextlib.contextmanager
    def started(self, device):
        """A machine with this device, once all its sockets are there. It is killed in any case."""
        with tempfile.TemporaryDirectory(dir=self.room) as made:
            room = pathlib.Path(made)
            command = [*QEMU, *self.begins, '-serial', f'file:{room}/serial', '-monitor', f'unix:{room}/monitor,server=on,wait=off',
                       '-drive', f'file=nbd:unix:{room}/disk,format=raw,if=virtio,cache=writeback']
            for number in range(STATIONS):
                command += ['-chardev', f'socket,id=c{number},path={room}/console.{number},server=on,wait=off', '-device', f'virtconsole,chardev=c{number}']
            (room / 'serial').touch()
            with (room / 'errors').open('wb') as errors, device_at(room / 'disk', device), \
                    subprocess.Popen(command, stdin=subprocess.DEVNULL, stdout=errors, stderr=errors) as process:
                machine = Machine(room, process)
                with machine.ended_in_time():
                    machine.waits(lambda: (room / 'monitor').exists() and (room / f'console.{STATIONS - 1}').exists())
                    yield machine


@contextlib.contextmanager
def machines(program, files):
    with tempfile.TemporaryDirectory() as made:
        yield Machines(pathlib.Path(made), program, files)


class AtConsole(Resending):
    """A base station at a console of a machine. It sends the line that a cut left unanswered to the next machine again."""

    def connect_console(self, machine):
        link = machine.console(self.number - 1)
        return self.connect(machine, os.dup(link), os.dup(link))

    def piece(self):
        try:
            return super().piece()
        except ConnectionResetError:
            raise Gone

    def talk_to(self, machine, count=None):
        """Sends so many more lines, or lines until the power goes. A fault ends the machine, and so the talk of all stations."""
        until = len(self.pairs) + count if count else len(self.lines)
        try:
            for line in self.lines[len(self.pairs):until]:
                self.ask(line, SECONDS)
                compare(f'of station {self.number} an outage', outage(self.pairs[-1]), None)
        except Gone:
            if count:
                raise
        except Differs:
            machine.kill()
            raise
        finally:
            self.leave()


def blank(fs):
    """A device's bytes with an empty file system."""
    with tempfile.NamedTemporaryFile() as made:
        os.truncate(made.name, SIZE)
        ran(f'mkfs.{fs}', '-q', made.name)
        return pathlib.Path(made.name).read_bytes()
