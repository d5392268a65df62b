"""What the program does with its disk file, written down by record.c, which is compiled and preloaded; and one of these calls
failing, or a read of a station's file."""
import collections
import contextlib
import os
import pathlib
import struct

import preloading
from disk_files import DISK, LINES
from pending import SYNC, Write
from reading_rows import SECTOR

SOURCE = pathlib.Path(__file__).resolve().parent / 'record.c'
RECORD = 'record'
HEAD = struct.Struct('=cQQ')

# What the program did: a write of these bytes from an offset on, a read, a sync, a length given, the folder synced, or a call that
# failed; a write that failed has its offset, and the bytes that it wrote all the same. Or that it asked for lines of a file, having read
# so many; the bytes are the file's place, from 1, and how many lines it can get. Or the bytes that it is about to write as answers; the
# number is the place of their file, from 1
Done = collections.namedtuple('Done', 'kind number bytes', defaults=[0, b''])


def record_in(data):
    """A stop may have cut the last one."""
    done, at = [], 0
    while at + HEAD.size <= len(data):
        kind, number, length = HEAD.unpack_from(data, at)
        at += HEAD.size
        if at + length > len(data):
            break
        done.append(Done(kind.decode(), number, data[at:at + length]))
        at += length
    return done


class Recorder:
    """A folder in which a program is run with record.c."""

    def __init__(self, place, made):
        self.place, self.made = place, made

    def environment(self, fails=0, breaks=0, disk=DISK, files=(LINES,), answers=(), together=1, **others):
        """That in which a program writes an empty record. The call of one number fails, from 1; and the read of a station's file
        after so many lines. A read gets so many lines together. The answers go to these files."""
        self.place.write(RECORD, b'')
        names = {'RECORD': RECORD, 'DISK': disk, 'FOLDER': os.path.dirname(disk) or '.'}
        paths = {name: self.place.path(file) for name, file in names.items()}
        streams = {name: ':'.join(str(self.place.path(file)) for file in names) for name, names in (('LINES', files), ('ANSWERS', answers))}
        return preloading.environment(self.made, FAILS=fails, BREAKS=breaks, TOGETHER=together, **streams, **paths, **others)

    def record(self):
        """What the program did."""
        return record_in(self.place.path(RECORD).read_bytes())

    def does(self, words, status, out=b'', err=b'', **how):
        """What the program does with this disk file, once what it writes is compared."""
        self.place.gives(words, status, out, err, env=self.environment(**how))
        return self.record()

    def run(self, status, out, err=b'', **how):
        """What the program does while it serves the file, once its answers are compared."""
        return self.does(['run', DISK, LINES], status, out, err, **how)


@contextlib.contextmanager
def recorder(place):
    """One, for as long as it is used."""
    with preloading.library(SOURCE) as made:
        yield Recorder(place, made)


def writes(disk, done):
    """The sectors that a write changes, whole."""
    end = done.number + len(done.bytes)
    for at in range(done.number // SECTOR, -(-end // SECTOR)):
        start = at * SECTOR
        old, new = disk.now(at), done.bytes[max(start - done.number, 0):start + SECTOR - done.number]
        front = max(done.number - start, 0)
        yield Write(at, old[:front] + new + old[front + len(new):])


def is_run(done):
    """Whether it is a call that wrote several sectors."""
    return done.kind == 'w' and len(done.bytes) > SECTOR


def sectors_of(done, part):
    """A call that wrote whole sectors, as if it had written only those of this slice."""
    kept = range(len(done.bytes) // SECTOR)[part]
    return done._replace(number=done.number + kept.start * SECTOR, bytes=done.bytes[kept.start * SECTOR:kept.stop * SECTOR])


def follow(disk, done):
    """Does to a disk what the program did to its file."""
    if done.kind in ('s', 'a'):
        disk.call(SYNC)
    if done.kind in ('w', 'f') and done.bytes:
        disk.write(list(writes(disk, done)))
