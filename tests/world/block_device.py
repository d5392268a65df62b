"""A block device whose power can be cut, served by the NBD protocol on a Unix socket. When the power goes, each sector keeps the value
that it had at the last flush, or one that was written since."""
import contextlib
import socket
import struct
import threading

from reading_rows import SECTOR
from tools import SECONDS

# The oldest form of the handshake; the flags state that there are flags, and flushes
MAGIC, OLDEST, FLAGS = b'NBDMAGIC', 0x00420281861253, 1 | 4
REQUEST, ANSWERED = struct.Struct('>IHH8sQI'), bytes.fromhex('67446698 00000000')
READ, WRITE, DISCONNECT, FLUSH = range(4)
# How many of the values written since the last flush a cut keeps
SHARES = 0, 0.1, 0.5, 0.9, 1
PIECE = 1 << 16


def sectors(data):
    """The sectors that hold anything, with their places."""
    for start in range(0, len(data), PIECE):
        if not data.startswith(bytes(PIECE), start):
            yield from ((at // SECTOR, data[at:at + SECTOR]) for at in range(start, min(start + PIECE, len(data)), SECTOR))


class Device:
    """Its sectors as they last, and the values that each pending one got since the last flush. A false device reports flushes and keeps
    nothing safe by them."""

    def __init__(self, data):
        self.size, self.is_false = len(data), False
        self.lasting, self.pending = dict(sectors(data)), {}
        self.requests, self.left, self.is_dark = 0, None, threading.Event()
        self.kept = self.lost = self.flushes = 0

    def read(self, at, size):
        places = range(at // SECTOR, (at + size) // SECTOR)
        return b''.join(self.pending[one][-1] if one in self.pending else self.lasting.get(one, bytes(SECTOR)) for one in places)

    def write(self, at, data):
        for k in range(0, len(data), SECTOR):
            self.pending.setdefault((at + k) // SECTOR, []).append(data[k:k + SECTOR])

    def flush(self):
        self.flushes += 1
        if not self.is_false:
            self.lasting.update((at, held[-1]) for at, held in self.pending.items())
            self.pending = {}

    def goes_dark_after(self, requests):
        """It answers so many more requests, and then none."""
        self.left = requests

    def answers_one_more(self):
        self.requests += 1
        if self.left == 0:
            self.is_dark.set()
        elif self.left is not None:
            self.left -= 1
        return not self.is_dark.is_set()

    def lose_power(self, dice):
        """What a cut leaves is what lasts. Then the power is back."""
        share = dice.choice(SHARES)
        for at, held in self.pending.items():
            kept = [value for value in held if dice.random() < share]
            self.lasting.update([(at, kept[-1])] if kept else [])
            self.kept, self.lost = self.kept + len(kept), self.lost + len(held) - len(kept)
        self.pending, self.left = {}, None
        self.is_dark.clear()


def received(link, size):
    data = b''
    while len(data) < size:
        piece = link.recv(size - len(data))
        if not piece:
            raise ConnectionError
        data += piece
    return data


def answer(link, device):
    """Answers requests until the other end has gone, or the device is dark."""
    link.sendall(MAGIC + struct.pack('>QQI', OLDEST, device.size, FLAGS) + bytes(124))
    while True:
        _, _, kind, handle, at, size = REQUEST.unpack(received(link, REQUEST.size))
        if kind == DISCONNECT or not device.answers_one_more():
            return
        if kind == WRITE:
            device.write(at, received(link, size))
        elif kind == FLUSH:
            device.flush()
        link.sendall(ANSWERED + handle + (device.read(at, size) if kind == READ else b''))


def answer_one(listener, device):
    """Serves the first who connects, and holds the connection of a dark device, as a device without power does."""
    with contextlib.suppress(OSError), listener.accept()[0] as link:
        answer(link, device)
        while link.recv(65536):
            pass


@contextlib.contextmanager
def device_at(path, device):
    """Serves a device to the one who connects to this socket."""
    with socket.socket(socket.AF_UNIX) as listener:
        listener.bind(str(path))
        listener.listen(1)
        thread = threading.Thread(target=answer_one, args=(listener, device), daemon=True)
        thread.start()
        try:
            yield
        finally:
            listener.shutdown(socket.SHUT_RDWR)
            thread.join(SECONDS)
