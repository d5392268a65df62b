"""Three nodes on this machine, each a network and a mount namespace of its own, joined by a bridge. A GlusterFS volume has a copy on each."""
import contextlib
import os
import pathlib
import shutil
import signal
import subprocess
import time

from running import Differs, compare
from tools import SECONDS, ran, tried

NODES = 1, 2, 3
TOOLS = 'ip', 'unshare', 'nsenter', 'mount', 'glusterd', 'gluster', 'glusterfs'
VOLUME, BRICK = 'registers', 'copy'
# What glusterd starts many times at first, for copies to other places. There are none here, so this is enough of it.
COPIER, AS_COPIER = '/usr/lib/x86_64-linux-gnu/glusterfs/gsyncd', '#!/bin/sh\necho gsyncd\n'
# What a volume needs that holds a register
SETTINGS = {
    'cluster.quorum-type': 'auto', 'network.ping-timeout': 5, 'server.tcp-user-timeout': 5, 'client.strict-locks': 'on',
    **{f'performance.{name}': 'off' for name in ('write-behind', 'flush-behind', 'open-behind', 'quick-read', 'io-cache', 'read-ahead', 'stat-prefetch')}}
BEGIN = '''mount --bind {own}/lib /var/lib/glusterd && mount --bind {own}/log /var/log/glusterfs && mount --bind {own}/brick {room}/brick &&
mount -t tmpfs tmpfs /run && mkdir /run/gluster /run/lock && mount --bind {room}/copier {copier} && echo $$ > {own}/holder && exec sleep infinity'''


def address(node):
    return f'10.99.0.{node}'


class Nodes:
    """The nodes below a folder."""

    def __init__(self, room):
        self.room, self.name = pathlib.Path(room), f'tetra{os.getpid()}'
        self.bridge, self.holders = f'{self.name}-0', {}

    def netns(self, node):
        return f'{self.name}-{node}'

    def own(self, node, name=''):
        return self.room / f'node.{node}' / name

    def disk(self, node, name='d.img'):
        """A file of the volume, as a node has it."""
        return self.own(node, 'volume') / name

    def up(self):
        (self.room / 'brick').mkdir()
        (self.room / 'copier').write_text(AS_COPIER)
        (self.room / 'copier').chmod(0o755)
        ran('ip', 'netns', 'add', self.bridge)
        ran('ip', '-n', self.bridge, 'link', 'add', 'bridge', 'type', 'bridge')
        ran('ip', '-n', self.bridge, 'link', 'set', 'bridge', 'up')
        for node in NODES:
            for name in 'lib', 'log', 'brick', 'volume':
                self.own(node, name).mkdir(parents=True)
            net, port = self.netns(node), f'port{node}'
            ran('ip', 'netns', 'add', net)
            ran('ip', '-n', net, 'link', 'add', 'net', 'type', 'veth', 'peer', 'name', port, 'netns', self.bridge)
            ran('ip', '-n', self.bridge, 'link', 'set', port, 'master', 'bridge', 'up')
            ran('ip', '-n', net, 'addr', 'add', f'{address(node)}/24', 'dev', 'net')
            ran('ip', '-n', net, 'link', 'set', 'lo', 'up')
            self.start(node)

    def start(self, node):
        """The power of a node is on."""
        self.own(node, 'holder').unlink(missing_ok=True)
        command = BEGIN.format(own=self.own(node), room=self.room, copier=COPIER)
        how = {'stdin': subprocess.DEVNULL, 'stdout': subprocess.DEVNULL, 'stderr': subprocess.DEVNULL}
        words = ['ip', 'netns', 'exec', self.netns(node), 'unshare', '--mount', '--propagation', 'private', 'sh', '-c', command]
        self.holders[node] = subprocess.Popen(words, **how)
        self.waits(f'node {node} starts', lambda: self.own(node, 'holder').exists() and self.own(node, 'holder').read_text().endswith('\n'))
        self.link(node, 'up')
        self.run(node, 'glusterd', **{**how, 'capture_output': False})

    def waits(self, what, is_there):
        until = time.monotonic() + SECONDS
        while not is_there():
            if time.monotonic() > until:
                raise Differs(what)
            time.sleep(0.2)

    def words(self, node, *command):
        """A command as it is run on a node."""
        return [shutil.which('nsenter'), '--target', self.own(node, 'holder').read_text().strip(), '--net', '--mount', '--', *command]

    def run(self, node, *command, **how):
        return tried(*self.words(node, *command), **how)

    def gluster(self, *words):
        return self.run(NODES[0], 'gluster', '--mode=script', *words)

    def link(self, node, state):
        ran('ip', '-n', self.netns(node), 'link', 'set', 'net', state)

    def has_volume(self):
        for node in NODES[1:]:
            self.waits(f'node {node} joins', lambda: self.gluster('peer', 'probe', address(node)).returncode == 0)
        bricks = [f'{address(node)}:{self.room}/brick/{BRICK}' for node in NODES]
        self.waits('the volume is made', lambda: self.gluster('volume', 'create', VOLUME, 'replica', len(NODES), *bricks, 'force').returncode == 0)
        for name, value in SETTINGS.items():
            self.set(name, value)
        self.gluster('volume', 'start', VOLUME)
        for node in NODES:
            self.mount(node)

    def set(self, name, value):
        done = self.gluster('volume', 'set', VOLUME, name, value)
        compare(f'volume set {name} {value} {done.stderr}', done.returncode, 0)

    def mount(self, node):
        words = 'mount', '-t', 'glusterfs', f'{address(node)}:/{VOLUME}', self.own(node, 'volume')
        self.waits(f'node {node} mounts the volume', lambda: self.run(node, *words).returncode == 0)

    def processes(self, node):
        return [int(word) for word in tried('ip', 'netns', 'pids', self.netns(node)).stdout.split()]

    def cut_power(self, node):
        """Its network goes at once, and then all its processes."""
        self.link(node, 'down')
        self.waits(f'node {node} ends', lambda: self.has_killed_all(node))
        self.holders[node].wait()

    def has_killed_all(self, node):
        """Whether no process was left to kill."""
        left = self.processes(node)
        for process in left:
            with contextlib.suppress(ProcessLookupError):
                os.kill(process, signal.SIGKILL)
        return not left

    def is_whole(self):
        """Whether no copy lacks anything."""
        return self.gluster('volume', 'heal', VOLUME, 'info').stdout.count(b'Number of entries: 0\n') == len(NODES)

    def copies(self, name='d.img'):
        return {(self.own(node, 'brick') / BRICK / name).read_bytes() for node in NODES}

    def down(self):
        for node in NODES:
            if node in self.holders:
                with contextlib.suppress(Differs):
                    self.cut_power(node)
            tried('ip', 'netns', 'del', self.netns(node))
        tried('ip', 'netns', 'del', self.bridge)


@contextlib.contextmanager
def nodes(room):
    made = Nodes(room)
    try:
        made.up()
        yield made
    finally:
        made.down()
