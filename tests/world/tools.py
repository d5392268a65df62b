"""Tools of the system, which may take their time."""
import os
import subprocess

from running import said

os.environ['PATH'] += ':/usr/sbin:/sbin'
SECONDS = 600


def ran(*command, **how):
    """What a command prints, which has to succeed."""
    return said(0, *command, **{'timeout': SECONDS, **how})[0]


def tried(*command, **how):
    """A command that may fail."""
    how = {'stdin': subprocess.DEVNULL, 'capture_output': True, 'timeout': SECONDS, **how}
    return subprocess.run([str(word) for word in command], **how)
