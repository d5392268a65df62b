"""The program run once, and all that it does compared with what it has to do."""
import contextlib
import subprocess

SECONDS = 20


class Differs(Exception):
    """What the program did, and what it had to do."""


def compare(what, got, wanted):
    if got != wanted:
        show = [value[:200] if isinstance(value, bytes) else value for value in (got, wanted)]
        raise Differs(f'{what} {show[0]!r}, wanted {show[1]!r}')


@contextlib.contextmanager
def started(command, **how):
    """The program, ended in any case."""
    with subprocess.Popen(command, stderr=subprocess.PIPE, **how) as program:
        try:
            yield program
        finally:
            program.kill()


def ends(program, status, err=b''):
    """Waits for the end, and returns what is left of the output."""
    out, said = program.communicate(timeout=SECONDS)
    compare('standard error', said, err)
    compare('status', program.returncode, status)
    return out


def gives(command, status, out=b'', err=b'', data=b'', **how):
    """Runs the program on this input, or on the standard streams given, and compares all that it does."""
    how = {'stdin': subprocess.PIPE, 'stdout': subprocess.PIPE, **how}
    with started(command, **how) as program:
        if how['stdin'] == subprocess.PIPE:
            with contextlib.suppress(BrokenPipeError), program.stdin as text:
                text.write(data)
            program.stdin = None
        got = ends(program, status, err)
        if how['stdout'] == subprocess.PIPE:
            compare('output', got, out)


def said(status, *command, **how):
    """What a command writes to standard output and to standard error. It must end with this status."""
    how = {'stdin': subprocess.DEVNULL, 'timeout': SECONDS, **how}
    done = subprocess.run([str(word) for word in command], capture_output=True, **how)
    compare(f'status of {command} {done.stderr}', done.returncode, status)
    return done.stdout, done.stderr
