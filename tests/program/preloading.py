"""C files compiled and preloaded into a program, in place of calls of the C library."""
import contextlib
import os
import subprocess
import tempfile


@contextlib.contextmanager
def library(source):
    """The compiled file, for as long as it is used."""
    with tempfile.TemporaryDirectory() as folder:
        made = f'{folder}/preloaded.so'
        subprocess.run([os.environ.get('CC', 'cc'), '-O2', '-shared', '-fPIC', '-o', made, source], check=True)
        yield made


def environment(made, **values):
    """The environment in which a program is started with that file, and with these values for it."""
    return dict(os.environ, LD_PRELOAD=made, **{name: str(value) for name, value in values.items()})
