#!/usr/bin/env python3
"""Tests the script ./tetra-switch in a copy of the repository without sources. A stand-in for `rt` writes down each call of it. The
script must build the program and all crates below it once, in as many lanes as there are processors. If that fails, the script must
end with the last messages. The test also tries words that the script does not take, `--unproved`, and `install`. Prints 'N passed, M failed' last.
Usage: tests/run script"""
import os
import pathlib
import shutil
import subprocess
import tempfile

from running import compare
from testing import Count

TOP = pathlib.Path(__file__).resolve().parents[2]
RT = """#!/usr/bin/env bash
echo "${PWD##*/} $*" >>"$LOG"
[ "$1" != "${FAILS:-}" ] || { echo 'this one fails'; exit 1; }
[ "$1" != try ] || { echo tried; echo 'fault: settings' >&2; echo 'run=ended status=3 proved=no' >&2; exit 3; }
[ "$1" != run ] || { printf '#!/bin/sh\\necho "${PWD##*/}: $*"\\n' >out/tetra_switch; chmod +x out/tetra_switch; }
"""
PROGRAM, PAGE = 'crates/tetra_switch/out/tetra_switch', 'docs/tetra-switch.1'
SAID = ['tetra-switch: proving the program and the crates below it']
BUILD = [f'tetra_switch all check --jobs {os.cpu_count()}', 'tetra_switch run --jobs 1']


class Copy:
    """A folder with the script, the manual page and a stand-in for `rt`. The script runs in its folder `desk`."""

    def __init__(self, folder):
        self.folder, self.log = pathlib.Path(folder), pathlib.Path(folder) / 'log'
        for name in 'crates/tetra_switch', 'bin', 'docs', 'desk':
            (self.folder / name).mkdir(parents=True)
        for name in 'tetra-switch', PAGE:
            shutil.copy(TOP / name, self.folder / name)
        (self.folder / 'bin/rt').write_text(RT)
        (self.folder / 'bin/rt').chmod(0o755)

    def run(self, *words, **more):
        """The script's status, output and messages, and the calls of `rt`."""
        self.log.write_text('')
        env = {**os.environ, 'PATH': f"{self.folder / 'bin'}:{os.environ['PATH']}", 'LOG': str(self.log), **more}
        ran = subprocess.run([self.folder / 'tetra-switch', *words], env=env, capture_output=True, text=True, stdin=subprocess.DEVNULL,
                             cwd=self.folder / 'desk', timeout=60)
        return ran.returncode, ran.stdout, ran.stderr.splitlines(), self.log.read_text().splitlines()


def builds(copy):
    compare('the first call', copy.run('one', 'two'), (0, 'desk: one two\n', SAID, BUILD))
    compare('a second call', copy.run('again'), (0, 'desk: again\n', [], []))


def builds_anew(copy):
    (copy.folder / 'crates/tetra_switch/newer.rt').touch()
    os.utime(copy.folder / PROGRAM, (0, 0))
    compare('a call after a change', copy.run('changed')[3], BUILD)
    (copy.folder / 'crates/tetra_switch/newer.rt').unlink()


def fails(copy):
    for call, calls in (('all', BUILD[:1]), ('run', BUILD)):
        (copy.folder / PROGRAM).unlink(missing_ok=True)
        status, out, said, called = copy.run(FAILS=call)
        compare('status, output and calls', (status, out, called), (70, '', calls))
        compare('the last lines', said[-2:], ['this one fails', 'tetra-switch: the program is not built'])


def words(copy):
    status, out, said, calls = copy.run('--help')
    compare('the help', (status, out.startswith('usage: ./tetra-switch'), said, calls), (0, True, [], []))


def tries(copy):
    """Without a proof, by a trial with these words, in which names of files are whole. Its status is the program's."""
    desk, said = copy.folder / 'desk', ['tetra-switch: this build is not proved', 'fault: settings']
    tried = {(): '', ('run', 'd.img', '/a b'): f' -- run {desk}/d.img /a b', ('show', 'd.img', 'last', '1'): f' -- show {desk}/d.img last 1',
             ('--version',): ' -- --version'}
    for words, call in tried.items():
        calls = [f'tetra_switch try --steps 1 --seconds 600{call}']
        compare(f'--unproved {words}', copy.run('--unproved', *words), (3, 'tried\n', said, calls))
    compare('no build', copy.run('--unproved', FAILS='try')[0], 70)


def below(folder):
    """The files below a folder, with their modes and bytes."""
    return {str(path.relative_to(folder)): (oct(path.stat().st_mode & 0o777), path.read_bytes()) for path in folder.rglob('*') if path.is_file()}


def installs(copy):
    """The script builds the program first. It installs below a folder that does not exist yet, and again over its own files."""
    (copy.folder / PROGRAM).unlink(missing_ok=True)
    names = 'bin/tetra-switch', 'share/man/man1/tetra-switch.1'
    told = ''.join(f'new/place/{name}\n' for name in names)
    compare('the first call', copy.run('install', 'new/place'), (0, told, SAID, BUILD))
    wanted = dict(zip(names, [('0o755', (copy.folder / PROGRAM).read_bytes()), ('0o644', (copy.folder / PAGE).read_bytes())]))
    compare('files', below(copy.folder / 'desk'), {f'new/place/{name}': it for name, it in wanted.items()})
    (copy.folder / 'desk/new/place' / names[1]).write_text('older')
    compare('a second call', copy.run('install', 'new/place/'), (0, told, [], []))
    compare('files, again', below(copy.folder / 'desk/new/place'), wanted)
    shutil.rmtree(copy.folder / 'desk/new')


def does_not_install(copy):
    """The script installs nothing for other words, below a name that is no folder, or if the program could not be built."""
    said = 'tetra-switch: install takes one other word, the folder below which bin/ and share/ are'
    (copy.folder / 'bin/install').symlink_to(shutil.which('false'))
    for words in [], [''], ['--prefix=x'], ['one', 'two']:
        compare(f'{words}', copy.run('install', *words), (2, '', [said], []))
    (copy.folder / 'bin/install').unlink()
    compare('the help', copy.run('install', '--help'), copy.run('--help'))
    (copy.folder / 'taken').mkdir()
    (copy.folder / 'taken/share').touch()
    for place in '../log', '../taken':
        status, out, told, calls = copy.run('install', place)
        compare(f'below {place}', (status, out, told[1:], calls), (4, '', [f'tetra-switch: not installed below {place}'], []))
    (copy.folder / PROGRAM).unlink()
    compare('status and output', copy.run('install', 'place', FAILS='run')[:2], (70, ''))
    compare('files', below(copy.folder / 'desk'), {})


def main():
    count = Count()
    with tempfile.TemporaryDirectory() as folder:
        copy = Copy(folder)
        for case in (builds, builds_anew, fails, words, tries, installs, does_not_install):
            count.case(case.__name__, case, copy)
    count.end()


main()
