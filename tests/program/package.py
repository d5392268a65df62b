#!/usr/bin/env python3
"""Makes the Debian package of the built program with packaging/build, and checks it: its files, modes and control fields; that each
build gives the same bytes; the user that it creates, installed into a root of its own; its manual page and unit. The program in it
makes a disk with its sample settings and answers the lines of examples/. A case whose tool is not installed is left out, and the test
prints so. Prints the first cases that fail, and last 'N passed, M failed'.
Usage: tests/run package PROGRAM (the program itself, not a script that starts it)"""
import gzip
import io
import os
import pathlib
import re
import shutil
import subprocess
import tarfile
import tempfile

from disk_files import DISK, SECTORS, place
from program import ANSWERS, EXAMPLE, TOP
from running import compare, said
from testing import Count, options

BUILD, TIME = 'packaging/build', 1_000_000_000
PROGRAM, USER, PAGE = 'usr/bin/tetra-switch', 'usr/lib/sysusers.d/tetra-switch.conf', 'usr/share/man/man1/tetra-switch.1.gz'
DESK, DOCUMENTS, UNITS = f'{PROGRAM}-desk', 'usr/share/doc/tetra-switch', 'usr/lib/systemd/system'
SETTINGS, CHANGES, COPYRIGHT = (f'{DOCUMENTS}/{name}' for name in ('examples/settings.toml', 'changelog.gz', 'copyright'))
EXAMPLES = 'desk.py', 'forget.py', 'backup.sh', 'serve.sh', 'serve_socat.sh', 'tetra-switch-standby.service'
PAGES = 'operate.md', 'decisions.md', 'assumptions.md', 'glossary.md', *(f'formats/{name}.md' for name in ('lines', 'pdus', 'disk', 'text'))
# Where a link of a page leads, and those that only the sources have
LINK, SOURCES = re.compile(r'\]\(([^)#]+)'), ('/crates/', '/proofs/')
# Files that are as in the repository, and packed ones
SAME = {DESK: 'examples/desk.py', SETTINGS: 'examples/settings.toml', USER: 'packaging/sysusers.conf', COPYRIGHT: 'packaging/copyright',
        **{f'{DOCUMENTS}/examples/{name}': f'examples/{name}' for name in EXAMPLES},
        **{f'{DOCUMENTS}/docs/{name}': f'docs/{name}' for name in PAGES}}
PACKED = {PAGE: 'docs/tetra-switch.1', CHANGES: 'packaging/changelog'}
# Units, of which each names the program or the desk once
UNIT_NAMES = [f'tetra-switch{name}' for name in ('.service', '-expire.service', '-expire.timer')]
STARTED = dict(zip(UNIT_NAMES, [[b'/bin/tetra-switch'], [b'/bin/tetra-switch-desk'], []]))
KINDS = {tarfile.DIRTYPE: 'folder', tarfile.REGTYPE: 'file'}
MODES = {**{name: 0o644 for name in (*SAME, *PACKED, *(f'{UNITS}/{name}' for name in UNIT_NAMES))}, PROGRAM: 0o755, DESK: 0o755}


def below(folder):
    """The files below a folder, with their modes."""
    return {str(path.relative_to(folder)): path.stat().st_mode & 0o777 for path in folder.rglob('*') if path.is_file()}


class Package:
    """The package of a program, made in a folder, and a root that it is unpacked into."""

    def __init__(self, program, folder):
        self.program, self.folder = pathlib.Path(program).resolve(), pathlib.Path(folder)
        self.version = said(0, self.program, '--version')[0].split()[1].decode()
        self.made, self.root = self.folder / f'tetra-switch_{self.version}_amd64.deb', self.folder / 'root'

    def build(self, status, *words, top=TOP, umask=0, **more):
        """Runs the packaging script of a repository. A variable that is None is not set."""
        env = {**os.environ, 'SOURCE_DATE_EPOCH': str(TIME), **more}
        env = {name: value for name, value in env.items() if value is not None}
        return said(status, top / BUILD, *words, preexec_fn=lambda: os.umask(umask), env=env)

    def bytes(self, name):
        return (self.root / name).read_bytes()

    def entries(self, part):
        """Each file and folder of an archive in it: its kind, mode, owner, group and time."""
        with tarfile.open(fileobj=io.BytesIO(said(0, 'dpkg-deb', part, self.made)[0])) as archive:
            return {os.path.normpath(one.name): (KINDS.get(one.type), oct(one.mode), one.uid, one.gid, one.mtime) for one in archive}


# The script

def takes_no_other_words(package):
    usage = package.build(0, '--help')
    compare('the help', (usage[0].startswith(b'usage: packaging/build FOLDER'), usage[1]), (True, b''))
    for words in [], ['', '', ''], ['--help', '', '']:
        compare(f'{words}', package.build(2, *words), usage[::-1])


def needs_dpkg_deb(package):
    tools = package.folder / 'tools'
    tools.mkdir()
    for name in 'bash', 'dirname', 'readlink':
        (tools / name).symlink_to(shutil.which(name))
    told = package.build(1, package.folder, package.program, PATH=str(tools))
    compare('without dpkg-deb', told, (b'', b'packaging/build: dpkg-deb is not installed\n'))


def builds(package):
    compare('its name', package.build(0, package.folder, package.program), (f'{package.made}\n'.encode(), b''))
    said(0, 'dpkg-deb', '--extract', package.made, package.root)


def refuses(package):
    """The script refuses a name that is no folder, no file or not the built program. It makes nothing."""
    script, empty = package.folder / 'script', package.folder / 'empty'
    empty.mkdir()
    script.write_text('#!/bin/sh\necho tetra-switch 0.1.0 ""\n')
    script.chmod(0o755)
    for words, fault in [((script, package.program), f'there is no folder {script}'), ((empty, script / 'no'), f"there is no file {script / 'no'}"),
                         ((empty, script), f'{script} is not the built program'), ((empty, shutil.which('true')), ' is not the built program')]:
        out, err = package.build(1, *words)
        compare(f'{words}', (out, err.startswith(b'packaging/build: '), err.decode().endswith(f'{fault}\n')), (b'', True, True))
    out, err = package.build(1, empty, package.program, SOURCE_DATE_EPOCH=None, GIT_DIR=str(empty))
    compare('without a time', (out, err.splitlines()[-1]), (b'', b'packaging/build: there is no commit: set SOURCE_DATE_EPOCH'))
    compare('files', os.listdir(empty), [])


def builds_the_same_again(package):
    """A copy elsewhere gives the same bytes: nobody else may read its files, its own program is built, and the time is that of a commit."""
    top = package.folder / 'copy'
    for name in {'tetra-switch', *SAME.values(), *PACKED.values(), *(f'packaging/{one.name}' for one in (TOP / 'packaging').iterdir())}:
        (top / name).parent.mkdir(parents=True, exist_ok=True)
        shutil.copy(TOP / name, top / name)
        (top / name).chmod((top / name).stat().st_mode & 0o700)
    (top / 'crates/tetra_switch/out').mkdir(parents=True)
    shutil.copy(package.program, top / 'crates/tetra_switch/out/tetra_switch')
    said(0, 'git', 'init', '-q', top)
    commit = 'git', '-C', top, '-c', 'user.name=one', '-c', 'user.email=one', 'commit', '-q', '--allow-empty', '-m', 'one'
    said(0, *commit, env={**os.environ, 'GIT_COMMITTER_DATE': f'{TIME} +0000'})
    told = package.build(0, top, top=top, umask=0o077, TZ='Asia/Tokyo', SOURCE_DATE_EPOCH=None)
    compare('another name', told, (f'{top / package.made.name}\n'.encode(), b''))
    compare('the same bytes', (top / package.made.name).read_bytes() == package.made.read_bytes(), True)


def needs_the_newest_library(package):
    """The package depends on the newest C library that a program names."""
    folder, program = package.folder / 'newer', package.folder / 'newer/program'
    folder.mkdir()
    program.write_bytes(package.program.read_bytes() + b'\n# GLIBC_2.9 GLIBC_2.100 GLIBC_2.11\n')
    program.chmod(0o755)
    made = package.build(0, folder, program)[0].decode().rstrip()
    compare('the C library', b'libc6 (>= 2.100)' in said(0, 'dpkg-deb', '--field', made, 'Depends')[0], True)


# What is in it

def has_these_files(package):
    folders = {str(folder) for name in MODES for folder in pathlib.PurePath(name).parents}
    wanted = {**{name: ('folder', 0o755) for name in folders}, **{name: ('file', mode) for name, mode in MODES.items()}}
    compare('files', package.entries('--fsys-tarfile'), {name: (kind, oct(mode), 0, 0, TIME) for name, (kind, mode) in wanted.items()})
    compare('unpacked', below(package.root), MODES)
    compare('the program', package.bytes(PROGRAM) == package.program.read_bytes(), True)
    for name, path in SAME.items():
        compare(name, package.bytes(name) == (TOP / path).read_bytes(), True)
    for name, path in PACKED.items():
        compare(f'a name or time within {name}', package.bytes(name)[3:8], bytes(5))
        compare(name, gzip.decompress(package.bytes(name)) == (TOP / path).read_bytes(), True)
    for name in UNIT_NAMES:
        unit = (TOP / 'packaging' / name).read_bytes()
        compare(name, package.bytes(f'{UNITS}/{name}'), unit.replace(b'/usr/local/bin/', b'/usr/bin/'))
        compare(f'what {name} starts', re.findall(rb'^[^#\n]*(/bin/tetra-switch\S*)', package.bytes(f'{UNITS}/{name}'), re.M), STARTED[name])


def links_lead_to_files(package):
    """Each link of a page leads to a file of the package, but for those that only the sources have."""
    pages = [package.root / DOCUMENTS / 'docs' / name for name in PAGES]
    links = [(page, link) for page in pages for link in LINK.findall(page.read_text()) if '://' not in link and not any(it in f'/{link}' for it in SOURCES)]
    compare('lost links', [f'{page.name}: {link}' for page, link in links if not (page.parent / link).is_file()], [])
    compare('there are links', len(links) > len(PAGES), True)


def says_whose_it_is(package):
    """The changelog begins with this version; the copyright has an owner and says that no licence is chosen."""
    told = said(0, 'dpkg-parsechangelog', '-l', TOP / 'packaging/changelog', '-S', 'Version')[0].decode().strip()
    compare('the version of the changelog', told, package.version)
    whose = package.bytes(COPYRIGHT).decode()
    compare('the copyright', re.findall(r'^Copyright: (.*)$', whose, re.M), ['2026 Yabbymatte maintainers'])
    compare('no licence', 'No licence has been chosen yet' in whose, True)


def has_these_fields(package):
    """The control fields, and one script, which creates the user."""
    libc = max(map(int, re.findall(rb'GLIBC_2\.(\d+)', package.program.read_bytes())))
    names = 'Package', 'Version', 'Architecture', 'Depends'
    told = said(0, 'dpkg-deb', '--show', '--showformat=' + ''.join(f'${{{name}}}\n' for name in names), package.made)[0]
    needs = f'libc6 (>= 2.{libc}), python3 (>= 3.8), systemd | systemd-standalone-sysusers'
    compare('fields', told.decode().splitlines(), ['tetra-switch', package.version, 'amd64', needs])
    control = {'.': ('folder', '0o755'), 'control': ('file', '0o644'), 'postinst': ('file', '0o755')}
    compare('control files', package.entries('--ctrl-tarfile'), {name: (*it, 0, 0, TIME) for name, it in control.items()})


def guard(package, root):
    """A folder for PATH, whose systemd-sysusers touches no other root than this one."""
    command = package.folder / 'guard/systemd-sysusers'
    command.parent.mkdir()
    command.write_text(f'#!/bin/sh\ncase $1 in --root={root}) exec {shutil.which(command.name)} "$@" ;; esac\nexit 1\n')
    command.chmod(0o755)
    return command.parent


def installs(package):
    """The package installs its files and creates the user, also over itself. The user stays when it is removed."""
    root, before = package.folder / 'installed', pathlib.Path('/etc/passwd').read_bytes()
    for name in 'etc', 'var/lib/dpkg/updates', 'var/lib/dpkg/info':
        (root / name).mkdir(parents=True)
    (root / 'var/lib/dpkg/status').touch()
    how = [f'--root={root}', '--log=/dev/null', '--path-include=*', *(f'--force-{it}' for it in ('not-root', 'depends', 'script-chrootless'))]
    env = {**os.environ, 'PATH': f"{guard(package, root)}:{os.environ['PATH']}:/usr/sbin:/sbin"}
    for words, files in (['--install', package.made], MODES), (['--install', package.made], MODES), (['--remove', 'tetra-switch'], {}):
        said(0, 'dpkg', *how, *words, env=env)
        found = {name: mode for name, mode in below(root).items() if not name.startswith(('etc/', 'var/lib/dpkg/'))}
        compare(f'files after {words[0]}', found, files)
        compare('what the user is kept in', set(os.listdir(root / 'etc')) - {'passwd', 'group', 'shadow', 'gshadow', '.pwd.lock'}, set())
        users = [line.split(':') for line in (root / 'etc/passwd').read_text().splitlines()]
        compare('users', [(user[0], *user[5:]) for user in users], [('tetra-switch', '/var/lib/tetra-switch', '/usr/sbin/nologin')])
    compare('the users of this machine', pathlib.Path('/etc/passwd').read_bytes() == before, True)


# What it does

def answers(package):
    with place([package.root / PROGRAM]) as there:
        there.gives(['format', package.root / SETTINGS, DISK], 0, f'formatted {SECTORS} sectors\n'.encode())
        there.gives(['serve', DISK], 0, ANSWERS, stdin=subprocess.PIPE, data=EXAMPLE)
        compare('the desk', said(0, package.root / DESK, '--help')[0].startswith(b'usage: tetra-switch-desk '), True)


def page_is_shown(package):
    out, err = said(0, 'man', '--warnings', '-E', 'UTF-8', '-l', package.root / PAGE)
    compare('the manual page', (b'location register and message centre' in out, err), (True, b''))


def page_is_well_formed(package):
    page = package.folder / 'page.1'
    page.write_bytes(gzip.decompress(package.bytes(PAGE)))
    compare('groff', said(0, 'groff', '-man', '-ww', '-z', '-Tutf8', page), (b'', b''))


def units_are_verified(package):
    """The desk that they start is that of the package."""
    folder = package.folder / 'units'
    folder.mkdir()
    for name in UNIT_NAMES:
        (folder / name).write_text(package.bytes(f'{UNITS}/{name}').decode().replace(f'/{DESK}', str(package.root / DESK)))
    compare('systemd-analyze verify', said(0, 'systemd-analyze', 'verify', '--man=no', *(folder / name for name in UNIT_NAMES)), (b'', b''))


# All cases, each with the tools that it needs

CASES = [
    (takes_no_other_words,), (needs_dpkg_deb,), (builds, 'dpkg-deb'), (refuses, 'dpkg-deb'), (builds_the_same_again, 'dpkg-deb', 'git'),
    (needs_the_newest_library, 'dpkg-deb'), (has_these_files, 'dpkg-deb'), (links_lead_to_files, 'dpkg-deb'),
    (says_whose_it_is, 'dpkg-deb', 'dpkg-parsechangelog'), (has_these_fields, 'dpkg-deb'), (installs, 'dpkg-deb', 'dpkg', 'systemd-sysusers'),
    (answers, 'dpkg-deb'), (page_is_shown, 'dpkg-deb', 'man'), (page_is_well_formed, 'dpkg-deb', 'groff'), (units_are_verified, 'dpkg-deb', 'systemd-analyze'),
]


def main():
    words, count = options(__doc__), Count()
    with tempfile.TemporaryDirectory() as folder:
        package = Package(words.program[0], folder)
        for case, *needed in CASES:
            if count.has(case.__name__, *needed):
                count.case(case.__name__, case, package)
    count.end()


main()
