#!/usr/bin/env python3
"""Checks that what must be believed is separate from what only helps. No definition of a crate's specs/ cites one of its
own or another crate's specs/Inside/, except from within specs/Inside/. No clause of a public function or of a trait
cites one either; a function of a private module that lib.rt does not export is not public. Each definition of specs/ has a comment line above it, which says it in words. There are cases for
each crate with definitions. Prints the cases that fail, and last 'N passed, M failed'.
Usage: tests/run inside"""
import pathlib
import re

from running import Differs
from testing import Count

CRATES = pathlib.Path(__file__).resolve().parents[2] / 'crates'
NAME = re.compile(r"[A-Za-z_][\w'-]*")
IMPORT = re.compile(r'use Rattle\.\w+\.specs\.(?P<module>[A-Z][\w.]*?)\.\{(?P<names>[^}]*)\}')
# The head of a public function, and a public trait, up to the line on which its body or it ends.
PUBLIC = re.compile(r'^(?P<indent> *)(?:pub fn .*?(?:^(?P=indent)\{|\{\}$|;$)|pub trait .*?^(?P=indent)\})', re.M | re.S)
# The head of a definition.
DEFINED = re.compile(r'\s*(?:(?:(?:unfoldable|abbrev|mutual) )+pub |pub record )')
# How the names of crates begin that only tests and benchmarks need: what these say is no promise.
NO_PROMISE = ('bench_', 'probe_')


def helpers(text):
    """The names that a text has from specs/Inside/."""
    found = set()
    for one in IMPORT.finditer(text):
        if one['module'].split('.')[0] == 'Inside':
            found.update(name.split(' as ')[-1].strip() for name in one['names'].split(','))
    return found


def kept_in(crate, path):
    """Whether a free function of this source can't be reached from other crates, by its name."""
    text = (crate / 'src/lib.rt').read_text() if (crate / 'src/lib.rt').is_file() else ''
    is_private = re.search(rf'^mod {path.relative_to(crate / "src").parts[0].removesuffix(".rt")};', text, re.M)
    exported = {name for one in re.findall(r'^pub use ([^;]*);', text, re.M) for name in NAME.findall(one)}
    return lambda name: bool(is_private) and name not in exported


def clauses(text, is_kept):
    """The clauses of the public functions and traits of a source."""
    for one in PUBLIC.finditer(text):
        at, free = re.search(r'\b(?:requires|ensures)\b', one[0]), re.match(r'pub fn (\w+)', one[0])
        if at and not (free and is_kept(free[1])):
            yield one[0][at.start():]


def judge(crate):
    for path in sorted((crate / 'specs').rglob('*.antt')):
        if path.parent.name != 'Inside' and helpers(path.read_text()):
            raise Differs(f'{path.relative_to(CRATES)} cites {sorted(helpers(path.read_text()))}')
    for path in sorted((crate / 'src').rglob('*.rt')):
        text = path.read_text()
        for clause in clauses(text, kept_in(crate, path)):
            cited = helpers(text) & set(NAME.findall(clause))
            if cited:
                raise Differs(f'{path.relative_to(CRATES)}: a public clause cites {sorted(cited)}')


def worded(crate):
    for path in sorted((crate / 'specs').rglob('*.antt')):
        lines = path.read_text().split('\n')
        for above, line in zip([''] + lines, lines):
            if DEFINED.match(line) and not above.lstrip().startswith('-- '):
                raise Differs(f'{path.relative_to(CRATES)} has no words above: {line.strip()}')


def main():
    count = Count()
    for crate in sorted(CRATES.iterdir()):
        if (crate / 'specs').is_dir():
            count.case(f'{crate.name}, in words', worded, crate)
        if (crate / 'specs').is_dir() and not crate.name.endswith('_tests') and not crate.name.startswith(NO_PROMISE):
            count.case(crate.name, judge, crate)
    count.end()


main()
