#!/usr/bin/env python3
"""Checks the documents against the repository. Each link leads to a file, and to a heading of it. Each path exists. Each name in
backquotes that looks like an item of the code (snake_case, CamelCase) is one that the code has, and `a::b` is defined in a. Each
other word in backquotes occurs in code, scripts or tests. No source, script or test names a document that does not exist.
So it is with files and paths that a head names: the first comment of a source or script, a docstring of Python, a remark of
crates.txt. What a head says is beside its file is there. The independent reading names no proof or definition as its source.
Prints what fails, and last 'N passed, M failed'.
Usage: tests/run links [DOCUMENT..]"""
import ast
import functools
import pathlib
import re
import subprocess
import sys

TOP = pathlib.Path(__file__).resolve().parents[2]
TRACKED = [TOP / name for name in subprocess.run(['git', 'ls-files', '-co', '--exclude-standard'], cwd=TOP, check=True,
                                                 stdout=subprocess.PIPE, text=True).stdout.split('\n') if name]
FILES = [path for path in TRACKED if path.is_file()]
DOCUMENTS = [path for path in FILES if path.suffix in ('.md', '.1')]
CODE = {path: path.read_text(errors='replace') for path in FILES if path not in DOCUMENTS}
# What defines a name: an item, a field or a variant.
DEFINES = re.compile(r'''\b(?:fn|struct|enum|trait|mod|const|type)\s+(\w+) | ^\s*(?:pub(?:\(crate\))?\s+)?(\w+)\s*:
                       | ^\s+(\w+)\s*(?:,|\{|\(.*\),)\s*(?://.*)?$ | \b(?:abbrev|unfoldable|record)\ pub\ (\w+)''', re.M | re.X)
# Words that no file here has: of the kit and what it makes, of the system, and the forms of a prefix and of what is used of a limit.
OUTSIDE = re.compile(r'rattle-kit-\w+|out/.*|/.*|man|mcc-mnc-ssi/len|U/L|N/128')
# A path that begins with a folder of the top; and the name of a file, alone or with folders before it.
PATH = r'(?<![\w/.])(?:docs|examples|tests|crates|bench|packaging|\.ci)/[\w./-]*\w'
FILE = r'(?<![\w/.*-])[\w*/-]*[\w*]\.(?:rt|antt|py|md|toml|txt|edit|sh|c|h|cpp|service)\b(?![./*])'
# How a remark begins.
REMARK = {'.rt': '//.*', '.antt': r'(?m:^| )--\s.*', '.py': '#.*|(?s:""".*?""")'}


@functools.cache
def defined(path):
    return {name for one in DEFINES.finditer(CODE[path]) for name in one.groups() if name}


@functools.cache
def names():
    """Every name that the code has, without its comments; files, folders and crates too."""
    found = {part for path in CODE for part in (path.stem, path.parent.name)}
    for path, text in CODE.items():
        if path.suffix in REMARK or path.parts[len(TOP.parts)] in ('tests', 'bench', 'crates.txt'):
            found |= set(re.findall(r'\w+', re.sub(REMARK.get(path.suffix, '#.*'), '', text)))
    return found


@functools.cache
def words():
    """Every word of the code, of its strings, and of the scripts and tests."""
    found = set()
    for text in CODE.values():
        for word in re.findall(r"[A-Za-z][\w'-]*", text):
            found |= {word, word.rstrip("-'"), *re.split(r"[-_']", word)}
    return found


def holds(owner, name):
    """Whether a file of this crate or module, or one that has this type's items, defines the name."""
    head = re.compile(rf'\b(?:impl|enum|trait|struct|mod)\b[^\n;]*\b{owner}\b')
    return any(name in defined(path) for path, text in CODE.items() if path.suffix == '.rt'
               and (owner in (path.stem, path.relative_to(TOP).parts[1], path.parent.name) or head.search(text)))


def exists(path, document):
    """Whether there is such a file, or definitions, as `identity/Path`; NAME and CRATE stand for any name."""
    path = re.sub(r'(?<![A-Za-z])(?:NAME|CRATE)(?![A-Za-z])', '*', path.removeprefix('./').rstrip('/'))
    crate, _, module = path.partition('/')
    if (TOP / 'crates' / crate / 'specs' / f'{module}.antt').exists():
        return True
    places = [TOP, TOP / 'crates', *TOP.glob('crates/*'), document.parent]
    return any(list(place.glob(path)) for place in places) or '/' not in path and any(file.name == path for file in FILES)


def is_known(word, document):
    """Whether a word in backquotes is right."""
    if re.fullmatch(r'[A-Z][A-Z0-9-]*\.{0,3}|[\W\d_]*|[0-9a-fA-F]+', word) or OUTSIDE.fullmatch(word):
        return True
    if re.fullmatch(r'[\w./-]+\.(?:rt|antt|py|md|toml|txt|edit|sh|c|1)|(?:[\w.-]+/)+[\w.-]*', word):
        return exists(word, document)
    if re.fullmatch(r'\w+(?:::\w+)+', word):
        parts = word.split('::')
        return all(holds(owner, name) for owner, name in zip(parts, parts[1:]))
    if re.fullmatch(r'[a-z][a-z0-9]*(?:_[a-z0-9]+)+_?|(?:[A-Z]+[a-z0-9]+){2,}', word):
        return word.rstrip('_') in names() or word.endswith('_') and any(name.startswith(word) for name in names())
    return all(part in words() for part in re.findall(r"[A-Za-z][A-Za-z'-]+[A-Za-z]", word))


def spans(text):
    """The words in backquotes, outside of fences, without the commands of the kit."""
    for one in re.findall(r'`([^`\n]+)`', re.sub(r'^```.*?^```', '', text, flags=re.M | re.S)):
        if not re.match('rt |#|/', one):
            yield from one.split(' ')


def headings(path):
    lines = re.findall(r'^#+ (.*)', path.read_text(), re.M)
    return {re.sub(r'[^\w -]', '', line.lower()).replace(' ', '-') for line in lines}


def leads(link, document):
    name, _, heading = link.partition('#')
    path = document.parent / name if name else document
    return path.exists() and (not heading or path.suffix == '.md' and heading in headings(path))


def judged(document):
    """Each thing that a document says of the repository, and whether it is so."""
    text = document.read_text()
    for link in re.findall(r'\]\((?!https?:)([^)\s]+)\)', text):
        yield link, leads(link, document)
    for path in re.findall(PATH, text):
        yield path, exists(path, document) or leads(path, document)
    if document.suffix == '.md':
        for word in spans(text):
            yield word, is_known(word.rstrip(',;:'), document)


def documents_named():
    """Each document that a source, a script or a test names."""
    for path, text in CODE.items():
        for name in re.findall(r'\bdocs/[\w./-]*\w\.(?:md|1)\b|\b(?:README|CONTRIBUTING)\.md\b', text):
            yield f'{name} in {path.relative_to(TOP)}', (TOP / name).exists()


def heads(path):
    """What the first comment of a source or script says, each docstring of Python, or the remarks of crates.txt."""
    text = CODE[path]
    if path == TOP / 'crates.txt':
        return re.findall(r'^# (.*)', text, re.M)
    if path.suffix in ('.rt', '.antt'):
        return re.findall(r'\A(?:(?://!?|--) ?.*\n)+', text)
    if path.suffix in ('.c', '.h', '.cpp'):
        return re.findall(r'\A(?s:/\*.*?\*/)|\A(?://.*\n)+', text)
    if path.suffix == '.py' or text.startswith('#!/usr/bin/env python3'):
        documented = (ast.Module, ast.ClassDef, ast.FunctionDef)
        return [ast.get_docstring(it) or '' for it in ast.walk(ast.parse(text)) if isinstance(it, documented)]
    return re.findall(r'\A(?:#.*\n)+', text)


def named_in_heads():
    """Each file that a head names, and each thing that it says is beside its own file."""
    for path in CODE:
        for text in heads(path):
            for name in re.findall(f'{PATH}|{FILE}', text):
                yield f'{name} in {path.relative_to(TOP)}', exists(name, path) or bool(list(path.parent.glob(name)))
            for name in re.findall(r'(\w+)\s+beside\s+this\s+file', text):
                yield f'{name} beside {path.relative_to(TOP)}', bool(list(path.parent.glob(f'{name}.*')))


def sources_of_reading():
    """Whether each file of the independent reading names documents alone."""
    for path, text in CODE.items():
        if path.parent == TOP / 'tests' / 'reading':
            yield f'a source of {path.relative_to(TOP)}', not re.search(r'docs/proofs/|\.antt\b|\bspecs/', text)


def main():
    chosen = [pathlib.Path(name).resolve() for name in sys.argv[1:]]
    cases = [(f'{document.relative_to(TOP)}: {it}', is_so) for document in chosen or DOCUMENTS for it, is_so in judged(document)]
    cases += [] if chosen else [*documents_named(), *named_in_heads(), *sources_of_reading()]
    for it in dict.fromkeys(it for it, is_so in cases if not is_so):
        print(it)
    failed = sum(not is_so for _, is_so in cases)
    print(f'{len(cases) - failed} passed, {failed} failed')
    sys.exit(1 if failed or not cases else 0)


main()
