#!/usr/bin/env python3
"""Tries wrong bodies in batches: the prover must refuse each edit of crates/NAME/wrong-bodies/*.edit.

Usage: tests/run wrong_bodies [--all] [--kept] [--proved] [CRATE..]    at the top of the repository; the last line is 'N passed, M failed'

Why: `rt must-fail` plants one edit a check, and each check reads all libraries anew and judges again what depends on the changed
function. Here many edits, each in the body of another function, are planted in one copy of their crate, and one check
(--allow-holes, --only each function) goes on after each refusal. The files have the form of must-fail edits (`rt help`); a line
'only: NAME' names the function whose proof has to refuse an edit that is in no function's body.

A verdict is kept: tests/refused_edits.txt has a line for each crate whose edits were all refused, with a sum over what these verdicts
depend on: the crate's own text and edits, what it sees of the crates below it, the kit's logic, and this script. It sees their public
interface, their definitions (of specs/Inside/ those that these need), and the statements of the lemmas that any crate above names; it sees no
body, private function or constant, no import, and no proof of a lemma. So a private change below leaves a verdict as it is.
A crate whose sum is there is not tried again; --all tries every crate, and so does naming them. The script writes the file.

--proved says that `rt ci` has just proved these crates, unchanged. Without it each is proved first, for the edited functions.
--kept starts from the work in out/, which is quick but trusts it: no verdict is then kept. RT_JOBS says how many crates are tried at a time.

Why 'refused' is never said of an edit whose function is still proved:
 1. The unchanged crate is proved, by `rt ci` or first thing here.
 2. Only edits whole within bodies of plain functions share a check (no const fn, no cycle of calls), so contracts, types, constants
    and specs/ stay, and a goal is made of its own function's body and others' contracts. No two edits change one function. A plain
    function that a check doesn't ask for has a hole for its proof there, and, in no cycle of calls, `unreachable!()` for its body:
    it was proved in 1, and only its contract is used.
 3. Refused is only what has a goal of its own refused, by the line of its own function or of a closure within it: `search` did not
    prove it, or its own proof folder's answer is refused, and not for a name that is gone. 'It calls .., not proved' does not count.
 4. A batch where a function that it does not touch has such a line, or antt could not read a text, says nothing, and is halved.
    (Not so where that line names an edited function's answers alone: it says no more than that function's own.)
 5. The rest is tried alone, by the function that `rt must-fail` calls, so an edit fails here only where it fails there.
"""
import collections
import functools
import hashlib
import os
import re
import shutil
import subprocess
import sys
import tempfile
from concurrent.futures import ThreadPoolExecutor

import kit
from kit import bodies, rt, rtlib

MOST, FLAGS = 60, ["--jobs", "1"]
FOLDER, VERDICTS = "wrong-bodies", "tests/refused_edits.txt"
GONE = re.compile(r"has no field|is not in scope|has no `|was not admitted")
named = bodies.named
Edit = collections.namedtuple("Edit", "file texts functions lines is_shared")


class Source(bodies.Source):
    """A crate's functions, its tokens kept."""

    def __init__(self, folder):
        super().__init__(folder)
        self.rows = {}

    def tokens(self, file):
        if file not in self.rows:
            self.rows[file] = super().tokens(file)
        return self.rows[file]


@functools.lru_cache(None)
def source_in(folder, is_program):
    source = Source(folder)
    source.read(f"src/{'main' if is_program else 'lib'}.rt")
    return source


def source_of(crate):
    return source_in(crate.folder, crate.is_program)


def is_constant(source, f):
    return b"const fn" in source.data[f.file][f.first : f.opens]


# What a verdict depends on.


def definitions(text):
    """Returns the text of an .antt file without its comments."""
    return "\n".join(line.rstrip() for line in text.split("\n") if not line.lstrip().startswith("--"))


def hidden_in(source, file):
    """Returns the places of a source that no crate above sees: bodies, attributes, and functions that are neither public nor a trait's."""
    hidden = []
    for f in source.functions:
        if f.file == file and f.has_body and not is_constant(source, f):
            head = source.data[file].find(b"pub", f.first, f.start)
            hidden += [(f.first - 1, f.start if head < 0 else head), (f.opens, f.end)] if f.is_pub or f.in_trait else [(f.first - 1, f.end)]
    return hidden


def end_of(rows, at):
    """Returns the place of the `;` that ends the item from this place on."""
    depth = 0
    while rows[at][4] != ";" or depth:
        depth += (rows[at][4] in ("(", "[", "{")) - (rows[at][4] in (")", "]", "}"))
        at += 1
    return at


def items_of(rows):
    """Yields the items `use`, `ghost use` and private constants, and the rest token by token: a kind, and texts. Private `mod` is left out."""
    at = 0
    while at < len(rows):
        text, kind = rows[at][4], rows[at][3]
        if (text, kind) == ("mod", "Code") and rows[at + 2][4] == ";" and (not at or rows[at - 1][4] != "pub"):
            at += 3
            continue
        is_public = at and rows[at - 1][4] == "pub"
        is_ghost = text == "ghost" and at + 1 < len(rows) and rows[at + 1][4] == "use"
        is_constant = (text, kind) in (("const", "Code"), ("static", "Code")) and rows[at + 2][4] == ":" and not is_public
        if not is_ghost and not is_constant and (text, kind) != ("use", "Code"):
            yield "token", [text]
            at += 1
            continue
        end = end_of(rows, at)
        yield "ghost" if is_ghost else "constant" if is_constant else "token" if is_public else "import", [row[4] for row in rows[at : end + 1]]
        at = end + 1


def used_names(words, rest):
    """Returns the module and the names of a `ghost use`, those alone that the rest of the source has."""
    text = "".join(f" {it} " if it == "as" else it for it in words[2:-1])
    module, _, names = text.partition(".{")
    there = lambda name: all(part in rest for part in name.split(" as ")[-1].split("◌"))
    kept = [it for it in names.rstrip("}").split(",") if there(it)] if names else [""] * there(module.split(".")[-1])
    return f"{module} {' '.join(kept)}" if any(kept) or not names and kept else ""


def seen_source(source, file):
    """Returns what the crates above see of a source: no comments, tests, bodies, private functions, imports of code and unused names."""
    hidden, (rows, _) = hidden_in(source, file), source.tokens(file)
    shown = [row for row in rows if row[3] in ("Code", "Literal", "Head", "Antt") and not row[4].startswith("//") and not any(a < row[1] < b for a, b in hidden)]
    items = [*items_of(shown)]
    rest = " ".join(text for kind, texts in items if kind == "token" for text in texts)
    ghosts = [it for kind, texts in items if kind == "ghost" for it in [used_names(texts, rest)] if it]
    constants = [" ".join(texts) for kind, texts in items if kind == "constant" and texts[1] in " ".join([*ghosts, rest])]
    return "\n".join([*ghosts, *constants, rest])


def modules_named(name, text):
    """Returns the files of a crate's specs/ that a text names, as paths without an ending."""
    return {it.strip(".").replace(".", "/") for it in re.findall(rf"\bRattle\.{name}\.specs\.([\w.]+)", text)}


@functools.lru_cache(None)
def texts_of(folder):
    """Returns all text of a crate, and the texts of its specs/ and its lemmas by their paths without an ending."""
    texts = {os.path.relpath(it, folder): rtlib.text_of(it) for it in rtlib.files_of(folder)}
    parts = [{it.removeprefix(f"{part}/").removesuffix(".antt"): definitions(text) for it, text in texts.items() if it.startswith(f"{part}/")} for part in ("specs", "proofs")]
    return "\n".join(texts.values()), *parts


def reached(files, first, leads):
    """Returns those of the files that the first ones lead to, in order; a name may end in that of a definition."""
    found, left = set(), [*first]
    while left:
        name = left.pop()
        name = next((it for it in (name, os.path.dirname(name)) if it in files), None)
        if name and name not in found:
            found.add(name)
            left += leads(files[name])
    return sorted(found)


def lemmas_named(name, text):
    """Returns the lemmas of a crate that a text names, each as its file and its own name."""
    lists = re.findall(rf"\bRattle\.{name}\.proofs\.([\w.]+)\.\{{([^}}]*)\}}", text)
    paths = re.findall(rf"\b{name}::proofs::(\w+)::(\w+)", text)
    return {(file, it.split(" as ")[0].strip()) for file, names in lists for it in names.split(",")} | {*paths}


def declared(text):
    """Returns what a file of lemmas says of each name: a lemma's statement, and all of what is no lemma. Under "" is what is in no such form."""
    found, kinds = collections.defaultdict(list), {}
    for block in re.split(r"\n(?=\S)", text):
        head = re.match(r"((?:(?:pub|abbrev|unfoldable|mutual|record|data|ruleset) )*)([^\s:=]+)", block)
        kind, name = (head[1], head[2]) if head else ("", "")
        if name in ("use", "unfolding"):
            continue
        name = "" if name in ("module", "infixl", "infixr", "infix") else name
        kinds[name] = kinds.get(name, "") + kind.replace("pub ", "")
        is_statement = re.match(r"(?:pub )?\S+ :\s", block)
        found[name] += [block] * bool(is_statement or kinds[name] or not name)
    return {name: "\n".join(blocks) for name, blocks in found.items()}


def statements(crate, others):
    """Returns the statements of the lemmas that `others` name, and of what these name in turn."""
    lemmas = {it: text for it, text in texts_of(crate.folder)[2].items() if "/" not in it}
    known = {it: declared(text) for it, text in lemmas.items()}
    imports = {it: {name: file for file, name in lemmas_named(crate.name, text)} for it, text in lemmas.items()}
    found, left = {}, [*lemmas_named(crate.name, others)]
    while left:
        file, name = left.pop()
        if (file, name) in found or file not in known:
            continue
        found[file, name] = text = known[file].get(name) or lemmas[file]
        words = {*re.findall(r"[^\s(){},;.]+", text)}
        left += [(file, it) for it in words & {*known[file]} - {name}] + [(imports[file][it], it) for it in words & {*imports[file]}]
    return [f"{file} {name} {text}" for (file, name), text in sorted(found.items())]


def contracts(crate, others=""):
    """Returns what the crates above see of this one: its public interface, its definitions, and the statements of the lemmas that `others` name."""
    source, (_, specs, _) = source_of(crate), texts_of(crate.folder)
    seen = [f"{file} {text}" for file in sorted(source.data) for text in [seen_source(source, file)] if text.strip()]
    outside = {it: text for it, text in specs.items() if not it.startswith("Inside")}
    named = modules_named(crate.name, "\n".join([*seen, *outside.values()]))
    inside = reached(specs, {it for it in named if it.startswith("Inside/")}, lambda text: modules_named(crate.name, text))
    return "\n".join([*seen, *(f"{it} {specs[it]}" for it in sorted({*outside, *inside})), *statements(crate, others)])


def sum_of(crate, seen):
    """Returns a sum over all that the verdicts on the crate's edits depend on; `seen` keeps the contracts of each crate."""
    made = hashlib.sha256()
    made.update(kit.logic().encode())
    for path in [os.path.abspath(it) for it in (kit.__file__, __file__)]:
        made.update(rtlib.text_of(path).encode())
    made.update(f"{crate.name} {crate.of_kit} {[it.name for it in crate.deps]}\n".encode())
    for at, folders, files in sorted(os.walk(crate.folder)):
        inside = os.path.relpath(at, crate.folder)
        if inside.split("/")[0] in ("src", "specs", "proofs", FOLDER):
            for it in sorted(files):
                made.update(f"{inside}/{it}\n{rtlib.text_of(f'{at}/{it}')}\n".encode(errors="replace"))
    for low in sorted(crate.below(), key=lambda it: it.name):
        if low.name not in seen:
            above = (it for it in rtlib.crates_below(os.getcwd()) if low.name in [dep.name for dep in it.below()])
            seen[low.name] = contracts(low, "\n".join(texts_of(it.folder)[0] for it in above))
        made.update(f"{low.name}\n{seen[low.name]}\n".encode(errors="replace"))
    return made.hexdigest()


def kept_verdicts():
    if not os.path.isfile(VERDICTS):
        return {}
    return dict(line.split() for line in rtlib.text_of(VERDICTS).split("\n") if line and not line.startswith("#"))


def keep_verdicts(found):
    with open(VERDICTS, "w", encoding="utf-8") as it:
        it.write("# Made by tests/run wrong_bodies: crates whose edits were all refused, each with a sum over what that depends on.\n")
        it.writelines(f"{name} {found[name]}\n" for name in sorted(found))


# The batches.


def name_of(f):
    """Returns the end of the name that a check prints for the function."""
    if not f.block:
        return "::".join([*f.module, f.name])
    if f.in_trait or f.block.is_trait:
        return f"{f.owner * (not f.block.is_trait)}{bodies.named(f.block.trait)[0] if f.in_trait else ''}::{f.name}"
    # (in `impl Of<This, A>`, where This is no parameter, `Of+This+A::name`)
    given = ["".join(it) for it in bodies.named(f.block.ty)[2]]
    return f"{'+'.join([f.owner, *given]) if {*given} - {*f.block.generics} else f.owner}::{f.name}"


def changes_of(source, texts):
    """Yields each line that these texts change, with the function in whose body the change is, or None where it is elsewhere."""
    for path, new in texts.items():
        at, rows = 0, (source.data.get(path, b"").split(b"\n"), new.encode().split(b"\n"))
        if len(rows[0]) != len(rows[1]):
            yield (path, 0), None
        for line, (was, now) in enumerate(zip(*rows)):
            if was != now:
                start = len(os.path.commonprefix([was, now]))
                end = len(was) - len(os.path.commonprefix([was[start:][::-1], now[start:][::-1]]))
                here = [f for f in source.functions if f.file == path and f.has_body and f.opens < at + start and at + end < f.end]
                yield (path, line), here[0] if len(here) == 1 else None
            at += len(was) + 1


def read(crate, source, file):
    """Returns the edit, with the functions whose proofs are to refuse it, and whether it may share a check with others."""
    texts, why = rt.read_edit(file, crate.folder)
    changes = [] if why else [*changes_of(source, texts)]
    inside = [f for _, f in changes if f]
    named = re.findall(r"^only: (\S+)$", rtlib.text_of(file), re.M)
    is_inside = bool(changes) and len(inside) == len(changes)
    is_shared = is_inside and not any(f.in_cycle or is_constant(source, f) for f in inside)
    return Edit(file, texts, {name_of(f) for f in inside} if is_inside else {*named}, {line for line, _ in changes}, is_shared)


def is_of(symbol, names):
    """Returns whether a check's line is of a function so named, or of a closure within it."""
    ends = (re.search(rf"(^|::){re.escape(it)}(::|$)", symbol.replace("::fn::", "::")) for it in names)
    return any(it and (not it[2] or "::fn::" in symbol) for it in ends)


def place_of(source, f):
    """Returns the path of the proof of a function, or of the cycle of calls that it is in, and "" where that is not clear."""
    kind, _, inside = named(f.block.ty) if f.block else ("", "", [])
    homes = [place for place, word, *_ in source.declared[kind] if word in ("struct", "enum")] if f.block else [f.module]
    is_plain = f.has_body and not (f.in_trait or is_constant(source, f)) and all(re.fullmatch("[A-Z]", "".join(it)) for it in inside)
    cycle = re.search(rb"#\[cycle\((\w+)\)\]", source.data[f.file][f.first : f.opens])
    path = [*homes[0], *[kind] * bool(kind), f"+{cycle[1].decode()}" if cycle else f.name] if len(homes) == 1 else []
    return "/".join(path) * (is_plain and bool(cycle or f.name not in f.body))


def holes(crate, names):
    """Returns a hole as the whole proof of each plain function or cycle of calls that has none of these, by the path of its file."""
    source, made = source_of(crate), {}
    places = {f: place_of(source, f) for f in source.functions}
    asked = {places[f] for f in places if is_of("::".join([crate.name, *places[f].split("/")[:-1], f.name]), names)}
    for path in {*places.values()} - asked - {""}:
        home, name = f"Rattle.{crate.name}.proofs.{path.replace('/', '.')}", path.split("/")[-1]
        use = f"use {home}{'' if name[0] == '+' else '.Statement'}.{{statement}}"
        made[f"proofs/{path}/Proof.antt"] = f"{use}\n\npub {name}_spec : {{M : Type 1}} → statement M\n{name}_spec = ?\n"
    return made


def bare(crate, made, texts):
    """Returns these texts and those of the crate's other sources, with `unreachable!()` as the body of each function whose proof is one of these holes."""
    source, found = source_of(crate), dict(texts)
    for path, data in source.data.items():
        was = data.decode().split("\n")
        now = texts[path].split("\n") if path in texts else [*was]
        is_holed = lambda f: f.file == path and f.has_body and not f.in_cycle and f"proofs/{place_of(source, f)}/Proof.antt" in made
        for f in filter(is_holed, source.functions if len(was) == len(now) else []):
            first, last = data[: f.opens].count(b"\n"), data[: f.end].count(b"\n")
            if was[first : last + 1] == now[first : last + 1]:
                head = data[data.rfind(b"\n", 0, f.opens) + 1 : f.opens + 1].decode()
                tail = data[f.end - 1 : (data + b"\n").index(b"\n", f.end)].decode()
                now[first : last + 1] = [f"{head} unreachable!() {tail}", *[""] * (last - first)]
        found[path] = "\n".join(now)
    return found


def check(crate, texts, kept, names, *more):
    """Checks these functions in a copy of the crate with these texts, and returns the status and the lines."""
    with tempfile.TemporaryDirectory(prefix="wrong-bodies-") as room:
        for part in rtlib.PARTS:
            if os.path.isdir(f"{crate.folder}/{part}"):
                shutil.copytree(f"{crate.folder}/{part}", f"{room}/{part}")
        for path, text in texts.items():
            if path.endswith("/Proof.antt"):
                shutil.rmtree(f"{room}/{os.path.dirname(path)}", ignore_errors=True)
                os.makedirs(f"{room}/{os.path.dirname(path)}")
            with open(f"{room}/{path}", "w", encoding="utf-8") as it:
                it.write(text)
        only = [word for name in sorted(names) for word in ("--only", name)]
        words = [rtlib.RATTLE, "check", *crate.words([*FLAGS, *more, *only], keeps=False), "--incremental", kept]
        how = {"cwd": room, "stdin": subprocess.DEVNULL, "stdout": subprocess.PIPE, "stderr": subprocess.STDOUT, "errors": "replace"}
        ran = subprocess.run([*rtlib.guarded(), *words], **how)
    return ran.returncode, ran.stdout.rstrip("\n").split("\n")


def proof_of(name):
    """Returns a pattern for the place of the proof of a function so named; a `+` marks that of a cycle of calls."""
    *home, last = name.split("::")
    return rf"{re.escape('::'.join([*home, '']))}\+?{re.escape(last)}::"


def places_in(crate, line):
    """Returns the refused answers that, as a line says, its function depends on."""
    return [it.removeprefix(f"Rattle.{crate.name}.proofs.").replace(".", "::") for it in re.findall(r"`(Rattle\.[^`]*)`", line)]


def is_echo(crate, line, names):
    """Returns whether a line says no more than that its function depends on refused answers of these functions."""
    places, of_names = places_in(crate, line), "|".join(rf"(^|::){proof_of(it)}" for it in names)
    return bool(places) and "`search` did not prove" not in line and all(re.search(of_names, it) for it in places)


def own_answers(crate, symbol, line, lines):
    """Returns what was said of the answers that a function depends on, where all are its own and none is refused for a name that is gone."""
    inside, places = proof_of("::".join(symbol.split("::")[1:])), places_in(crate, line)
    said = [(it, re.match(r"(?:\./)?proofs/(.*)/\w+\.antt:.*?: error: `([^`]*)`", it)) for it in lines]
    told = [it for it, at in said if at and re.match(inside, f"{at[1].replace('/', '::')}::") and any(place.endswith(f"::{at[2]}") for place in places)]
    return told if all(re.match(inside, it) for it in places) and not any(GONE.search(it) for it in told) else []


def own_refusals(crate, lines, names):
    """Returns what was said of each function that has a refused goal of its own, and "" where that is not clear."""
    found = {}
    for line in lines:
        at = re.match(r"fn (\S+): (?:no proof|not proved)\b(.*)", line)
        if at and re.search(r"`search` did not prove|it stands on", at[2]) and (is_of(at[1], names) or not is_echo(crate, line, names)):
            told = own_answers(crate, at[1], at[2], lines)
            found[at[1]] = told[0] if told else line if "`search` did not prove" in at[2] else ""
    return found


def planted(crate, group):
    """Returns the crate's texts with all edits of the group: no two change one line, and where there are several none changes the number of lines."""
    if len(group) == 1:
        return group[0].texts
    texts = {}
    for path in {it for edit in group for it in edit.texts}:
        was = rtlib.text_of(f"{crate.folder}/{path}").split("\n")
        rows = [edit.texts[path].split("\n") for edit in group if path in edit.texts]
        texts[path] = "\n".join(next((now for now in nows if now != old), old) for old, *nows in zip(was, *rows))
    return texts


def tried(crate, group, kept):
    """Returns what was said of each edit that a check of all of them shows refused. Where that says nothing, each half is tried."""
    names, texts = {name for it in group for name in it.functions}, planted(crate, group)
    made = holes(crate, names)
    status, lines = check(crate, {**made, **bare(crate, made, texts)}, kept, names, "--allow-holes")
    own = own_refusals(crate, lines, names)
    is_read = any(re.match(r"only=\d+ holes=", it) for it in lines) and not any(rt.unread(it, texts) for it in lines)
    if status in (0, 1) and is_read and all(is_of(it, names) for it in own):
        said = {it.file: next((text for symbol, text in own.items() if text and is_of(symbol, it.functions)), "") for it in group}
        return {file: text for file, text in said.items() if text}
    half = len(group) // 2
    return {**tried(crate, group[:half], kept), **tried(crate, group[half:], kept)} if half else {}


def grouped(edits):
    """Returns the edits in batches: those that may share a check as many as fit, each other one alone."""
    groups = []
    for edit in edits:
        takes = lambda it: len(it) < MOST and it[0].is_shared and not any(edit.functions & other.functions or edit.lines & other.lines for other in it)
        room = next(filter(takes, groups), None) if edit.is_shared else None
        groups.append([edit]) if room is None else room.append(edit)
    return groups


def tried_alone(crate, edits, kept):
    """Tries edits as `rt must-fail` does: in turn over kept work, and what is not refused so, or rests on work gone bad, from nothing."""
    found = [rt.must_fail(crate, it, FLAGS, kept) for it in edits]
    is_sound = not edits or not rt.checked(crate, {}, FLAGS, kept).returncode
    tried = [it if is_sound and kit.is_refused(it) else rt.must_fail(crate, edit, FLAGS) for edit, it in zip(edits, found)]
    return [(kit.is_refused(it), it[1]) for it in tried]


def files_of(crate):
    folder = f"{crate.folder}/{FOLDER}"
    return [f"{folder}/{it}" for it in sorted(os.listdir(folder)) if it.endswith(".edit")]


def tried_all(crate, over_out, is_proved):
    """Tries the crate's edits, and returns a pair (whether it is refused, what to print) for each."""
    source, files, said = source_of(crate), files_of(crate), {}
    edits = [it for it in (read(crate, source, file) for file in files) if it.functions]
    with tempfile.TemporaryDirectory(prefix="wrong-bodies-") as kept:
        if over_out and os.path.isdir(f"{crate.folder}/out/incremental"):
            subprocess.run(["cp", "-a", f"{crate.folder}/out/incremental/.", kept], check=True)
        if not is_proved and edits:
            status, lines = check(crate, {}, kept, {name for it in edits for name in it.functions})
            if status == 1:
                return [(False, f"{crate.name}: the crate is not proved as it stands: {lines[-1][:200]}")]
        batches = grouped(edits)
        for batch in batches:
            said.update(tried(crate, batch, kept))
        # what these can't show (an edited function calls another) batches of the rest may
        more = grouped([it for it in edits if it.is_shared and it.file not in said])
        for batch in more:
            said.update(tried(crate, batch, kept))
        said = {file: (True, f"refused, as it must be: {text[:160]}") for file, text in said.items()}
        rest = [it for it in files if it not in said]
        print(f"rt: {crate.name}: {len(said)} edits refused in {len(batches + more)} batches; alone: {' '.join(map(os.path.basename, rest)) or 'none'}", flush=True)
        said.update(zip(rest, tried_alone(crate, rest, kept)))
    return [(said[it][0], f"{crate.name}/{os.path.basename(it)}: {said[it][1]}") for it in files]


def is_usable(below):
    """Returns whether the library is built: by rt check, or by the rt ci that ran since its files and those below it were written."""
    if os.path.isfile(f"{below.folder}/out/rlib/stamp") or not os.path.isfile(f"{below.rlib}/format"):
        return below.is_built()
    # (the folder's time: rt ci links the files that an earlier run made, and they keep the time of that run)
    made = os.path.getmtime(below.rlib)
    return all(os.path.getmtime(it) < made for low in [*below.below(), below] for it in rtlib.files_of(low.folder))


def main(words):
    rtlib.Crate, names = rt.Crate, [it for it in words if not it.startswith("--")]
    rtlib.guarded()
    crates = [it for it in rtlib.crates_below(os.getcwd()) if os.path.isdir(f"{it.folder}/{FOLDER}") and files_of(it)]
    seen, verdicts = {}, kept_verdicts()
    sums = {it.name: sum_of(it, seen) for it in crates}
    is_asked = lambda it: it.name in names if names else "--all" in words or verdicts.get(it.name) != sums[it.name]
    asked = [it for it in crates if is_asked(it)]
    for crate in asked[:1]:
        kit.must_know_answers(crate, FLAGS)
    for below in {low.name: low for it in asked for low in it.below()}.values():
        if not is_usable(below) and below.build_rlib(FLAGS, anew=False):
            sys.exit(f"wrong_bodies: {below.name} is not proved")
    lanes = int(os.environ.get("RT_JOBS") or max(1, min(rt.processors(), int(rt.free() / 2.5e9))))
    with ThreadPoolExecutor(lanes) as pool:
        by_size = sorted(asked, key=lambda it: -it.count(rb"\n"))
        made = dict(zip([it.name for it in by_size], pool.map(lambda it: tried_all(it, "--kept" in words, "--proved" in words), by_size)))
    for it in asked:
        print(*(f"rt: {text}" for _, text in made[it.name]), sep="\n")
        verdicts.pop(it.name, None)
        if "--kept" not in words and all(is_well for is_well, _ in made[it.name]):
            verdicts[it.name] = sums[it.name]
    taken = [it for it in crates if it not in asked]
    if "--kept" not in words:
        keep_verdicts({it.name: verdicts[it.name] for it in crates if it.name in verdicts})
    if not names:
        print(f"rt: {sum(len(files_of(it)) for it in taken)} edits of {len(taken)} crates not tried: {VERDICTS} says that they are refused")
    failed = [text for of_crate in made.values() for is_well, text in of_crate if not is_well]
    print(*(f"rt: FAILED: {text}" for text in failed), sep="\n", end="\n" * bool(failed))
    print(f"{sum(len(it) for it in made.values()) - len(failed)} passed, {len(failed)} failed")
    return int(bool(failed))


if __name__ == "__main__":
    sys.exit(main(sys.argv[1:]))
