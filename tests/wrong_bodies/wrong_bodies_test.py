#!/usr/bin/env python3
"""Tests wrong_bodies.py on a repository of two small crates made for it. Bugs are refused, in a batch and alone. An edit that is no bug
makes it fail, in a batch and alone, whether the kit answers by a truth value or by a word; a kit that answers otherwise stops it, without
a verdict. A kept verdict is taken; a changed body is tried again in its own crate, and a changed contract in the crates above too.
Prints 'N passed, M failed' last.
Usage: tests/run wrong_bodies_test"""
import os
import re
import shutil
import subprocess
import sys
import tempfile

JUDGE, VERDICTS = os.path.join(os.path.dirname(os.path.realpath(__file__)), "wrong_bodies.py"), "tests/refused_edits.txt"
RT = os.path.realpath(shutil.which("rt") or sys.exit("wrong_bodies_test: there is no rt on PATH"))
HEAD = "#![tactic(auto)]\n\nghost use Rattle.std.specs.Prelude.{◌≡◌, ◌≤◌, ◌+◌, ◌<◌, ◌^◌};\n"
FILES = {
    "HANDLES": "Handles allowed: none.\n",
    "crates.txt": "low:\nhigh: low\n",
    "crates/low/src/lib.rt": HEAD + """ghost use Rattle.low.specs.Next.{next};

/// The number after this one.
pub fn after(n: u32) -> u32
    requires { n < 1000 }
    ensures { result ≡ next n }
{
    n + 1
}
""",
    "crates/low/specs/Lib.antt": "pub mod Next\n",
    "crates/low/specs/Next.antt": "use Rattle.std.specs.Prelude.{ℕ, ◌+◌}\n\nabbrev pub next : ℕ → ℕ\nnext n = n + 1\n",
    "crates/low/wrong-bodies/stays.edit": "file: src/lib.rt\nold:     n + 1\nnew:     n + 0\n",
    "crates/high/src/lib.rt": HEAD + """ghost use Rattle.low.specs.Next.{next};

/// Two further.
pub fn second(n: u32) -> u32
    requires { n < 500 }
    ensures { result ≡ next (next n) }
{
    low::after(low::after(n))
}

/// The greater number.
pub fn greater(a: u32, b: u32) -> u32
    ensures left { a ≤ result }
    ensures right { b ≤ result }
{
    if a < b { b } else { a }
}

/// The same of what another function answers.
pub fn largest(a: u32, b: u32) -> u32
    ensures left { a ≤ result }
    ensures right { b ≤ result }
{
    greater(a, b)
}

/// The greatest number that counts.
pub const MOST: u32 = 7;

/// That number.
pub fn most() -> u32
    ensures { result ≡ 7 }
{
    MOST
}
""",
    "crates/high/wrong-bodies/one_further.edit": "file: src/lib.rt\nold: low::after(low::after(n))\nnew: low::after(n)\n",
    "crates/high/wrong-bodies/another_most.edit": "only: most\nfile: src/lib.rt\nold: u32 = 7;\nnew: u32 = 8;\n",
}
# (what it calls has no body there)
NO_BUG = "file: src/lib.rt\nold: greater(a, b)\nnew: greater(b, a)\n"
NO_BUG_ALONE = "only: most\nfile: src/lib.rt\nold: u32 = 7;\nnew: u32 = 3 + 4;\n"
LOW = "crates/low/src/lib.rt"
# The installed kit, but for how it says what an edit's try came to
STAND_IN = """#!/usr/bin/env python3
import importlib.machinery
import importlib.util
import os
import sys

if __name__ == "__main__":
    os.execv({rt!r}, [{rt!r}, *sys.argv[1:]])
loader = importlib.machinery.SourceFileLoader("installed_rt", {rt!r})
installed = importlib.util.module_from_spec(importlib.util.spec_from_loader(loader.name, loader))
loader.exec_module(installed)
globals().update({{name: value for name, value in vars(installed).items() if not name.startswith("__")}})


def must_fail(*words):
    kind, said = installed.must_fail(*words)
    is_refused = kind in (True, "refused", "limit")
    return {answer}, said
"""
TRUTH, WORD, OTHER = "is_refused", "'refused' if is_refused else 'missed'", "3 if is_refused else 4"


def write(path, text):
    os.makedirs(os.path.dirname(path) or ".", exist_ok=True)
    with open(path, "w", encoding="utf-8") as it:
        it.write(text)


def changed(path, old, new):
    if FILES[path].count(old) != 1:
        sys.exit(f"wrong_bodies_test: {old!r} is not once in {path}")
    write(path, FILES[path].replace(old, new))


def stand_in(name, answer):
    """Makes a kit whose rt gives this answer, and returns its folder."""
    write(f"{name}/rt", STAND_IN.format(rt=RT, answer=answer))
    os.chmod(f"{name}/rt", 0o755)
    os.symlink(f"{os.path.dirname(RT)}/rt-plant-bodies", f"{name}/rt-plant-bodies")
    return os.path.abspath(name)


def said(folder=None):
    """Returns what the script printed and its status, with the kit of this folder."""
    how = {"env": {**os.environ, "PATH": f"{folder}:{os.environ['PATH']}"}} if folder else {}
    ran = subprocess.run([sys.executable, JUDGE, "--proved"], stdout=subprocess.PIPE, stderr=subprocess.STDOUT, text=True, **how)
    return ran.stdout, ran.returncode


def judged(folder=None):
    """Returns the counts of the script's last line and how many edits it took from its file, or all that it printed where its status differs."""
    printed, status = said(folder)
    last = printed.rstrip("\n").split("\n")[-1]
    taken = re.search(r"^rt: (\d+) edits of \d+ crates not tried", printed, re.M)
    if not taken or (status == 0) != last.endswith(" 0 failed"):
        return printed
    return last, int(taken[1])


def cases():
    """Yields what each case is, what the script said, and what it has to say."""
    write("crates/high/wrong-bodies/no_bug.edit", NO_BUG)
    write("crates/high/wrong-bodies/no_bug_alone.edit", NO_BUG_ALONE)
    yield "bugs are refused; what is no bug is not, beside bugs and alone", judged(), ("3 passed, 2 failed", 0)
    with open(VERDICTS, encoding="utf-8") as it:
        verdicts = it.read()
    for name, answer in (("truth", TRUTH), ("word", WORD)):
        os.remove(VERDICTS)
        yield f"the same where the kit answers by a {name}", judged(stand_in(name, answer)), ("3 passed, 2 failed", 0)
    os.remove(VERDICTS)
    yield "a kit that answers otherwise", said(stand_in("other", OTHER)), ("tests/wrong_bodies does not know how this kit says 'refused'\n", 1)
    yield "no verdict is kept of it", os.path.exists(VERDICTS), False
    write(VERDICTS, verdicts)
    os.remove("crates/high/wrong-bodies/no_bug.edit")
    os.remove("crates/high/wrong-bodies/no_bug_alone.edit")
    yield "a crate where an edit failed is tried again, and no other", judged(), ("2 passed, 0 failed", 1)
    yield "what was refused is not tried again", judged(), ("0 passed, 0 failed", 3)
    changed(LOW, "    n + 1\n", "    1 + n\n")
    write("crates/low/wrong-bodies/stays.edit", "file: src/lib.rt\nold: 1 + n\nnew: n\n")
    yield "another body below is tried in its own crate alone", judged(), ("1 passed, 0 failed", 2)
    changed(LOW, "n < 1000", "n < 1001")
    write("crates/low/wrong-bodies/stays.edit", FILES["crates/low/wrong-bodies/stays.edit"])
    yield "another contract below is tried in the crates above too", judged(), ("3 passed, 0 failed", 0)


def main():
    passed, failed = 0, 0
    with tempfile.TemporaryDirectory(prefix="wrong-bodies-test-") as room:
        os.chdir(room)
        subprocess.run(["git", "init", "-q", "."], check=True)
        os.mkdir("tests")
        for path, text in FILES.items():
            write(path, text)
        for name, got, wanted in cases():
            passed, failed = passed + (got == wanted), failed + (got != wanted)
            print(f"{name}: {'ok' if got == wanted else f'{got}, wanted {wanted}'}", flush=True)
        os.chdir("/")
    print(f"{passed} passed, {failed} failed")
    return int(failed > 0)


if __name__ == "__main__":
    sys.exit(main())
