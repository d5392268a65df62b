#!/usr/bin/env python3
"""The short way while working: proves the crates that a change touches and those above them, runs the tests of these, and tries the
touched crates' wrong bodies, all over the work kept in out/. It stops at the first that fails. The gate is `bash .ci/run`.
Usage: tests/run touched [BASE]    (what is changed since BASE, committed or not; without it since the last commit)"""
import pathlib
import subprocess
import sys

TOP = pathlib.Path(__file__).resolve().parents[2]


def said(*words):
    return subprocess.run(words, cwd=TOP, check=True, stdout=subprocess.PIPE, text=True).stdout.split("\n")


def crates():
    """Returns each crate with the crates that it depends on directly, in the order of crates.txt: from the bottom up."""
    lines = [line.partition("#")[0].partition(":") for line in (TOP / "crates.txt").read_text().split("\n")]
    return {name.split()[0]: below.split() for name, _, below in lines if name.strip()}


def touched(base):
    names = said("git", "diff", "--name-only", base) + said("git", "ls-files", "--others", "--exclude-standard")
    return {it.split("/")[1] for it in names if it.startswith("crates/")}


def run(where, *words):
    print(f"== {where.name}: {' '.join(words)}", flush=True)
    status = subprocess.run(words, cwd=where).returncode
    if status:
        sys.exit(status)


def main():
    if len(sys.argv) > 2 or sys.argv[1:2] == ["--help"]:
        sys.exit(__doc__)
    below, changed = crates(), touched((sys.argv[1:] or ["HEAD"])[0])
    behind = set(changed)
    for name in sorted(below, key=lambda it: len(closure(it, below))):
        if behind & {*below[name]}:
            behind.add(name)
    for name in sorted(behind & {*below}, key=lambda it: len(closure(it, below))):
        run(TOP / "crates" / name, "rt", "check")
        run(TOP / "crates" / name, "rt", "test")
    asked = [name for name in below if name in changed and any((TOP / "crates" / name / "wrong-bodies").glob("*.edit"))]
    if asked:
        run(TOP, "tests/run", "wrong_bodies", "--kept", *asked)


def closure(name, below):
    found = {it for it in below.get(name, []) if it in below}
    return found.union(*(closure(it, below) for it in found))


main()
