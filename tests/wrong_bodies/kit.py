"""The installed kit, as the tests of wrong bodies use it. Builds of one logic answer in different forms: this file takes both forms that
are known, and stops with one line at a build that has another one."""
import importlib.machinery
import importlib.util
import os
import re
import shutil
import subprocess
import sys

# What the tests call of the kit's own scripts
CALLED = {
    "rt": "Crate checked free must_fail processors read_edit rtlib unread",
    "rt-plant-bodies": "Source named",
    "rtlib": "PARTS RATTLE crates_below files_of guarded text_of",
}


def stop(why):
    sys.exit(f"tests/wrong_bodies {why}")


def load(file):
    """Returns a script as a module."""
    loader = importlib.machinery.SourceFileLoader(re.sub(r"\W", "_", os.path.basename(file)), file)
    made = importlib.util.module_from_spec(importlib.util.spec_from_loader(loader.name, loader))
    loader.exec_module(made)
    return made


def called(module, name):
    """Returns the module, if it has all that the tests call."""
    missing = [it for it in CALLED[name].split() if not hasattr(module, it)]
    return stop(f"does not know this kit: its {name} has no {missing[0]}") if missing else module


FOLDER = os.path.dirname(os.path.realpath(shutil.which("rt") or stop("finds no rt on PATH")))
rt, bodies = called(load(f"{FOLDER}/rt"), "rt"), called(load(f"{FOLDER}/rt-plant-bodies"), "rt-plant-bodies")
rtlib = called(rt.rtlib, "rtlib")


def logic():
    """Returns the sum of the kit's logic: what a verdict depends on. The build's name is no part of it."""
    said = subprocess.run([f"{FOLDER}/rt", "version"], stdout=subprocess.PIPE, text=True).stdout
    found = re.search(r"\blogic ([0-9a-f]+)$", said.strip())
    return found[1] if found else stop("does not know how this kit names its logic")


def is_refused(answer):
    """Returns whether the kit counts an edit as refused. Some builds answer by a truth value, others by a word."""
    kind = answer[0] if isinstance(answer, tuple) and len(answer) == 2 else None
    if isinstance(kind, bool):
        return kind
    if kind in ("refused", "limit"):
        return True
    return False if kind in ("bad", "unsure", "missed") else stop("does not know how this kit says 'refused'")


def must_know_answers(crate, flags):
    """Stops where the kit answers in a form of its own. It is asked of an edit that isn't there, so nothing is checked."""
    if is_refused(rt.must_fail(crate, f"{crate.folder}/no-such.edit", flags)):
        stop("does not know this kit: it refuses an edit that isn't there")
