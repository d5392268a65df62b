#!/usr/bin/env python3
"""Tries wrong bodies while `rt ci` still proves the crates above: those of each crate that tests/refused_edits.txt lacks, once `rt ci` has
proved it. It does so as `tests/run wrong_bodies` does, but tries the batches of a crate side by side, and in three rows the edits that go
alone. It keeps the verdict there if all are refused, so that `tests/run wrong_bodies` need not try them again, and judges nothing itself. As
long as `rt ci` works it takes one crate at a time, by two checks, and only where memory is free; then all that are left. It ends in the
processor minutes that it took.
Usage: tests/run early ENDED    at the top of the repository; the file ENDED is made once `rt ci` has ended"""
import contextlib
import os
import resource
import sys
import tempfile
import threading
import time
from concurrent.futures import ThreadPoolExecutor

import kit
import wrong_bodies
from kit import rt, rtlib

# How many checks it runs beside `rt ci`, and after it; how much free memory a crate needs, in bytes; how long it waits for the next, in seconds
BESIDE, AFTER, ROOM, PAUSE = 2, 6, 9e9, 20
# How many crates it takes at a time, and in how many rows it tries the edits of a crate that go alone
CRATES, ALONE = 3, 3


def is_proved(crate):
    """Returns whether the crate is built, and those below it. A program leaves no library."""
    return not crate.is_program and all(wrong_bodies.is_usable(it) for it in [*crate.below(), crate])


class Early:
    """The crates that are left, and how many are being tried."""

    def __init__(self, ended):
        self.ended, self.lock, self.busy, self.is_over = ended, threading.Lock(), 0, False
        self.slots, seen = threading.Semaphore(BESIDE), {}
        crates = [it for it in rtlib.crates_below(os.getcwd()) if os.path.isdir(f"{it.folder}/{wrong_bodies.FOLDER}") and wrong_bodies.files_of(it)]
        kept = wrong_bodies.kept_verdicts()
        self.sums = {it.name: wrong_bodies.sum_of(it, seen) for it in crates}
        self.left = [it for it in crates if kept.get(it.name) != self.sums[it.name]]

    def over(self):
        """Returns whether `rt ci` has ended. From then on more checks run."""
        with self.lock:
            if not self.is_over and os.path.exists(self.ended):
                self.is_over = True
                self.slots.release(AFTER - BESIDE)
            return self.is_over

    def take(self, is_over):
        """Returns a crate to try now, if there is one: the largest."""
        with self.lock:
            if not is_over and (self.busy or rt.free() < ROOM):
                return None
            ready = [it for it in self.left if is_proved(it)]
            if not ready:
                return None
            crate = max(ready, key=lambda it: it.count(rb"\n"))
            self.left.remove(crate)
            self.busy += 1
            return crate

    def tried(self, crate):
        """Tries the crate's edits, and returns a pair (whether it is refused, what to print) for each."""
        source, files, said = wrong_bodies.source_of(crate), wrong_bodies.files_of(crate), {}
        edits = [it for it in (wrong_bodies.read(crate, source, file) for file in files) if it.functions]

        def try_batch(batch):
            with self.slots, tempfile.TemporaryDirectory(prefix="wrong-bodies-") as kept:
                return wrong_bodies.tried(crate, batch, kept)

        def try_alone(few):
            with self.slots, tempfile.TemporaryDirectory(prefix="wrong-bodies-") as kept:
                return dict(zip(few, wrong_bodies.tried_alone(crate, few, kept)))

        for _ in range(2):
            batches = wrong_bodies.grouped([it for it in edits if it.file not in said])
            with ThreadPoolExecutor(AFTER) as pool:
                for found in pool.map(try_batch, batches):
                    said.update({file: (True, f"refused, as it must be: {text[:160]}") for file, text in found.items()})
        rest = [it for it in files if it not in said]
        print(f"rt: {crate.name}: alone: {' '.join(map(os.path.basename, rest)) or 'none'}", flush=True)
        with ThreadPoolExecutor(ALONE) as pool:
            for found in pool.map(try_alone, filter(None, (rest[k::ALONE] for k in range(ALONE)))):
                said.update(found)
        return [(said[it][0], f"{crate.name}/{os.path.basename(it)}: {said[it][1]}") for it in files]

    def keep(self, crate, answers):
        with self.lock:
            self.busy -= 1
            print(*(f"rt: {text}" for _, text in answers), sep="\n", flush=True)
            if all(is_well for is_well, _ in answers):
                wrong_bodies.keep_verdicts({**wrong_bodies.kept_verdicts(), crate.name: self.sums[crate.name]})

    def work(self):
        while True:
            is_over = self.over()
            crate = self.take(is_over)
            if crate:
                self.keep(crate, self.tried(crate))
            elif is_over:
                return
            else:
                time.sleep(PAUSE)


def main(words):
    if len(words) != 1:
        sys.exit(__doc__)
    os.nice(10)
    # (if the machine runs out of memory, these checks end before a proof does)
    with contextlib.suppress(OSError), open("/proc/self/oom_score_adj", "w", encoding="ascii") as it:
        it.write("500")
    rtlib.Crate = rt.Crate
    rtlib.guarded()
    early = Early(words[0])
    for crate in early.left[:1]:
        kit.must_know_answers(crate, wrong_bodies.FLAGS)
    crates = [threading.Thread(target=early.work) for _ in range(CRATES)]
    for it in crates:
        it.start()
    for it in crates:
        it.join()
    used = resource.getrusage(resource.RUSAGE_CHILDREN)
    print(f"wrong bodies tried beside the proofs: {(used.ru_utime + used.ru_stime) / 60:.1f} processor minutes")


if __name__ == "__main__":
    main(sys.argv[1:])
