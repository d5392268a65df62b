#!/usr/bin/env python3
"""Does what `rt ci` does, by the kit's own code, in another order. A proof with nearly the longest chain of others behind it gets two jobs, any
other task one. So the longest chain, which decides how long it all takes, is proved sooner. A kit whose scheduler has another form than the
known one keeps its own order.
Usage: tests/run prove    at the top of the repository; the last line is 'N passed, M failed'"""
import inspect
import os
import sys
from concurrent.futures import FIRST_COMPLETED, ThreadPoolExecutor, wait

from kit import rt

# The most jobs of a proof; the part of the longest chain that is nearly as long; how many lines below a crate cost as much as one of its
# own; the free memory without which no task begins beside others, in bytes
JOBS, NEARLY, BELOW, ROOM = 2, 0.85, 20, 3e9
OWN = rt.in_lanes if hasattr(rt, "in_lanes") else None


def ranks(tasks):
    """Returns for each task the work of the longest chain that begins with it. A task comes after those that it waits for."""
    found = dict.fromkeys(tasks, 0)
    for key in reversed([*tasks]):
        waits, lines, *_ = tasks[key]
        found[key] += lines and lines + sum(tasks[it][1] for it in waits) / BELOW
        for it in waits:
            found[it] = max(found[it], found[key])
    return found


class Lanes:
    """Tasks, each by its name and kind, with what it waits for, its lines, its memory, and a call that does it."""

    def __init__(self, tasks):
        number = os.environ.get("RT_JOBS", "")
        self.tasks, self.rank = tasks, ranks(tasks)
        self.lanes = int(number) if number.isdigit() and int(number) else rt.processors()
        self.left, self.running, self.given = sorted(tasks, key=lambda it: -self.rank[it]), {}, {}

    def ready(self):
        return [it for it in self.left if all(below in self.given for below in self.tasks[it][0])]

    def jobs_for(self, key, top):
        """Returns how many jobs a task that is ready may have now; 0 for none."""
        used = [jobs for _, jobs in self.running.values()]
        idle, is_long = 2 * self.lanes - sum(used), self.rank[key] >= NEARLY * top
        if used and (idle < 1 or rt.free() < ROOM):
            return 0
        if is_long:
            return min(JOBS, self.lanes, max(idle, 1)) if key[1] == "proof" else 1
        return int(used.count(1) < max(1, self.lanes - 1))

    def begin(self, pool):
        """Begins the tasks that may begin now, those with the longest chains first."""
        top = max(self.rank[it] for it in [*self.left, *(key for key, _ in self.running.values())])
        for key in self.ready():
            jobs = self.jobs_for(key, top)
            if jobs:
                self.left.remove(key)
                self.running[pool.submit(self.tasks[key][3], self.given, jobs)] = key, jobs

    def run(self):
        """Does all tasks, and returns what each gave."""
        with ThreadPoolExecutor(2 * self.lanes) as pool:
            while self.left or self.running:
                self.begin(pool)
                for it in wait(self.running, return_when=FIRST_COMPLETED).done:
                    self.given[self.running.pop(it)[0]] = it.result()
        return self.given


def in_lanes(tasks):
    is_known = all(isinstance(it, tuple) and len(it) == 4 for it in tasks.values())
    return Lanes(tasks).run() if tasks and is_known else OWN(tasks)


def main(words):
    if words:
        sys.exit(__doc__)
    if OWN and [*inspect.signature(OWN).parameters] == ["tasks"]:
        rt.in_lanes = in_lanes
    return rt.main(["ci"])


if __name__ == "__main__":
    sys.exit(main(sys.argv[1:]))
