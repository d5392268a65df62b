"""What the test scripts share. Cases run one after another and are counted, and one last line gives the counts."""
import argparse
import random
import shutil
import signal
import subprocess
import sys

from running import Differs


class Count:
    """Counts the cases that passed and those that failed. Prints the first few that fail."""
    MOST_TOLD = 5

    def __init__(self):
        self.passed = self.failed = self.left_out = 0

    def case(self, name, call, *arguments):
        """Runs a case, and gives what it answers; None where it fails."""
        try:
            answer = call(*arguments)
            self.passed += 1
            return answer
        except (Differs, OSError, subprocess.TimeoutExpired) as fault:
            self.failed += 1
            if self.failed <= self.MOST_TOLD:
                print(f'{name}: FAILED: {fault}', flush=True)
        return None

    def leaves_out(self, name, why):
        self.left_out += 1
        print(f'{why}, so {name} is left out', flush=True)

    def has(self, name, *tools):
        """Whether the tools are installed that a case needs. If not, prints so, and the case is left out."""
        missing = [tool for tool in tools if not shutil.which(tool)]
        if missing:
            self.leaves_out(name, f'{missing[0]} is not installed')
        return not missing

    def end(self):
        print(f'{self.passed} passed, {self.failed} failed')
        sys.exit(1 if self.failed or not (self.passed or self.left_out) else 0)


def options(told, **numbers):
    """The words of the command line: the program, and numbers with their defaults. Without a seed a new one is drawn."""
    words = argparse.ArgumentParser(description=told, formatter_class=argparse.RawDescriptionHelpFormatter)
    words.add_argument('program', nargs='+')
    for name, number in numbers.items():
        words.add_argument(f'--{name}', type=int, default=number)
    words.add_argument('--seed', type=int, default=random.randrange(10 ** 9))
    return words.parse_args()


def end_on_signals():
    """SIGTERM and SIGHUP end the test as a failure does, which leaves nothing behind."""
    for one in signal.SIGTERM, signal.SIGHUP:
        signal.signal(one, lambda number, _: sys.exit(128 + number))
