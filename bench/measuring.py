"""What benchmarks over real files share: programs built and run, disks, and ratios beside their limits."""
import argparse
import pathlib
import subprocess
import sys
import time

TOP = pathlib.Path(__file__).resolve().parent.parent
SESSIONS = TOP / 'crates/bench_sessions/out/bench_sessions'


def build(folder, name, *flags, libraries=()):
    path = folder / name
    subprocess.run(['cc', '-O2', *flags, '-o', path, TOP / f'bench/{name}.c', *libraries], check=True)
    return path


def printed(command, statuses=(0,), **how):
    """What a command prints, and its seconds."""
    start = time.monotonic()
    ended = subprocess.run(list(map(str, command)), stdin=subprocess.DEVNULL, stdout=subprocess.PIPE, **how)
    if ended.returncode not in statuses:
        sys.exit(f'{command} ended with status {ended.returncode}')
    return ended.stdout.decode(), time.monotonic() - start


def nanoseconds(command):
    """By what was done: the best nanoseconds a command. Each line that is printed has what was done, how many commands, and their time."""
    best = {}
    for line in printed(command)[0].splitlines():
        what, commands, took = line.split()
        each = int(took) / int(commands)
        best[what] = min(best.get(what, each), each)
    return best


def accepted(program, words, count, **how):
    """Seconds that a run took, all of whose commands have to be accepted."""
    answers, took = printed([program, 'run', *words], **how)
    if answers.count(' ok ') != count:
        sys.exit(f'{answers.count(" ok ")} of {count} commands were accepted')
    return took


def format_disk(program, folder, limits, journal):
    """A new disk in place of d.img."""
    disk, settings = folder / 'd.img', folder / 's.toml'
    settings.write_text(''.join(f'{key} = {value}\n' for key, value in {**limits, 'journal': journal}.items()))
    disk.unlink(missing_ok=True)
    printed([program, 'format', settings, disk])
    return disk


def attaches(folder, stations, count):
    """A file for each station with so many location updates of a radio of its own. One more file, which gives all a rule, is served first."""
    (folder / 'rule.txt').write_text('1 0 rule 234-14-0/24 1 99 1 3600\n')
    names = [folder / f'{station}.txt' for station in range(1, stations + 1)]
    for station, name in enumerate(names, 1):
        name.write_text(''.join(f'{k} {k} mm 234-14-{2000 + station} {1 + k % 99} 10:260\n' for k in range(2, count + 2)))
    return names


def beside(ours, limit, is_kept):
    return f'{ours:.2f}, ' + (f'limit {limit}' if is_kept else f'PAST THE LIMIT {limit}')


def options(description, **others):
    """The words of the command line: the program, a folder, and others, as numbers, with their defaults."""
    words = argparse.ArgumentParser(description=description, formatter_class=argparse.RawDescriptionHelpFormatter)
    words.add_argument('--program', type=pathlib.Path, default=TOP / 'crates/tetra_switch/out/tetra_switch')
    words.add_argument('--folder', type=pathlib.Path)
    for name, default in others.items():
        words.add_argument(f'--{name}', type=type(default), default=default)
    return words.parse_args()
