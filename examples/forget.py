#!/usr/bin/env python3
"""Makes a new disk with the register of DISK, which nobody serves, but without some radios: the ITSIs named, those under a prefix, or all
that are `absent`. What waits for them stays until it expires. Prints how many are forgotten, and what `load` prints. TETRA_SWITCH names
the program; else it is the one beside this folder.
Usage: examples/forget.py DISK SETTINGS NEW WORD...
  examples/forget.py switch.disk examples/settings.toml new.disk absent 234-14-2001 235-1-0/24"""
import os
import subprocess
import sys
import tempfile

WIDTHS = 10, 14, 24


def bits_of(word):
    """The bits of an identity or a prefix."""
    identity, _, length = word.partition('/')
    numbers = [int(part) for part in identity.split('-')]
    if len(numbers) != len(WIDTHS) or any(number >> width for number, width in zip(numbers, WIDTHS)):
        raise ValueError
    return ''.join(format(number, '0%db' % width) for number, width in zip(numbers, WIDTHS))[:int(length or 48)]


def without(lines, words):
    """The lines of a dump without these radios, with their number mended, and how many are gone."""
    prefixes = [bits_of(word) for word in words if word != 'absent']

    def goes(line):
        parts = line.split(' ')
        return parts[0] == 'radio' and ('absent' in words and parts[6] == 'absent' or any(bits_of(parts[1]).startswith(one) for one in prefixes))

    kept = [line for line in lines if not goes(line)]
    counts = kept[1].split(' ')
    counts[5] = str(int(counts[5]) - len(lines) + len(kept))
    return [kept[0], ' '.join(counts), *kept[2:]], len(lines) - len(kept)


def main():
    if len(sys.argv) < 5:
        sys.exit(__doc__)
    os.umask(0o077)
    disk, settings, new, *words = sys.argv[1:]
    program = os.environ.get('TETRA_SWITCH') or os.path.join(os.path.dirname(os.path.abspath(__file__)), '..', 'tetra-switch')
    try:
        dump = subprocess.run([program, 'dump', disk], stdout=subprocess.PIPE, check=True).stdout.decode()
        lines, gone = without(dump.splitlines(), words)
        with tempfile.NamedTemporaryFile('w') as text:
            text.write(''.join(line + '\n' for line in lines))
            text.flush()
            subprocess.run([program, 'load', text.name, settings, new], check=True)
    except subprocess.CalledProcessError as fault:
        sys.exit(fault.returncode)
    except ValueError:
        sys.exit('examples/forget.py: a WORD is an ITSI, a prefix or `absent`')
    print('forgot %d radios' % gone)


if __name__ == '__main__':
    main()
