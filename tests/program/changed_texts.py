"""A register's text with one thing changed, by kinds of changes; and texts with long lines and strange ends. TEXT is written by hand."""
import random

TEXT = b"""\
tetra-switch register 1 rules 16 radios 16 items 256 stations 4
count 20 rules 2 radios 3 items 3 stations 2
rule 234-14-0/24 1 99 1 3600
rule 234-14-2048/37 0 16383 0 4294967295
radio 234-14-2001 station 1 la 7 present 234-14-1000 4 3 234-14-1001 0 0
radio 234-14-2002 station 4 la 16383 absent
radio 234-15-1 station 2 la 0 present
item 8 234-14-2002 m 234-14-2001 5 3700 48:820405014849
item 8 234-15-1 m 234-14-2001 5 3700 32:82000500 234-14-1000
item 9 234-14-2001 r 234-14-2002 5 8589934590 32:82180005
last 1 2 20 8:56
last 2 4294967295 19 -
"""
SEED, LONGEST = 'changed texts', 4096
# The words that replace others, beside those of the text
NUMBERS = ['', '00', '01', '+1', '1.0', '0x1', '3', '4', '5', '6', '7', '8', '10', '17', '18', '21', '255', '256', '16384', '65535', '65536',
           '4294967296', '4611686018427387904', '4611686018427387905', '8589934591', '18446744073709551615', '18446744073709551616', '9' * 40]
NAMES = ['0-0-0', '234-14-1', '234-14-16777216', '1023-16383-16777215', '1024-0-0', '234-14', '234-14-2001-1', '0-0-0/0', '234-14-0/23',
         '234-14-0/25', '234-14-2048/36', '0-0-0/49', '234-14-0/', '1023-16383-16777215/48']
PDUS = ['0:', '1:8', '3:A', '3:a', '3:B', '8:5', '8:560', '8-56', ':', '32:8218FF05', '32:82180006', '32:821A0005', '32:82100005', '32:82200005',
        '47:820405014849', '48:82040501484a', '32:02000500', '16:8204', '2047:820005' + '0' * 506, '2048:820005' + '0' * 506]
KEYWORDS = ['Rule', 'rules', 'items', 'absent', 'PRESENT', 'gone', 'r', 'M', 'x', '#', '\xff']
BYTES = b'\0\t \n\r-/:019AFaz\x7f\xff'
OTHER_WORDS, OTHER_BYTES = 12, 2


def ended(lines):
    return b''.join(line + b'\n' for line in lines)


def with_line(lines, at, *others):
    """The text with other lines in the place of one."""
    return ended([*lines[:at], *others, *lines[at + 1:]])


# Kinds of changes: each gives texts

def lines_changed(lines, dice):
    """A line removed, doubled, at another place, or another line in its place."""
    for at, line in enumerate(lines):
        yield with_line(lines, at)
        yield with_line(lines, at, line, line)
        if lines[at + 1:]:
            yield with_line(with_line(lines, at).splitlines(), at, lines[at + 1], line)
        others = lines[:at] + lines[at + 1:]
        yield with_line(lines, at, dice.choice(others))
        others.insert(dice.randrange(len(lines)), line)
        yield ended(others)


def words_changed(lines, dice):
    """A word replaced by others, removed, or doubled."""
    all_words = sorted(set(b' '.join(lines).split(b' '))) + [word.encode('latin-1') for word in NUMBERS + NAMES + PDUS + KEYWORDS]
    for at, line in enumerate(lines):
        words = line.split(b' ')
        for place, word in enumerate(words):
            others = [[other] for other in dice.sample(all_words, OTHER_WORDS)]
            for now in [*others, [], [word, word], neighbour(word, 1), neighbour(word, -1)]:
                yield with_line(lines, at, b' '.join(words[:place] + now + words[place + 1:]))


def neighbour(word, step):
    """The number after one, or before it; another word as it is."""
    return [b'%d' % (int(word) + step) if word.isdigit() else word]


def words_moved(lines, dice):
    """Two words next to each other change places."""
    for at, line in enumerate(lines):
        words = line.split(b' ')
        for place in range(len(words) - 1):
            yield with_line(lines, at, b' '.join([*words[:place], words[place + 1], words[place], *words[place + 2:]]))


def bytes_removed(lines, dice):
    text = ended(lines)
    yield from (text[:at] + text[at + 1:] for at in range(len(text)))


def bytes_added(lines, dice):
    text = ended(lines)
    for at in range(len(text) + 1):
        yield from (text[:at] + bytes([byte]) + text[at:] for byte in dice.sample(BYTES, OTHER_BYTES))


def bytes_changed(lines, dice):
    text = ended(lines)
    for at in range(len(text)):
        yield text[:at] + bytes([dice.choice(BYTES.replace(text[at:at + 1], b''))]) + text[at + 1:]


def cut(lines, dice):
    """Its first bytes, from none to all."""
    text = ended(lines)
    yield from (text[:at] for at in range(len(text) + 1))


def ends_of_lines(lines, dice):
    for at, line in enumerate(lines):
        for end in b'\r', b' ', b'\0', b'\r\n', b' \n':
            yield with_line(lines, at, line + end)
    text = ended(lines)
    yield from (text.replace(b'\n', end) for end in (b'\r\n', b'\r', b'\n\r', b'\n\n', b'\0'))


def blank_lines(lines, dice):
    for at, line in enumerate(lines):
        for blank in b'', b' ', b'#', b'# ' + line:
            yield with_line(lines, at, blank, line)
    yield from (ended(lines) + blank for blank in (b'\n', b' ', b'\0', b'#\n', b'\xef\xbb\xbf'))


def counted(lines, dice):
    """A line that states how many lines follow, or one like it, before each line."""
    for at, line in enumerate(lines):
        for number in str(len(lines)).encode(), b'0', b'18446744073709551615', b'18446744073709551616', b'012', b'', b'1 ', b'x', b'1 2':
            yield with_line(lines, at, b'dump ' + number, line)
    count = b'dump %d' % len(lines)
    yield from (ended([count, *others]) for others in ([count, *lines], lines[:-1], [*lines, lines[-1]], lines + lines, [*lines, count, *lines]))
    yield ended([count, *lines]).removesuffix(b'\n')
    yield from (ended([before, *lines]) for before in (b'dump', b'dumps 1', b'Dump 1', b' dump 1', b'dump  1', b'dump\t1'))
    yield from (b'dump 12', b'dump 12\n')


def cases_changed(lines, dice):
    """Upper and lower case, of a line, a letter or all."""
    for at, line in enumerate(lines):
        yield from (with_line(lines, at, other) for other in (line.upper(), line.lower(), line.swapcase(), line.capitalize()))
    text = ended(lines)
    yield from (text.upper(), text.lower(), b'\xef\xbb\xbf' + text)
    letters = [at for at in range(len(text)) if text[at:at + 1].isalpha()]
    yield from (text[:at] + text[at:at + 1].swapcase() + text[at + 1:] for at in letters)


def long_lines(lines, dice):
    """Lines of about 4,096 bytes at each place, with their line feed and as the end of the text; and much longer ones."""
    for at in range(len(lines) + 1):
        for size in LONGEST - 1, LONGEST, LONGEST + 1, 50 * LONGEST:
            line = (lines[at] if lines[at:] else b'last 3 1 1 -').ljust(size, dice.choice([b' ', b'0', b'\0', b'x']))
            yield ended(lines[:at]) + line
            yield with_line(lines, at, line)


def groups_of_a_radio(lines, dice):
    """As many groups as a radio may have, and more, in order and not."""
    radio, at = lines[5], 5
    for count in 1, 2, 31, 32, 33, 64, 170, 256:
        groups = [f' 234-14-{1000 + k} {k % 8} {k % 4}'.encode() for k in range(count)]
        yield with_line(lines, at, radio + b''.join(groups))
        yield with_line(lines, at, radio + b''.join(reversed(groups)))
        yield with_line(lines, at, radio + b''.join(groups[:-1] + groups[:1]))


def doubled(lines, dice):
    """The text after itself, and after a part of itself."""
    for at in range(len(lines) + 1):
        yield ended(lines[:at] + lines)
        yield ended(lines + lines[at:])


def many_changes(lines, dice):
    """Two to four of these changes, one after another."""
    for _ in range(100):
        now = lines
        for _ in range(dice.randint(2, 4)):
            kind = dice.choice([lines_changed, words_moved, words_changed])
            now = dice.choice(list(kind(now, dice))).splitlines() or lines
        yield ended(now)


KINDS = [lines_changed, words_changed, words_moved, bytes_removed, bytes_added, bytes_changed, cut, ends_of_lines, blank_lines, counted,
         cases_changed, long_lines, groups_of_a_radio, doubled, many_changes]


def changed(kind, text=TEXT):
    """The texts of a kind, each once, and none that is as it was."""
    made = kind(text.splitlines(), random.Random(f'{SEED} {kind.__name__}'))
    return list(dict.fromkeys(other for other in made if other != text))
