"""Lines: their ends and lengths, words out of form and range, bytes that are no text."""
import itertools
import random

from streams import RULE_BODY, U, demand, detach, numbered, text

V, G = '234-14-2002', '234-14-1000'
COMMANDS = [RULE_BODY, 'unrule 234-14-2001/48', f'mm {U} 7 60:7380480A00007D0', f'sds {U} {V} 48:820405014849', f'gsds {U} {G} 48:820405014849', f'sent {V} {U} 5 m', 'expire', f'delete {V} {U} 5 r']
QUERIES = [f'where {U}', f'look {V}', f'groups {U}', f'members {G}', f'mail {V}', 'count',
           'rules', 'radios', 'radios 234-14-0/24', 'items', 'due 3600', 'waiting 1', 'last 1', 'room', 'dump', 'mark here', 'station']


def numbers():
    """Each number word at and past its limits, and out of form."""
    words = ['0', '1', '00', '01', '-1', '+1', '', '9', '3', '4', '99', '100', '255', '256', '16383', '16384', '65535', '65536',
             '4294967295', '4294967296', '18446744073709551615', '18446744073709551616', '9' * 40, '9' * 400, '1x', 'x', '１', '1.0', '0x1']
    forms = ['{} 0 rule 234-14-0/24 1 99 1 3600', '1 {} rule 234-14-0/24 1 99 1 3600', '1 0 rule 234-14-0/{} 1 99 1 3600',
             '1 0 rule 234-14-0/24 {} 99 1 3600', '1 0 rule 234-14-0/24 1 {} 1 3600', '1 0 rule 234-14-0/24 1 99 {} 3600',
             '1 0 rule 234-14-0/24 1 99 1 {}', f'1 0 mm {U} {{}} 10:260', '1 0 mm {}-14-2001 7 10:260', '1 0 mm 234-{}-2001 7 10:260',
             '1 0 mm 234-14-{} 7 10:260', f'1 0 mm {U} 7 {{}}:260', f'1 0 mm {U} 7 10:{{}}', '{}', '{} 0', '{} 0 rule', '{} 0 mm', 'count {}',
             '1 0 unrule 234-14-0/{}', '1 0 unrule {}-0-0/10', '{} 0 expire', '1 {} expire', '1 0 {}', f'1 0 sds {{}}-14-2001 {V} 48:820405014849', f'1 0 sds {U} 234-{{}}-1 48:820405014849',
             f'1 0 sds {U} {V} {{}}:820405014849', f'1 0 gsds {{}}-14-2001 {G} 48:820405014849', f'1 0 gsds {U} 234-{{}}-1 48:820405014849',
             f'1 0 gsds {U} {G} {{}}:820405014849', f'1 0 sent {V} {U} {{}} m', f'1 0 delete {V} {U} {{}} r', f'1 0 sent 234-14-{{}} {U} 5 m',
             f'1 0 delete {V} {{}}-14-2001 5 r']
    queries = [f'{word} {name}' for word in ('where', 'look', 'groups', 'members', 'mail')
               for name in ('{}', '{}-14-2001', '234-{}-2001', '234-14-{}', '234-14-2001 {}')]
    queries += [f'radios {name}' for name in ('{}', '{}/48', '{}-0-0/10', '234-{}-0/24', '234-14-{}/48', '0-0-0/{}', '234-14-2000/{}', '0-0-0/0 {}')]
    queries += [f'{word} {end}' for word in ('due', 'waiting', 'last') for end in ('{}', '1 {}')]
    queries += ['rules {}', 'items {}', 'room {}', 'dump {}', 'mark {}', 'mark 1 {}', 'station {}', 'station 1 {}']
    fields = [('1023', '1024'), ('16383', '16384'), ('16777215', '16777216')]
    edges = [f'{word} {"-".join(parts)}' for word in ('where', 'look', 'groups', 'members', 'mail')
             for parts in itertools.product(*fields)]
    for form in forms + queries:
        yield text([form.format(word) for word in words])
    yield text(edges)


def wrong_words():
    """Each form with each word left out, doubled, emptied, in capitals, or another; each kind of item."""
    for form in [f'1 0 {command}' for command in COMMANDS] + QUERIES:
        words, lines = form.split(' '), []
        for k, word in enumerate(words):
            for other in ([], [word, word], [''], [word.upper()], ['x'], [word + '0'], [word + '\0'], ['-' + word], [word + '-'], [word + '\t']):
                lines.append(' '.join(words[:k] + other + words[k + 1:]))
        yield text(lines + [form + ' ', ' ' + form, form + ' x', form])
    kinds = ('m', 'r', 'M', 'R', '', 'mm', 'x', '0', '-', 'm:', '\xb5', '[', 'l', 'n', 'q', 's')
    yield text(f'1 0 {word} {V} {U} 5 {kind}' for word in ('sent', 'delete') for kind in kinds)


def marks():
    """Marks of each length about the greatest, of each byte, and with words more; before and after other words."""
    yield text(f'mark {"x" * length}' for length in (*range(36), 63, 64, 65, 255, 256, 1018, 1019, 1020))
    yield b''.join(b'mark ' + word + b'\n' for byte in range(256)
                   for word in (bytes([byte]), b'a' + bytes([byte]), bytes([byte]) + b'z', bytes([byte]) * 32, bytes([byte]) * 33))
    edges = b'\x1f\x20\x21\x7e\x7f\x80'
    yield b''.join(b'mark ' + b'~' * before + bytes([byte]) + b'!' * (31 - before) + b'\n' for before in range(32) for byte in edges)
    words = ['mark', 'Mark', 'MARK', 'marks', 'mar', '#mark', '-', '?', 'expire', 'station', 'mark here', 'mark mark', 'mark mark mark', '',
             ' ', '  ', 'here ', ' here', 'here there', 'here 0 expire', '0 expire', 'expire expire', 'x' * 32 + ' ', '\t', 'h\tre', 'here\r', '\r']
    for end in '\n', '\r\n', '\r\r\n':
        yield ''.join(f'{before}{word}{end}' for before in ('mark ', 'mark', '', ' mark ', '1 mark ', '1 0 mark ') for word in words).encode()
    yield ''.join(f'mark {word}\n' for word in ('\xe9', '\u20ac', '\uff4d', '\U0001f4fb', 'caf\xe9', '\u0661', '\xa0')).encode()
    yield b'mark ' + b'x' * 32
    yield b'mark ' + b'x' * 32 + b'\r'
    yield b'mark ' + b'x' * 10_000_000 + b'\nmark x\n'


def cut_before_marks():
    """Each form cut at each byte, and a mark after it; then a whole one."""
    for form in [f'1 0 {command}' for command in COMMANDS] + QUERIES:
        yield text(line for at in range(len(form) + 1) for line in (f'{form[:at]}mark first', 'mark second', 'last 1', 'count'))


def bit_strings():
    """Bit strings out of form, with fill bits, and at 2,048 bits."""
    long = ['2048:' + '0' * 512, '2049:' + '0' * 513, '2048:' + '0' * 511, '2047:' + '0' * 511 + '2', '2047:' + '0' * 511 + '1']
    odd = ['10:26', '10:2600', '10:261', '10:26G', '10:26g', '10:2e0', '10:2E0', '0:', '0:0', '1:8', '1:4', ':', '10', '10:',
           '10::260', '010:260', '10:2 60']
    yield text([f'{k} 0 mm {U} 7 {word}' for k, word in enumerate(odd + long, 1)])


def lengths():
    """Lines of every length round 1,024, with each end."""
    for end in (b'\n', b'\r\n', b'\r\r\n', b'', b'\r'):
        for filler in (b'a', b'#', b' ', b'\0', b'\xff', b'\r'):
            for length in range(1020, 1030):
                yield filler * length + end + b'count' + end
    for length in (65535, 65536, 65537, 131072):
        yield b'a' * length + b'\ncount\n'
        yield b'count\n' * (length // 6) + b'cou'
    yield b'x' * 10_000_000
    yield b'x' * 10_000_000 + b'\ncount'


def odd_bytes():
    """Bytes that are no text, line ends of each kind, no last line end."""
    for data in (b'', b'\n', b'\r', b'\r\n', b'\n\n', b'count', b'count\n', b'count\r', b'count\r\n', b'count\r\r\n', b'\xff', b'\0',
                 b'count\0\n', b' count\n', b'count \n', b'Count\n', b'#\xff\xfe\n#\n', b'#' + b'\0' * 2000 + b'\n', b'where\n', b'where \n',
                 b'where  \n', b'1 0  count\n', b'1\t0\tmm\n', b'1 0 MM 234-14-2001 7 10:260\n', b'\xef\xbb\xbfcount\n',
                 b'groups 234-14-2001', b'members 234-14-1000\r', b'mail 234-14-2002\r\r\n', b'1 0 expire', b'1 0 expire\r', b'1 0 expire\r\n'):
        yield data


def random_bytes():
    dice = random.Random(1)
    for size in [10, 100, 1000, 10000, 100000] * 6:
        yield bytes(dice.randrange(256) for _ in range(size))
    alphabet = b'0123456789 -/:\n\r#abcdefmrulewhcontgpsxi' + b'\xff\0'
    for size in [100, 1000, 10000] * 10:
        yield bytes(dice.choice(alphabet) for _ in range(size))


def broken_lines():
    """Good lines with bytes changed, dropped and put in."""
    dice = random.Random(2)
    good = COMMANDS + QUERIES + [demand(3), demand(3, V), detach(), '# a comment', '']
    for _ in range(60):
        data = bytearray(numbered(dice.choice(good) for _ in range(60)))
        for _ in range(20):
            at = dice.randrange(len(data))
            choice = dice.randrange(3)
            if choice == 0:
                data[at] = dice.randrange(256)
            elif choice == 1:
                del data[at]
            else:
                data.insert(at, dice.choice(b' \n\r0'))
        yield bytes(data)


KINDS = [odd_bytes, lengths, numbers, wrong_words, marks, cut_before_marks, bit_strings, broken_lines, random_bytes]
