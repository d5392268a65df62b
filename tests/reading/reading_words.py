"""An independent reading of the words of lines, from docs/formats/lines.md: numbers, identities, prefixes and bits, which are strings of
0 and 1, read and printed; and the words of marks."""
import re

NUMBER, PRINTABLE = re.compile(rb'(?:0|[1-9][0-9]*)\Z'), re.compile(rb'[!-~]{1,32}\Z')


class BadLine(Exception):
    """A line's fault."""


def bad_value():
    raise BadLine('value')


def number(word, least, most):
    if not NUMBER.match(word) or not least <= int(word[:40]) <= most or len(word) > 40:
        bad_value()
    return int(word)


def identity(word):
    parts = word.split(b'-')
    if len(parts) != 3:
        bad_value()
    mcc, mnc, ssi = (number(p, 0, 2 ** w - 1) for p, w in zip(parts, (10, 14, 24)))
    return format(mcc, '010b') + format(mnc, '014b') + format(ssi, '024b')


def prefix(word):
    parts = word.split(b'/')
    if len(parts) != 2:
        bad_value()
    bits, length = identity(parts[0]), number(parts[1], 0, 48)
    if '1' in bits[length:]:
        bad_value()
    return bits[:length]


def bit_string(word):
    parts = word.split(b':')
    if len(parts) != 2:
        bad_value()
    length, digits = number(parts[0], 0, 2048), parts[1]
    if not re.match(rb'[0-9A-Fa-f]*\Z', digits) or len(digits) != (length + 3) // 4:
        bad_value()
    bits = ''.join(format(int(chr(d), 16), '04b') for d in digits)
    if '1' in bits[length:]:
        bad_value()
    return bits[:length]


def printable(word):
    """One of 1 to 32 printable characters, as text."""
    if not PRINTABLE.match(word):
        bad_value()
    return word.decode()


def print_identity(bits):
    return '-'.join(str(int(field, 2)) for field in (bits[:10], bits[10:24], bits[24:]))


def print_bits(bits):
    if bits is None:
        return '-'
    filled = bits + '0' * (-len(bits) % 4)
    return f'{len(bits)}:' + ''.join(format(int(filled[k:k + 4], 2), 'X') for k in range(0, len(filled), 4))
