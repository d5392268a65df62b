"""Images of disks that differ from a good one. Either one byte that determines how the rest is read is changed, or whole sectors are.
Such bytes are in the label, the roots, the header rows of the slots, the gates and the heads of the records."""
import faulty_disks
from made_disks import FORMS
from reading_disks import LABEL, RECORD_HEAD, ROOTS, data_sectors, is_open, layout_in, opens
from reading_rows import SECTOR

LABEL_BYTES, ROOT_BYTES, HEADER_BYTES, GATE_BYTES = 30, 1, 33, 1
# In how many images the other bytes of a sector are changed, each byte in one of them
TAILS = 16


def with_sector(image, at, sector):
    return image[:at] + [sector] + image[at + 1:]


def with_byte(sector, place, byte):
    return sector[:place] + bytes([byte]) + sector[place + 1:]


def gates(image, layout, opening):
    """The gates of the current half, up to the first closed one, and the first data sector of each record."""
    at = layout.half(opening.side)
    while is_open(image[at]):
        yield at, at + 1
        at += 1 + data_sectors(image[at + 1], opening.form)
    yield at, None


def telling(image):
    """The sectors that determine how others are read, each with the number of its bytes that do. Both sides of the disk are open."""
    layout, opening = layout_in(image[LABEL], len(image)), opens(image)
    yield LABEL, LABEL_BYTES
    yield from ((root, ROOT_BYTES) for root in ROOTS)
    yield from ((layout.slot(side), HEADER_BYTES) for side in (0, 1))
    for gate, record in gates(image, layout, opening):
        yield gate, GATE_BYTES
        if record:
            yield record, RECORD_HEAD[opening.form]


def other_bytes(byte):
    """Some bytes that this one is not."""
    return sorted({0, 1, 255, byte ^ 1, byte ^ 128, (byte + 1) % 256} - {byte})


def bytes_changed(image):
    """Images in which one of these bytes has another value."""
    for at, count in telling(image):
        for place in range(count):
            for byte in other_bytes(image[at][place]):
                yield with_sector(image, at, with_byte(image[at], place, byte))


def tails_changed(image, dice):
    """Images in which other bytes of these sectors change, each byte in one image. The bytes after a record's head are its commands."""
    for at, count in telling(image):
        for first in range(TAILS):
            sector = bytearray(image[at])
            for place in range(count + first, SECTOR, TAILS):
                sector[place] ^= dice.randint(1, 255)
            yield with_sector(image, at, bytes(sector))


def sectors_changed(image, dice, count):
    """One to three sectors that were written hold those of another, or anything; so many images."""
    written = [at for at, sector in enumerate(image) if any(sector)]
    for _ in range(count):
        changed = image
        for at in dice.sample(written, dice.randint(1, 3)):
            changed = with_sector(changed, at, dice.choice([image[dice.choice(written)], dice.randbytes(SECTOR)]))
        yield changed


def headers_changed(image):
    """The header of each slot with each other tag, and both with the tag of the other layout."""
    layout = layout_in(image[LABEL], len(image))
    slots = [layout.slot(side) for side in (0, 1)]
    for at in slots:
        yield from (with_sector(image, at, with_byte(image[at], 0, tag)) for tag in range(24) if tag != image[at][0])
    for tag in FORMS:
        changed = image
        for at in slots:
            changed = with_sector(changed, at, with_byte(image[at], 0, tag))
        yield changed


def put_together():
    """Images that were put together by hand."""
    return (image for image, _ in faulty_disks.cases())


def kinds(image, dice):
    """The images that differ from this one, by their kind."""
    return {'bytes changed': bytes_changed(image), 'other bytes changed': tails_changed(image, dice),
            'headers changed': headers_changed(image), 'sectors changed': sectors_changed(image, dice, 100)}
