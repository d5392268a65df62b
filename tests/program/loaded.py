"""A text given to the program's `load`, and the disk that this makes; a disk given to its `dump`. Both are compared with the
independent reading (tests/reading/)."""
import os

from disk_files import DISK, SETTINGS, settings, untouched
from made_disks import CLOSED, OPEN, label
from reading_disks import LABEL, MOST, NUMBERED, ROOTS, Layout
from reading_rows import SECTOR, rows
from reading_texts import BadText, register_in, text_of
from running import compare

DUMP, TOML = 'd.txt', 's.toml'
LOAD = ['load', DUMP, TOML, DISK]
LIMITS, JOURNAL = {kind: SETTINGS[kind] for kind in MOST}, SETTINGS['journal']


def layout_of(limits, journal=JOURNAL):
    return Layout(tuple(limits[kind] for kind in MOST), journal)


def loaded_line(limits, journal=JOURNAL):
    return f'loaded {layout_of(limits, journal).sectors()} sectors\n'.encode()


def sectors_of(register, journal, which, epoch, form):
    """The sectors of a side, A or B, that counts and has no record."""
    layout = layout_of(register.limits, journal)
    image = dict(enumerate(rows(epoch, register, form), layout.slot(which)))
    return {LABEL: label(**register.limits, journal=journal), ROOTS[which]: OPEN, ROOTS[1 - which]: CLOSED, **image, layout.half(which): CLOSED}


def image_of(register, which=0, epoch=1, form=NUMBERED):
    """A disk with this register. Each sector that says nothing is an open gate."""
    sectors = sectors_of(register, JOURNAL, which, epoch, form)
    return [sectors.get(at, OPEN) for at in range(layout_of(register.limits).sectors())]


def made_of(register, journal=JOURNAL):
    """The sectors of the disk that `load` makes, but for those of zeros."""
    sectors = sectors_of(register, journal, 0, 1, NUMBERED)
    whole = {at: sector.rstrip(b'\xa5').ljust(SECTOR, b'\0') for at, sector in sectors.items()}
    return {at: sector for at, sector in whole.items() if any(sector)}


def disk_of(register):
    sectors = made_of(register)
    return b''.join(sectors.get(at, bytes(SECTOR)) for at in range(layout_of(register.limits).sectors()))


def ready(place, data, limits=LIMITS):
    """A text and settings, and no disk."""
    place.write(DUMP, data)
    place.write(TOML, settings(**limits).encode())
    place.path().unlink(missing_ok=True)


def dump_fault(fault):
    number, cause = fault.args
    return f'fault: dump line {number}: {cause}\n'.encode()


def loads(place, data, limits=LIMITS):
    """Has a text loaded, and returns the register that it makes, or the cause of its fault."""
    ready(place, data, limits)
    files = sorted(os.listdir(place.folder))
    try:
        register = register_in(data, limits)
    except BadText as fault:
        place.gives(LOAD, 3, err=dump_fault(fault))
        compare('files', sorted(os.listdir(place.folder)), files)
        return fault.args[1]
    place.gives(LOAD, 0, loaded_line(limits))
    compare('the disk is that of the register', place.path().read_bytes() == disk_of(register), True)
    return register


def dumps(place, register, name=DISK):
    """Compares what `dump` prints, which leaves the disk as it is."""
    with untouched(place.path(name)):
        place.gives(['dump', name], 0, text_of(register))
