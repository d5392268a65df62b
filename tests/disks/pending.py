"""A disk as its calls leave it, and what a stop may leave of that: what was written since the last sync may be there, or not,
or torn."""
import collections

from reading_rows import SECTOR

# A write of the disk; a sync is None
Write = collections.namedtuple('Write', 'at bytes')
SYNC = None
# Of how many sectors of a call each alone is left out, or torn
MOST_APART = 4


class Disk:
    """Sectors as they last, and of each pending one what it held at the last sync and got since."""

    def __init__(self, sectors):
        self.lasting, self.pending, self.last = sectors, {}, []

    def call(self, call):
        if call is SYNC:
            self.lasting = self.image({at: held[-1] for at, held in self.pending.items()})
            self.pending = {}
        else:
            self.write([call])

    def write(self, run):
        """One call writes all these sectors."""
        for at, held in run:
            self.pending.setdefault(at, [self.lasting[at]]).append(held)
        self.last = [at for at, _ in run]

    def now(self, at):
        """What a read of this sector gives."""
        return self.pending[at][-1] if at in self.pending else self.lasting[at]

    def copy(self):
        other = Disk(self.lasting)
        other.pending, other.last = {at: held[:] for at, held in self.pending.items()}, self.last[:]
        return other

    def image(self, chosen):
        image = self.lasting[:]
        for at, held in chosen.items():
            image[at] = held
        return image


def torn(dice, held):
    """What a pending sector may hold after a stop: what it held at the last sync, or a later write; the first bytes of the last
    write and then old bytes, or old bytes and then those of the last write; or anything."""
    kind, old, new = dice.randrange(6), held[0], held[-1]
    return (dice.choice(held), old, new, *mixed(dice, old, new), dice.randbytes(SECTOR))[kind]


def mixed(dice, old, new):
    """The first bytes of one and then those of the other, either way."""
    cut = dice.randrange(SECTOR)
    return new[:cut] + old[cut:], old[:cut] + new[cut:]


def beginning(dice, held, byte):
    """A torn sector that begins with this byte."""
    return bytes([byte]) + torn(dice, held)[1:]


def some_written(disk, dice):
    """What a stop within a call of several sectors may leave: one of these alone is written, or left out, or torn. Where there are more
    than MOST_APART, the first, the last, and others by chance. Beside a torn one each other sector is written or not."""
    done, run = {at: held[-1] for at, held in disk.pending.items()}, disk.last
    between = dice.sample(run[1:-1], min(MOST_APART - 2, len(run) - 2))
    for at in [run[0], *between, run[-1]]:
        others = {other: new for other, new in done.items() if other not in run}
        yield {**dice.choice(({}, others)), at: done[at]}
        yield {other: new for other, new in done.items() if other != at}
        old, new = disk.pending[at][0], done[at]
        beside = {other: new for other, new in done.items() if dice.randrange(2)}
        yield {**beside, at: dice.choice((*mixed(dice, old, new), dice.randbytes(SECTOR)))}


def choices(disk, dice, draws):
    """What the pending sectors may hold after a stop: none of the writes; all; the last call alone; all but that one; random choices
    where the sector written last begins with a byte that makes or spoils a gate; `draws` other random choices; and where the last
    call wrote several sectors, some of these and not the others."""
    yield {}
    if not disk.pending:
        return
    done, last = {at: held[-1] for at, held in disk.pending.items()}, disk.last
    yield done
    yield {at: done[at] for at in last}
    yield {at: new for at, new in done.items() if at not in last}
    by_chance = lambda: {at: torn(dice, held) for at, held in disk.pending.items()}
    for byte in (0, 1, 77):
        yield {**by_chance(), last[-1]: beginning(dice, disk.pending[last[-1]], byte)}
    for _ in range(draws):
        yield by_chance()
    if len(last) > 1:
        yield from some_written(disk, dice)
