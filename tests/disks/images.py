"""What an image of a disk opens to, compared with what it must open to."""
import functools

from reading_disks import BadGeometry, Damaged, Unformatted, opens


def kept(register):
    """All that a register keeps, as values that can be compared."""
    mail = {key: item._replace(pdu=item.pdu.kept) for key, item in register.mail.items()}
    return register.count, register.rules, register.radios, register.groups, mail, register.served


@functools.lru_cache(maxsize=4096)
def are_same(register, other):
    return kept(register) == kept(other)


def told_as(fault):
    return f'{type(fault).__name__}({fault})'


def fault_of(image, registers):
    """None where an image stands for one of these registers, or what is wrong with it."""
    try:
        register = opens(image).register
    except (Unformatted, BadGeometry, Damaged) as fault:
        return told_as(fault)
    if any(are_same(register, other) for other in registers):
        return None
    return f'a register of {register.count} commands, not that of {" or ".join(str(other.count) for other in registers)}'
