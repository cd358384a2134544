"""Read configuration A0h and write configuration A1h."""

from .branches import hit
from .outcomes import Outcome, Unit
from .record import LOCK_CFG
from .rules import HIGHEST_PROTECTION

# Addresses of document 003, Table 10: the seven area registers and LOCK_CFG.
# KILL (03h) is not in the base; passwords have no address.
AREA_REGISTERS = range(0x04, 0x0B)
LOCK_CFG_ADDRESS = 0x0F


def is_register(address):
    """'Registers: the seven above and LOCK_CFG.'"""
    return address in AREA_REGISTERS or address == LOCK_CFG_ADDRESS


def register_value(record, address):
    """The byte that a register shows."""
    if address == LOCK_CFG_ADDRESS:
        return int(record.is_locked(LOCK_CFG))
    return record.registers[address - AREA_REGISTERS.start]


def value_allowed(record, size, address, value):
    """'RFAiSS allows 00h to 0Fh, LOCK_CFG 00h and 01h.' The ends have their own rule."""
    if address == LOCK_CFG_ADDRESS:
        return note_allowed("lock-cfg", value <= 1)
    index = address - AREA_REGISTERS.start
    area = index // 2 + 1
    if index % 2 == 0:
        return note_allowed(f"protection-{area}", value <= HIGHEST_PROTECTION)
    return end_allowed(record, size, area, value)


def note_allowed(register, is_allowed):
    """Counts the decision over a register's value and returns it."""
    hit(f"register.{register}.{'taken' if is_allowed else 'over'}")
    return is_allowed


def end_allowed(record, size, area, value):
    """'ENDAi allows v at most E, above ENDA(i-1) if i is over 1, while all later ends are E.'"""
    if value > size.last_end:
        hit(f"register.end-{area}.over")
        return False
    if area > 1 and value <= record.end(area - 1):
        hit(f"register.end-{area}.not-above")
        return False
    if any(record.end(later) != size.last_end for later in range(area + 1, 4)):
        hit(f"register.end-{area}.later-end-set")
        return False
    hit(f"register.end-{area}.taken")
    return True


def read_register(tag, fields, option):
    """'Unknown 10h'; otherwise one byte. No session is needed."""
    address = fields[0]
    if not is_register(address):
        hit("read-register.unknown")
        return Outcome(error=0x10)
    hit(f"read-register.{address:02X}")
    return Outcome(body=bytes((register_value(tag.record, address),)))


def write_register(tag, fields, option):
    """'Unknown 10h; for a write, configuration session closed or LOCK_CFG set 0Fh; value not allowed 13h.'"""
    address, value = fields
    if not is_register(address):
        hit("write-register.unknown")
        return Outcome(error=0x10)
    if tag.record.session != 0:
        hit("write-register.session-closed")
        return Outcome(error=0x0F)
    if tag.record.is_locked(LOCK_CFG):
        hit("write-register.locked")
        return Outcome(error=0x0F)
    if not value_allowed(tag.record, tag.size, address, value):
        return Outcome(error=0x13)
    if address == LOCK_CFG_ADDRESS:
        return Outcome(work=(Unit("lock", LOCK_CFG, value),))
    return Outcome(work=(Unit("register", address - AREA_REGISTERS.start, value),))
