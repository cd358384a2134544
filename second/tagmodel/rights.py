"""Areas and sessions: which area holds a block, and whether it can be read or written now."""

from .branches import hit
from .record import LOCK_BLOCK

READ, WRITE = "read", "write"

# What each protection (RFAiSS bits 3-2) asks for: always, session or never.
AREA_1 = {
    READ: ("always", "always", "always", "always"),
    WRITE: ("always", "session", "session", "never"),
}
AREAS_2_TO_4 = {
    READ: ("always", "always", "session", "session"),
    WRITE: ("always", "session", "session", "never"),
}


def area_of(record, block):
    """'Area i is the lowest i with block at most 8 × ENDAi + 7; Area 4 takes the rest.'"""
    for area in (1, 2, 3):
        if block <= 8 * record.end(area) + 7:
            hit(f"area.{area}")
            return area
    hit("area.4")
    return 4


def session_serves(record, protection):
    """'RFAiSS bits 1-0 name password 1, 2 or 3, or none (00)'; 'With password bits 00 no session serves.'"""
    number = protection & 0x03
    if number == 0:
        hit("session.none-named")
        return False
    if record.session is None:
        hit("session.none-open")
        return False
    if record.session == 0:
        hit("session.configuration-open")
        return False
    hit("session.serves" if record.session == number else "session.another-open")
    return record.session == number


def allowed(record, block, access):
    """Whether the area of this block allows this access now."""
    area = area_of(record, block)
    protection = record.protection(area)
    table = AREA_1 if area == 1 else AREAS_2_TO_4
    need = table[access][protection >> 2]
    hit(f"rights.{'area-1' if area == 1 else 'later'}.{access}.{protection >> 2:02b}")
    if need == "session":
        return session_serves(record, protection)
    return need == "always"


def readable(record, block):
    """'Area 1 is always readable'; the others as their protection says."""
    return allowed(record, block, READ)


def writable(record, block):
    """Whether the area is open for writing now; the lock bits stand apart."""
    return allowed(record, block, WRITE)


def block_locked(record, block):
    """'bits 0, 1 blocks 0, 1': no other block has a lock bit."""
    return block < len(LOCK_BLOCK) and record.is_locked(LOCK_BLOCK[block])


def status_of(record, block):
    """'01h if it is locked or not writable now, else 00h'."""
    if block_locked(record, block):
        hit("status.locked")
        return 0x01
    if not writable(record, block):
        hit("status.not-writable")
        return 0x01
    hit("status.open")
    return 0x00
