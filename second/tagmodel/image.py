"""'Image: 64-byte header, then user memory', and where a header is wrong (document 02, W-202)."""

from typing import NamedTuple

from .record import ALL_LOCKS, Record
from .rules import fault_of_register
from .sizes import HEADER_BYTES, SIZES

MARK = 0
UID = slice(1, 9)
AFI = 9
DSFID = 10
LOCKS = 11
REGISTERS = slice(12, 19)
PASSWORDS = 19
PASSWORD_BYTES = 8
PROTECTIONS, ENDS = (12, 14, 16, 18), (13, 15, 17)
RESERVED = range(51, HEADER_BYTES)


class HeaderFault(NamedTuple):
    """5Ah to 5Eh for 5a to 5e, the place of the byte that offends, and the rule that it breaks."""

    number: int
    place: int
    rule: str


def mark_rule(header, place, size):
    """'1 for 16 Kbit, 2 for 64 Kbit', as the image's length has it."""
    if header[place] == size.mark:
        return None
    return "size-mark-other" if header[place] in [other.mark for other in SIZES] else "size-mark-unknown"


def lock_rule(header, place, size):
    """Five bits, 'others 0'."""
    return "lock-bits" if header[place] & ~ALL_LOCKS else None


def register_rule(header, place, size):
    """The record rules; E is that of the image's length."""
    return fault_of_register(header[REGISTERS], place - REGISTERS.start, size.last_end)


def reserved_rule(header, place, size):
    """'51 to 63 zero'."""
    return f"reserved-{place}" if header[place] else None


# '5a size mark, 5b lock byte, 5c protection byte, 5d area end, 5e reserved byte', each with its places. Each rule names
# what the byte at a place breaks, or None.
KINDS = ((0x5A, (MARK,), mark_rule), (0x5B, (LOCKS,), lock_rule), (0x5C, PROTECTIONS, register_rule),
         (0x5D, ENDS, register_rule), (0x5E, RESERVED, reserved_rule))


def offending(header, size):
    """All bytes that offend, letter by letter."""
    for number, places, rule in KINDS:
        for place in places:
            broken = rule(header, place, size)
            if broken:
                yield HeaderFault(number, place, broken)


def header_fault(header, size):
    """The fault 'with the lowest offending byte's place', or None where no byte offends."""
    return min(offending(header, size), key=lambda fault: fault.place, default=None)


def record_of_header(header):
    """The record that a sound header gives: 'Loading gives a tag with the field off.'"""
    starts = range(PASSWORDS, RESERVED.start, PASSWORD_BYTES)
    return Record(
        uid=int.from_bytes(header[UID], "little"),
        afi=header[AFI],
        dsfid=header[DSFID],
        locks=header[LOCKS],
        registers=tuple(header[REGISTERS]),
        passwords=tuple(int.from_bytes(header[at:at + PASSWORD_BYTES], "little") for at in starts))


def header_of_record(record, size):
    """'Saving writes lasting parts only': the 64 bytes of a header."""
    header = bytes((size.mark,)) + record.uid.to_bytes(8, "little")
    header += bytes((record.afi, record.dsfid, record.locks)) + bytes(record.registers)
    for password in record.passwords:
        header += password.to_bytes(PASSWORD_BYTES, "little")
    return header + bytes(len(RESERVED))
