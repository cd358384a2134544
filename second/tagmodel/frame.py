"""From frame to command: checks 1 to 6."""

from . import inventory
from .branches import hit
from .commands import ADDRESS_FLAG, INVENTORY, OPTION_FLAG, SELECT, SELECT_FLAG, execute
from .crc import crc_is_right
from .outcomes import SILENCE
from .record import QUIET, READY, SELECTED

INVENTORY_FLAG = 0x04
BIT_4 = 0x08
BIT_8 = 0x80

SHORTEST_FRAME = 4
CUSTOM_CODES = range(0xA0, 0xE0)
MANUFACTURER = 0x02
UID_BYTES = 8


def receive(record, memory, frame):
    """'Checks, first match wins'; returns the next record and the answer."""
    if not record.field:
        hit("frame.field-off")
        return record, SILENCE
    record = drop(record)
    if not is_whole(frame):
        return record, SILENCE
    flags, code, rest = frame[0], frame[1], frame[2:-2]
    if not flags_are_heard(flags, code):
        return record, SILENCE
    if code == INVENTORY:
        return inventory.receive(record, flags, rest)
    if code in CUSTOM_CODES:
        if rest[:1] != bytes((MANUFACTURER,)):
            hit("frame.manufacturer-other" if rest else "frame.manufacturer-none")
            return record, SILENCE
        rest = rest[1:]
    record, fields = address(record, flags, code, rest)
    if fields is None:
        return record, SILENCE
    return execute(record, memory, flags, code, fields)


def drop(record):
    """'In the field, any frame first drops a round and a held answer.'"""
    hit("frame.drops-round" if record.round is not None
        else "frame.drops-held" if record.held is not None else "frame.drops-nothing")
    return record._replace(round=None, held=None)


def is_whole(frame):
    """Check 2: 'Under 4 bytes, or wrong CRC: silence.'"""
    if len(frame) < SHORTEST_FRAME:
        hit(f"frame.bytes-{len(frame)}")
        return False
    if not crc_is_right(frame):
        hit("frame.crc-wrong")
        return False
    return True


def flags_are_heard(flags, code):
    """Checks 3 and 4: bits 4 and 8 are clear, and the Inventory_flag stands with code 01h alone."""
    if flags & BIT_4:
        hit("frame.bit-4")
        return False
    if flags & BIT_8:
        hit("frame.bit-8")
        return False
    if flags & INVENTORY_FLAG and code != INVENTORY:
        hit("frame.inventory-flag-without-code")
        return False
    if not flags & INVENTORY_FLAG and code == INVENTORY:
        hit("frame.inventory-code-without-flag")
        return False
    return True


def address(record, flags, code, rest):
    """Check 6: returns the next record and the fields after the UID, or None for silence."""
    if flags & SELECT_FLAG and flags & ADDRESS_FLAG:
        hit("frame.select-and-address")
        return record, None
    if flags & ADDRESS_FLAG:
        return address_by_uid(record, flags, code, rest)
    if flags & SELECT_FLAG and record.state != SELECTED:
        hit(f"frame.select-in-{record.state}")
        return record, None
    if not flags & SELECT_FLAG and record.state == QUIET:
        hit("frame.plain-in-Quiet")
        return record, None
    return record, rest


def address_by_uid(record, flags, code, rest):
    """'Addressed: UID missing or not ours is silence'; a Select of another UID may deselect."""
    if len(rest) < UID_BYTES:
        hit("frame.uid-part" if rest else "frame.uid-missing")
        return record, None
    if int.from_bytes(rest[:UID_BYTES], "little") == record.uid:
        return record, rest[UID_BYTES:]
    if code == SELECT:
        return after_select_of_another(record, flags, rest), None
    hit("frame.uid-other")
    return record, None


def after_select_of_another(record, flags, rest):
    """'a Select of another UID, of the right length and without Option_flag, turns Selected into Ready'."""
    if len(rest) != UID_BYTES:
        hit("frame.other-select.long")
        return record
    if flags & OPTION_FLAG:
        hit("frame.other-select.option")
        return record
    hit(f"frame.other-select.in-{record.state}")
    return record._replace(state=READY) if record.state == SELECTED else record
