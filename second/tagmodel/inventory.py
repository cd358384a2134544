"""The Inventory request and its rounds; AFI families are document 02's, W-203."""

from .branches import hit
from .outcomes import SILENCE, success_frame
from .record import QUIET, Round
from .rules import HIGHEST_SLOT

# Request flags of an Inventory; Option_flag is ignored.
AFI_FLAG = 0x10
ONE_SLOT_FLAG = 0x20

LONGEST_MASK_ONE_SLOT = 64
LONGEST_MASK_16_SLOTS = 60

UPPER_HALF, LOWER_HALF = 0xF0, 0x0F  # of an AFI


def receive(record, flags, fields):
    """An Inventory that passed checks 1 to 4; returns the next record and the answer."""
    asked = parse(flags, fields)
    if asked is None:
        return record, SILENCE
    afi, mask_length, mask = asked
    if record.state == QUIET:
        hit("inventory.quiet")
        return record, SILENCE
    if not afi_matches(afi, record.afi):
        return record, SILENCE
    if not mask_matches(record.uid, mask_length, mask):
        hit("inventory.other-mask")
        return record, SILENCE
    if flags & ONE_SLOT_FLAG:
        hit("inventory.one-slot")
        return record, answer(record)
    return speak_in_slot(record, Round(slot=0, mask_length=mask_length))


def parse(flags, fields):
    """'AFI if bit 5 is set, mask length, then mask bytes'; None for a wrong length or too long a mask."""
    afi = None
    if flags & AFI_FLAG:
        if not fields:
            hit("inventory.no-afi")
            return None
        afi, fields = fields[0], fields[1:]
    if not fields:
        hit("inventory.no-mask-length")
        return None
    mask_length, mask = fields[0], fields[1:]
    if mask_length > (LONGEST_MASK_ONE_SLOT if flags & ONE_SLOT_FLAG else LONGEST_MASK_16_SLOTS):
        hit("inventory.mask-too-long.one-slot" if flags & ONE_SLOT_FLAG else "inventory.mask-too-long.16-slots")
        return None
    mask_bytes = (mask_length + 7) // 8
    if len(mask) != mask_bytes:
        hit("inventory.mask-short" if len(mask) < mask_bytes else "inventory.mask-long")
        return None
    return afi, mask_length, int.from_bytes(mask, "little")


def afi_matches(asked, stored):
    """'00h still matches all, and 0Yh only itself'; X0h has a family; for XYh, as in 01, it 'equals the stored AFI'."""
    if asked is None:
        hit("inventory.afi.none-asked")
        return True
    if asked == 0x00:
        hit("inventory.afi.zero")
        return True
    if not asked & LOWER_HALF:
        return is_of_family(asked, stored)
    halves = "XY" if asked & UPPER_HALF else "0Y"
    hit(f"inventory.afi.{halves}-itself" if asked == stored else f"inventory.afi.{halves}-differs")
    return asked == stored


def is_of_family(asked, stored):
    """'a request of X0h, with X not 0, match every stored AFI whose upper half is X'."""
    if stored & UPPER_HALF != asked:
        hit("inventory.afi.other-family")
        return False
    hit("inventory.afi.family-itself" if stored == asked else "inventory.afi.family")
    return True


def mask_matches(uid, mask_length, mask):
    """'The lowest mask-length bits of the UID must match', 'spare bits not compared'."""
    compared = (1 << mask_length) - 1
    return uid & compared == mask & compared


def slot_of(uid, mask_length):
    """'With 16 slots, the next four UID bits are the slot'."""
    return uid >> mask_length & 0x0F


def answer(record):
    """'Answer: 00h, DSFID, UID, CRC.'"""
    return success_frame(bytes((record.dsfid,)) + record.uid.to_bytes(8, "little"))


def speak_in_slot(record, running):
    """The round stands in its slot; the tag speaks if the slot is its own."""
    record = record._replace(round=running)
    if slot_of(record.uid, running.mask_length) == running.slot:
        hit(f"inventory.slot-{running.slot}.speaks")
        return record, answer(record)
    hit(f"inventory.slot-{running.slot}.waits")
    return record, SILENCE


def end_of_frame(record):
    """'each end of frame moves one slot on; an end of frame in slot 15 closes the round'."""
    if record.round.slot == HIGHEST_SLOT:
        hit("inventory.closes")
        return record._replace(round=None), SILENCE
    return speak_in_slot(record, record.round._replace(slot=record.round.slot + 1))
