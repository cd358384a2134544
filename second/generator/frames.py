"""Request frames, whole and damaged."""

from tagmodel.commands import ADDRESS_FLAG, OPTION_FLAG, SELECT_FLAG
from tagmodel.frame import CUSTOM_CODES, INVENTORY_FLAG, MANUFACTURER
from tagmodel.inventory import AFI_FLAG, ONE_SLOT_FLAG

PLAIN, ADDRESSED, SELECT_MODE = 0, ADDRESS_FLAG, SELECT_FLAG
HIGH_DATA_RATE = 0x02


def command(code, fields, mode=PLAIN, uid=b"", option=False, manufacturer=MANUFACTURER):
    """A command without CRC: flags, code, manufacturer code, UID, fields."""
    flags = HIGH_DATA_RATE | mode | (OPTION_FLAG if option else 0)
    body = bytes((flags, code))
    if code in CUSTOM_CODES:
        body += bytes((manufacturer,))
    return body + (uid if mode & ADDRESS_FLAG else b"") + fields


def inventory(mask_length, mask, one_slot=False, afi=None):
    """An Inventory without CRC."""
    flags = HIGH_DATA_RATE | INVENTORY_FLAG | (ONE_SLOT_FLAG if one_slot else 0)
    flags |= 0 if afi is None else AFI_FLAG
    return bytes((flags, 0x01)) + (b"" if afi is None else bytes((afi,))) + bytes((mask_length,)) + mask


def damage_bytes(dice, body):
    """Changes flags, length or contents of a request so that it may no longer be heard."""
    kind = dice.below(6)
    if kind == 0:
        return bytes((body[0] ^ 1 << dice.below(8),)) + body[1:]
    if kind == 1:
        return body[:dice.below(len(body))]
    if kind == 2:
        return body + dice.bytes(1 + dice.below(3))
    if kind == 3:
        return body[:-1]
    if kind == 4:
        return body[:2] + dice.bytes(1) + body[3:]
    place = dice.below(len(body))
    return body[:place] + bytes((body[place] ^ 1 << dice.below(8),)) + body[place + 1:]


def damage_frame(dice, frame):
    """Breaks the CRC or shortens the frame."""
    kind = dice.below(3)
    if kind == 0:
        return frame[:dice.below(len(frame))]
    if kind == 1:
        return frame[:-2] + bytes((frame[-1], frame[-2]))
    place = dice.below(len(frame))
    return frame[:place] + bytes((frame[place] ^ 1 << dice.below(8),)) + frame[place + 1:]
