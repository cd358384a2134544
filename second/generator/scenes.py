"""Records as 72 bytes: sound ones, and ones that break one rule each."""

from tagmodel import image
from tagmodel.boundary import (FIELD, HELD, HELD_CODE, MASK_LENGTH, RECORD_BYTES, ROUND, SESSION, SLOT,
                               STATE)
from tagmodel.record import ERROR_CODES
from tagmodel.sizes import SIZES

SESSION_UID = bytes.fromhex("F0C8D601042302E0")
READY, QUIET, SELECTED = 0, 1, 2


def area_ends(dice, last_end):
    """Ends with nought to three borders, often where the one-byte blocks or the memory end."""
    places = [0, 1, 12, 13, 30, 31, 32, last_end - 2, last_end - 1, dice.below(last_end), dice.below(last_end)]
    borders = sorted({dice.choose(places) for _ in range(dice.below(4))})
    return borders + [last_end] * (3 - len(borders))


def lasting(dice, size):
    """A sound record with the field off and everything lasting chosen."""
    record = bytearray(RECORD_BYTES)
    record[image.MARK] = size.mark
    record[image.UID] = dice.choose([dice.bytes(8), dice.bytes(8), SESSION_UID, bytes(8), b"\xFF" * 8])
    record[image.AFI] = dice.choose([0x00, 0x30, 0x35, dice.below(256)])
    record[image.DSFID] = dice.choose([0x00, dice.below(256)])
    record[image.LOCKS] = dice.below(32) & dice.below(32)
    protections = [dice.choose([0, dice.below(16), dice.below(16)]) for _ in range(4)]
    ends = area_ends(dice, size.last_end)
    record[image.REGISTERS] = bytes(
        [protections[0], ends[0], protections[1], ends[1], protections[2], ends[2], protections[3]])
    for number in range(4):
        start = image.PASSWORDS + image.PASSWORD_BYTES * number
        record[start:start + image.PASSWORD_BYTES] = dice.choose([dice.bytes(8), dice.bytes(8), bytes(8)])
    return record


def sound(dice, size, state=None):
    """A sound record with the field on and, at times, a session, a round or a held answer."""
    record = lasting(dice, size)
    record[FIELD] = 1
    record[STATE] = dice.choose([READY, READY, QUIET, SELECTED]) if state is None else state
    record[SESSION] = dice.choose([0, 0, 1, 2, 3, 4])
    if dice.one_in(4) and record[STATE] != QUIET:
        set_round(record, dice.below(16), dice.below(61))
    elif dice.one_in(4):
        set_held(record, dice.choose((0,) + ERROR_CODES))
    return record


def set_round(record, slot, mask_length):
    """Opens a round in the record, in place."""
    record[ROUND], record[SLOT], record[MASK_LENGTH] = 1, slot, mask_length


def set_held(record, code):
    """Holds success (0) or an error in the record, in place."""
    record[HELD], record[HELD_CODE] = (2 if code else 1), code


def plain(dice, size):
    """A sound record with the field on, Ready and nothing else passing."""
    record = lasting(dice, size)
    record[FIELD] = 1
    return record


def with_bytes(changes):
    """A way to break a record: bytes by place."""
    def change(record):
        for place, value in changes.items():
            record[place] = value
    return change


def with_ends(first, second, third):
    """A way to break the order of the ends; None stands for E."""
    def change(record):
        last_end = SIZES[record[image.MARK] - 1].last_end
        ends = [last_end if end is None else end for end in (first, second, third)]
        record[13], record[15], record[17] = ends
    return change


def header_breaks():
    """Each rule of an image header broken singly; over-ends need the 16 Kbit tag."""
    breaks = [with_bytes({image.MARK: mark}) for mark in (0, 3, 0xFF)]
    breaks += [with_bytes({image.LOCKS: bit}) for bit in (0x20, 0x40, 0x80, 0xFF)]
    breaks += [with_bytes({place: value}) for place in (12, 14, 16, 18) for value in (0x10, 0xFF)]
    breaks += [with_bytes({13: 64}), with_bytes({13: 1, 15: 64}), with_bytes({13: 1, 15: 2, 17: 64})]
    breaks += [with_ends(5, 5, None), with_ends(5, 4, None), with_ends(5, 6, 6), with_ends(5, 6, 5)]
    breaks += [with_ends(None, 5, None), with_ends(None, None, 5), with_ends(5, None, 6)]
    breaks += [with_bytes({place: 1 << place % 8}) for place in image.RESERVED]
    return breaks


def swap_mark(record):
    """The mark of the other size; the ends 0Fh, 10h and 11h suit both sizes, so that only the mark is wrong."""
    record[13], record[15], record[17] = 0x0F, 0x10, 0x11
    record[image.MARK] = 3 - record[image.MARK]


def passing_breaks():
    """Each rule of the passing parts broken singly, on a record with the field on, Ready and no more."""
    changes = [{FIELD: 2}, {STATE: 3}, {SESSION: 5}, {ROUND: 2}, {HELD: 3},
               {SLOT: 1}, {MASK_LENGTH: 1}, {HELD_CODE: 0x0F}, {HELD: 1, HELD_CODE: 0x0F}, {HELD: 2},
               {ROUND: 1, SLOT: 16}, {ROUND: 1, MASK_LENGTH: 61}, {ROUND: 1, HELD: 1}, {ROUND: 1, STATE: QUIET},
               {FIELD: 0, STATE: SELECTED}, {FIELD: 0, STATE: QUIET}, {FIELD: 0, SESSION: 1},
               {FIELD: 0, ROUND: 1}, {FIELD: 0, HELD: 1}, {FIELD: 0, HELD: 2, HELD_CODE: 0x0F}]
    changes += [{HELD: 2, HELD_CODE: code} for code in (0x01, 0x04, 0x0E, 0x16, 0xA0, 0xFF)]
    return [with_bytes(change) for change in changes]


RECORD_BREAKS = header_breaks() + [swap_mark] + passing_breaks()
HEADER_BREAKS = header_breaks() + [swap_mark]
