"""Document 01, "Inventory": its fields, mask, AFI, slots and answer.

The UID is 001's. Its digits of four bits are, lowest first, 0 F 8 C 6 D 1 0 4 0 3 2 2 0 0 E: after a mask of 4 bits
the slot is 15, after one of 24 bits it is 1.
Flags: 04h Inventory_flag, 10h (bit 5) an AFI, 20h (bit 6) one slot, 40h (bit 7) Option_flag; 01h and 02h are ignored.
"""

from ..examples import INVENTORY_ANSWER as ANSWER
from ..examples import (AFI, DSFID, FIELD, HELD, MASK_LENGTH, QUIET, ROUND, SELECTED, SILENCE, SLOT, SMALL, STATE, UID,
                        Case, event, framed, in_field, lent, request, standing)

HIGHEST_DIGIT_0 = UID[:14] + "00"
ONE_BIT_LESS = UID[:14] + "60"  # the highest bit of E0h is clear


def ends_of_frame(*slots):
    """Ends of frame that are silence, and the slot that each moves on to."""
    return tuple(event("EOF", record={ROUND: 1, SLOT: slot}) for slot in slots)


CASES = (
    Case(
        "inventory-fields-order", "Fields: AFI if bit 5 is set, mask length, then mask bytes",
        "were the mask length first, 10h would ask for two mask bytes and the frame be too short: silence",
        standing(SMALL, {AFI: 0x10}) + (request("36011008F0", ANSWER),)),
    Case(
        "inventory-bit-5", "AFI if bit 5 is set",
        "were bits counted from 0, or an AFI always there, 260100 would lack its mask length; were bit 1 meant, 250100",
        in_field(SMALL) + (
            request("260100", ANSWER), request("250100", ANSWER), request("26010000", SILENCE),
            request("36010000", ANSWER), request("360100", SILENCE))),
    Case(
        "mask-bytes-rounded-up", "mask bytes (length over 8, rounded up",
        "were it rounded down, 1 and 9 bits would have 0 and 1 bytes; were a byte always added, 8 bits would have 2",
        in_field(SMALL) + (
            request("260101", SILENCE), request("26010100", ANSWER),
            request("260108F0", ANSWER), request("260108F0C8", SILENCE),
            request("260109F0", SILENCE), request("260109F0C8", ANSWER))),
    Case(
        "mask-spare-bits", "spare bits not compared",
        "were all bits of 50h compared, or its high ones, it would be silence; were the low ones spare, 01h answered",
        in_field(SMALL) + (request("26010450", ANSWER), request("26010401", SILENCE))),
    Case(
        "bit-6-one-slot", "Bit 6 set means 1 slot .. clear means 16 slots",
        "were it the other way round, 26h would be silence and open a round, and 06h would answer",
        in_field(SMALL) + (
            request("26010400", ANSWER, record={ROUND: 0}),
            request("06010400", SILENCE, record={ROUND: 1, SLOT: 0, MASK_LENGTH: 4}),
            request("05010400", SILENCE, record={ROUND: 1, SLOT: 0, MASK_LENGTH: 4}))),
    Case(
        "one-slot-mask-64", "1 slot, mask length at most 64; .. Longer .. silence",
        "were 60 or 63 the most, the whole UID would be silence; with no bound the 65 bits would answer",
        in_field(SMALL) + (request("260140" + UID, ANSWER), request("260141" + UID + "00", SILENCE))),
    Case(
        "sixteen-slots-mask-60", "16 slots, at most 60. Longer .. silence",
        "were 64 the most here too, 61 bits would leave slot 0 and answer; were it 56 or 59, 60 bits would be silence",
        lent(SMALL, uid=HIGHEST_DIGIT_0, changes={FIELD: 1}) + (
            request("06013C" + HIGHEST_DIGIT_0, framed("0000" + HIGHEST_DIGIT_0), record={ROUND: 1, MASK_LENGTH: 60}),
            request("06013D" + HIGHEST_DIGIT_0, SILENCE, record={ROUND: 0, MASK_LENGTH: 0}))),
    Case(
        "inventory-frame-length", "wrong frame length: silence",
        "were a missing mask length taken as 0, or what follows the mask passed over, each would answer",
        in_field(SMALL) + (
            request("2601", SILENCE), request("3601", SILENCE), request("360100", SILENCE),
            request("26010000", SILENCE), request("06010000", SILENCE, record={ROUND: 0}))),
    Case(
        "inventory-quiet", "Quiet: silence.",
        "were Quiet heeded only by checks 5 to 10, both would answer, and the second open a round",
        standing(SMALL, {STATE: QUIET}) + (
            request("260100", SILENCE, record={STATE: QUIET}),
            request("060100", SILENCE, record={STATE: QUIET, ROUND: 0}))),
    Case(
        "inventory-selected", "Quiet: silence.",
        "were a Selected tag silent too, or made Ready, answer or state would differ",
        standing(SMALL, {STATE: SELECTED}) + (request("260100", ANSWER, record={STATE: SELECTED}),)),
    Case(
        "inventory-option-ignored", "Option_flag is ignored.",
        "were it refused, the answer would be 03h; were the answer held, it would come at the end of frame",
        in_field(SMALL) + (request("660100", ANSWER, record={HELD: 0}), event("EOF", SILENCE))),
    Case(
        "request-afi-zero-or-equal", "Request AFI matches if it is 00h or equals the stored AFI.",
        "were 00h only the AFI 00h, the first would be silence; were the AFI not compared, the last would answer",
        standing(SMALL, {AFI: 0x25}) + (
            request("36010000", ANSWER), request("36012500", ANSWER), request("36012400", SILENCE),
            request("36013500", SILENCE))),
    Case(
        "request-afi-family", "Request AFI matches if it is 00h or equals the stored AFI.",
        "changed by W-203: 20h finds AFI 25h, which by these words alone it would not; were a 0 in either half to match "
        "any, 05h would find it too",
        standing(SMALL, {AFI: 0x25}) + (request("36012000", ANSWER), request("36010500", SILENCE))),
    Case(
        "stored-afi-zero", "Request AFI matches if it is 00h or equals the stored AFI.",
        "were a stored 00h to match any request, the first would answer; were a tag with an AFI silent where none is "
        "asked for, the last would be silence",
        in_field(SMALL) + (request("36012500", SILENCE),)
        + standing(SMALL, {AFI: 0x25}) + (request("260100", ANSWER),)),
    Case(
        "mask-lowest-bits", "The lowest mask-length bits of the UID must match.",
        "were the highest bits or the highest byte first compared, E0h and C8F0h would answer",
        in_field(SMALL) + (
            request("260108F0", ANSWER), request("260108E0", SILENCE),
            request("260110F0C8", ANSWER), request("260110C8F0", SILENCE))),
    Case(
        "mask-every-bit", "The lowest mask-length bits of the UID must match.",
        "were whole bytes compared, 63 bits would be silence; were the last bit not compared, 64 bits would answer",
        in_field(SMALL) + (
            request("26010101", SILENCE),
            request("26013F" + ONE_BIT_LESS, ANSWER), request("260140" + ONE_BIT_LESS, SILENCE))),
    Case(
        "no-round-where-mask-differs", "Where either differs: silence, and no round opens.",
        "were a round opened all the same, the tag would answer in slot 1",
        in_field(SMALL) + (request("060118F0C8D7", SILENCE, record={ROUND: 0, MASK_LENGTH: 0}), event("EOF", SILENCE))),
    Case(
        "no-round-where-afi-differs", "Where either differs: silence, and no round opens.",
        "were a round opened all the same, the tag would answer the first end of frame too",
        standing(SMALL, {AFI: 0x25}) + (
            request("16012418F0C8D6", SILENCE, record={ROUND: 0, MASK_LENGTH: 0}), event("EOF", SILENCE),
            request("16012518F0C8D6", SILENCE, record={ROUND: 1, MASK_LENGTH: 24}), event("EOF", ANSWER))),
    Case(
        "slot-next-four-bits", "With 16 slots, the next four UID bits are the slot",
        "were it always the lowest four bits, which are 0, the tag would speak at once",
        in_field(SMALL) + (request("060118F0C8D6", SILENCE), event("EOF", ANSWER, record={SLOT: 1}))),
    Case(
        "slot-between-digits", "With 16 slots, the next four UID bits are the slot",
        "after 7 bits come 1, 0, 0, 0, lowest first: 1; were the slot a whole digit (15, 8) it would be silence",
        in_field(SMALL) + (request("06010770", SILENCE), event("EOF", ANSWER))),
    Case(
        "slot-0-at-once", "slot 0 speaks at once",
        "were slot 0 that of the first end of frame, it would be answered; were the round then over, byte 67 be 0",
        in_field(SMALL) + (
            request("060100", ANSWER, record={ROUND: 1, SLOT: 0}), event("EOF", SILENCE, record={ROUND: 1, SLOT: 1}))),
    Case(
        "slot-each-eof", "each end of frame moves one slot on",
        "were slots counted from 1, or the answer repeated, another end of frame than the third would be answered",
        in_field(SMALL) + (request("060128F0C8D60104", SILENCE, record={ROUND: 1, SLOT: 0, MASK_LENGTH: 40}),)
        + ends_of_frame(1, 2) + (event("EOF", ANSWER, record={ROUND: 1, SLOT: 3}),) + ends_of_frame(4)),
    Case(
        "slot-15-closes", "an end of frame in slot 15 closes the round",
        "were the round closed on the way into slot 15, the first would be silence or leave byte 67 at 0",
        standing(SMALL, {ROUND: 1, SLOT: 14, MASK_LENGTH: 4}) + (
            event("EOF", ANSWER, record={ROUND: 1, SLOT: 15, MASK_LENGTH: 4}),
            event("EOF", SILENCE, record={ROUND: 0, SLOT: 0, MASK_LENGTH: 0}))),
    Case(
        "slot-15-no-return", "an end of frame in slot 15 closes the round",
        "were slot 0 to follow, a tag whose slot is 0 would answer once more",
        standing(SMALL, {ROUND: 1, SLOT: 15}) + (
            event("EOF", SILENCE, record={ROUND: 0, SLOT: 0}), event("EOF", SILENCE))),
    Case(
        "inventory-answer", "Answer: 00h, DSFID, UID, CRC.",
        "were the AFI in the DSFID's place, the DSFID last, or the UID highest byte first, the bytes would differ",
        standing(SMALL, {AFI: 0x5A, DSFID: 0xA5}) + (request("260100", framed("00A5" + UID)),)),
)
