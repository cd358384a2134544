"""Document 02, W-203, "AFI families".

In X0h, 0Yh and XYh the halves X and Y are not 0. Where `asks` makes the lines, each AFI is asked for with 1 slot, then
with 16. A tag's UID is 001's, whose lowest four bits are 0, so that with 16 slots and no mask it speaks at once; after
a mask of 24 bits its slot is 1. Flags: 04h Inventory_flag, 10h (bit 5) an AFI, 20h (bit 6) one slot; 02h is ignored.
"""

from ..examples import INVENTORY_ANSWER as ANSWER
from ..examples import (AFI, DONE, FIELD, MASK_LENGTH, QUIET, ROUND, SELECTED, SILENCE, SLOT, SMALL, STATE, Case, event,
                        in_field, line, record_text, request, standing)

FAMILY = "a request of X0h, with X not 0, match every stored AFI whose upper half is X"
NO_ROUND = {ROUND: 0, SLOT: 0, MASK_LENGTH: 0}
AT_ONCE = {ROUND: 1, SLOT: 0, MASK_LENGTH: 0}
MASK_24 = "18F0C8D6"


def asks(asked, stored, answer, round_with_16):
    """Tags with these AFIs, one after the other, and of each tag requests for those AFIs, with 1 slot and with 16."""
    steps = []
    for afi in stored.split():
        steps.append(line("REC " + record_text(SMALL, changes={FIELD: 1, AFI: int(afi, 16)})))
        for wanted in asked.split():
            steps.append(request(f"3601{wanted}00", answer, record=NO_ROUND))
            steps.append(request(f"1601{wanted}00", answer, record=round_with_16))
    return tuple(steps)


def found(asked, stored):
    """All answer, and with 16 slots a round opens."""
    return asks(asked, stored, ANSWER, AT_ONCE)


def mute(asked, stored):
    """All are silent, and no round opens."""
    return asks(asked, stored, SILENCE, NO_ROUND)


def case(name, words, otherwise, *tags):
    """A case of document 02."""
    lent = (line(f"MEM {SMALL.memory}"), line("ROOM 10243"))
    return Case(f"afi-{name}", words, otherwise, lent + sum(tags, ()), "02")


CASES = (
    case("cabin-parts", "A cabin-parts reader asks for 30h and our tags with 35h stay mute.",
         "were 01's words still the rule, 00h or equal, the tag would stay mute and no round open",
         found("30", "35")),
    case("family", FAMILY,
         "were X0h itself no part of the family, or the first or the last after it left out, one would be silence",
         found("30", "30 31 3F")),
    case("family-no-more", FAMILY,
         "were AFIs compared by size, or one more than sixteen taken, the neighbour 2Fh or 40h would answer",
         mute("30", "2F 40")),
    case("family-upper-half-whole", FAMILY,
         "were one bit of the upper half passed over, or only those looked at that X has, one of these would answer",
         mute("30", "B5 75 15 25")),
    case("family-upper-not-lower", FAMILY,
         "were X looked for in the lower half, or in either, these would answer",
         mute("30", "03 53")),
    case("family-of-1", FAMILY,
         "were X at least 2, 11h and 1Fh would be silence; were 0Yh of this family, 0Fh or 01h would answer",
         found("10", "10 11 1F"), mute("10", "0F 01 20")),
    case("family-of-f", FAMILY,
         "were Fh no X, F1h and FFh would be silence; were 0h beside Fh, 00h or 0Fh would answer",
         found("F0", "F0 F1 FF"), mute("F0", "EF 0F 00")),
    case("every-family", FAMILY,
         "were some X without a family, or only the digits to 9, one would be silence",
         *(found(f"{x}0", f"{x}5") for x in "123456789ABCDEF")),
    case("family-asked-not-stored", FAMILY,
         "were a tag with X0h found by all that have its upper half, 31h, 35h and 3Fh would find it",
         mute("31 35 3F", "30")),
    case("00h-all", "00h still matches all",
         "were 00h to match only itself, as 0Yh does, all but the first would be silence",
         found("00", "00 05 30 35 FF")),
    case("00h-no-family", "X0h, with X not 0, .. 00h still matches all",
         "were 00h the family of X = 0, 0Fh would be the last to answer",
         found("00", "0F 10")),
    case("0yh-itself", "0Yh only itself",
         "were 0Yh to match nothing, since its X is 0, all would be silence; were a bit of the stored Y lost, "
         "those that have it",
         *(found(afi, afi) for afi in ("01", "02", "04", "05", "08", "0F"))),
    case("0yh-no-lower-half", "0Yh only itself",
         "were 0Yh to match every stored AFI whose lower half is Y, these would answer",
         mute("05", "15 35 F5"), mute("01", "11"), mute("0F", "FF")),
    case("0yh-no-family", "0Yh only itself",
         "were 0Yh to match all whose upper half is 0, 00h, 04h and 0Fh would answer; were it as Y0h, 50h and 53h",
         mute("05", "00 04 0F 50 53")),
    case("xyh-itself", FAMILY,
         "were XYh, which is neither X0h nor 0Yh, to match nothing, all would be silence; were a bit of the stored Y "
         "lost, those that have it",
         *(found(afi, afi) for afi in ("11", "12", "14", "18", "35", "FF"))),
    case("xyh-no-family", FAMILY,
         "were XYh to match its whole family, or X0h beside itself, these would answer",
         mute("35", "30 34 36 3F"), mute("11", "10 12"), mute("FF", "F0 FE")),
    case("xyh-upper-half-too", FAMILY,
         "were the lower half alone compared, 25h and 05h would answer; were the halves taken in any order, 53h",
         mute("35", "25 05 53"), mute("11", "21 01"), mute("FF", "EF 0F")),
    case("stored-00h", "X0h, with X not 0, .. 00h still matches all",
         "were a tag with 00h found by every request, by every family or by 0Yh, one of these would find it",
         mute("10 30 F0 01 05 0F 11 35 FF", "00"), found("00", "00")),
    Case("afi-no-refusal", "AFI families. .. Refusals: none new.",
         "were X0h, which names a family, no AFI for a tag to have, the write would be an error",
         in_field(SMALL) + (
             request("022730", DONE, record={AFI: 0x30}), request("36013000", ANSWER),
             request("022735", DONE, record={AFI: 0x35}), request("36013000", ANSWER), request("36014000", SILENCE)),
         "02"),
    Case("afi-family-selected", FAMILY,
         "were a Selected tag heedless of families, or made Ready by one, answer or state would differ",
         standing(SMALL, {AFI: 0x35, STATE: SELECTED}) + (
             request("36013000", ANSWER, record={STATE: SELECTED, **NO_ROUND}),
             request("16013000", ANSWER, record={STATE: SELECTED, **AT_ONCE})),
         "02"),
    Case("afi-family-later-slot", FAMILY,
         "were the AFI compared by 01's words where the slot is not 0, or at each end of frame, slot 1 would be silence",
         standing(SMALL, {AFI: 0x35}) + (
             request("160130" + MASK_24, SILENCE, record={ROUND: 1, SLOT: 0, MASK_LENGTH: 24}),
             event("EOF", ANSWER, record={ROUND: 1, SLOT: 1, MASK_LENGTH: 24}),
             event("EOF", SILENCE, record={ROUND: 1, SLOT: 2, MASK_LENGTH: 24})),
         "02"),
    Case("afi-other-family-no-round", "Where either differs: silence, and no round opens.",
         "were a round opened where an AFI only has a half of the stored one, slot 1 would answer",
         standing(SMALL, {AFI: 0x35}) + tuple(step for wanted in ("20", "40", "50", "05", "03", "34", "53") for step in (
             request(f"1601{wanted}" + MASK_24, SILENCE, record=NO_ROUND), event("EOF", SILENCE, record=NO_ROUND)))),
    Case("afi-family-and-mask", "Where either differs: silence, and no round opens.",
         "were the mask passed over where the family matches, the first two would answer or open a round",
         standing(SMALL, {AFI: 0x35}) + (
             request("36013008F1", SILENCE), request("16013008F1", SILENCE, record=NO_ROUND),
             request("36013008F0", ANSWER), request("16013008F0", SILENCE, record={ROUND: 1, SLOT: 0, MASK_LENGTH: 8}))),
    Case("afi-family-quiet", "Quiet: silence.",
         "were a request for a family heard in Quiet, the first would answer and the second open a round",
         standing(SMALL, {AFI: 0x35, STATE: QUIET}) + (
             request("36013000", SILENCE, record={STATE: QUIET}),
             request("16013000", SILENCE, record={STATE: QUIET, **NO_ROUND}))),
)
