"""Cases for the sentences of 01, Record and image.

A record in casebook has the bytes of a header; what a byte of an image stands for is seen in what the loaded tag does.
"""

from ..examples import (AFI, CONFIGURATION_SESSION, DONE, DSFID, FACTORY, FIELD, HELD, HELD_CODE, LARGE, LASTING, LOCKS,
                        MASK_LENGTH, NOTHING_PASSING, NOT_AVAILABLE, NOT_WRITTEN, NO_INFORMATION, NO_RECORD, PASSWORDS,
                        QUIET, ROUND, SELECTED, SESSION, SILENCE, SLOT, SMALL, STATE, UID, WRITTEN, ZEROS, ZERO_BLOCK,
                        ZERO_PASSWORD, Case, Step, configured, error, event, framed, image_text, in_field, lent, line,
                        load, places, record_text, request, save, shown_crc, standing)

READ_SELECTED = "122000"
ERROR_CODES = (0x02, 0x03, 0x0F, 0x10, 0x11, 0x12, 0x13, 0x14, 0x15)
REGISTERS = (4, 0x11, 5, 0x12, 6, 0x13, 7)  # those of LASTING: RFA1SS, ENDA1, RFA2SS ..

# By bit of byte 11: what is asked, the answer of a tag that has the bit, and of one that has not.
LOCKED_PARTS = (
    ("block-0", "022100A1A2A3A4", NOT_WRITTEN, DONE), ("block-1", "022101A1A2A3A4", NOT_WRITTEN, DONE),
    ("afi", "022735", NOT_WRITTEN, DONE), ("dsfid", "02295A", NOT_WRITTEN, DONE),
    ("lock-cfg", "02A0020F", framed("0001"), framed("0000")))
LOCK_WORDS = ("bits 0, 1 blocks 0, 1", "bits 0, 1 blocks 0, 1", "bit 2 AFI", "bit 3 DSFID", "bit 4 LOCK_CFG")


def rule(sound, broken):
    """Each sound record takes field on without a number, each broken one is refused with 3."""
    steps = [line("MEM 2048"), line("ROOM 10243")]
    for number, records in ((0, sound), (3, broken)):
        for record in records:
            steps += [line("REC " + record), event("ON", number=number)]
    return tuple(steps)


def with_ends(*ends):
    """A record of the 16 Kbit tag with these three ends."""
    return record_text(SMALL, ends)


def with_parts(**parts):
    """A record with the field on and these passing parts."""
    named = {"field": FIELD, "state": STATE, "session": SESSION, "round": ROUND, "slot": SLOT, "mask": MASK_LENGTH,
             "held": HELD, "code": HELD_CODE}
    return record_text(SMALL, changes={FIELD: 1, **{named[part]: value for part, value in parts.items()}})


def protection_rule(area):
    """RFAiSS of one area at 0Fh and at 10h."""
    def at(value):
        return record_text(SMALL, protections=tuple(value if n == area else 0 for n in (1, 2, 3, 4)))
    return Case(
        f"rule-rfa{area}ss", "each RFAiSS is at most 0Fh",
        f"were only other areas held to it, or 10h the highest value, RFA{area}SS = 10h would have number 0",
        rule([at(0x0F)], [at(0x10)]))


def off_rule(part, value, words="With the field off nothing passing is set"):
    """A passing part that stands with the field on and not with it off."""
    return Case(
        f"rule-off-{part}", words,
        f"were this part free of the rule, the record with field off and its {part} set would have number 0",
        rule([with_parts(**{part: value})], [with_parts(**{part: value}, field=0)]))


def over_named(part, highest, **more):
    """A passing part at its highest value and one over it."""
    return rule([with_parts(**{part: highest}, **more)], [with_parts(**{part: highest + 1}, **more)])


def header(changes):
    """The image of a factory tag with some bytes of its header set."""
    return image_text(record_text(SMALL, changes=changes))


def loaded(record, *steps):
    """An image with this header is loaded, and the field is on."""
    return lent(SMALL) + (load(image_text(record)), event("ON")) + steps


def refused(*faults):
    """Headers that are refused: the number with its place, and what is changed."""
    return lent(SMALL) + tuple(load(header(changes), number) for number, changes in faults)


def lock_bit(bit):
    """One bit of byte 11, and what it keeps from being changed; the other parts stay open."""
    return Case(
        f"image-bit-{bit}-{LOCKED_PARTS[bit][0]}", f"11 locks .. {LOCK_WORDS[bit]}",
        "were the bits in another order, another of the five parts would be locked",
        loaded(record_text(SMALL, locks=1 << bit), *(
            request(asked, locked if n == bit else open_)
            for n, (_, asked, locked, open_) in enumerate(LOCKED_PARTS))))


def factory(size):
    """FACTORY where memory and record were something else."""
    return (line(f"MEM {size.memory}"), line("ROOM 10243"), line("REC " + NO_RECORD), line("PUT 0 A1A2A3A4"),
            Step(b"FACTORY " + UID.encode("ascii"), SILENCE, record=places(record_text(size)),
                 memory=shown_crc("00" * size.memory)))


CASES = (
    Case(
        "lasting-parts",
        "Lasting: UID (8 bytes), AFI, DSFID, five lock bits, seven area registers, four 64-bit passwords (number 0 is "
        "configuration), user memory.",
        "were one of these a passing part, field off and on would make it zero",
        lent(SMALL) + (
            line("REC " + LASTING), line("PUT 0 " + "55" * 2048), event("ON", record=places(LASTING[:128])),
            event("OFF", record=places(LASTING), memory=shown_crc("55" * 2048)))),
    Case(
        "uid-8-bytes", "UID (8 bytes)",
        "were fewer bytes compared, a UID that differs in the first or the last alone would be ours",
        in_field(SMALL) + (
            request("2226" + UID, DONE), request("2226F1" + UID[2:]), request("2226" + UID[:-2] + "E1"))),
    Case(
        "five-lock-bits", "five lock bits",
        "were a sixth bit kept, byte 11 at 20h would have number 0; were there four, 1Fh would have number 3",
        rule([record_text(SMALL, locks=0x1F)], [record_text(SMALL, locks=0x20)])),
    Case(
        "passing-field", "Passing: field", "were any value but 0 the field on, 2 would be taken",
        over_named("field", 1)),
    Case(
        "passing-state", "state (Ready, Quiet, Selected)", "were there a fourth state, byte 65 at 3 would be it",
        over_named("state", SELECTED)),
    Case(
        "passing-session", "the one open session or none",
        "were there five passwords, byte 66 at 5 would be a session; were sessions bits, 3 would open those of 0 and 1",
        over_named("session", 4) + (line("REC " + with_parts(session=3)), request("02B10202" + ZERO_PASSWORD, DONE),
                                    request("02B10200" + ZERO_PASSWORD, NO_INFORMATION))),
    Case(
        "passing-round", "an inventory round", "were there a second round, byte 67 at 2 would be it",
        over_named("round", 1)),
    Case(
        "passing-held", "a held answer", "were there a third kind, byte 70 at 3 would be it",
        over_named("held", 2, code=0x10)),
    Case(
        "event-updates-record", "The bench holds one tag record, and each event updates that record.",
        "were each event to begin from the record first lent, the tag would not be Selected, and the read silence",
        in_field(SMALL) + (request("2225" + UID, DONE, record={STATE: SELECTED}), request(READ_SELECTED, ZERO_BLOCK))),
    protection_rule(1), protection_rule(2), protection_rule(3), protection_rule(4),
    Case(
        "rule-end-over-e", "each ENDAi is at most E",
        "were only the order of the ends a rule, 64 after lower ends would be taken",
        rule([with_ends(63, 63, 63), with_ends(1, 2, 63)],
             [with_ends(64, 63, 63), with_ends(1, 64, 63), with_ends(1, 2, 64)])),
    Case(
        "rule-next-end-above", "if ENDAi is below E then ENDA(i+1) is above ENDAi",
        "were an equal end taken, or a lower one, for ENDA2 or for ENDA3, one of the last four would have number 0",
        rule([with_ends(12, 13, 63), with_ends(12, 13, 14), with_ends(0, 1, 2)],
             [with_ends(12, 12, 63), with_ends(12, 11, 63), with_ends(12, 13, 13), with_ends(12, 14, 13)])),
    Case(
        "rule-next-end-above-62", "if ENDAi is below E then ENDA(i+1) is above ENDAi",
        "were it asked of ENDAi at E too, no end could follow E, and 62, 63, 63 would have number 3",
        rule([with_ends(62, 63, 63)], [with_ends(62, 62, 62)])),
    Case(
        "rule-ends-after-e", "if ENDAi is E then all later ends are E",
        "were ends after E free, the last four would have number 0",
        rule([with_ends(63, 63, 63), with_ends(5, 63, 63)],
             [with_ends(63, 62, 63), with_ends(63, 5, 6), with_ends(63, 63, 62), with_ends(5, 63, 62)])),
    off_rule("state", QUIET, "With the field off nothing passing is set and the state is Ready."),
    Case(
        "rule-off-selected", "With the field off nothing passing is set and the state is Ready.",
        "were Selected kept without a field, the record would have number 0",
        rule([with_parts(state=SELECTED)], [with_parts(state=SELECTED, field=0)])),
    off_rule("session", 1), off_rule("round", 1), off_rule("held", 1),
    Case(
        "rule-slot-15", "A round has slot 0 to 15", "were 16 a slot, the second record would have number 0",
        over_named("slot", 15, round=1)),
    Case(
        "rule-mask-60", "mask length at most 60",
        "were a round's mask at most 64, as with one slot, 61 would have number 0",
        over_named("mask", 60, round=1)),
    Case(
        "rule-held-codes", "one error code of this page",
        "were one of the nine codes not of this page, its record would have number 3 and not be given out",
        lent(SMALL) + tuple(step for code in ERROR_CODES for step in (
            line("REC " + with_parts(held=2, code=code)), event("EOF", error(code), record={HELD: 0, HELD_CODE: 0})))),
    Case(
        "rule-held-other-codes", "a held answer is success or one error code of this page",
        "were 003's 01h, or any code, held, these would have number 0",
        rule([], [with_parts(held=2, code=code) for code in (0x01, 0x04, 0x0E, 0x16, 0xFF)])),
    Case(
        "rule-round-with-held", "A round never stands with a held answer",
        "were both let stand, the third record would have number 0",
        rule([with_parts(round=1), with_parts(held=1)], [with_parts(round=1, held=1)])),
    Case(
        "rule-round-in-quiet", "A round never stands .. in Quiet.",
        "were it let stand, the third record would have number 0; were only Ready let, the second would have 3",
        rule([with_parts(round=1), with_parts(round=1, state=SELECTED)], [with_parts(round=1, state=QUIET)])),
    Case(
        "held-in-quiet", "A round never stands with a held answer nor in Quiet.",
        "were a held answer kept out of Quiet too, this would have number 3, and no 00 78 F0 be given out",
        standing(SMALL, {STATE: QUIET, HELD: 1}) + (event("EOF", DONE, record={STATE: QUIET, HELD: 0}),)),
    Case(
        "save-checks-passing-rules", "Record rules: .. A round has slot 0 to 15",
        "were a save to check only what it writes, the image would be filled",
        lent(SMALL, changes={FIELD: 1, ROUND: 1, SLOT: 16}) + (save(2112, number=3),)),
    Case(
        "no-killing", "Killing is not in the base.",
        "were 003's KILL register there, its write of 01h would leave a tag that answers 01 0F",
        configured() + (
            request("02A1020301", NOT_AVAILABLE), request("022000", ZERO_BLOCK))),
    Case(
        "image-header-then-memory", "Image: 64-byte header, then user memory.",
        "were the memory first, or the header of another length, blocks 0 and 511 would not be these bytes",
        lent(SMALL) + (load(image_text(FACTORY, "A1A2A3A4" + ZEROS[:-16] + "B1B2B3B4")), event("ON"),
                       request("022000", framed("00A1A2A3A4")), request("0230FF01", framed("00B1B2B3B4")))),
    Case(
        "image-byte-0-unknown", "Byte 0: 1 for 16 Kbit, 2 for 64 Kbit",
        "were sizes counted from 0, or byte 0 passed over, an image that begins 00 or 03 would be loaded",
        refused(("5a:0", {0: 0}), ("5a:0", {0: 3}), ("5a:0", {0: 0xFF}))),
    Case(
        "image-byte-0-saved", "Byte 0: 1 for 16 Kbit, 2 for 64 Kbit",
        "were the marks another pair, the images would not begin 01 and 02",
        lent(SMALL) + (save(2112, image_text()),)
        + lent(LARGE) + (save(8256, image_text(record_text(LARGE), "00" * 8192)),)),
    Case(
        "image-uid", "1 to 8 UID",
        "were the UID elsewhere or highest byte first, the Inventory would not answer 01 to 08",
        loaded(record_text(SMALL, uid="0102030405060708"), request("260100", framed("00000102030405060708")))),
    Case(
        "image-afi-dsfid", "9 AFI; 10 DSFID",
        "were DSFID in byte 9 and AFI in 10, the first Inventory would be silence and the second answer with 35",
        loaded(record_text(SMALL, changes={AFI: 0x35, DSFID: 0x5A}),
               request("36013500", framed("005A" + UID)), request("36015A00"))),
    lock_bit(0), lock_bit(1), lock_bit(2), lock_bit(3), lock_bit(4),
    Case(
        "image-lock-bits-others", "11 locks .. others 0",
        "were the other bits passed over, an image with one of bits 5 to 7 would be loaded",
        refused(("5b:11", {LOCKS: 0x20}), ("5b:11", {LOCKS: 0x40}), ("5b:11", {LOCKS: 0x80}))),
    Case(
        "image-registers", "12 to 18 RFA1SS, ENDA1, RFA2SS, ENDA2, RFA3SS, ENDA3, RFA4SS",
        "were the four RFAiSS before the three ENDAi, or the order another, the registers would not read so",
        loaded(LASTING, *(
            request(f"02A002{address:02X}", framed(f"00{value:02X}")) for address, value in enumerate(REGISTERS, 4)))),
    Case(
        "header-protection", "image header breaks a rule .. each RFAiSS is at most 0Fh .. 12 to 18",
        "were the record rules not those of a header too, RFAiSS = 10h would be loaded",
        refused(*((f"5c:{place}", {place: 0x10}) for place in (12, 14, 16, 18)))),
    Case(
        "header-end-over-e", "image header breaks a rule .. each ENDAi is at most E .. 12 to 18",
        "were the record rules not those of a header too, an end of 64 would be loaded",
        refused(("5d:13", {13: 64}), ("5d:15", {13: 1, 15: 64}), ("5d:17", {13: 1, 15: 2, 17: 64}))),
    Case(
        "header-next-end-above",
        "image header breaks a rule .. if ENDAi is below E then ENDA(i+1) is above ENDAi .. 12 to 18",
        "were the order of the ends not looked at in a header, 12, 12 and 12, 13, 13 would be loaded",
        refused(("5d:15", {13: 12, 15: 12}), ("5d:17", {13: 12, 15: 13, 17: 13}))),
    Case(
        "header-ends-after-e", "image header breaks a rule .. if ENDAi is E then all later ends are E .. 12 to 18",
        "were the ends after E not looked at in a header, 63, 62, 63 and 63, 63, 62 would be loaded",
        refused(("5d:15", {15: 62}), ("5d:17", {17: 62}))),
    Case(
        "image-passwords", "19 to 50 passwords 0 to 3",
        "were they in another order, of another length or highest byte first, one of the four would be wrong: 01 0F",
        loaded(LASTING, *(request(f"02B302{number:02X}{password}", DONE, record={SESSION: number + 1})
                          for number, password in enumerate(PASSWORDS)))),
    Case(
        "image-reserved-zero", "51 to 63 zero",
        "were one of these passed over, or not looked at, its image would be loaded",
        refused(("5e:51", {51: 1}), ("5e:57", {57: 1}), ("5e:63", {63: 1}))),
    Case(
        "image-reserved-bounds", "19 to 50 passwords 0 to 3; 51 to 63 zero",
        "were byte 50 or the first byte of the memory held to be zero, the image would be refused with 5e",
        lent(SMALL) + (load(image_text(record_text(SMALL, changes={50: 1}), WRITTEN), record={50: 1, 51: 0}),)),
    Case(
        "load-field-off", "Loading gives a tag with the field off.",
        "were field, state, session or held answer of before kept, the request would be answered or those bytes not 0",
        standing(SMALL, {STATE: SELECTED, SESSION: 2, HELD: 1}) + (
            load(image_text(), record=NOTHING_PASSING), request("022000"))),
    Case(
        "save-lasting-parts-only", "Saving writes lasting parts only",
        "were a save refused in the field, or passing parts in bytes 51 to 63, this would not be a factory tag's image",
        standing(SMALL, {STATE: SELECTED, SESSION: 2, HELD: 1}) + (
            save(2112, image_text(), record={FIELD: 1, STATE: SELECTED, SESSION: 2, HELD: 1}),)),
    Case(
        "round-trip-exact", "so a round trip from a record is exact when the field is off.",
        "were a lasting part left out of the image, the record would not come back as it was",
        lent(SMALL) + (line("REC " + LASTING), line("PUT 0 A1A2A3A4"), save(2112, image_text(LASTING, WRITTEN)))
        + lent(SMALL) + (load(image_text(LASTING, WRITTEN), record=places(LASTING), memory=shown_crc(WRITTEN)),)),
    Case(
        "round-trip-field-on", "so a round trip from a record is exact when the field is off.",
        "were it exact in the field too, the field would be on after the load",
        standing(SMALL, {SESSION: CONFIGURATION_SESSION}) + (
            save(2112, image_text(), record={FIELD: 1, SESSION: CONFIGURATION_SESSION}),
            load(image_text(), record={FIELD: 0, SESSION: 0}))),
    Case(
        "uid-not-restricted", "UID values aren't restricted.",
        "were a UID to begin with E0 02, or not to be all zeros or ones, these would be refused with 3 or a letter of 5",
        lent(SMALL, uid="00" * 8) + (event("ON"), request("260100", framed("00" * 10)))
        + lent(SMALL, uid="FF" * 8) + (event("ON"), request("260100", framed("0000" + "FF" * 8)))
        + lent(SMALL) + tuple(load(image_text(record_text(SMALL, uid=uid))) for uid in ("00" * 8, "FF" * 8))),
    Case(
        "factory-tag-small",
        "A factory tag has zero memory, passwords, locks, AFI, DSFID and RFAiSS, and all ends at E.",
        "were anything kept of before, or the ends at FFh as on the larger tag, record or memory would not be so",
        factory(SMALL)),
    Case(
        "factory-tag-large",
        "A factory tag has zero memory, passwords, locks, AFI, DSFID and RFAiSS, and all ends at E.",
        "were anything kept of before, or the ends at 3Fh as on the smaller tag, record or memory would not be so",
        factory(LARGE)),
)
