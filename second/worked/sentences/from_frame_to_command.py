"""Cases for the sentences of 01, From frame to command: the CRC and the checks.

What follows the checks stands in `from_frame_to_command_answers`.
"""

from ..examples import (BYTES, DONE, FACTORY, HELD, HELD_CODE, INVENTORY_ANSWER, MASK_LENGTH, NOT_LISTED,
                        NO_INFORMATION, OPTION_REFUSED, OTHER_UID, QUIET, READY, ROUND, RUNNING, SELECTED, SESSION,
                        SILENCE, SLOT, SMALL, STATE, UID, ZEROS, ZERO_BLOCK, ZERO_PASSWORD, Case, configured, event,
                        frame, framed, in_field, lent, places, request, shown_crc, standing)

READ = "022000"
READ_CRC = "4750"  # 5047h, low byte first
ENDA1 = framed("003F")
CRC_WORDS = "reflected polynomial 8408h, start FFFFh, complemented, low byte first"
DROP_WORDS = "In the field, any frame first drops a round and a held answer."
ORDER_WORDS = "Checks, first match wins"
OTHER_SELECT_WORDS = "a Select of another UID, of the right length and without Option_flag, turns Selected into Ready"

NO_ROUND = {ROUND: 0, SLOT: 0, MASK_LENGTH: 0}

# No bytes, one, three with a right CRC, a damaged CRC, flag bit 8, another's UID.
UNHEARD_FRAMES = ("", "02", "0078F0", READ + "4751", framed("822000"), framed("2226" + OTHER_UID))
LENGTH_WORDS = "Length not the command's: silence."
OPTION_WORDS = "Option_flag (bit 7) on a command that takes none: 03h."

# Beside the listed codes, and at both ends.
UNLISTED = ("00", "03", "1F", "2B", "2D", "2F", "35", "3B", "3D", "9F", "E0", "FF")
UNLISTED_CUSTOM = ("A2", "B0", "B2", "B4", "C0", "DF")

# Code, fields and answer, on a factory tag with the configuration session open.
PLAIN_COMMANDS = (
    ("20", "00", ZERO_BLOCK), ("21", "00" + BYTES, DONE), ("22", "00", DONE), ("23", "0000", ZERO_BLOCK),
    ("24", "0000" + BYTES, DONE), ("26", "", DONE), ("27", "35", DONE), ("28", "", DONE), ("29", "5A", DONE),
    ("2A", "", DONE), ("2C", "0000", framed("0000")), ("30", "0000", ZERO_BLOCK), ("31", "0000" + BYTES, DONE),
    ("32", "0000", DONE), ("33", "00000000", ZERO_BLOCK), ("34", "00000000" + BYTES, DONE),
    ("3C", "00000000", framed("0000")))
CUSTOM_COMMANDS = (
    ("A0", "05", framed("003F")), ("A1", "0400", DONE), ("B1", "00" + ZERO_PASSWORD, DONE),
    ("B3", "00" + ZERO_PASSWORD, DONE))


def crc_case(name, other, otherwise):
    """The read of block 0 with its CRC, and with the CRC of another reading."""
    return Case(name, CRC_WORDS, otherwise,
                in_field(SMALL) + (frame(READ + READ_CRC, ZERO_BLOCK), frame(READ + other)))


def after_unheard_frames(standing_parts, dropped):
    """Each of the frames, before an end of frame that then gives nothing out."""
    return tuple(step for text in UNHEARD_FRAMES for step in standing(SMALL, standing_parts) + (
        frame(text, record=dropped), event("EOF")))


def in_each_state(text, *answers):
    """A request in Ready, Quiet and Selected."""
    return tuple(step for state, answer in zip((READY, QUIET, SELECTED), answers)
                 for step in standing(SMALL, {STATE: state}) + (request(text, answer, record={STATE: state}),))


def other_select(name, otherwise, *steps, state=SELECTED):
    """A Select of another UID, from Selected unless told otherwise."""
    return Case(name, OTHER_SELECT_WORDS, otherwise, standing(SMALL, {STATE: state}) + steps)


def unheard(name, otherwise, *texts):
    """Requests of codes that are not listed, kept from 01 02 by an earlier check."""
    return Case(name, ORDER_WORDS, otherwise, in_field(SMALL) + tuple(request(text) for text in texts))


def length_case(code, fields, answer, maker=""):
    """A command with a byte less, where it has fields, a byte more, and as it should be."""
    head = "02" + code + maker
    less = (request(head + fields[:-2]),) if fields else ()
    count = len(fields) // 2
    wrong = f"{count - 1} or {count + 1}" if fields else "1"
    return Case(
        f"length-{code.lower()}h", LENGTH_WORDS,
        f"were the length of {code}h's fields not {count}, or more bytes passed over, {wrong} would be answered too",
        configured() + less + (request(head + fields + "00"), request(head + fields, answer)))


def counted_length(code, width, first):
    """24h and 34h with data for other than the blocks counted."""
    def asked(count, blocks):
        return f"02{code}{first}" + (count - 1).to_bytes(width, "little").hex().upper() + BYTES * blocks
    return Case(
        f"length-{code}h-counted", LENGTH_WORDS,
        "were only the data counted, 2 blocks with data for 1 or 3 would be answered, and 5 with data for 4 be 01 0F",
        configured() + (
            request(asked(2, 1)), request(asked(2, 3)), request(asked(2, 2), DONE), request(asked(1, 0)),
            request(f"02{code}{first}"), request(asked(5, 4)), request(asked(5, 5), NO_INFORMATION)))


def addressed_length(code, otherwise, state):
    """Select and Stay Quiet, addressed, with a byte too many and as they should be."""
    return Case(
        f"length-{code}h", LENGTH_WORDS, otherwise,
        configured() + (request(f"22{code}{UID}00", record={STATE: READY}),
                        request(f"22{code}{UID}", DONE if code == "25" else SILENCE, record={STATE: state})))


def not_addressed(code, name, otherwise):
    """Select and Stay Quiet without a UID, plain and in Select mode."""
    return Case(
        f"check-9-{name}", "Select and Stay Quiet not addressed: silence.", otherwise,
        in_field(SMALL) + (request("02" + code, record={STATE: READY}),)
        + standing(SMALL, {STATE: SELECTED}) + (request("12" + code, record={STATE: SELECTED}),
                                                request("02" + code, record={STATE: SELECTED})))


def no_option(code, otherwise, *steps):
    """A command that takes no Option_flag: 03h at once, and nothing is held or changed."""
    return Case(f"check-10-{code}h", OPTION_WORDS, otherwise, steps)


CASES = (
    crc_case("crc-start", "7469", "were the start 0000h, the CRC of 02 20 00 would be 6974h, and this frame answered"),
    crc_case("crc-complemented", "B8AF", "were it not complemented, the CRC would be AFB8h, and this frame answered"),
    crc_case("crc-reflected", "E55B",
             "were 1021h taken highest bit first, the CRC would be 5BE5h, and this frame answered"),
    crc_case("crc-low-byte-first", "5047", "were its high byte first, the CRC would stand as 50 47, and be answered"),
    Case(
        "check-1-field-off", "Field off: silence, no change.",
        "were the frame heard without a field, it would answer 00 78 F0 and write block 0",
        lent(SMALL) + (request("022100A1A2A3A4", record=places(FACTORY), memory=shown_crc(ZEROS)),)),
    Case(
        "round-dropped-by-any-frame", DROP_WORDS,
        "were a round dropped only by a frame that is whole, or heard, or by an unheard one alone, the next end of "
        "frame would be the tag's slot",
        standing(SMALL, RUNNING) + (event("EOF", INVENTORY_ANSWER),) + after_unheard_frames(RUNNING, NO_ROUND)
        + standing(SMALL, RUNNING) + (request(READ, ZERO_BLOCK, record=NO_ROUND), event("EOF"))),
    Case(
        "held-dropped-by-any-frame", DROP_WORDS,
        "were a held answer dropped only by a frame that is whole, or heard, the end of frame would give out 00 78 F0",
        standing(SMALL, {HELD: 1}) + (event("EOF", DONE, record={HELD: 0}),)
        + after_unheard_frames({HELD: 1}, {HELD: 0})),
    Case(
        "dropped-first", DROP_WORDS,
        "were it dropped after the frame is worked, nothing would be held, and the end of frame give nothing out",
        standing(SMALL, {HELD: 2, HELD_CODE: 0x10}) + (
            request("422100A1A2A3A4", record={HELD: 1, HELD_CODE: 0}), event("EOF", DONE))),
    Case(
        "drop-keeps-work", DROP_WORDS,
        "were the work dropped along with its answer, block 0 would read zeros",
        in_field(SMALL) + (request("422100A1A2A3A4"), request(READ, framed("00A1A2A3A4")), event("EOF"))),
    Case(
        "check-2-under-4", "Under 4 bytes .. silence.",
        "were the CRC not counted, the four bytes of a Reset to Ready would be silence; without the check 00 78 F0 and "
        "00 00, which is the CRC of nothing, would have codes that are not listed: 01 02",
        in_field(SMALL) + (frame(""), frame("02"), frame("0000"), frame("0078F0"), request("0226", DONE))),
    Case(
        "check-2-crc", "wrong CRC: silence.",
        "were the CRC's low or high byte alone compared, or none, one of these would be answered",
        in_field(SMALL) + (frame(READ + "4650"), frame(READ + "47D0"), frame("022001" + READ_CRC),
                           frame(READ + READ_CRC, ZERO_BLOCK))),
    Case(
        "check-3-bit-4", "Flag bit 4 .. set (counting from 1): silence.",
        "were bit 4 passed over, as the protocol extension it is in ISO/IEC 15693, both would be answered",
        in_field(SMALL) + (request("0A2000"), request("2E0100"))),
    Case(
        "check-3-bit-8", "bit 8 set (counting from 1): silence.",
        "were bit 8 passed over, both would be answered",
        in_field(SMALL) + (request("822000"), request("A60100"))),
    Case(
        "check-3-counting-from-1", "Flag bit 4 or bit 8 set (counting from 1): silence.",
        "counted from 0 bit 4 would be Select_flag: the first would be silence and the second answered",
        standing(SMALL, {STATE: SELECTED}) + (request("122000", ZERO_BLOCK), request("0A2000"))),
    Case(
        "check-3-bits-1-and-2", "Flag bit 4 or bit 8 set (counting from 1): silence.",
        "were bit 1 or bit 2, sub-carrier and data rate, asked for or refused, not all four would be answered",
        in_field(SMALL) + tuple(request(flags + "2000", ZERO_BLOCK) for flags in ("00", "01", "02", "03"))),
    Case(
        "check-4-flag-set", "Inventory_flag (bit 3) set and code not 01h .. silence.",
        "were bit 3 passed over, the first would give block 0 and the second 01 02; were the code passed over, the "
        "first and third would be Inventories",
        in_field(SMALL) + (
            request("062000"), request("0600"), request("260000"), request("260100", INVENTORY_ANSWER))),
    Case(
        "check-4-flag-clear", "clear and code 01h: silence.",
        "were the code enough, both would be Inventories; were it taken as not listed, the second would be 01 02",
        in_field(SMALL) + (request("220100"), request("020100"))),
    Case(
        "inventory-own-section", "Inventory goes to its own section.",
        "were it put to check 6 or 10 too, bits 5 and 6 together would be silence, and bit 7 give 01 03",
        in_field(SMALL) + (request("36010000", INVENTORY_ANSWER), request("660100", INVENTORY_ANSWER))),
    Case(
        "check-5-another", "carry manufacturer code 02h after the code; another .. silence.",
        "were it not looked at, 03 would be answered too; by 003 it would be 01 02",
        in_field(SMALL) + (request("02A00205", ENDA1), request("02A00305"), request("02A00005"))),
    Case(
        "check-5-none", "carry manufacturer code 02h after the code; .. none: silence.",
        "were it optional, 05 would be the register; were none let through to check 7, DFh would be 01 02",
        in_field(SMALL) + (request("02A005"), request("02A0"), request("02DF"))),
    Case(
        "check-5-range", "Codes A0h to DFh carry manufacturer code 02h",
        "were 9Fh or E0h in the range, they would be silence; were A0h or DFh outside, they would be 00 3F or 01 02",
        in_field(SMALL) + (
            request("029F", NOT_LISTED), request("02A005"), request("02DF"), request("02E0", NOT_LISTED))),
    Case(
        "check-5-before-uid", "carry manufacturer code 02h after the code",
        "were it after the UID, the second would be answered and not the first",
        in_field(SMALL) + (request("22A002" + UID + "05", ENDA1), request("22A0" + UID + "0205"))),
    Case(
        "check-6-both-flags", "Select_flag (bit 5) and Address_flag (bit 6) both set: silence.",
        "were Address_flag to win, the first would give block 0; were Select_flag, the second; by 003 the first would "
        "be 01 03",
        standing(SMALL, {STATE: SELECTED}) + (request("3220" + UID + "00"), request("322000"))),
    Case(
        "check-6-uid-missing", "Addressed: UID missing .. is silence",
        "were no UID or a part of it taken as any tag's, the first two would be answered",
        in_field(SMALL) + (request("2226"), request("2226" + UID[:14]), request("2226" + UID, DONE))),
    Case(
        "check-6-uid-not-ours", "UID .. not ours is silence",
        "were another's UID heard, it would be answered 00 78 F0",
        standing(SMALL, {STATE: SELECTED}) + (
            request("2226" + OTHER_UID, record={STATE: SELECTED}), request("2226" + UID, DONE))),
    Case(
        "check-6-addressed-in-each-state", "Addressed: UID missing or not ours is silence",
        "were an addressed request not heard in Quiet, or in Selected, one of the three would be silence",
        in_each_state("2220" + UID + "00", ZERO_BLOCK, ZERO_BLOCK, ZERO_BLOCK)),
    other_select(
        "other-select-from-selected", "were it silence alone, the tag would stay Selected and answer in Select mode",
        request("2225" + OTHER_UID, record={STATE: READY}), request("122000")),
    other_select(
        "other-select-length", "were the length not looked at, a byte more or a byte of the UID less would give Ready",
        request("2225" + OTHER_UID + "00", record={STATE: SELECTED}),
        request("2225" + OTHER_UID[:14], record={STATE: SELECTED})),
    other_select(
        "other-select-option", "were Option_flag not looked at, the state would be Ready",
        request("6225" + OTHER_UID, record={STATE: SELECTED})),
    other_select(
        "other-select-both-flags", "were Select_flag with it not silence first, the state would be Ready",
        request("3225" + OTHER_UID, record={STATE: SELECTED})),
    other_select(
        "other-select-in-quiet", "were any state turned into Ready, Quiet would be too",
        request("2225" + OTHER_UID, record={STATE: QUIET}), state=QUIET),
    other_select(
        "other-commands", "were every command for another UID to end Selected, these would give Ready",
        request("2226" + OTHER_UID, record={STATE: SELECTED}), request("2202" + OTHER_UID, record={STATE: SELECTED}),
        request("2220" + OTHER_UID + "00", record={STATE: SELECTED})),
    Case(
        "check-6-select-only", "Select only: silence unless Selected.",
        "were Select_flag heard in Ready or Quiet, the first two would be answered",
        in_each_state("122000", "", "", ZERO_BLOCK)),
    Case(
        "check-6-neither", "Neither: silence in Quiet.",
        "were Quiet to answer, or Selected to ask for Select_flag, the second or third would be otherwise",
        in_each_state(READ, ZERO_BLOCK, "", ZERO_BLOCK)),
    Case(
        "order-before-other-select", ORDER_WORDS,
        "were another's Select looked at before the CRC, bits 4 and 8 or Inventory_flag, the state would be Ready",
        standing(SMALL, {STATE: SELECTED}) + (frame("2225" + OTHER_UID + "0000", record={STATE: SELECTED}),) + tuple(
            request(flags + "25" + OTHER_UID, record={STATE: SELECTED}) for flags in ("2A", "A2", "26"))),
    Case(
        "order-2-before-7", ORDER_WORDS, "were the code looked at before the CRC, this would be 01 02",
        in_field(SMALL) + (frame("022B0000"),)),
    unheard("order-3-before-7", "were the code looked at before bits 4 and 8, these would be 01 02", "0A2B", "822B"),
    unheard("order-4-before-7", "were the code looked at before Inventory_flag, this would be 01 02", "062B"),
    unheard("order-5-before-7", "were the code looked at before the manufacturer's, as in 003, these would be 01 02",
            "02B403", "02B4"),
    unheard("order-6-before-7", "were the code looked at before the address, these would be 01 02",
            "222B" + OTHER_UID, "222B", "122B", "322B" + UID),
    Case(
        "order-6-before-7-in-quiet", ORDER_WORDS, "were the code looked at before the state, this would be 01 02",
        standing(SMALL, {STATE: QUIET}) + (request("022B"),)),
    Case(
        "check-7-unlisted", "Code not listed below: error 02h.",
        "were one of these listed, or the rest silence as in ISO/IEC 15693, one would not be 01 02",
        in_field(SMALL) + tuple(request("02" + code, NOT_LISTED) for code in UNLISTED)
        + tuple(request("02" + code + "02", NOT_LISTED) for code in UNLISTED_CUSTOM)),
    Case(
        "check-7-addressed", "Code not listed below: error 02h.",
        "were 02h given in one mode only, our UID or Select mode would be silence",
        standing(SMALL, {STATE: SELECTED}) + (
            request("222B" + UID, NOT_LISTED), request("122B", NOT_LISTED), request("22DF02" + UID, NOT_LISTED))),
    Case(
        "order-7-before-8", ORDER_WORDS,
        "were a code without fields of its own held to a length, one of these would be silence",
        in_field(SMALL) + (request("022B", NOT_LISTED), request("022B00", NOT_LISTED),
                           request("022B" + "00" * 20, NOT_LISTED))),
    Case(
        "order-7-before-10", ORDER_WORDS,
        "were Option_flag looked at first, this would be 01 03; were it held as for a write, silence",
        in_field(SMALL) + (request("422B", NOT_LISTED, record={HELD: 0}), event("EOF"))),
    addressed_length("02", "were a byte more passed over, the first request would give Quiet", QUIET),
) + tuple(length_case(*command) for command in PLAIN_COMMANDS) + (
    counted_length("24", 1, "00"), counted_length("34", 2, "0000"),
    addressed_length("25", "were a byte more passed over, the first would give Selected and 00 78 F0", SELECTED),
) + tuple(length_case(*command, maker="02") for command in CUSTOM_COMMANDS) + (
    Case(
        "length-after-uid", LENGTH_WORDS,
        "were the UID counted, the second would be silence; were the manufacturer code, the third would be 01 10 and "
        "the last silence",
        in_field(SMALL) + (
            request("2220" + UID), request("2220" + UID + "00", ZERO_BLOCK),
            request("22A002" + UID), request("22A002" + UID + "05", framed("003F")))),
    Case(
        "order-8-before-10", ORDER_WORDS,
        "were Option_flag looked at before the length, these would be 01 03",
        in_field(SMALL) + (request("422600"), request("422C00"), request("42A002"), request("6225" + UID + "00"))),
    not_addressed("25", "select", "were any tag that is not Quiet meant, it would answer 00 78 F0 and be Selected"),
    not_addressed("02", "stay-quiet", "were any tag that is not Quiet meant, it would be Quiet"),
    Case(
        "order-9-before-10", ORDER_WORDS,
        "were Option_flag looked at before the address, both Selects would be 01 03",
        standing(SMALL, {STATE: SELECTED}) + (request("4225"), request("5225"))),
    no_option("25", "were Option_flag passed over, the tag would be Selected; were the answer held, this be silence",
              *in_field(SMALL), request("6225" + UID, OPTION_REFUSED, record={STATE: READY, HELD: 0})),
    no_option("26", "were Option_flag passed over, the tag would be Ready; were the answer held, this be silence",
              *standing(SMALL, {STATE: SELECTED}), request("4226", OPTION_REFUSED, record={STATE: SELECTED, HELD: 0})),
    no_option("2c", "were Option_flag taken as by a read, this would be 00 and a status byte",
              *in_field(SMALL), request("422C0000", OPTION_REFUSED)),
    no_option("3c", "were Option_flag taken as by a read, this would be 00 and a status byte",
              *in_field(SMALL), request("423C00000000", OPTION_REFUSED)),
    no_option("a0", "were Option_flag passed over, this would be 00 3F; were the register looked at first, 03h 01 10",
              *in_field(SMALL), request("42A00205", OPTION_REFUSED), request("42A00203", OPTION_REFUSED)),
    no_option("b3", "were the password looked at first, session 2 would be closed by the first value or changed by the "
              "second, and number 4 be 01 10",
              *standing(SMALL, {SESSION: 3}), request("42B30201" + "11" * 8, OPTION_REFUSED, record={SESSION: 3}),
              request("42B30201" + ZERO_PASSWORD, OPTION_REFUSED, record={SESSION: 3}),
              request("42B30204" + ZERO_PASSWORD, OPTION_REFUSED, record={SESSION: 3})),
    Case(
        "check-10-taken-by-reads", "It is taken by 02h, 20h, 23h, 30h, 33h",
        "were it not taken by one of these reads, that would be 01 03, or a block without its status",
        in_field(SMALL) + tuple(request(text, framed("000000000000")) for text in (
            "422000", "42230000", "42300000", "423300000000"))),
    Case(
        "check-10-bit-7", "Option_flag (bit 7)",
        "were Option_flag another bit, 40h would be passed over and a read have no status",
        in_field(SMALL) + (request("402000", framed("000000000000")), request("022000", ZERO_BLOCK))),
)
