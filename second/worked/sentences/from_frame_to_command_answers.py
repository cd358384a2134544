"""Cases for the sentences of 01, From frame to command: what follows the checks."""

from ..examples import (AFI, BYTES, DONE, DSFID, FIELD, HELD, HELD_CODE, INVENTORY_ANSWER, LASTING, LOCKS,
                        NOTHING_PASSING, NOT_AVAILABLE, NOT_WRITTEN, PASSWORD, QUIET, READY, RUNNING, SELECTED, SESSION,
                        SMALL, STATE, UID, WRITTEN, ZEROS, ZERO_BLOCK, Case, configured, error, event, framed, in_field,
                        lent, line, numbered, places, request, shown_crc, standing)

WRITTEN_CRC = shown_crc(WRITTEN)
BLOCK_1_READ = framed("00" + numbered(1, 1))
QUIET_WORDS = "Stay Quiet 02h gives Quiet and silence, even with Option_flag."
HELD_WORDS = ("Option_flag on a write-like command (21h, 22h, 24h, 27h to 2Ah, 31h, 32h, 34h, A1h, B1h) does the work "
              "at once and holds the answer, error or success, until an end of frame gives it out.")
EOF_WORDS = "An end of frame with neither round nor held answer does nothing."
FIELD_ON_PARTS = ({STATE: SELECTED, SESSION: 3, **RUNNING}, {STATE: QUIET, SESSION: 3, HELD: 2, HELD_CODE: 0x10})


def held(code, done, failed, number, record=None, memory=None, before=()):
    """A write-like command with Option_flag that succeeds and one that fails, each given out by an end of frame."""
    return Case(
        f"held-{code}h", HELD_WORDS,
        f"were {code.upper()}h answered at once, its work left to the end of frame, or errors not held, a line would "
        "differ",
        configured() + (
            request("42" + done, record={HELD: 1, **(record or {})}, memory=memory),
            event("EOF", DONE, record={HELD: 0})) + before + (
                request("42" + failed, record={HELD: 2, HELD_CODE: number}),
                event("EOF", error(number), record={HELD: 0, HELD_CODE: 0})))


def from_each_state(text, answer, state):
    """An addressed request in Ready, Quiet and Selected, and the state it gives; session 1 stays open."""
    return tuple(step for before in (READY, QUIET, SELECTED)
                 for step in standing(SMALL, {STATE: before, SESSION: 2}) + (
                     request(text, answer, record={STATE: state, SESSION: 2}),))


CASES = (
    Case(
        "fields-place", "The command's fields begin at a place that depends on these",
        "were the fields always at byte 2, or after a UID in Select mode too, block 1 would not be read in all modes",
        standing(SMALL, {STATE: SELECTED}) + (
            line("PUT 0 " + numbered(0, 3)), request("022001", BLOCK_1_READ), request("122001", BLOCK_1_READ),
            request("2220" + UID + "01", BLOCK_1_READ))),
    Case(
        "fields-place-custom", "The command's fields begin at a place that depends on these",
        "were the manufacturer code not counted, or counted after the UID, ENDA1 would not be read in all modes",
        standing(SMALL, {STATE: SELECTED}) + (
            request("02A00205", framed("003F")), request("12A00205", framed("003F")),
            request("22A002" + UID + "05", framed("003F")))),
    Case(
        "fields-rest-of-frame", "they are handled as the rest of the frame from there on",
        "were fields of an addressed write read from another place, or its CRC taken along, block 0 would not be so",
        in_field(SMALL) + (request("2224" + UID + "0000" + BYTES, DONE, memory=WRITTEN_CRC),)),
    Case(
        "answer-body-after-flags", "the answer body is written straight after the flags byte",
        "were a byte of code, length or status between, the block would begin later",
        in_field(SMALL) + (line("PUT 0 " + BYTES), request("022000", framed("00" + BYTES)))),
    Case(
        "success-begins-00", "Success begins 00h; .. CRC follows.",
        "were success without a byte of its own, or its CRC left out, this would not be 00 78 F0",
        in_field(SMALL) + (request("0226", "0078F0"),)),
    Case(
        "error-is-01-code", "an error is 01h, code; CRC follows.",
        "were the code alone, or before 01h, this would not be as 01's session prints it: 01 10 1E 06",
        in_field(SMALL) + (request("02300002", "01101E06"),)),
    Case(
        "select-selected", "Select 25h (Selected) .. answer success",
        "were Select not heard in Quiet, or silence, or the end of a session, one of the three would differ",
        from_each_state("2225" + UID, DONE, SELECTED)),
    Case(
        "reset-to-ready", "Reset to Ready 26h (Ready) answer success",
        "were Quiet left by field off alone, or a session closed by it, one of the three would differ",
        from_each_state("2226" + UID, DONE, READY)),
    Case(
        "reset-to-ready-select-mode", "Reset to Ready 26h (Ready) answer success",
        "were 26h, as 25h and 02h, to be addressed alone, these would be silence",
        standing(SMALL, {STATE: SELECTED}) + (request("1226", DONE, record={STATE: READY}), request("0226", DONE))),
    Case(
        "stay-quiet", QUIET_WORDS,
        "were it answered, this would be 00 78 F0; were only Ready turned into Quiet, Selected would stay",
        from_each_state("2202" + UID, "", QUIET)),
    Case(
        "stay-quiet-option", QUIET_WORDS,
        "were its answer held, the end of frame would give it out; were Option_flag refused, this would be 01 03",
        in_field(SMALL) + (request("6202" + UID, record={STATE: QUIET, HELD: 0}), event("EOF"))),
    held("21", "2100" + BYTES, "2100" + BYTES, 0x12, memory=WRITTEN_CRC, before=(request("022200", DONE),)),
    held("22", "2200", "2200", 0x11, record={LOCKS: 0x01}),
    held("24", "240000" + BYTES, "240004" + BYTES * 5, 0x0F, memory=WRITTEN_CRC),
    held("27", "2735", "2736", 0x12, record={AFI: 0x35}, before=(request("0228", DONE),)),
    held("28", "28", "28", 0x11, record={LOCKS: 0x04}),
    held("29", "295A", "295B", 0x12, record={DSFID: 0x5A}, before=(request("022A", DONE),)),
    held("2a", "2A", "2A", 0x11, record={LOCKS: 0x08}),
    held("31", "310000" + BYTES, "310002" + BYTES, 0x10, memory=WRITTEN_CRC),
    held("32", "320000", "320200", 0x10, record={LOCKS: 0x01}),
    held("34", "3400000000" + BYTES, "3400020000" + BYTES, 0x10, memory=WRITTEN_CRC),
    held("a1", "A1020407", "A1020540", 0x13, record={12: 0x07}),
    held("b1", "B10200" + PASSWORD, "B10201" + PASSWORD, 0x0F, record={19: 0x01, 26: 0x08}),
    Case(
        "held-not-without-option", HELD_WORDS,
        "were every write held, this would be silence, and 00 78 F0 come at the end of frame",
        in_field(SMALL) + (request("022100" + BYTES, DONE, record={HELD: 0}), event("EOF"))),
    Case(
        "held-given-once", "until an end of frame gives it out.",
        "were it held on, the second end of frame would give it out again",
        in_field(SMALL) + (request("422100" + BYTES), event("EOF", DONE), event("EOF"))),
    Case(
        "held-error-changes-nothing", HELD_WORDS,
        "were the work done before its error is known, the locked block would hold the bytes",
        in_field(SMALL, locks=0x01) + (request("422100" + BYTES, memory=shown_crc(ZEROS)), event("EOF", NOT_WRITTEN))),
    Case(
        "eof-does-nothing", EOF_WORDS,
        "were an end of frame to end a session or Selected, or to be answered, this would differ",
        standing(SMALL, {STATE: SELECTED, SESSION: 3}) + (
            event("EOF", record={FIELD: 1, STATE: SELECTED, SESSION: 3}),)),
    Case(
        "eof-field-off", EOF_WORDS,
        "were an end of frame to need a field, or to turn it on, this would have a number or byte 64 be 01",
        lent(SMALL) + (event("EOF", record=NOTHING_PASSING),)),
    Case(
        "off-clears-passing-parts", "Field off clears passing parts",
        "were state, session, round or held answer kept, bytes 64 to 71 would not be zero",
        tuple(step for parts in FIELD_ON_PARTS for step in standing(SMALL, parts) + (
            event("OFF", record=NOTHING_PASSING), event("ON", record={**NOTHING_PASSING, FIELD: 1}), event("EOF")))),
    Case(
        "off-when-off", "Field off clears passing parts",
        "were field off a change of the field, or refused without one, byte 64 would be 01 or there would be a number",
        lent(SMALL) + (line("REC " + LASTING), event("OFF", record=places(LASTING), memory=shown_crc(ZEROS)),
                       request("022000"))),
    Case(
        "off-keeps-work", "Field off clears passing parts",
        "were the work of a held answer undone with it, block 0 would be zeros",
        in_field(SMALL) + (request("422100" + BYTES), event("OFF", memory=WRITTEN_CRC), event("ON"), event("EOF"),
                           request("022000", framed("00" + BYTES)))),
    Case(
        "on-gives-ready", "field on gives Ready",
        "were Quiet remembered over field off, the read would be silence; were the field not on, all would be",
        standing(SMALL, {STATE: QUIET}) + (
            event("OFF"), event("ON", record={FIELD: 1, STATE: READY}), request("022000", ZERO_BLOCK))),
    Case(
        "on-when-on", "field on when on does nothing.",
        "were field on to give Ready again, or to be a frame, state, session, round or held answer would be gone",
        tuple(step for parts, answer in zip(FIELD_ON_PARTS, (INVENTORY_ANSWER, NOT_AVAILABLE))
              for step in standing(SMALL, parts) + (event("ON", record={FIELD: 1, **parts}), event("EOF", answer)))),
)
