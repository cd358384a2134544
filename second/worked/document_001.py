"""Document 001, section 2.3.5 (page 8): frames of a reader, and with them CRC samples.

The reader prints an answer between its own 80h and length and a last 00h: in
800D0000F0C8D601042302E064A300 the tag's answer is 0000F0C8D601042302E064A3.
001 is about other parts. Where the base of 01 has another rule, the note says so.
"""

from .examples import (CONFIGURATION_SESSION, DONE, INVENTORY_ANSWER, NOT_LISTED, NO_INFORMATION, SESSION, SILENCE,
                       SMALL, UID, Example, configured, event, frame, in_field, lent, line, request)

SESSION_0 = {SESSION: CONFIGURATION_SESSION}


def memory_crc(text, crc):
    """The CRC of these bytes as casebook shows it for a lent memory, high byte first; so short a memory is number 1."""
    return (line(f"MEM {len(text) // 2}"), line("PUT 0 " + text), event("EOF", number=1, memory=crc))


EXAMPLES = (
    Example(
        "001, 2.3.5, 1, INVENTORY", "260100 .. 800D0000F0C8D601042302E064A300",
        "a factory tag that is given the UID of the example, from field on",
        lent(SMALL) + (event("ON"), request("260100", INVENTORY_ANSWER))),
    Example(
        "001, 2.3.5, 1, WRITE PASSWORD", "02B1020012345678 .. 80040078F000",
        "01's passwords have eight bytes: the frame as printed has a wrong length, with four more bytes it is answered",
        configured()
        + (request("02B1020012345678", SILENCE), request("02B102001234567800000000", DONE, record={
            19: 0x12, 20: 0x34, 21: 0x56, 22: 0x78, 23: 0, 26: 0, SESSION: CONFIGURATION_SESSION}))),
    Example(
        "001, 2.3.5, 3, PRESENT PASSWORD", "22B302F0C8D601042302E000E25FA613 .. 80040078F000",
        "as above; the value of eight bytes, unmasked, is right: its session opens",
        in_field(SMALL) + (
            request("22B302" + UID + "00E25FA613", SILENCE, record={SESSION: 0}),
            request("22B302" + UID + "00E25FA61300000000", NO_INFORMATION, record={SESSION: 0}),
            request("22B302" + UID + "000000000000000000", DONE, record=SESSION_0),
            request("22B102" + UID + "00E25FA61300000000", DONE, record=SESSION_0),
            request("22B302" + UID + "00E25FA61300000000", DONE, record=SESSION_0))),
    Example(
        "001, 2.3.5, 1, Get Random Number", "02B402 .. 800600916B9C1B00",
        "B4h is not listed in 01: error 02h",
        in_field(SMALL) + (request("02B402", NOT_LISTED),)),
    Example(
        "001, 2.3.5, 1, ENABLE UNTRACEABLE MODE", "22BA02F0C8D601042302E000835FC713 .. 80040078F000",
        "BAh is not listed in 01: error 02h, addressed by the UID alone",
        in_field(SMALL) + (request("22BA02F0C8D601042302E000835FC713", NOT_LISTED),
                           request("22BA02F1C8D601042302E000835FC713", SILENCE))),
    Example(
        "001, 2.3.5, 2, Response to Get Random Number", "22B402F0C8D601042302E0 .. 800600F06B116700",
        "B4h is not listed in 01: error 02h; the tag has no untraceable mode and answers the Inventory after it",
        in_field(SMALL) + (request("22B402F0C8D601042302E0", NOT_LISTED), request("260100", INVENTORY_ANSWER))),
    Example(
        "001, 2.3.5, all answers", "80040078F000 .. 800600916B9C1B00 .. 800600F06B116700 .. 800D0000F0C8D601042302E064A300",
        "the CRC of 00, 00F06B, 00916B and 0000F0C8D601042302E0: casebook shows the CRC of the lent memory",
        memory_crc("00", "F078") + memory_crc("00F06B", "6711") + memory_crc("00916B", "1B9C")
        + memory_crc("0000F0C8D601042302E0", "A364")),
    Example(
        "001, 2.3.5, all answers", "80040078F000 .. 800600916B9C1B00 .. 800600F06B116700 .. 800D0000F0C8D601042302E064A300",
        "the answers sent to the tag as frames pass check 2 and have codes that are not listed; with a damaged CRC they "
        "are silence, and 0078F0 is under four bytes",
        in_field(SMALL) + (
            frame("00F06B1167", NOT_LISTED), frame("00F06B1166"), frame("00F06B6711"),
            frame("00916B9C1B", NOT_LISTED), frame("00916B9C5B"), frame("00916A9C1B"),
            frame("0000F0C8D601042302E064A3", NOT_LISTED), frame("0000F0C8D601042302E065A3"), frame("0078F0"))),
)
