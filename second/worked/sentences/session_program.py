"""Cases for the sentences of 01, Session program: lines that `tagrun` is given right after the session that 01 prints.

Each case leaves the tag as that session does: in the field, Ready, configuration session open, else of the factory.
Empty input has no lines and can be no case; the last stored line, which lacks its newline, is one of the generator's;
and a request before field on would have to stand before 01's session. `tests/test_session` tries these three.
"""

from ..examples import DONE, INVENTORY_ANSWER, NOT_AVAILABLE, NOT_LISTED, UID, ZERO_BLOCK, SessionCase, framed

START_WORDS = "`tagrun` starts with a factory 16 Kbit tag of UID E0 02 23 04 01 D6 C8 F0."
NO_FORM, SILENT = "?", "-"
HELD_WRITE = (b"42210000000000", SILENT)  # block 0 gets the zeros that it has
OPEN_SESSION_0 = (b"02B302000000000000000000", DONE)
ZERO_REGISTERS = (b"04", b"06", b"08", b"0A", b"0F")


def session_case(name, words, otherwise, *pairs):
    """A case of lines with their outputs."""
    return SessionCase(name, words, otherwise, tuple(line for line, _ in pairs), tuple(output for _, output in pairs))


CASES = (
    session_case(
        "tagrun-16-kbit", START_WORDS,
        "were it the 64 Kbit tag, block 512 would be answered and the ends be FF; were an area set, not all be 3F",
        (b"0230FF01", ZERO_BLOCK), (b"02300002", NOT_AVAILABLE),
        (b"02A00205", framed("003F")), (b"02A00207", framed("003F")), (b"02A00209", framed("003F"))),
    session_case(
        "tagrun-uid", START_WORDS,
        "were the UID given lowest byte first, it would travel as E0 02 23 04 01 D6 C8 F0, and that one be answered",
        (b"2226" + UID.encode("ascii"), DONE), (b"2226E002230401D6C8F0", SILENT), (b"260100", INVENTORY_ANSWER)),
    session_case(
        "tagrun-factory-registers", START_WORDS,
        "were an area protected, the configuration locked or a block locked at the start, one of these would be 01",
        *((b"02A002" + address, framed("0000")) for address in ZERO_REGISTERS), (b"022C0001", framed("000000"))),
    session_case(
        "tagrun-factory-passwords", START_WORDS,
        "were a password not zero at the start, its presentation would be 01 0F",
        *((b"02B302%02X" % number + b"00" * 8, DONE) for number in (1, 2, 3, 0))),
    session_case(
        "tagrun-factory-identity", START_WORDS,
        "were AFI 01h at the start, the first would be answered; were AFI or DSFID locked, the writes would be 01 12",
        (b"36010100", SILENT), (b"36010000", INVENTORY_ANSWER), (b"022700", DONE), (b"022900", DONE)),
    session_case(
        "tagrun-factory-memory", START_WORDS,
        "were a byte of the memory not zero at the start, it would be seen among the 512 blocks",
        (b"02330000FF01", framed("00" + "00" * 2048))),
    session_case(
        "line-on-off", "Each input line is ON, OFF",
        "were OFF or ON no event, the first read would be answered, or the second silence",
        (b"OFF", SILENT), (b"022000", SILENT), (b"ON", SILENT), (b"022000", ZERO_BLOCK), OPEN_SESSION_0),
    session_case(
        "line-eof", "Each input line is .. EOF",
        "were EOF no event, the held answer would not be given out",
        HELD_WRITE, (b"EOF", DONE), (b"EOF", SILENT)),
    session_case(
        "line-words-exact", "Each input line is ON, OFF, EOF",
        "were case or blanks passed over, or a word's begin enough, these would be events; OFF would close the session",
        *((line, NO_FORM) for line in (b"on", b"Off", b"eof", b"OFF ", b" OFF", b"OFF OFF", b"OFFF", b"EO", b"O")),
        (b"02A1020400", DONE)),
    session_case(
        "line-upper-case", "a request in upper-case hex",
        "were lower case taken, the first would be answered as the second",
        (b"02a00205", NO_FORM), (b"02A00205", framed("003F"))),
    session_case(
        "line-hex-alone", "a request in upper-case hex",
        "were blanks or a prefix passed over, the read of block 0 would be answered",
        *((line, NO_FORM) for line in (b"02 20 00", b"0x022000", b"022000 ", b"02200G", b"+22000",
                                       b"\xEF\xBC\x90" * 2))),
    session_case(
        "line-without-crc", "without CRC .. the program adds the CRC.",
        "were the CRC to be given, the first would be silence and the second answered",
        (b"022000", ZERO_BLOCK), (b"0220004750", SILENT)),
    session_case(
        "line-2-digits", "2 to 128 digits",
        "were 00 of no form, or one digit a request, the held answer would be given out after 00, or not after 0",
        HELD_WRITE, (b"00", SILENT), (b"EOF", SILENT), HELD_WRITE, (b"0", NO_FORM), (b"EOF", DONE)),
    session_case(
        "line-128-digits", "2 to 128 digits",
        "were the CRC's digits counted, 128 would be of no form; were there no bound, 130 would be 01 02",
        (b"00" * 64, NOT_LISTED), (b"00" * 65, NO_FORM)),
    session_case(
        "line-even-number", "an even number",
        "were half a byte passed over or filled up, the read of block 0 would be answered, or the held answer dropped",
        HELD_WRITE, (b"0220000", NO_FORM), (b"02200", NO_FORM), (b"0" * 127, NO_FORM), (b"0" * 129, NO_FORM),
        (b"EOF", DONE)),
    session_case(
        "output-line-number", "line number from 1 in decimal, a space",
        "were numbers hexadecimal, counted from 0, or of events alone, that of the last line would be another",
        (b"EOF", SILENT), (b"", NO_FORM), (b"EOF", SILENT)),
    session_case(
        "output-whole-answer", "then the whole answer in hex",
        "were flags or CRC left out, or hex in lower case, this would not be as 01 prints the Inventory's",
        (b"260100", "0000F0C8D601042302E064A3")),
    session_case(
        "output-silence", "`-` for silence", "were silence an empty output or none, there would be no `-`",
        (b"0220", SILENT), (b"822000", SILENT)),
    session_case(
        "output-no-form-no-event", "`?` for a line of no such form, which is no event.",
        "were such a line a frame, it would drop the round of slot 1, and the end of frame be silence",
        (b"060118F0C8D6", SILENT), (b"?", NO_FORM), (b"", NO_FORM), (b"00" * 65, NO_FORM), (b"EOF", INVENTORY_ANSWER),
        (b"022000", ZERO_BLOCK)),
    session_case(
        "lines-end-in-newline", "Lines end in a newline",
        "were CR or a blank passed over or taken as an end of line, or a long line cut, there would be events or more",
        *((line, NO_FORM) for line in (b"EOF\r", b"EOF\rEOF", b"EOF\x0B", b"EOF\x0C", b"022000\r",
                                       b"\xC2\x85", b"\xE2\x80\xA8", b"EOF" * 1400))),
)
