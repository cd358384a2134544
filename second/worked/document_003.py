"""Document 003 (DS14321): block addresses, area ends, the example of area setting, counts, register addresses."""

from .examples import (CLOSED, CONFIGURATION_SESSION, DONE, LARGE, NOT_AVAILABLE, NOT_PROGRAMMED, NOT_READ, SILENCE,
                       SMALL, Example, configured, event, framed, in_field, lent, line, numbered, request)

PRESENT_FACTORY_PASSWORD_0 = request("02B302000000000000000000", DONE)
ALL_STATUS = "023C0000FF07"


def write_register(address, value, answer=DONE):
    """Write configuration A1h."""
    return request(f"02A102{address:02X}{value:02X}", answer)


def read_register(address, value):
    """Read configuration A0h; None stands for an unknown address."""
    return request(f"02A002{address:02X}", NOT_AVAILABLE if value is None else framed(f"00{value:02X}"))


def read_registers(values):
    """Read configuration at addresses 03h to 10h."""
    return tuple(read_register(address, values.get(address)) for address in range(0x03, 0x11))


def status_of_areas(*counts):
    """Areas of so many blocks, of which the first and the third are never writable."""
    statuses = "".join(("00" if number % 2 else "01") * count for number, count in enumerate(counts))
    return request(ALL_STATUS, framed("00" + statuses))


EXAMPLES = (
    Example(
        "003, 4.2, table 1, page 6", "RF block (00)FFh .. 03FFh 03FEh 03FDh 03FCh .. 0100h .. 0403h 0402h 0401h 0400h .. "
        "01FF .. 07FFh 07FEh 07FDh 07FCh .. RF block 07FFh .. 1FFFh 1FFEh 1FFDh 1FFCh .. Last block accessible with read "
        "single block",
        "byte 4 x block is the first on the air; a one-byte read of two blocks from FFh is cut to one",
        in_field(SMALL) + (
            line("PUT 1020 FC03FD03FE03FF03"), line("PUT 2044 FC07FD07"),
            request("0220FF", framed("00FC03FD03")), request("0223FF01", framed("00FC03FD03")),
            request("0230FF00", framed("00FC03FD03")), request("02300001", framed("00FE03FF03")),
            request("0233FF000100", framed("00FC03FD03FE03FF03")), request("0230FF01", framed("00FC07FD07")))
        + in_field(LARGE) + (line("PUT 8188 FC1FFD1F"), request("0230FF07", framed("00FC1FFD1F")))),
    Example(
        "003, 4.2.1, table 2, page 7", "ST25TV16KC 01FFh 3Fh ST25TV64KC 07FFh FFh",
        "the last block and the greatest end of each tag, and the next beyond them",
        configured() + (
            request("0230FF01", framed("0000000000")), request("02300002", NOT_AVAILABLE),
            write_register(0x05, 0x40, NOT_PROGRAMMED), write_register(0x05, 0x3F))
        + in_field(LARGE, session=CONFIGURATION_SESSION) + (
            request("0230FF07", framed("0000000000")), request("02300008", NOT_AVAILABLE),
            write_register(0x05, 0xFF), read_register(0x05, 0xFF))),
    Example(
        "003, 4.2.1, page 7", "ENDA1 = 0 means that the size of Area 1 is 8 blocks (32 bytes).",
        "Area 2 is made unreadable, so that a read of all one-byte blocks stops at the border",
        in_field(SMALL, ends=(0, 63, 63), protections=(0, CLOSED, 0, 0)) + (
            line("PUT 0 " + numbered(0, 10)), request("022300FF", framed("00" + numbered(0, 8))),
            request("022007", framed("00" + numbered(7, 1))), request("022008", NOT_READ))),
    Example(
        "003, 4.2.1, pages 8 and 9; 5.2.2, page 20", "1. Initial state .. ENDA1 = 10h .. Area 1 from block 0000h to 0087h "
        "(136 blocks) .. Area 2 from block 0088h to 07FFh (1912 blocks) .. 2. .. Set ENDA1 = 3Fh .. Set ENDA2 = 5Fh .. Set "
        "ENDA3 = BFh .. (512 blocks) .. (256 blocks) .. (768 blocks) .. (512 blocks) .. 3. .. Set ENDA3 = FFh .. Set ENDA2 "
        "= FFh .. Set ENDA1 = 7Fh .. (1024 blocks) .. (1024 blocks) .. Programming ENDA3 to FFh in step 2.a would have "
        "resulted in .. an error .. All passwords are 64-bits long, and default factory passwords value is 000000000000000.",
        "from a factory tag; Areas 1 and 3 are made unwritable, so that 3Ch shows each area's blocks; 003 gives 0Fh "
        "for a refused end, 01 decides: 13h",
        lent(LARGE) + (
            event("ON"), PRESENT_FACTORY_PASSWORD_0,
            write_register(0x04, CLOSED), write_register(0x08, CLOSED),
            write_register(0x05, 0x10), status_of_areas(136, 1912),
            write_register(0x09, 0xFF, NOT_PROGRAMMED),
            write_register(0x05, 0x3F), write_register(0x07, 0x5F), write_register(0x09, 0xBF),
            status_of_areas(512, 256, 768, 512),
            write_register(0x05, 0x7F, NOT_PROGRAMMED), write_register(0x07, 0xFF, NOT_PROGRAMMED),
            write_register(0x09, 0xFF), write_register(0x07, 0xFF), write_register(0x05, 0x7F),
            status_of_areas(1024, 1024))),
    Example(
        "003, 6.4.12, 6.4.13, pages 43 and 44", "if the \"Number of blocks\" field contains the value 06h, seven "
        "blocks are read", "23h and 33h from block 2",
        in_field(SMALL) + (
            line("PUT 0 " + numbered(0, 12)), request("02230206", framed("00" + numbered(2, 7))),
            request("023302000600", framed("00" + numbered(2, 7))))),
    Example(
        "003, 6.4.24, 6.4.25, pages 60 and 61", "a value of \"06\" in the \"Number of blocks\" field requests will "
        "return the security status of seven blocks", "2Ch and 3Ch from block 0, of which blocks 0 and 1 are locked",
        in_field(SMALL, locks=0x03) + (
            request("022C0006", framed("00" + "01010000000000")),
            request("023C00000600", framed("00" + "01010000000000")))),
    Example(
        "003, 6.4.14, 6.4.15, pages 46 and 47", "number of block = 2 means 3 blocks to be written",
        "24h and 34h with data for two, four and three blocks; the fourth block stays",
        in_field(SMALL) + tuple(
            request(head + numbered(16, blocks), DONE if blocks == 3 else SILENCE)
            for head in ("02240502", "023409000200") for blocks in (2, 4, 3)) + (
                request("02230503", framed("00" + numbered(16, 3) + "00000000")),
                request("02230903", framed("00" + numbered(16, 3) + "00000000")))),
    Example(
        "003, 4.3, table 10, page 11", "04h .. A1SS .. 05h .. ENDA1 .. 06h .. A2SS .. 07h .. ENDA2 .. 08h .. A3SS .. "
        "09h .. ENDA3 .. 0Ah .. A4SS .. 0Fh .. LOCK_CFG", "03h (KILL) is not in the base; passwords, AFI and DSFID have no address",
        in_field(SMALL, ends=(0x11, 0x12, 0x13), protections=(0x04, 0x05, 0x06, 0x07), locks=0x10) + read_registers(
            {0x04: 0x04, 0x05: 0x11, 0x06: 0x05, 0x07: 0x12, 0x08: 0x06, 0x09: 0x13, 0x0A: 0x07, 0x0F: 0x01})),
    Example(
        "003, tables 5, 7, 9, 14, 16, 18, 20, 24, pages 9 to 17", "ENDA1 .. Factory value .. ST25TV16KC: 3Fh .. "
        "ST25TV64KC: FFh .. ENDA2 .. ENDA3 .. A1SS .. 00b .. A2SS .. A3SS .. A4SS .. LOCK_CFG .. 0b", "read from factory tags",
        in_field(SMALL) + read_registers({0x04: 0, 0x05: 0x3F, 0x06: 0, 0x07: 0x3F, 0x08: 0, 0x09: 0x3F, 0x0A: 0, 0x0F: 0})
        + in_field(LARGE) + read_registers(
            {0x04: 0, 0x05: 0xFF, 0x06: 0, 0x07: 0xFF, 0x08: 0, 0x09: 0xFF, 0x0A: 0, 0x0F: 0})),
)
