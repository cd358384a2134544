"""Document 004 (AN4911): the end of Area 1 for a container, and containers as block contents."""

from .examples import (CLOSED, CONFIGURATION_SESSION, DONE, LARGE, LOCKED_ALREADY, NOT_AVAILABLE, NOT_READ, NOT_WRITTEN,
                       SMALL, Example, framed, in_field, line, numbered, request)

CONTAINER = "E240000100000020"
EIGHT_BYTES = ("E240000000000400", "E240000000000020", "E240000100000400", "E2400001000003FF",  # 4.2
               "E240000100000100", "E2400001000000C0")  # 4.3


def area_end(size):
    """ENDA1 = 0Ch, and the blocks beside the border that it makes; Area 2 is hidden."""
    return in_field(size, protections=(0, CLOSED, 0, 0), session=CONFIGURATION_SESSION) + (
        line("PUT 0 " + numbered(0, 112)),
        request("02240001" + CONTAINER, DONE),
        request("02A102050C", DONE), request("02A00205", framed("000C")),
        request("02230001", framed("00" + CONTAINER)),
        request("0223421F", framed("00" + numbered(66, 32))),
        request("022067", framed("00" + numbered(103, 1))), request("022068", NOT_READ),
        request("02236603", framed("00" + numbered(102, 2))),
        request("022C6603", framed("0000000101")))


def keeps(container):
    """A container written to blocks 0 and 1 and read back."""
    return (request("02240001" + container, DONE), request("02230001", framed("00" + container)))


EXAMPLES = (
    Example(
        "004, 3.5, pages 6 and 7", "CC File size is 2 blocks (E2 40 00 01 00 00 00 20h) .. T5T_Area ends at block "
        "address 65 (41h) .. User Area1 must end at least at block 65+32=97 (61h) .. ENDA1 = int(97/8) = 12 (0Ch). Last "
        "block of user Area1 is block address 103 (67h)",
        "the 32 blocks after the T5T area (66 to 97) are read; block 104 is hidden; a read over the border is cut, "
        "where 004 says that it fails: 01 decides",
        area_end(SMALL) + area_end(LARGE)),
    Example(
        "004, 4.1, page 8", "E1 40 40 00h .. E1 40 3F 00h", "a container of four bytes is one block",
        in_field(SMALL) + tuple(step for container in ("E1404000", "E1403F00") for step in (
            request("022100" + container, DONE), request("022000", framed("00" + container))))),
    Example(
        "004, 4.2 and 4.3, page 8", "E2 40 00 00 00 00 04 00h .. E2 40 00 00 00 00 00 20h .. "
        "E2 40 00 01 00 00 04 00h .. E2 40 00 01 00 00 03 FFh .. E2 40 00 01 00 00 01 00h .. E2 40 00 01 00 00 00 C0h",
        "a container of eight bytes is two blocks, low byte of the memory first",
        in_field(LARGE) + tuple(step for container in EIGHT_BYTES for step in keeps(container))),
    Example(
        "004, 3.5, page 6", "only blocks 0 and 1 (CC) can be locked using this command",
        "Lock Block and Extended Lock Block; a locked block is not written, and its status is 01h",
        in_field(SMALL) + (
            request("022200", DONE), request("02320100", DONE), request("022202", NOT_AVAILABLE),
            request("02320200", NOT_AVAILABLE), request("022200", LOCKED_ALREADY), request("02320100", LOCKED_ALREADY),
            request("02240001" + CONTAINER, NOT_WRITTEN),
            request("42230002", framed("00" + "0100000000" * 2 + "0000000000")))),
)
