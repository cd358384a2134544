"""Cases for the sentences of 01, The tag that is built."""

from ..examples import (CLOSED, CONFIGURATION_SESSION, DONE, INVENTORY_ANSWER, LARGE, LOCKS, LOCK_CFG, NOT_AVAILABLE,
                        NOT_LISTED, NOT_PROGRAMMED, NO_INFORMATION, PASSWORD, PASSWORD_1, SESSION, SMALL, UID, Case,
                        configured, event, framed, in_field, lent, line, numbered, request, standing)

REVERSED_UID = "E002230401D6C8F0"
REVERSED_PASSWORD = "0807060504030201"


def all_ends_at(size, end, number=0):
    """Whether a record with all three ends here is a record: only where the end is E."""
    return lent(size, (end,) * 3) + (event("ON", number=number),)


CASES = (
    Case(
        "small-has-512-blocks", "16 Kbit (512 blocks, 2,048 bytes)",
        "were 512 the last block's number, its read would give a block; were it 510, that of 511 be 01 10",
        in_field(SMALL) + (line("PUT 2044 A1A2A3A4"), request("0230FF01", framed("00A1A2A3A4")),
                           request("02300002", NOT_AVAILABLE))),
    Case(
        "large-has-2048-blocks", "64 Kbit (2,048 blocks, 8,192 bytes)",
        "were 2,048 the last block's number, its read would give a block; were it 2,046, that of 2,047 be 01 10",
        in_field(LARGE) + (line("PUT 8188 A1A2A3A4"), request("0230FF07", framed("00A1A2A3A4")),
                           request("02300008", NOT_AVAILABLE))),
    Case(
        "four-bytes-a-block", "4 bytes a block",
        "were a block eight bytes, block 1 would be answered by B1 to B8",
        in_field(SMALL) + (line("PUT 0 00000000A1A2A3A4B1B2B3B4B5B6B7B8"), request("022001", framed("00A1A2A3A4")))),
    Case(
        "e-is-63", "E is 63 or 255.",
        "were E 64 or 62 on the 16 Kbit tag, ends at 63 would be refused with 3 and those at 64 or 62 taken",
        all_ends_at(SMALL, 63) + all_ends_at(SMALL, 64, 3) + all_ends_at(SMALL, 62, 3)),
    Case(
        "e-is-255", "E is 63 or 255.",
        "were E 63 or 254 on the 64 Kbit tag, ends at 255 would be refused with 3 and those at 63 or 254 taken",
        all_ends_at(LARGE, 255) + all_ends_at(LARGE, 254, 3) + all_ends_at(LARGE, 63, 3)),
    Case(
        "no-system-information", "Left out of the base: system information",
        "were 003's 2Bh and 3Bh built, they would answer with the UID and more, or with 01 03",
        in_field(SMALL) + (request("022B", NOT_LISTED), request("023B3F", NOT_LISTED))),
    Case(
        "no-fast-reads", "Left out of the base: .. fast reads",
        "were 003's C0h, C3h, C4h and C5h built, they would answer 00 and block 0",
        in_field(SMALL) + (request("02C00200", NOT_LISTED), request("02C3020000", NOT_LISTED),
                           request("02C4020000", NOT_LISTED), request("02C50200000000", NOT_LISTED))),
    Case(
        "no-kill-register", "Left out of the base: .. the KILL register",
        "were 03h the KILL register of 003, its read would answer 00 00 and its write 00",
        configured() + (
            request("02A00203", NOT_AVAILABLE), request("02A1020300", NOT_AVAILABLE))),
    Case(
        "this-page-decides", "Where this page gives a number or an order, this page decides",
        "by 003 these would be 0Fh for an end, 12h for a password, 02h for another's code, 12h for what LOCK_CFG keeps",
        in_field(SMALL, ends=(12, 63, 63), session=CONFIGURATION_SESSION) + (
            request("02A102070C", NOT_PROGRAMMED), request("02B10201" + PASSWORD, NO_INFORMATION), request("02A00305"))
        + in_field(SMALL, locks=LOCK_CFG, session=CONFIGURATION_SESSION) + (request("02A1020400", NO_INFORMATION),)),
    Case(
        "003-decides", "what it leaves to 003, 003 decides",
        "were registers numbered from 00h in the order of 01, 04h would be RFA3SS and 05h ENDA3: 00 and 3F",
        in_field(SMALL, ends=(12, 63, 63), protections=(4, 0, 0, 0)) + (
            request("02A00204", framed("0004")), request("02A00205", framed("000C")))),
    Case(
        "read-cut-short",
        "004 says that a multiple read fails at an area border. .. 003 decides here, and the read is cut short.",
        "by 004 both reads over the border after block 7 would be an error",
        in_field(SMALL, ends=(0, 63, 63), protections=(0, CLOSED, 0, 0)) + (
            line("PUT 0 " + numbered(0, 9)), request("02230701", framed("00" + numbered(7, 1))))
        + in_field(SMALL, ends=(0, 63, 63)) + (
            line("PUT 0 " + numbered(0, 9)), request("02230701", framed("00" + numbered(7, 2))))),
    Case(
        "block-lowest-byte-first", "Fields of several bytes travel lowest byte first.",
        "were a block's highest byte first, 0100 would be block 256: 30h would answer B1 to B4, 32h 01 10",
        in_field(SMALL) + (
            line("PUT 4 A1A2A3A4"), line("PUT 1024 B1B2B3B4"), request("02300100", framed("00A1A2A3A4")),
            request("02300001", framed("00B1B2B3B4")), request("02320100", DONE, record={LOCKS: 0x02}))),
    Case(
        "count-lowest-byte-first", "Fields of several bytes travel lowest byte first.",
        "were a count's highest byte first, 0100 would ask for 257 blocks, and 34h would need as many",
        in_field(SMALL) + (
            request("023402000100" + "A1A2A3A4B1B2B3B4", DONE), request("023302000100", framed("00A1A2A3A4B1B2B3B4")),
            request("023C02000100", framed("000000")))),
    Case(
        "uid-lowest-byte-first", "Fields of several bytes travel lowest byte first.",
        "were a UID's highest byte first, the second request would be answered and not the first",
        in_field(SMALL) + (request("2226" + UID, DONE), request("2226" + REVERSED_UID),
                           request("260100", INVENTORY_ANSWER))),
    Case(
        "password-lowest-byte-first", "Fields of several bytes travel lowest byte first.",
        "were a password's highest byte first, the first value would be wrong (01 0F) and the second right",
        standing(SMALL, {place: n for n, place in enumerate(PASSWORD_1, 1)}) + (
            request("02B30201" + PASSWORD, DONE, record={SESSION: 2}),
            request("02B30201" + REVERSED_PASSWORD, NO_INFORMATION, record={SESSION: 0}))),
)
