"""Document 01, "Blocks and areas", first paragraph: the areas and who may read and write in them.

RFAiSS: bits 1-0 the password, bits 3-2 the protection: 05h is protection 01 and password 1, 0Eh protection 11 and
password 2. 2Ch and 3Ch show for each block whether it is writable (00h) or not (01h).
"""

from ..examples import (CLOSED, CONFIGURATION_SESSION, DONE, LARGE, NOT_READ, NOT_WRITTEN, NO_SESSION, SESSION_1,
                        SESSION_2, SESSION_3, SMALL, ZERO_BLOCK, Case, framed, in_field, request)

WRITE_BLOCK_5 = "022105A1A2A3A4"


def blocks_of_area(number):
    """Ends 1, 3 and 5: blocks 15, 16 to 31, 32 to 47 and 48 are in Areas 1 to 4; this area alone is closed."""
    protections = tuple(CLOSED if area == number else 0 for area in (1, 2, 3, 4))
    statuses = "".join(("01" if area == number else "00") * count for area, count in enumerate((1, 16, 16, 1), 1))
    return in_field(SMALL, (1, 3, 5), protections) + (request("022C0F21", framed("00" + statuses)),)


def areas_writable(session, *areas):
    """Areas 1 to 3 name passwords 1 to 3, Area 4 none; blocks 7, 8 to 15, 16 to 23 and 24 show who is writable."""
    statuses = "".join(("00" if area in areas else "01") * count for area, count in enumerate((1, 8, 8, 1), 1))
    return in_field(SMALL, (0, 1, 2), (0x05, 0x06, 0x07, 0x04), session=session) + (
        request("022C0711", framed("00" + statuses)),)


def area_1(protection, session, read=ZERO_BLOCK, write=DONE):
    """Block 5 is read, then written."""
    return in_field(SMALL, protections=(protection, 0, 0, 0), session=session) + (
        request("022005", read), request(WRITE_BLOCK_5, write))


def areas_2_to_4(protection, session, read, write):
    """Blocks 8, 16 and 24, the first of Areas 2, 3 and 4, are read and written."""
    tried = ((request(f"0220{block:02X}", read), request(f"0221{block:02X}A1A2A3A4", write)) for block in (8, 16, 24))
    return in_field(SMALL, (0, 1, 2), (0,) + (protection,) * 3, session=session) + sum(tried, ())


def no_password(session):
    """Area 1 is 01, Area 2 is 10 without a password."""
    return in_field(SMALL, (0, 63, 63), (0x04, 0x08, 0, 0), session=session) + (
        request(WRITE_BLOCK_5, NOT_WRITTEN), request("022008", NOT_READ))


CASES = (
    Case(
        "area-borders", "Area i is the lowest i with block at most 8 × ENDAi + 7; Area 4 takes the rest.",
        "were the end 8 × ENDAi, or 8 × (ENDAi + 1), or an area ruled by another's register, a status would differ",
        blocks_of_area(1) + blocks_of_area(2) + blocks_of_area(3) + blocks_of_area(4)),
    Case(
        "area-lowest", "Area i is the lowest i with block at most",
        "with ends that are equal the highest i would be Area 3, which is not closed: 00h in place of 01h",
        in_field(SMALL, (1, 63, 63), (0, CLOSED, 0, 0)) + (request("022C0F01", framed("000001")),)
        + in_field(SMALL, protections=(CLOSED, 0, 0, 0)) + (request("023CFF010000", framed("0001")),)),
    Case(
        "area-4-the-rest", "Area 4 takes the rest.",
        "were the rest without an area, blocks 504 to 511 would be writable or outside",
        in_field(SMALL, (1, 3, 62), (0, 0, 0, CLOSED)) + (request("023CF7010800", framed("0000" + "01" * 8)),)),
    Case(
        "area-end-over-a-byte", "block at most 8 × ENDAi + 7",
        "8 × 64 + 7 = 519; in one byte the sum would be 7, and block 519 in Area 2: 01h",
        in_field(LARGE, (64, 255, 255), (0, CLOSED, 0, 0)) + (request("023C07020100", framed("000001")),)),
    Case(
        "password-bits", "RFAiSS bits 1-0 name password 1, 2 or 3",
        "were they counted from 0, or bits 3-2 meant (01 in all areas), other areas would be writable",
        areas_writable(SESSION_1, 1) + areas_writable(SESSION_2, 2) + areas_writable(SESSION_3, 3)),
    Case(
        "password-bits-read", "RFAiSS bits 1-0 name password 1, 2 or 3 .. Areas 2 to 4: .. 10 both in session",
        "were reading served by password 1 alone, or by it too, the last six reads would be 15h or the first three not",
        areas_2_to_4(0x0A, SESSION_1, NOT_READ, NOT_WRITTEN) + areas_2_to_4(0x0A, SESSION_2, ZERO_BLOCK, DONE)
        + areas_2_to_4(0x0B, SESSION_3, ZERO_BLOCK, DONE)),
    Case(
        "protection-bits", "bits 3-2 give protection",
        "were it bits 1-0, 03h would be 11 and never written, and 0Ch be 00 and always",
        area_1(0x03, NO_SESSION) + area_1(0x0C, NO_SESSION, write=NOT_WRITTEN)),
    Case(
        "area-1-readable", "Area 1 is always readable",
        "were 10 and 11 as in Areas 2 to 4, both reads would answer 15h",
        area_1(0x09, NO_SESSION, write=NOT_WRITTEN) + area_1(0x0D, NO_SESSION, write=NOT_WRITTEN)),
    Case(
        "area-1-write-00", "Area 1 is always readable; write: 00 always",
        "were the password that 01h names needed, or no other session to be open, one would answer 12h",
        area_1(0x01, NO_SESSION) + area_1(0x01, SESSION_2)),
    Case(
        "area-1-write-01", "write: 00 always, 01 and 10 in session",
        "were 01 always or never, or any session enough, one of the three would differ",
        area_1(0x05, NO_SESSION, write=NOT_WRITTEN) + area_1(0x05, SESSION_2, write=NOT_WRITTEN)
        + area_1(0x05, SESSION_1)),
    Case(
        "area-1-write-10", "write: 00 always, 01 and 10 in session",
        "were 10 always or never, or any session enough, one of the three would differ",
        area_1(0x09, NO_SESSION, write=NOT_WRITTEN) + area_1(0x09, SESSION_2, write=NOT_WRITTEN)
        + area_1(0x09, SESSION_1)),
    Case(
        "area-1-write-11", "write: .. 11 never",
        "were 11 in session, the write would answer 00 78 F0",
        area_1(0x0D, SESSION_1, write=NOT_WRITTEN)),
    Case(
        "areas-2-to-4-00", "Areas 2 to 4: 00 read and write always",
        "were the named password needed for either, its answer would be 15h or 12h",
        areas_2_to_4(0x01, NO_SESSION, ZERO_BLOCK, DONE)),
    Case(
        "areas-2-to-4-01", "Areas 2 to 4: .. 01 read always, write in session",
        "were reading in session, 15h would come without one; were writing always or never, one write would differ",
        areas_2_to_4(0x05, NO_SESSION, ZERO_BLOCK, NOT_WRITTEN)
        + areas_2_to_4(0x05, SESSION_1, ZERO_BLOCK, DONE)),
    Case(
        "areas-2-to-4-10", "Areas 2 to 4: .. 10 both in session",
        "were it as in Area 1, the blocks would be read without a session",
        areas_2_to_4(0x09, NO_SESSION, NOT_READ, NOT_WRITTEN) + areas_2_to_4(0x09, SESSION_2, NOT_READ, NOT_WRITTEN)
        + areas_2_to_4(0x09, SESSION_1, ZERO_BLOCK, DONE)),
    Case(
        "areas-2-to-4-11", "Areas 2 to 4: .. 11 read in session, write never",
        "were reading always, never or in any session, or writing in session, one of the answers would differ",
        areas_2_to_4(0x0D, NO_SESSION, NOT_READ, NOT_WRITTEN) + areas_2_to_4(0x0D, SESSION_2, NOT_READ, NOT_WRITTEN)
        + areas_2_to_4(0x0D, SESSION_1, ZERO_BLOCK, NOT_WRITTEN)),
    Case(
        "no-password-no-session", "With password bits 00 no session serves.",
        "were 00 password 0, the configuration session would serve; were no password needed, or any enough, the others",
        no_password(NO_SESSION) + no_password(CONFIGURATION_SESSION) + no_password(SESSION_1)),
    Case(
        "configuration-session-no-area", "RFAiSS bits 1-0 name password 1, 2 or 3, or none (00)",
        "were the configuration session above the others, it would open Areas 1 to 3 as well",
        areas_writable(CONFIGURATION_SESSION)),
)
