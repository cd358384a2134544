"""Document 01, "Blocks and areas", the other paragraphs: reads, status, writes, locks, AFI and DSFID.

Blocks that are read hold their own number, high byte first. `holding` is the memory after a write.
"""

from ..examples import (AFI, BYTES, CLOSED, DONE, DSFID, LARGE, LOCKED_ALREADY, LOCKS, LOCK_CFG, NOT_AVAILABLE,
                        NOT_LOCKED, NOT_READ, NOT_WRITTEN, NO_INFORMATION, SESSION_1, SILENCE, SMALL, ZERO_BLOCK, Case,
                        framed, in_field, line, numbered, request, shown_crc)

BLOCK_0, BLOCK_1, AFI_LOCK, DSFID_LOCK = 0x01, 0x02, 0x04, 0x08  # bits of the locks
IN_SESSION_1 = 0x05  # RFAiSS: protection 01, password 1
HIDDEN_AREA_2 = {"ends": (0, 63, 63), "protections": (0, 0x09, 0, 0)}  # from block 8 on read and written in session 1
SECOND, THIRD, FOURTH, FIFTH = "B1B2B3B4", "C1C2C3C4", "D1D2D3D4", "E1E2E3E4"
TWO, THREE = BYTES + SECOND, BYTES + SECOND + THIRD
FOUR, FIVE = THREE + FOURTH, THREE + FOURTH + FIFTH


def put(first, count):
    """Blocks that hold their own number."""
    return line(f"PUT {4 * first} {numbered(first, count)}")


def blocks(first, count):
    """The answer that gives these blocks."""
    return framed("00" + numbered(first, count))


def holding(block, text):
    """The CRC of a 16 Kbit memory of zeros but for these bytes from this block on."""
    return shown_crc(("00" * 4 * block + text).ljust(2 * SMALL.memory, "0"))


UNCHANGED = holding(0, "")


def refused(text, answer):
    """A write that leaves the memory of zeros as it was."""
    return request(text, answer, memory=UNCHANGED)


READS = (
    Case(
        "read-20", "Reads 20h (block)",
        "were blocks counted from 1, or 20h a read of block 0, it would give zeros",
        in_field(SMALL) + (put(5, 1), request("022005", blocks(5, 1)))),
    Case(
        "read-30", "30h (two-byte block)",
        "were the high byte first, 0501h would be outside: 10h; were the block of one byte, this would be silence",
        in_field(SMALL) + (put(0x0105, 1), request("02300501", blocks(0x0105, 1)))),
    Case(
        "read-23", "23h and 33h (first block, then count less one, same width)",
        "were it the count, two blocks would come; were the count first, blocks 2 to 5",
        in_field(SMALL) + (put(0, 8), request("02230302", blocks(3, 3)))),
    Case(
        "read-33", "23h and 33h (first block, then count less one, same width)",
        "were block or count of one byte, this would be silence; were the count first, 260 blocks would come from 2 on",
        in_field(SMALL) + (put(0x0103, 4), request("023303010200", blocks(0x0103, 3)))),
    Case(
        "read-33-count-width", "count less one, same width",
        "0001h is 100h and one: 257 blocks; were the high byte first, or dropped, two blocks or one would come",
        in_field(SMALL) + (put(0, 260), request("023300000001", blocks(0, 257)))),
    Case(
        "read-33-most", "count less one, same width",
        "were FFFFh and one counted in two bytes, it would be none, and the last block not be given",
        in_field(SMALL) + (put(511, 1), request("0233FF01FFFF", blocks(511, 1)))),
    Case(
        "read-first-outside", "First block outside: 10h.",
        "were the last block outside, or the next still inside, or the size not the memory's, one would differ",
        in_field(SMALL) + (request("0230FF01", ZERO_BLOCK), request("02300002", NOT_AVAILABLE),
                           request("0233FF010000", ZERO_BLOCK), request("023300020000", NOT_AVAILABLE))
        + in_field(LARGE) + (request("0230FF07", ZERO_BLOCK), request("02300008", NOT_AVAILABLE),
                             request("0233FF070000", ZERO_BLOCK), request("023300080000", NOT_AVAILABLE))),
    Case(
        "read-first-hidden", "First block not readable: 15h.",
        "were the list merely empty, the answer would be 00 78 F0; with another code 01 0F or 01 10 and CRC",
        in_field(SMALL, **HIDDEN_AREA_2) + (
            request("022007", ZERO_BLOCK), request("022008", NOT_READ), request("02300800", NOT_READ),
            request("02230801", NOT_READ), request("023308000100", NOT_READ))),
    Case(
        "read-outside-before-hidden", "First block outside: 10h. First block not readable: 15h.",
        "were block 512 of Area 4 and readability asked first, both would answer 15h",
        in_field(SMALL, (0, 1, 2), (0, CLOSED, CLOSED, CLOSED)) + (
            request("02300002", NOT_AVAILABLE), request("023300020000", NOT_AVAILABLE))),
    Case(
        "read-stops-outside", "the list stops before the first block that is outside",
        "were the whole read refused, it would answer 10h; were it filled up, four blocks would come",
        in_field(SMALL) + (put(510, 2), request("0233FE010300", blocks(510, 2)))),
    Case(
        "read-stops-hidden", "the list stops before the first block that is outside or not readable",
        "were the whole read refused for its last block, both would answer 15h; were the first alone asked, give four",
        in_field(SMALL, **HIDDEN_AREA_2) + (
            put(0, 10), request("02230603", blocks(6, 2)), request("023306000300", blocks(6, 2)))),
    Case(
        "read-stops-for-good", "the list stops before the first block that is outside or not readable",
        "were hidden blocks only left out, block 16, which is readable again, would follow block 7",
        in_field(SMALL, (0, 1, 63), (0, CLOSED, 0, 0)) + (put(0, 17), request("02230709", blocks(7, 1)))),
    Case(
        "read-over-border", "Otherwise the list stops before the first block that is outside or not readable.",
        "were an area border a stop, or a refusal as 004 has it, blocks 8 and 9 would not come",
        in_field(SMALL, (0, 63, 63), (0, IN_SESSION_1, 0, 0)) + (put(6, 4), request("02230603", blocks(6, 4)))),
    Case(
        "read-23-stops-at-100", "For one-byte commands, outside begins also at block 100h.",
        "were the memory's end the only one, 23h would give four blocks; were 33h held to it too, two",
        in_field(SMALL) + (put(254, 4), request("0223FE03", blocks(254, 2)), request("0233FE000300", blocks(254, 4)))),
)

STATUS = (
    Case(
        "status-precedes-each-block", "With Option_flag a status byte precedes each block",
        "were it to follow the block, or all of them to come first, the bytes would stand in another order",
        in_field(SMALL, locks=BLOCK_0) + (
            line("PUT 0 " + TWO),
            request("422000", framed("0001" + BYTES)), request("42300000", framed("0001" + BYTES)),
            request("42230001", framed("0001" + BYTES + "00" + SECOND)),
            request("423300000100", framed("0001" + BYTES + "00" + SECOND)))),
    Case(
        "status-locked", "01h if it is locked or not writable now, else 00h",
        "were any lock bit meant, or only the area heeded, the statuses of blocks 0 to 2 would not be 00, 01, 00",
        in_field(SMALL, locks=BLOCK_1 | AFI_LOCK | DSFID_LOCK | LOCK_CFG) + (request("022C0002", framed("00000100")),)),
    Case(
        "status-not-writable", "01h if it is locked or not writable now, else 00h",
        "were only lock bits meant, block 1 would be 00h; were one to undo the other, block 0 would be",
        in_field(SMALL, protections=(CLOSED, 0, 0, 0), locks=BLOCK_0) + (request("022C0001", framed("000101")),)),
    Case(
        "status-now", "not writable now",
        "were the register alone asked, both would be 01h; were a session above the lock bit, block 0 would be 00h",
        in_field(SMALL, protections=(IN_SESSION_1, 0, 0, 0), locks=BLOCK_0) + (request("022C0001", framed("000101")),)
        + in_field(SMALL, protections=(IN_SESSION_1, 0, 0, 0), locks=BLOCK_0, session=SESSION_1) + (
            request("022C0001", framed("000100")), request("422001", framed("0000" + "00000000")))),
    Case(
        "status-2c", "2Ch and 3Ch (fields of 23h, 33h) give status bytes alone",
        "were the blocks given too, or the count not less one, the answer would be longer or shorter",
        in_field(SMALL, locks=BLOCK_1) + (request("022C0102", framed("00010000")),)),
    Case(
        "status-3c", "2Ch and 3Ch (fields of 23h, 33h) give status bytes alone",
        "were the high byte first, block 0100h would be block 1, which is locked: 01h",
        in_field(SMALL, locks=BLOCK_1) + (request("023C00010200", framed("00000000")),)),
    Case(
        "status-3c-count-width", "2Ch and 3Ch (fields of 23h, 33h)",
        "0001h is 100h and one: 257 statuses, not two or one; were FFFFh and one counted in two bytes, none would come",
        in_field(SMALL, locks=BLOCK_1) + (
            request("023C00000001", framed("000001" + "00" * 255)), request("023CFF01FFFF", framed("0000")))),
    Case(
        "status-outside", "outside answers 10h or cuts as above",
        "were outside blocks given as locked or writable, the first would not be 10h and the second have four statuses",
        in_field(SMALL) + (request("023C00020000", NOT_AVAILABLE), request("023CFE010300", framed("000000")))),
    Case(
        "status-2c-stops-at-100", "For one-byte commands, outside begins also at block 100h. .. cuts as above",
        "were the memory's end the only one, 2Ch would give four statuses; were 3Ch held to it too, two",
        in_field(SMALL) + (request("022CFE03", framed("000000")), request("023CFE000300", framed("0000000000")))),
    Case(
        "status-hidden", "outside answers 10h or cuts as above, readability does not",
        "were readability heeded as in reads, two statuses would come, and 15h from block 8 on",
        in_field(SMALL, **HIDDEN_AREA_2) + (
            request("022C0603", framed("0000000101")), request("022C0801", framed("000101")),
            request("023C08000100", framed("000101")))),
)

WRITES = (
    Case(
        "write-21", "Writes 21h, 31h (block, 4 bytes)",
        "were the bytes turned round, or given before the block, the memory would differ",
        in_field(SMALL) + (request("022105" + BYTES, DONE, memory=holding(5, BYTES)),)),
    Case(
        "write-31", "Writes 21h, 31h (block, 4 bytes)",
        "were the high byte first, 0501h would be outside: 10h; were the block of one byte, it would be silence",
        in_field(SMALL) + (request("02310501" + BYTES, DONE, memory=holding(0x0105, BYTES)),)),
    Case(
        "write-24", "24h, 34h (first, count less one, data; widths of 23h, 33h)",
        "were it the count, 8 bytes would be too long; were the count first, 05h would ask for 24 bytes: silence",
        in_field(SMALL) + (request("02240501" + TWO, DONE, memory=holding(5, TWO)),)),
    Case(
        "write-34", "24h, 34h (first, count less one, data; widths of 23h, 33h)",
        "were count or block of one byte, or the high byte first, the length would be wrong: silence",
        in_field(SMALL) + (request("023405010100" + TWO, DONE, memory=holding(0x0105, TWO)),)),
    Case(
        "write-count-over-4", "count over 4 is 0Fh",
        "were 4 too many, or 5 written, or the field itself meant, one would differ; 16 bytes for 5 are a wrong length",
        in_field(SMALL) + (
            refused("02240504" + FIVE, NO_INFORMATION), refused("023405000400" + FIVE, NO_INFORMATION),
            refused("02240504" + FOUR, SILENCE), refused("023405000400" + FOUR, SILENCE),
            request("02240503" + FOUR, DONE, memory=holding(5, FOUR)),
            request("023409000300" + FOUR, DONE, memory=holding(5, FOUR + FOUR)))),
    Case(
        "write-count-wide", "count over 4 is 0Fh",
        "were FFh and one, or FFFFh and one, counted as 0, no data would be right; 256 blocks would be silence",
        in_field(SMALL) + (
            refused("022400FF", SILENCE), refused("02340000FFFF", SILENCE),
            refused("022400FF" + FOUR * 64, NO_INFORMATION))),
    Case(
        "write-any-outside", "any block outside 10h",
        "were only the first block asked, the first would be written; were block 511 outside, the last two be refused",
        in_field(SMALL) + (
            refused("0234FE010200" + THREE, NOT_AVAILABLE), refused("023400020000" + BYTES, NOT_AVAILABLE),
            refused("02310002" + BYTES, NOT_AVAILABLE), request("0234FE010100" + TWO, DONE, memory=holding(510, TWO)),
            request("0231FF01" + THIRD, DONE, memory=holding(510, BYTES + THIRD)))),
    Case(
        "write-24-outside-at-100", "For one-byte commands, outside begins also at block 100h. .. any block outside 10h",
        "were the memory's end the only one, 24h of three would be written; were 34h held to it too, it would "
        "be refused",
        in_field(SMALL) + (
            refused("0224FE02" + THREE, NOT_AVAILABLE), request("0224FE01" + TWO, DONE, memory=holding(254, TWO)),
            request("0234FE000200" + THREE, DONE, memory=holding(254, THREE)))),
    Case(
        "write-border", "area border crossed 0Fh",
        "were the first block's area alone asked, the first two would be written; with another code they would be "
        "12h or 10h",
        in_field(SMALL, (0, 63, 63)) + (
            refused("02240701" + TWO, NO_INFORMATION), refused("023405000300" + FOUR, NO_INFORMATION),
            request("02240403" + FOUR, DONE, memory=holding(4, FOUR)),
            request("02240801" + TWO, DONE, memory=holding(4, FOUR + TWO)))),
    Case(
        "write-not-writable", "any block not writable or locked 12h",
        "were writes free without a session, all would be written; were a session not enough, the last refused",
        in_field(SMALL, protections=(IN_SESSION_1, 0, 0, 0)) + tuple(
            refused(head + BYTES, NOT_WRITTEN) for head in ("022105", "02310500", "02240500", "023405000000"))
        + in_field(SMALL, protections=(IN_SESSION_1, 0, 0, 0), session=SESSION_1) + (
            request("022105" + BYTES, DONE, memory=holding(5, BYTES)),)),
    Case(
        "write-locked", "any block not writable or locked 12h",
        "were lock bits only for 21h, or heeded for the wrong block or for both, one would differ",
        in_field(SMALL, locks=BLOCK_1) + tuple(
            refused(head + BYTES, NOT_WRITTEN) for head in ("022101", "02310100", "02240100", "023401000000")) + (
                request("022100" + BYTES, DONE, memory=holding(0, BYTES)),
                request("022102" + THIRD, DONE, memory=holding(0, BYTES + "00000000" + THIRD)))),
    Case(
        "write-count-before-outside", "count over 4 is 0Fh; any block outside 10h",
        "were outside asked first, both would answer 10h",
        in_field(SMALL) + (
            refused("0224FE04" + FIVE, NO_INFORMATION), refused("0234FE010400" + FIVE, NO_INFORMATION))),
    Case(
        "write-count-before-locked", "count over 4 is 0Fh; .. any block not writable or locked 12h",
        "were rights asked first, both would answer 12h",
        in_field(SMALL, protections=(CLOSED, 0, 0, 0), locks=BLOCK_0) + (
            refused("02240004" + FIVE, NO_INFORMATION), refused("023400000400" + FIVE, NO_INFORMATION))),
    Case(
        "write-outside-before-border", "any block outside 10h; area border crossed 0Fh",
        "ENDA1 = 31 ends Area 1 at block 255: were the border asked first, 24h too would answer 0Fh",
        in_field(SMALL, (31, 63, 63)) + (
            refused("0224FF01" + TWO, NOT_AVAILABLE), refused("0234FF000100" + TWO, NO_INFORMATION))),
    Case(
        "write-outside-before-locked", "any block outside 10h; .. any block not writable or locked 12h",
        "were rights asked first, both would answer 12h",
        in_field(SMALL, protections=(CLOSED, 0, 0, 0)) + (
            refused("02310002" + BYTES, NOT_AVAILABLE), refused("0234FF010100" + TWO, NOT_AVAILABLE))),
    Case(
        "write-border-before-locked", "area border crossed 0Fh; any block not writable or locked 12h",
        "were rights asked first, it would answer 12h",
        in_field(SMALL, (0, 63, 63), (CLOSED, CLOSED, 0, 0)) + (refused("02240701" + TWO, NO_INFORMATION),)),
    Case(
        "write-all-or-none", "All or none is written.",
        "were blocks written one by one up to the refusal, block 0 would hold A1A2A3A4",
        in_field(SMALL, locks=BLOCK_1) + (
            refused("02240001" + TWO, NOT_WRITTEN), refused("023400000200" + THREE, NOT_WRITTEN))),
)

LOCK_BLOCKS = (
    Case(
        "lock-block", "Locks 22h, 32h (block as in 21h, 31h)",
        "were the widths exchanged, both would be silence; were the high byte first, 0100h would be over 1: 10h",
        in_field(SMALL) + (
            request("022200", DONE, record={LOCKS: BLOCK_0}),
            request("02320100", DONE, record={LOCKS: BLOCK_0 | BLOCK_1}))),
    Case(
        "lock-block-over-1", "block over 1 is 10h",
        "were other blocks locked or refused as locked, or 0100h taken as block 0, one would differ",
        in_field(SMALL) + (
            request("022202", NOT_AVAILABLE), request("02320200", NOT_AVAILABLE),
            request("02320001", NOT_AVAILABLE, record={LOCKS: 0}),
            request("022201", DONE, record={LOCKS: BLOCK_1}))),
    Case(
        "lock-block-again", "already locked 11h",
        "were a second lock a success, it would answer 00 78 F0; were one bit for both blocks, block 1 refused too",
        in_field(SMALL, locks=BLOCK_0) + (
            request("022200", LOCKED_ALREADY), request("02320000", LOCKED_ALREADY, record={LOCKS: BLOCK_0}),
            request("022201", DONE, record={LOCKS: BLOCK_0 | BLOCK_1}))),
    Case(
        "lock-block-not-writable", "not writable 14h",
        "were locks free of the area, as 003 has it, all would be done; were the code that of writes, 12h",
        in_field(SMALL, protections=(IN_SESSION_1, 0, 0, 0)) + (
            request("022200", NOT_LOCKED), request("02320100", NOT_LOCKED, record={LOCKS: 0}))
        + in_field(SMALL, protections=(IN_SESSION_1, 0, 0, 0), session=SESSION_1) + (
            request("022200", DONE), request("02320100", DONE, record={LOCKS: BLOCK_0 | BLOCK_1}))),
    Case(
        "lock-block-order", "block over 1 is 10h; already locked 11h; not writable 14h",
        "were the area asked first, all three would answer 14h",
        in_field(SMALL, protections=(CLOSED, 0, 0, 0), locks=BLOCK_0) + (
            request("022202", NOT_AVAILABLE), request("022200", LOCKED_ALREADY), request("022201", NOT_LOCKED))),
    Case(
        "lock-block-lock-cfg", "Locks 22h, 32h .. block over 1 is 10h; already locked 11h; not writable 14h.",
        "were LOCK_CFG or the configuration session heeded, it would answer 0Fh",
        in_field(SMALL, locks=LOCK_CFG) + (request("022200", DONE, record={LOCKS: LOCK_CFG | BLOCK_0}),)),
)

AFI_AND_DSFID = (
    Case(
        "write-afi", "Write AFI 27h",
        "were 27h the DSFID's, or a lock with it, another byte of the record would change",
        in_field(SMALL) + (request("022725", DONE, record={AFI: 0x25, DSFID: 0, LOCKS: 0}),)),
    Case(
        "write-dsfid", "Write AFI 27h, DSFID 29h",
        "were 29h the AFI's, or a lock with it, another byte of the record would change",
        in_field(SMALL) + (request("022925", DONE, record={AFI: 0, DSFID: 0x25, LOCKS: 0}),)),
    Case(
        "write-afi-locked", "Write AFI 27h, DSFID 29h: locked 12h.",
        "were the lock not heeded, byte 9 would be 25h; were it for both, the DSFID would be refused",
        in_field(SMALL, locks=AFI_LOCK) + (
            request("022725", NOT_WRITTEN, record={AFI: 0}), request("022925", DONE, record={DSFID: 0x25}))),
    Case(
        "write-dsfid-locked", "Write AFI 27h, DSFID 29h: locked 12h.",
        "were the lock not heeded, byte 10 would be 25h; were it for both, the AFI would be refused",
        in_field(SMALL, locks=DSFID_LOCK) + (
            request("022925", NOT_WRITTEN, record={DSFID: 0}), request("022725", DONE, record={AFI: 0x25}))),
    Case(
        "lock-afi", "Lock AFI 28h",
        "were a value carried, this would be silence; were another lock bit set, byte 11 would differ",
        in_field(SMALL) + (request("0228", DONE, record={LOCKS: AFI_LOCK}),)),
    Case(
        "lock-dsfid", "Lock AFI 28h, DSFID 2Ah",
        "were a value carried, this would be silence; were another lock bit set, byte 11 would differ",
        in_field(SMALL) + (request("022A", DONE, record={LOCKS: DSFID_LOCK}),)),
    Case(
        "lock-afi-again", "Lock AFI 28h, DSFID 2Ah: locked already 11h.",
        "were a second lock a success or 12h, it would answer so; were it one lock, the DSFID's would be refused",
        in_field(SMALL, locks=AFI_LOCK) + (
            request("0228", LOCKED_ALREADY, record={LOCKS: AFI_LOCK}),
            request("022A", DONE, record={LOCKS: AFI_LOCK | DSFID_LOCK}))),
    Case(
        "lock-dsfid-again", "Lock AFI 28h, DSFID 2Ah: locked already 11h.",
        "were a second lock a success or 12h, it would answer so; were it one lock, the AFI's would be refused",
        in_field(SMALL, locks=DSFID_LOCK) + (
            request("022A", LOCKED_ALREADY, record={LOCKS: DSFID_LOCK}),
            request("0228", DONE, record={LOCKS: AFI_LOCK | DSFID_LOCK}))),
    Case(
        "afi-dsfid-without-session",
        "Write AFI 27h, DSFID 29h: locked 12h. Lock AFI 28h, DSFID 2Ah: locked already 11h.",
        "were the configuration session, LOCK_CFG or Area 1 heeded, one would answer 0Fh, 12h or 14h",
        in_field(SMALL, protections=(CLOSED, 0, 0, 0), locks=LOCK_CFG) + (
            request("022725", DONE), request("022926", DONE), request("0228", DONE),
            request("022A", DONE, record={AFI: 0x25, DSFID: 0x26, LOCKS: LOCK_CFG | AFI_LOCK | DSFID_LOCK}))),
)

CASES = READS + STATUS + WRITES + LOCK_BLOCKS + AFI_AND_DSFID
