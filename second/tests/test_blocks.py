"""Reads, status, writes and locks."""

import unittest

from .support import LARGE, OK, SILENT, SMALL, Tag, error, framed, numbered

FOUR = "A1A2A3A4"


class Rights(unittest.TestCase):
    """Document 01's table of protections: read and write with no session, the named one, and others."""

    # protection: (read without session, read with it, write without, write with)
    AREA_1 = {0: (1, 1, 1, 1), 1: (1, 1, 0, 1), 2: (1, 1, 0, 1), 3: (1, 1, 0, 0)}
    LATER = {0: (1, 1, 1, 1), 1: (1, 1, 0, 1), 2: (0, 1, 0, 1), 3: (0, 1, 0, 0)}

    def check(self, area, block, table):
        for protection in range(4):
            for number in range(4):
                for session in (None, 0, 1, 2, 3):
                    served = number != 0 and session == number
                    protections = [0, 0, 0, 0]
                    protections[area - 1] = protection << 2 | number
                    tag = Tag(ends=(0, 1, 2), protections=protections, session=session)
                    expected = table[protection]
                    read = framed("0000000000") if expected[1 if served else 0] else error(0x15)
                    write = OK if expected[3 if served else 2] else error(0x12)
                    status = framed("0000") if expected[3 if served else 2] else framed("0001")
                    self.assertEqual(tag.send(f"0220{block:02X}"), read)
                    self.assertEqual(tag.send(f"022C{block:02X}00"), status)
                    self.assertEqual(tag.send(f"0221{block:02X}{FOUR}"), write)

    def test_area_1(self):
        self.check(1, 7, self.AREA_1)

    def test_areas_2_to_4(self):
        self.check(2, 8, self.LATER)
        self.check(3, 16, self.LATER)
        self.check(4, 24, self.LATER)


class Reads(unittest.TestCase):
    def numbered_tag(self, size=SMALL, **parts):
        tag = Tag(size, **parts)
        tag.number_blocks()
        return tag

    def test_cut_at_100h(self):
        """23h of five from FEh gives two, with 33h all five."""
        tag = self.numbered_tag()
        self.assertEqual(tag.send("0223FE04"), framed("00" + numbered(0xFE, 0xFF)))
        self.assertEqual(tag.send("0233FE000400"), framed("00" + numbered(0xFE, 0xFF, 0x100, 0x101, 0x102)))

    def test_cut_at_the_end(self):
        for size in (SMALL, LARGE):
            tag = self.numbered_tag(size)
            first = (size.blocks - 2).to_bytes(2, "little").hex()
            expected = framed("00" + numbered(size.blocks - 2, size.blocks - 1))
            for count in ("0100", "0200", "FFFF"):
                self.assertEqual(tag.send(f"0233{first}{count}"), expected)

    def test_whole_memory_with_status(self):
        """1 + 2,048 x 5 + 2 = 10,243 bytes."""
        tag = self.numbered_tag(LARGE)
        answer = tag.send("42330000FFFF")
        self.assertEqual(len(answer), 10243)
        self.assertEqual(answer, framed("00" + "".join(f"00{block:08X}" for block in range(2048))))

    def test_all_one_byte_blocks(self):
        tag = self.numbered_tag()
        self.assertEqual(tag.send("022300FF"), framed("00" + numbered(*range(256))))

    def test_outside(self):
        for size, beyond in ((SMALL, "0002"), (LARGE, "0008")):
            for request in (f"0230{beyond}", f"0233{beyond}0000", f"023C{beyond}0000", "0230FFFF", "0233FFFFFFFF"):
                self.assertEqual(Tag(size).send(request), error(0x10))

    def test_a_hidden_block_in_the_middle_ends_the_list(self):
        """Area 2 (blocks 8 to 15) is hidden, Area 3 is not: a read from 6 ends before 8."""
        tag = self.numbered_tag(ends=(0, 1, None), protections=(0, 0x09, 0, 0))
        self.assertEqual(tag.send("022306FF"), framed("00" + numbered(6, 7)))
        self.assertEqual(tag.send("02231000"), framed("00" + numbered(16)))
        tag = self.numbered_tag(ends=(0, 1, None), protections=(0, 0x09, 0, 0), session=1)
        self.assertEqual(tag.send("02230709"), framed("00" + numbered(*range(7, 17))))

    def test_status_before_each_block(self):
        """Block 0 is locked; Area 2 from block 8 is written in session 1 only."""
        tag = self.numbered_tag(ends=(0, None, None), protections=(0, 0x05, 0, 0), locks=0x01)
        self.assertEqual(tag.send("422000"), framed("0001" + numbered(0)))
        self.assertEqual(tag.send("42300100"), framed("0000" + numbered(1)))
        self.assertEqual(tag.send("42230001"), framed("0001" + numbered(0) + "00" + numbered(1)))
        self.assertEqual(tag.send("423307000100"), framed("0000" + numbered(7) + "01" + numbered(8)))


class StatusLists(unittest.TestCase):
    def test_hidden_blocks_are_listed(self):
        """'readability does not' cut: Area 2 is hidden and not writable."""
        tag = Tag(ends=(0, None, None), protections=(0, 0x09, 0, 0), locks=0x02)
        self.assertEqual(tag.send("022C0009"), framed("0000010000000000000101"))
        self.assertEqual(tag.send("023C06000300"), framed("0000000101"))

    def test_cut(self):
        tag = Tag()
        self.assertEqual(tag.send("022CFE05"), framed("000000"))
        self.assertEqual(tag.send("023CFE010500"), framed("000000"))
        self.assertEqual(tag.send("023CFE000500"), framed("00" + "00" * 6))
        self.assertEqual(tag.send("023C0000FFFF"), framed("00" + "00" * 512))


class Writes(unittest.TestCase):
    def test_one_to_four_blocks(self):
        for count in range(1, 5):
            data = "".join(f"{n:02X}{FOUR[:6]}" for n in range(count))
            for head in (f"0224FC{count - 1:02X}", f"0234FC00{count - 1:02X}00"):
                tag = Tag()
                self.assertEqual(tag.send(head + data), OK)
                expected = bytearray(2048)
                expected[4 * 0xFC:4 * 0xFC + 4 * count] = bytes.fromhex(data)
                self.assertEqual(tag.memory, expected)

    def test_single_blocks(self):
        for request, block in (("0221FF" + FOUR, 255), ("0231FF01" + FOUR, 511), ("02310001" + FOUR, 256)):
            tag = Tag()
            self.assertEqual(tag.send(request), OK)
            self.assertEqual(tag.block(block), bytes.fromhex(FOUR))
            self.assertEqual(sum(tag.memory), sum(bytes.fromhex(FOUR)))

    def test_two_byte_writes_pass_100h(self):
        """34h of two from FFh is not limited."""
        tag = Tag()
        self.assertEqual(tag.send("0234FF000100" + FOUR * 2), OK)
        self.assertEqual(tag.block(0x100), bytes.fromhex(FOUR))

    def test_order_of_errors(self):
        """Count before outside before border before locked."""
        tag = Tag(ends=(0, None, None), protections=(0x0C, 0x0C, 0, 0), locks=0x03)
        self.assertEqual(tag.send("0224FE04" + FOUR * 5), error(0x0F))
        self.assertEqual(tag.send("0224FE02" + FOUR * 3), error(0x10))
        self.assertEqual(tag.send("02240701" + FOUR * 2), error(0x0F))
        self.assertEqual(tag.send("02240801" + FOUR * 2), error(0x12))
        self.assertEqual(tag.memory, bytes(2048))

    def test_border_and_outside(self):
        """Area 4 begins at 504; four from 510 leave the memory: 10h, although 504 was a border."""
        tag = Tag(ends=(0, 1, 62), protections=(0, 0, 0, 0))
        self.assertEqual(tag.send("0234FE010300" + FOUR * 4), error(0x10))
        self.assertEqual(tag.send("0234F7010100" + FOUR * 2), error(0x0F))
        self.assertEqual(tag.send("0234F8010300" + FOUR * 4), OK)

    def test_middle_area_between_first_and_last(self):
        """Blocks of one write never leave an area of eight and come back: first and last decide."""
        tag = Tag(ends=(0, 1, None))
        for first, expected in ((4, OK), (5, error(0x0F)), (7, error(0x0F)), (8, OK), (12, OK), (13, error(0x0F))):
            self.assertEqual(tag.send(f"0224{first:02X}03" + FOUR * 4), expected)

    def test_locked_blocks(self):
        for locks, locked in ((0x01, (0,)), (0x02, (1,)), (0x03, (0, 1)), (0x1C, ())):
            for block in range(3):
                expected = error(0x12) if block in locked else OK
                self.assertEqual(Tag(locks=locks).send(f"0221{block:02X}{FOUR}"), expected)


class Locks(unittest.TestCase):
    def test_lock_and_write(self):
        for head in ("0222", "0232"):
            wide = "00" if head == "0232" else ""
            tag = Tag()
            self.assertEqual(tag.send(head + "01" + wide), OK)
            self.assertEqual(tag.record.locks, 0x02)
            self.assertEqual(tag.send("022101" + FOUR), error(0x12))
            self.assertEqual(tag.send("022100" + FOUR), OK)
            self.assertEqual(tag.send(head + "01" + wide), error(0x11))
            self.assertEqual(tag.send(head + "00" + wide), OK)
            self.assertEqual(tag.record.locks, 0x03)

    def test_order_of_errors(self):
        """10h before 11h before 14h."""
        tag = Tag(protections=(0x0C, 0, 0, 0), locks=0x01)
        self.assertEqual(tag.send("022202"), error(0x10))
        self.assertEqual(tag.send("022200"), error(0x11))
        self.assertEqual(tag.send("022201"), error(0x14))
        self.assertEqual(tag.send("02320101"), error(0x10))  # block 101h is not block 1
        self.assertEqual(tag.record.locks, 0x01)

    def test_session_serves_a_lock(self):
        self.assertEqual(Tag(protections=(0x05, 0, 0, 0)).send("022200"), error(0x14))
        self.assertEqual(Tag(protections=(0x05, 0, 0, 0), session=1).send("022200"), OK)
        self.assertEqual(Tag(protections=(0x05, 0, 0, 0), session=2).send("022200"), error(0x14))

    def test_locks_heed_no_lock_cfg(self):
        self.assertEqual(Tag(locks=0x10).send("022200"), OK)


class Held(unittest.TestCase):
    REQUESTS = ("4221FF" + FOUR, "422200", "42240000" + FOUR, "422735", "4228", "422901", "422A",
                "42310500" + FOUR, "42320000", "423405000000" + FOUR, "42A1020403", "42B10200" + "11" * 8)

    def test_success_is_held_once(self):
        """The twelve write-like commands; their work is done before the EOF, as without Option_flag."""
        for request in self.REQUESTS:
            tag, plain = Tag(session=0), Tag(session=0)
            self.assertEqual(tag.send(request), SILENT, request)
            self.assertEqual(plain.send("02" + request[2:]), OK)
            self.assertEqual(tag.record._replace(held=None), plain.record)
            self.assertEqual(tag.memory, plain.memory)
            self.assertEqual(tag.record.held, 0)
            self.assertEqual(tag.happen("EOF"), OK)
            self.assertEqual(tag.record, plain.record)
            self.assertEqual(tag.happen("EOF"), SILENT)

    def test_in_quiet(self):
        tag = Tag(state="Quiet", held=0x12)
        self.assertEqual(tag.happen("EOF"), error(0x12))
        self.assertEqual(tag.record, Tag(state="Quiet").record)

    def test_each_code(self):
        for code in (0x02, 0x03, 0x0F, 0x10, 0x11, 0x12, 0x13, 0x14, 0x15):
            self.assertEqual(Tag(held=code).happen("EOF"), error(code))

    def test_wrong_length_holds_nothing(self):
        tag = Tag()
        self.assertEqual(tag.send("4221FF" + FOUR[:6]), SILENT)
        self.assertEqual(tag.happen("EOF"), SILENT)
