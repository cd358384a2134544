"""Every bench case of document 01, starred or not, and 'Errors that have looked right'."""

import unittest

from tagmodel.record import Round
from tagmodel.rights import area_of

from .support import LARGE, OK, SILENT, SMALL, Tag, error, framed, numbered

DATA = "A1A2A3A4B1B2B3B4C1C2C3C4D1D2D3D4"


class BenchCases(unittest.TestCase):
    def area_tag(self):
        """64 Kbit, ENDA1 = 12, other ends 255, RFA2SS = 09h, no session."""
        tag = Tag(LARGE, ends=(12, 255, 255), protections=(0, 0x09, 0, 0))
        tag.number_blocks()
        return tag

    def test_area_ends(self):
        """Block 103 is Area 1 (004), 104 Area 2."""
        record = self.area_tag().record
        self.assertEqual(area_of(record, 103), 1)
        self.assertEqual(area_of(record, 104), 2)

    def test_read_is_cut_at_the_border(self):
        """Five blocks from 102 (66h) give two; one from 104 (68h) gives 15h."""
        for request in ("02236604", "023366000400"):
            self.assertEqual(self.area_tag().send(request), framed("00" + numbered(102, 103)))
        for request in ("022068", "02306800", "02236800", "023368000000"):
            self.assertEqual(self.area_tag().send(request), error(0x15))

    def test_write_across_the_border(self):
        """Writing four from 102 gives 0Fh, nothing written."""
        for request in ("02246603" + DATA, "023466000300" + DATA):
            tag = self.area_tag()
            before = bytes(tag.memory)
            self.assertEqual(tag.send(request), error(0x0F))
            self.assertEqual(tag.memory, before)

    def test_last_block(self):
        """16 Kbit: 30h of block 511 answers; 512 gives 10h. 64 Kbit: 2,047 and 2,048."""
        for size, last, beyond in ((SMALL, "FF01", "0002"), (LARGE, "FF07", "0008")):
            tag = Tag(size)
            tag.number_blocks()
            self.assertEqual(tag.send("0230" + last), framed("00" + numbered(size.blocks - 1)))
            self.assertEqual(tag.send("0230" + beyond), error(0x10))

    def test_write_to_the_one_byte_limit(self):
        """Factory: 24h of two from FEh succeeds; of three, 10h."""
        for size in (SMALL, LARGE):
            tag = Tag(size)
            self.assertEqual(tag.send("0224FE01" + DATA[:16]), OK)
            self.assertEqual(tag.block(0xFE) + tag.block(0xFF), bytes.fromhex(DATA[:16]))
            tag = Tag(size)
            self.assertEqual(tag.send("0224FE02" + DATA[:24]), error(0x10))
            self.assertEqual(tag.memory, bytes(size.memory_bytes))

    def test_order_of_ends(self):
        """ENDA1 = 12: ENDA2 = 12 gives 13h; 13 is taken. Then ENDA1 = 5 gives 13h."""
        for size in (SMALL, LARGE):
            tag = Tag(size, ends=(12, None, None), session=0)
            self.assertEqual(tag.send("02A102070C"), error(0x13))
            self.assertEqual(tag.send("02A102070D"), OK)
            self.assertEqual(tag.record.end(2), 13)
            self.assertEqual(tag.send("02A1020505"), error(0x13))
            self.assertEqual((tag.record.end(1), tag.record.end(2), tag.record.end(3)), (12, 13, size.last_end))

    def test_wrong_password_closes(self):
        """Session 2 open, wrong password 1: 0Fh, session 2 closed."""
        tag = Tag(session=2)
        self.assertEqual(tag.send("02B302010000000000000001"), error(0x0F))
        self.assertIsNone(tag.record.session)

    def test_longest_mask(self):
        """16 slots: mask length 60 is heard, 61 is silence. UID bits 60 to 63 are Eh: slot 14."""
        tag = Tag()
        self.assertEqual(tag.send("06013CF0C8D601042302E0"), SILENT)
        self.assertEqual(tag.record.round, Round(0, 60))
        for _ in range(13):
            self.assertEqual(tag.happen("EOF"), SILENT)
        self.assertEqual(tag.happen("EOF"), bytes.fromhex("0000F0C8D601042302E064A3"))
        tag = Tag()
        self.assertEqual(tag.send("06013DF0C8D601042302E0"), SILENT)
        self.assertIsNone(tag.record.round)

    def test_held_write(self):
        """Option_flag write: silence, bytes changed; EOF gives 00 78 F0."""
        tag = Tag()
        self.assertEqual(tag.send("422105A1A2A3A4"), SILENT)
        self.assertEqual(tag.block(5), bytes.fromhex("A1A2A3A4"))
        self.assertEqual(tag.happen("EOF"), bytes.fromhex("0078F0"))
        self.assertEqual(tag.happen("EOF"), SILENT)


class ErrorsThatLookedRight(unittest.TestCase):
    def test_read_with_a_hidden_last_block_is_not_refused(self):
        tag = Tag(ends=(0, None, None), protections=(0, 0x0D, 0, 0))
        tag.number_blocks()
        self.assertEqual(tag.send("02230701"), framed("00" + numbered(7)))

    def test_no_block_is_written_before_a_later_one_refuses(self):
        """Block 1 is locked: a write of blocks 0 and 1 leaves block 0 alone."""
        tag = Tag(locks=0x02)
        self.assertEqual(tag.send("02240001" + DATA[:16]), error(0x12))
        self.assertEqual(tag.memory, bytes(2048))

    def test_slot_comes_after_the_mask(self):
        """Mask length 4, mask 0h (lowest four UID bits are 0h): the next four bits, Fh, are the slot."""
        tag = Tag()
        self.assertEqual(tag.send("06010400"), SILENT)
        answers = [tag.happen("EOF") for _ in range(16)]
        speaking = [slot for slot, answer in enumerate(answers, 1) if answer]
        self.assertEqual(speaking, [15])

    def test_dropped_answer_keeps_its_work(self):
        for drop in ("OFF", framed("022000")):
            tag = Tag()
            tag.send("422105A1A2A3A4")
            tag.happen(drop)
            self.assertIsNone(tag.record.held)
            self.assertEqual(tag.block(5), bytes.fromhex("A1A2A3A4"))
