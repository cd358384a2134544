"""Inventory: fields, masks, AFI and rounds."""

import unittest

from tagmodel.record import QUIET, READY, SELECTED, Round

from .support import SILENT, UID, Tag, framed

ANSWER = bytes.fromhex("0000F0C8D601042302E064A3")  # documents 001 and 01


def mask_of(length, change=0):
    """Mask length and mask bytes of the UID's lowest bits."""
    value = (UID & (1 << length) - 1) ^ change
    return f"{length:02X}" + value.to_bytes((length + 7) // 8, "little").hex()


class OneSlot(unittest.TestCase):
    def test_every_mask_length(self):
        for length in range(65):
            tag = Tag()
            self.assertEqual(tag.send("2601" + mask_of(length)), ANSWER, length)
            self.assertIsNone(tag.record.round)

    def test_longer_masks(self):
        """65 and 255, with as many bytes as they ask for."""
        for length, count in ((65, 9), (72, 9), (255, 32)):
            self.assertEqual(Tag().send(f"2601{length:02X}F0C8D601042302E0" + "00" * (count - 8)), SILENT)

    def test_every_mask_bit_counts(self):
        for bit in range(64):
            self.assertEqual(Tag().send("2601" + mask_of(64, 1 << bit)), SILENT)

    def test_spare_bits_are_not_compared(self):
        """Length 12: the high half of the second mask byte is spare."""
        self.assertEqual(Tag().send("26010CF008"), ANSWER)
        self.assertEqual(Tag().send("26010CF0F8"), ANSWER)
        self.assertEqual(Tag().send("26010CF0F9"), SILENT)

    def test_lengths(self):
        """A missing mask length, a mask too short or too long, an AFI alone."""
        for request in ("2601", "26010000", "260108", "260108F0C8", "260109F0", "3601", "360100", "36010000FF"):
            self.assertEqual(Tag().send(request), SILENT, request)

    def test_option_is_ignored(self):
        self.assertEqual(Tag().send("660100"), ANSWER)

    def test_answer_carries_the_dsfid(self):
        self.assertEqual(Tag(dsfid=0x5A).send("260100"), framed("005AF0C8D601042302E0"))

    def test_states(self):
        self.assertEqual(Tag(state=QUIET).send("260100"), SILENT)
        for state in (READY, SELECTED):
            tag = Tag(state=state, session=1)
            before = tag.record
            self.assertEqual(tag.send("260100"), ANSWER)
            self.assertEqual(tag.record, before)


class Afi(unittest.TestCase):
    def test_zero_family_or_equal(self):
        """30h matches 35h since W-203; 05h does not, and what is stored names no family."""
        cases = (("00", 0x35, True), ("35", 0x35, True), ("30", 0x35, True), ("30", 0x30, True), ("05", 0x35, False),
                 ("40", 0x35, False), ("35", 0x30, False), ("35", 0x00, False), ("30", 0x00, False), ("00", 0x00, True),
                 ("36", 0x35, False), ("05", 0x05, True))
        for asked, stored, matches in cases:
            tag = Tag(afi=stored)
            self.assertEqual(tag.send(f"3601{asked}00"), ANSWER if matches else SILENT)
            tag = Tag(afi=stored)
            tag.send(f"1601{asked}00")
            self.assertEqual(tag.record.round, Round(0, 0) if matches else None)


class SixteenSlots(unittest.TestCase):
    def test_slot_is_the_next_four_bits(self):
        """For every mask length the tag speaks once, in the slot of UID bits m to m + 3."""
        for length in range(61):
            tag = Tag()
            answers = [tag.send("0601" + mask_of(length))] + [tag.happen("EOF") for _ in range(15)]
            expected = UID >> length & 15
            self.assertEqual([slot for slot, answer in enumerate(answers) if answer], [expected])
            self.assertEqual(answers[expected], ANSWER)
            self.assertEqual(tag.record.round, Round(15, length))
            self.assertEqual(tag.happen("EOF"), SILENT)
            self.assertIsNone(tag.record.round)
            self.assertEqual(tag.happen("EOF"), SILENT)

    def test_slot_0_speaks_at_once(self):
        """The lowest four bits of F0h are 0."""
        tag = Tag()
        self.assertEqual(tag.send("060100"), ANSWER)
        self.assertEqual(tag.record.round, Round(0, 0))

    def test_bits_1_and_2_are_ignored(self):
        for flags in ("04", "05", "06", "07", "44"):
            tag = Tag()
            self.assertEqual(tag.send(flags + "0100"), ANSWER)
            self.assertEqual(tag.record.round, Round(0, 0))

    def test_longest_mask(self):
        for length in (61, 62, 63, 64, 255):
            tag = Tag()
            self.assertEqual(tag.send("0601" + mask_of(length) if length < 65 else "0601FF" + "00" * 32), SILENT)
            self.assertIsNone(tag.record.round)

    def test_no_match_opens_no_round(self):
        for request in ("06010401", "16013500", "06010C0FF8"):
            tag = Tag()
            self.assertEqual(tag.send(request), SILENT)
            self.assertIsNone(tag.record.round)

    def test_round_in_selected_keeps_the_state(self):
        tag = Tag(state=SELECTED)
        tag.send("060100")
        tag.happen("EOF")
        self.assertEqual((tag.record.state, tag.record.round), (SELECTED, Round(1, 0)))

    def test_on_keeps_the_round(self):
        tag = Tag(round=Round(7, 8))
        tag.happen("ON")
        self.assertEqual(tag.happen("EOF"), ANSWER)  # UID bits 8 to 11 are 8h

    def test_quiet_opens_no_round(self):
        tag = Tag(state=QUIET)
        tag.send("060100")
        self.assertIsNone(tag.record.round)
