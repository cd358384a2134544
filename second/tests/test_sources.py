"""The worked examples of documents 001, 003 and 004."""

import unittest

from tagmodel.rights import area_of

from .support import LARGE, OK, SMALL, UID, Tag, error, framed


def borders(record, size):
    """The first block of each area after the first."""
    return [block for block in range(1, size.blocks) if area_of(record, block) != area_of(record, block - 1)]


class Document001(unittest.TestCase):
    def test_inventory(self):
        """260100 is answered by 00 00 F0C8D601042302E0 64A3; the UID is E002230401D6C8F0."""
        tag = Tag(uid=UID)
        self.assertEqual(tag.send("260100"), bytes.fromhex("0000F0C8D601042302E064A3"))

    def test_success_answer(self):
        """A password written with its session open is answered by 00 78 F0; here it has eight bytes."""
        tag = Tag(session=0)
        self.assertEqual(tag.send("02B10200123456789ABCDEF0"), bytes.fromhex("0078F0"))
        self.assertEqual(tag.record.passwords[0], 0xF0DEBC9A78563412)


class Document003(unittest.TestCase):
    def test_maximum_ends(self):
        """Table 2: 01FFh and 3Fh, 07FFh and FFh."""
        self.assertEqual((SMALL.blocks - 1, SMALL.last_end), (0x01FF, 0x3F))
        self.assertEqual((LARGE.blocks - 1, LARGE.last_end), (0x07FF, 0xFF))

    def test_register_addresses(self):
        """Table 10: 04h A1SS, 05h ENDA1 ... 0Ah A4SS, 0Fh LOCK_CFG."""
        tag = Tag(ends=(1, 2, 3), protections=(4, 5, 6, 7), locks=0x10)
        expected = {0x04: 4, 0x05: 1, 0x06: 5, 0x07: 2, 0x08: 6, 0x09: 3, 0x0A: 7, 0x0F: 1}
        for address in range(256):
            answer = framed(f"00{expected[address]:02X}") if address in expected else error(0x10)
            self.assertEqual(tag.send(f"02A002{address:02X}"), answer, address)

    def test_area_setting(self):
        """The example after Table 3, its three steps with their area limits."""
        tag = Tag(LARGE, ends=(0x10, 0xFF, 0xFF), session=0)
        self.assertEqual(borders(tag.record, LARGE), [0x0088])
        for request in ("02A102053F", "02A102075F", "02A10209BF"):
            self.assertEqual(tag.send(request), OK)
        self.assertEqual(borders(tag.record, LARGE), [0x0200, 0x0300, 0x0600])
        for request in ("02A10209FF", "02A10207FF", "02A102057F"):
            self.assertEqual(tag.send(request), OK)
        self.assertEqual(borders(tag.record, LARGE), [0x0400])

    def test_refused_orders(self):
        """'Programming ENDA3 to FFh in step 2.a would have resulted in .. an error'; document 01 makes it 13h."""
        tag = Tag(LARGE, ends=(0x10, 0xFF, 0xFF), session=0)
        self.assertEqual(tag.send("02A10209FF"), error(0x13))
        split = Tag(LARGE, ends=(0x3F, 0x5F, 0xBF), session=0)
        refused = ("02A102057F",  # ENDA1 while ENDA2 and ENDA3 are not at the end
                   "02A10207FF",  # ENDA2 while ENDA3 is not at the end
                   "02A102095F",  # ENDA3 not above ENDA2
                   "02A102093F")
        for request in refused:
            self.assertEqual(split.send(request), error(0x13), request)
        self.assertEqual(borders(split.record, LARGE), [0x0200, 0x0300, 0x0600])

    def test_smallest_area(self):
        """ENDA1 = 0 means that Area 1 has 8 blocks."""
        tag = Tag(session=0)
        self.assertEqual(tag.send("02A1020500"), OK)
        self.assertEqual(borders(tag.record, SMALL), [8])

    def test_protection_is_effective_at_once(self):
        """A1SS = 0Ch: 'read always allowed, write always forbidden'."""
        tag = Tag(session=0)
        self.assertEqual(tag.send("022100A1A2A3A4"), OK)
        self.assertEqual(tag.send("02A102040C"), OK)
        self.assertEqual(tag.send("022100B1B2B3B4"), error(0x12))
        self.assertEqual(tag.send("022000"), framed("00A1A2A3A4"))


class Document004(unittest.TestCase):
    def test_area_end(self):
        """ENDA1 = int(97/8) = 12 (0Ch); the last block of Area 1 is 103 (67h)."""
        for size in (SMALL, LARGE):
            tag = Tag(size, session=0)
            self.assertEqual(tag.send(f"02A10205{97 // 8:02X}"), OK)
            self.assertEqual(tag.record.end(1), 0x0C)
            self.assertEqual(borders(tag.record, size), [0x68])
