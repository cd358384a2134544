"""Passwords, sessions, registers, AFI and DSFID."""

import unittest

from .support import LARGE, OK, SMALL, Tag, error, framed

WORDS = ("0807060504030201", "1817161514131211", "2827262524232221", "3837363534333231")
PASSWORDS = tuple(int.from_bytes(bytes.fromhex(word), "little") for word in WORDS)


class Present(unittest.TestCase):
    def test_right_value_opens_that_session_alone(self):
        for before in (None, 0, 1, 2, 3):
            for number in range(4):
                tag = Tag(passwords=PASSWORDS, session=before)
                self.assertEqual(tag.send(f"02B302{number:02X}{WORDS[number]}"), OK)
                self.assertEqual(tag.record.session, number)

    def test_wrong_value_closes_any_session(self):
        for before in (None, 0, 1, 2, 3):
            for number in range(4):
                tag = Tag(passwords=PASSWORDS, session=before)
                self.assertEqual(tag.send(f"02B302{number:02X}{WORDS[number - 1]}"), error(0x0F))
                self.assertIsNone(tag.record.session)

    def test_every_byte_is_compared(self):
        for place in range(8):
            value = bytearray.fromhex(WORDS[1])
            value[place] ^= 0x80
            self.assertEqual(Tag(passwords=PASSWORDS).send(f"02B30201{value.hex()}"), error(0x0F))

    def test_number_over_3(self):
        for number in (4, 0x10, 0x80, 0xFF):
            tag = Tag(passwords=PASSWORDS, session=2)
            self.assertEqual(tag.send(f"02B302{number:02X}{WORDS[0]}"), error(0x10))
            self.assertEqual(tag.record.session, 2)

    def test_not_presented_in_a_frame_that_fails_a_check(self):
        """Wrong CRC, wrong length, Option_flag: the open session stays."""
        tag = Tag(passwords=PASSWORDS, session=2)
        tag.happen(framed("02B30201" + WORDS[0])[:-1] + b"\x00")
        tag.send("02B30201" + WORDS[0] + "00")
        self.assertEqual(tag.send("42B30201" + WORDS[0]), error(0x03))
        self.assertEqual(tag.record.session, 2)

    def test_lowest_byte_first(self):
        tag = Tag(passwords=(0, 1, 0, 0))
        self.assertEqual(tag.send("02B302010100000000000000"), OK)


class WritePassword(unittest.TestCase):
    def test_own_session_only(self):
        for session in (None, 0, 1, 2, 3):
            for number in range(4):
                tag = Tag(passwords=PASSWORDS, session=session)
                answer = tag.send(f"02B102{number:02X}AABBCCDDEEFF0011")
                self.assertEqual(answer, OK if session == number else error(0x0F))
                expected = list(PASSWORDS)
                if session == number:
                    expected[number] = 0x1100FFEEDDCCBBAA
                self.assertEqual(tag.record, Tag(passwords=tuple(expected), session=session).record)

    def test_number_before_session(self):
        self.assertEqual(Tag().send("02B10204" + WORDS[0]), error(0x10))

    def test_lock_cfg_is_not_heeded(self):
        self.assertEqual(Tag(session=0, locks=0x10).send("02B10200" + WORDS[0]), OK)

    def test_new_value_counts_at_once(self):
        tag = Tag(session=1)
        tag.send("02B10201" + WORDS[1])
        self.assertEqual(tag.send("02B302010000000000000000"), error(0x0F))
        self.assertEqual(tag.send("02B30201" + WORDS[1]), OK)


class Registers(unittest.TestCase):
    def test_protections(self):
        """RFAiSS allows 00h to 0Fh."""
        for address, area in ((0x04, 1), (0x06, 2), (0x08, 3), (0x0A, 4)):
            for value in (0x00, 0x01, 0x0F, 0x10, 0x80, 0xFF):
                tag = Tag(session=0)
                answer = tag.send(f"02A102{address:02X}{value:02X}")
                self.assertEqual(answer, OK if value <= 0x0F else error(0x13))
                self.assertEqual(tag.record.protection(area), value if value <= 0x0F else 0)

    def test_lock_cfg(self):
        for value in (0x02, 0x80, 0xFF):
            self.assertEqual(Tag(session=0).send(f"02A1020F{value:02X}"), error(0x13))
        tag = Tag(session=0)
        self.assertEqual(tag.send("02A1020F00"), OK)
        self.assertEqual(tag.record.locks, 0)
        self.assertEqual(tag.send("02A1020F01"), OK)
        self.assertEqual(tag.record.locks, 0x10)
        self.assertEqual(tag.send("02A0020F"), framed("0001"))
        self.assertEqual(tag.send("02A1020F00"), error(0x0F))
        self.assertEqual(tag.send("02A1020403"), error(0x0F))

    def test_order_of_errors(self):
        """10h before 0Fh before 13h."""
        self.assertEqual(Tag(locks=0x10).send("02A10203FF"), error(0x10))
        self.assertEqual(Tag(locks=0x10, session=0).send("02A10204FF"), error(0x0F))
        for session in (None, 1, 2, 3):
            self.assertEqual(Tag(session=session).send("02A10204FF"), error(0x0F))
        self.assertEqual(Tag(session=0).send("02A10204FF"), error(0x13))

    def test_factory_ends(self):
        """The rule holds for the value already there: ENDA1 = E is taken, ENDA2 = E and ENDA3 = E give 13h."""
        for size, last in ((SMALL, "3F"), (LARGE, "FF")):
            self.assertEqual(Tag(size, session=0).send("02A10205" + last), OK)
            self.assertEqual(Tag(size, session=0).send("02A10207" + last), error(0x13))
            self.assertEqual(Tag(size, session=0).send("02A10209" + last), error(0x13))

    def test_every_end_by_the_words_of_01(self):
        """'v at most E, above ENDA(i-1) if i is over 1, while all later ends are E', for 16 Kbit."""
        layouts = ((63, 63, 63), (0, 63, 63), (62, 63, 63), (5, 20, 63), (5, 62, 63), (5, 20, 40), (0, 1, 2))
        for ends in layouts:
            for area in (1, 2, 3):
                for value in range(256):
                    allowed = value <= 63 and all(end == 63 for end in ends[area:])
                    if area > 1:
                        allowed = allowed and value > ends[area - 2]
                    tag = Tag(ends=ends, session=0)
                    answer = tag.send(f"02A102{3 + 2 * area:02X}{value:02X}")
                    self.assertEqual(answer, OK if allowed else error(0x13), (ends, area, value))
                    self.assertEqual(tag.record.end(area), value if allowed else ends[area - 1])

    def test_reading_needs_no_session(self):
        self.assertEqual(Tag(locks=0x10).send("02A00205"), framed("003F"))
        self.assertEqual(Tag(LARGE).send("02A00205"), framed("00FF"))


class Identity(unittest.TestCase):
    def test_afi_and_dsfid(self):
        for write, lock, part, bit in (("27", "28", "afi", 0x04), ("29", "2A", "dsfid", 0x08)):
            tag = Tag()
            self.assertEqual(tag.send(f"02{write}5A"), OK)
            self.assertEqual(tag.record, Tag(**{part: 0x5A}).record)
            self.assertEqual(tag.send(f"02{lock}"), OK)
            self.assertEqual(tag.record, Tag(**{part: 0x5A, "locks": bit}).record)
            self.assertEqual(tag.send(f"02{write}00"), error(0x12))
            self.assertEqual(tag.send(f"02{lock}"), error(0x11))
            self.assertEqual(tag.record, Tag(**{part: 0x5A, "locks": bit}).record)

    def test_neither_session_nor_lock_cfg(self):
        tag = Tag(locks=0x10)
        for request in ("022735", "0228", "022935", "022A"):
            self.assertEqual(tag.send(request), OK)
