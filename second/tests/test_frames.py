"""Checks 1 to 10 in their order, addressing, states and the field."""

import unittest

from tagmodel.record import QUIET, READY, SELECTED, Round

from .support import OK, OTHER_UID_TEXT, SILENT, UID_TEXT, Tag, error, framed

READ_BLOCK_0 = framed("0000000000")


class Field(unittest.TestCase):
    def test_field_off_is_silence_without_change(self):
        tag = Tag(field=False)
        before = tag.record
        for event in ("EOF", "OFF", framed("022000"), framed("260100"), b"", framed("022100A1A2A3A4")):
            self.assertEqual(tag.happen(event), SILENT)
            self.assertEqual(tag.record, before)
        self.assertEqual(tag.memory, bytes(2048))

    def test_field_on_gives_ready(self):
        tag = Tag(field=False)
        before = tag.record
        self.assertEqual(tag.happen("ON"), SILENT)
        self.assertEqual(tag.record, before._replace(field=True))

    def test_field_on_when_on_does_nothing(self):
        for parts in ({"state": SELECTED, "session": 3, "held": 0x12}, {"round": Round(7, 12), "session": 0}):
            tag = Tag(**parts)
            before = tag.record
            self.assertEqual(tag.happen("ON"), SILENT)
            self.assertEqual(tag.record, before)

    def test_field_off_clears_passing_parts(self):
        for parts in ({"state": SELECTED, "session": 3, "held": 0}, {"round": Round(7, 12)}, {"state": QUIET}):
            tag = Tag(**parts)
            self.assertEqual(tag.happen("OFF"), SILENT)
            self.assertEqual(tag.record, Tag(field=False).record)


class Dropping(unittest.TestCase):
    FRAMES = (b"", b"\x02", b"\x02\x20\x00", framed("022000")[:-1] + b"\x00", framed("0A2000"),
              framed("2220" + OTHER_UID_TEXT + "00"), framed("02"), framed("022000"))

    def test_any_frame_drops_round_and_held_answer(self):
        for parts in ({"round": Round(3, 0)}, {"held": 0}, {"held": 0x15}):
            for frame in self.FRAMES:
                tag = Tag(**parts)
                tag.happen(frame)
                self.assertIsNone(tag.record.round)
                self.assertIsNone(tag.record.held)


class FirstChecks(unittest.TestCase):
    def assert_silent(self, request, **parts):
        tag = Tag(**parts)
        before = tag.record
        self.assertEqual(tag.send(request), SILENT, request)
        self.assertEqual(tag.record, before)

    def test_under_four_bytes(self):
        """A CRC that is right does not help: 'Under 4 bytes' counts it."""
        for frame in (b"", b"\x02", framed(""), framed("02")):
            self.assertEqual(Tag().happen(frame), SILENT)
        self.assertEqual(Tag().happen(framed("0226")), OK)

    def test_wrong_crc(self):
        whole = framed("022000")
        for place in range(len(whole)):
            damaged = bytearray(whole)
            damaged[place] ^= 0x10
            self.assertEqual(Tag().happen(bytes(damaged)), SILENT)
        self.assertEqual(Tag().happen(whole[:3] + whole[:2:-1]), SILENT)  # the CRC high byte first

    def test_bits_4_and_8(self):
        for flags in ("0A", "82", "8A"):
            self.assert_silent(flags + "2000")
        for flags in ("2E", "A6"):
            self.assert_silent(flags + "0100")

    def test_bits_1_and_2_are_ignored(self):
        for flags in ("00", "01", "02", "03"):
            self.assertEqual(Tag().send(flags + "2000"), READ_BLOCK_0)
        for flags in ("24", "25", "26", "27"):
            self.assertEqual(Tag().send(flags + "0100"), bytes.fromhex("0000F0C8D601042302E064A3"))

    def test_inventory_flag_and_code_belong_together(self):
        self.assert_silent("062000")
        self.assert_silent("0626")
        self.assert_silent("020100")
        self.assert_silent("0201")
        self.assert_silent("062B")

    def test_manufacturer_code(self):
        for code in ("A0", "A1", "C0", "DF"):
            self.assert_silent(f"02{code}")
            self.assert_silent(f"02{code}0105")
            self.assert_silent(f"02{code}0305")
        self.assertEqual(Tag().send("02A00205"), framed("003F"))
        self.assertEqual(Tag().send("029F"), error(0x02))
        self.assertEqual(Tag().send("02E0"), error(0x02))

    def test_manufacturer_code_stands_before_the_uid(self):
        self.assertEqual(Tag().send("22A002" + UID_TEXT + "05"), framed("003F"))
        self.assert_silent("22A0" + UID_TEXT + "0205")


class Addressing(unittest.TestCase):
    def test_modes_and_states(self):
        """What is heard, by state: plain, addressed, select, both flags."""
        requests = ("022000", "2220" + UID_TEXT + "00", "122000", "3220" + UID_TEXT + "00")
        heard = {READY: (True, True, False, False), QUIET: (False, True, False, False),
                 SELECTED: (True, True, True, False)}
        for state, expected in heard.items():
            for request, is_heard in zip(requests, expected):
                self.assertEqual(Tag(state=state).send(request), READ_BLOCK_0 if is_heard else SILENT, (state, request))

    def test_uid_missing_or_not_ours(self):
        for request in ("2220", "2220F0", "2220" + UID_TEXT[:14], "2220" + OTHER_UID_TEXT + "00"):
            self.assertEqual(Tag().send(request), SILENT)

    def test_select_of_another_uid(self):
        """Only of the right length, without Option_flag, and only Selected to Ready."""
        cases = (("2225" + OTHER_UID_TEXT, READY), ("6225" + OTHER_UID_TEXT, SELECTED),
                 ("2225" + OTHER_UID_TEXT + "00", SELECTED), ("2225" + OTHER_UID_TEXT[:14], SELECTED),
                 ("3225" + OTHER_UID_TEXT, SELECTED), ("2226" + OTHER_UID_TEXT, SELECTED),
                 ("2202" + OTHER_UID_TEXT, SELECTED))
        for request, expected in cases:
            tag = Tag(state=SELECTED, session=2)
            self.assertEqual(tag.send(request), SILENT)
            self.assertEqual((tag.record.state, tag.record.session), (expected, 2), request)
        for state in (READY, QUIET):
            tag = Tag(state=state)
            self.assertEqual(tag.send("2225" + OTHER_UID_TEXT), SILENT)
            self.assertEqual(tag.record.state, state)

    def test_state_commands(self):
        for state in (READY, QUIET, SELECTED):
            for code, answer, expected in (("25", OK, SELECTED), ("26", OK, READY), ("02", SILENT, QUIET)):
                tag = Tag(state=state, session=1)
                self.assertEqual(tag.send(f"22{code}{UID_TEXT}"), answer)
                self.assertEqual((tag.record.state, tag.record.session), (expected, 1))

    def test_select_and_stay_quiet_need_the_uid(self):
        for code in ("25", "02"):
            for flags in ("02", "12", "42", "52"):
                tag = Tag(state=SELECTED)
                self.assertEqual(tag.send(flags + code), SILENT)
                self.assertEqual(tag.record.state, SELECTED)

    def test_reset_to_ready_in_each_mode(self):
        for request in ("0226", "1226", "2226" + UID_TEXT):
            tag = Tag(state=SELECTED)
            self.assertEqual(tag.send(request), OK)
            self.assertEqual(tag.record.state, READY)

    def test_stay_quiet_with_option(self):
        tag = Tag()
        self.assertEqual(tag.send("6202" + UID_TEXT), SILENT)
        self.assertEqual((tag.record.state, tag.record.held), (QUIET, None))


class LaterChecks(unittest.TestCase):
    LISTED = (0x02, 0x20, 0x21, 0x22, 0x23, 0x24, 0x25, 0x26, 0x27, 0x28, 0x29, 0x2A, 0x2C,
              0x30, 0x31, 0x32, 0x33, 0x34, 0x3C, 0xA0, 0xA1, 0xB1, 0xB3)
    # Length of the fields; for 24h and 34h that of one block.
    LENGTHS = (0, 1, 5, 1, 2, 6, 0, 0, 1, 0, 1, 0, 2, 2, 6, 2, 4, 8, 4, 1, 2, 9, 9)

    def test_codes_not_listed(self):
        """Error 02h at once, whatever the length or Option_flag, never held."""
        for code in range(256):
            if code in self.LISTED or code == 0x01:
                continue
            custom = "02" if 0xA0 <= code <= 0xDF else ""
            for flags, uid in (("02", ""), ("42", ""), ("22", UID_TEXT), ("62", UID_TEXT)):
                for fields in ("", "00", "0000000000"):
                    tag = Tag()
                    self.assertEqual(tag.send(f"{flags}{code:02X}{custom}{uid}{fields}"), error(0x02), code)
                    self.assertIsNone(tag.record.held)

    def test_codes_not_listed_heed_addressing(self):
        self.assertEqual(Tag(state=QUIET).send("022B"), SILENT)
        self.assertEqual(Tag().send("222B" + OTHER_UID_TEXT), SILENT)
        self.assertEqual(Tag().send("122B"), SILENT)

    def test_lengths(self):
        """Each length but the command's own is silence, with Option_flag too."""
        for code, right in zip(self.LISTED, self.LENGTHS):
            custom = "02" if code >= 0xA0 else ""
            for length in range(right + 6):
                for flags in ("22", "62"):
                    if length == right:
                        continue
                    tag = Tag()
                    before = tag.record
                    request = f"{flags}{code:02X}{custom}{UID_TEXT}{'00' * length}"
                    self.assertEqual(tag.send(request), SILENT, request)
                    self.assertEqual(tag.record, before)

    def test_right_lengths_are_answered_or_held(self):
        for code, right in zip(self.LISTED, self.LENGTHS):
            custom = "02" if code >= 0xA0 else ""
            tag = Tag()
            answer = tag.send(f"22{code:02X}{custom}{UID_TEXT}{'00' * right}")
            self.assertEqual(answer == SILENT, code == 0x02, code)

    def test_counted_lengths(self):
        """Five blocks with 20 bytes: 0Fh; with 16 bytes: silence."""
        for head in ("02240004", "023400000400"):
            self.assertEqual(Tag().send(head + "00" * 20), error(0x0F))
            self.assertEqual(Tag().send(head + "00" * 16), SILENT)
        self.assertEqual(Tag().send("022400FF" + "00" * 1024), error(0x0F))
        self.assertEqual(Tag().send("02340000FFFF" + "00" * 262144), error(0x0F))

    def test_option_refused(self):
        """03h for 25, 26, 2C, 3C, A0, B3: at once, nothing changes, after the length check and check 9."""
        for request in ("6225" + UID_TEXT, "4226", "422C0000", "423C00000000", "42A00205", "42B30200" + "00" * 8):
            tag = Tag(state=SELECTED, session=2)
            before = tag.record
            self.assertEqual(tag.send(request), error(0x03), request)
            self.assertEqual(tag.record, before)
        for request in ("4225", "422600", "422C00", "42A002", "42B302"):
            self.assertEqual(Tag().send(request), SILENT)
