"""tagrun: the session of document 01 to the byte, and the edges of its lines."""

import unittest

from tagmodel.session import Session
from worked import SESSION_INPUT, SESSION_OUTPUT

from .support import error, run_program


def answers(*lines):
    """The answers without their numbers."""
    session = Session()
    return [session.answer(line).split(" ", 1)[1] for line in lines]


class SessionOf01(unittest.TestCase):
    def test_to_the_byte(self):
        self.assertEqual(run_program("tagrun", SESSION_INPUT), (0, SESSION_OUTPUT))

    def test_last_newline_may_lack(self):
        self.assertEqual(run_program("tagrun", SESSION_INPUT[:-1]), (0, SESSION_OUTPUT))

    def test_empty_input(self):
        self.assertEqual(run_program("tagrun", b""), (0, b""))

    def test_one_newline_is_one_line(self):
        self.assertEqual(run_program("tagrun", b"\n"), (0, b"1 ?\n"))

    def test_binary_input(self):
        self.assertEqual(run_program("tagrun", b"\x00\xFF\r\nON\r\n\x80"), (0, b"1 ?\n2 ?\n3 ?\n"))

    def test_very_long_line(self):
        self.assertEqual(run_program("tagrun", b"0" * 3000000 + b"\nON\n"), (0, b"1 ?\n2 -\n"))


class Lines(unittest.TestCase):
    def test_no_form(self):
        for line in (b"", b"0", b"on", b"On", b"ON ", b" ON", b"ON\r", b"ON\x00", b"EOFF", b"0a20", b"0x20", b"02 20",
                     b"02200", b"0220G0", b"00" * 65, b"00" * 64 + b"0", b"\xEF\xBC\x90\xEF\xBC\x90"):
            self.assertEqual(answers(b"ON", line), ["-", "?"], line)

    def test_shortest_and_longest_request(self):
        """64 bytes of 00h are a plain request of code 00h, which is not listed: error 02h."""
        self.assertEqual(answers(b"ON", b"00", b"00" * 64), ["-", "-", error(0x02).hex().upper()])

    def test_before_the_field_is_on(self):
        self.assertEqual(answers(b"022000", b"EOF", b"OFF", b"ON", b"022000"), ["-"] * 4 + ["000000000077CF"])

    def test_a_short_frame_drops_a_held_answer(self):
        """'00' is a frame of three bytes: silence, and it drops; a line of no form drops nothing."""
        write = b"422105A1A2A3A4"
        self.assertEqual(answers(b"ON", write, b"00", b"EOF"), ["-", "-", "-", "-"])
        self.assertEqual(answers(b"ON", write, b"000", b"EOF"), ["-", "-", "?", "0078F0"])
        self.assertEqual(answers(b"ON", write, b"00" * 65, b"EOF"), ["-", "-", "?", "0078F0"])

    def test_a_short_frame_drops_a_round(self):
        """The UID's lowest four bits are 0h, the next Fh; mask length 8 with F0h leaves 8h for the slot."""
        asked = (b"ON", b"060108F0") + (b"EOF",) * 8
        self.assertEqual(answers(*asked)[-1], "0000F0C8D601042302E064A3")
        self.assertEqual(answers(*asked[:3], b"00", *asked[3:])[-1], "-")
        self.assertEqual(answers(*asked[:3], b"0", *asked[3:])[-1], "0000F0C8D601042302E064A3")

    def test_number_stays_at_its_greatest(self):
        session = Session()
        session.number = 2 ** 64 - 2
        self.assertEqual(session.answer(b"?"), "18446744073709551615 ?")
        self.assertEqual(session.answer(b"?"), "18446744073709551615 ?")
