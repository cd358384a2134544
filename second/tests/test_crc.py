"""The CRC: the samples of document 001, the answers of document 01, and the fast way against the bits."""

import unittest

from generator.dice import Dice
from tagmodel.crc import crc, crc_by_bits, crc_is_right, with_crc

# (bytes, CRC low byte first)
SAMPLES_OF_001 = (
    ("00", "78F0"),  # 80040078F000: write password, untraceable mode, present password
    ("00F06B", "1167"),  # 800600F06B116700: get random number
    ("00916B", "9C1B"),  # 800600916B9C1B00: get random number
    ("0000F0C8D601042302E0", "64A3"),  # 800D0000F0C8D601042302E064A300: inventory
)
ANSWERS_OF_01 = (("0000000000", "77CF"), ("0110", "1E06"), ("010F", "68EE"))


class Crc(unittest.TestCase):
    def test_samples(self):
        for way in (crc, crc_by_bits):
            for data, expected in SAMPLES_OF_001 + ANSWERS_OF_01:
                with self.subTest(way=way.__name__, data=data):
                    self.assertEqual(way(bytes.fromhex(data)).to_bytes(2, "little").hex().upper(), expected)

    def test_no_bytes(self):
        """Start FFFFh, nothing taken in, complemented: 0000h."""
        self.assertEqual(crc_by_bits(b""), 0x0000)
        self.assertEqual(crc(b""), 0x0000)

    def test_one_bit_by_hand(self):
        """Byte FFh: FFFFh xor 00FFh is FF00h; eight times an even number moves right: 00FFh; complemented FF00h."""
        self.assertEqual(crc_by_bits(b"\xFF"), 0xFF00)

    def test_fast_way_is_the_definition(self):
        dice = Dice(7)
        for length in list(range(70)) + [255, 256, 257, 1000, 2048, 8192, 10243]:
            data = dice.bytes(length)
            self.assertEqual(crc(data), crc_by_bits(data), length)
        for value in range(256):
            self.assertEqual(crc(bytes((value,))), crc_by_bits(bytes((value,))))

    def test_frames(self):
        frame = with_crc(bytes.fromhex("00F06B"))
        self.assertEqual(frame.hex().upper(), "00F06B1167")
        self.assertTrue(crc_is_right(frame))
        for bit in range(8 * len(frame)):
            damaged = bytearray(frame)
            damaged[bit // 8] ^= 1 << bit % 8
            self.assertFalse(crc_is_right(bytes(damaged)))
