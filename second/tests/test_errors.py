"""Every error code provoked by every command that can give it, at once and held."""

import unittest

from tagmodel.branches import COMMAND_ERRORS, WITHOUT_OPTION
from tagmodel.commands import COMMANDS

from .support import OK, SILENT, UID_TEXT, Tag, error

CODES_OF_01 = (0x02, 0x03, 0x0F, 0x10, 0x11, 0x12, 0x13, 0x14, 0x15)
WRITE_LIKE = (0x21, 0x22, 0x24, 0x27, 0x28, 0x29, 0x2A, 0x31, 0x32, 0x34, 0xA1, 0xB1)

# By document 01; a 16 Kbit tag has all blocks of one byte, so 20h, 21h, 23h and 2Ch never give 10h.
CAN_GIVE = {
    0x02: (), 0x20: (0x15,), 0x21: (0x12,), 0x22: (0x10, 0x11, 0x14), 0x23: (0x15,), 0x24: (0x0F, 0x10, 0x12),
    0x25: (0x03,), 0x26: (0x03,), 0x27: (0x12,), 0x28: (0x11,), 0x29: (0x12,), 0x2A: (0x11,), 0x2C: (0x03,),
    0x30: (0x10, 0x15), 0x31: (0x10, 0x12), 0x32: (0x10, 0x11, 0x14), 0x33: (0x10, 0x15), 0x34: (0x0F, 0x10, 0x12),
    0x3C: (0x03, 0x10), 0xA0: (0x03, 0x10), 0xA1: (0x0F, 0x10, 0x13), 0xB1: (0x0F, 0x10), 0xB3: (0x03, 0x0F, 0x10),
}

# Area 2 begins at block 104 (68h) and is hidden without session 1.
HIDDEN = {"ends": (12, None, None), "protections": (0, 0x09, 0, 0)}
NO_WRITE = {"protections": (0x0C, 0, 0, 0)}
FOUR = "A1A2A3A4"
EIGHT = "0102030405060708"

# (command, error): the request without flags, and what the tag must be; Select is sent addressed.
PROVOKED = {
    (0x20, 0x15): ("2068", HIDDEN),
    (0x21, 0x12): ("2100" + FOUR, NO_WRITE),
    (0x22, 0x10): ("2202", {}),
    (0x22, 0x11): ("2200", {"locks": 0x01}),
    (0x22, 0x14): ("2200", NO_WRITE),
    (0x23, 0x15): ("236800", HIDDEN),
    (0x24, 0x0F): ("240004" + FOUR * 5, {}),
    (0x24, 0x10): ("24FE02" + FOUR * 3, {}),
    (0x24, 0x12): ("240001" + FOUR * 2, {"locks": 0x02}),
    (0x25, 0x03): ("25" + UID_TEXT, {}),
    (0x26, 0x03): ("26", {}),
    (0x27, 0x12): ("2735", {"locks": 0x04}),
    (0x28, 0x11): ("28", {"locks": 0x04}),
    (0x29, 0x12): ("2935", {"locks": 0x08}),
    (0x2A, 0x11): ("2A", {"locks": 0x08}),
    (0x2C, 0x03): ("2C0000", {}),
    (0x30, 0x10): ("300002", {}),
    (0x30, 0x15): ("306800", HIDDEN),
    (0x31, 0x10): ("310002" + FOUR, {}),
    (0x31, 0x12): ("310000" + FOUR, {"locks": 0x01}),
    (0x32, 0x10): ("320001", {}),
    (0x32, 0x11): ("320100", {"locks": 0x02}),
    (0x32, 0x14): ("320100", NO_WRITE),
    (0x33, 0x10): ("3300020000", {}),
    (0x33, 0x15): ("3368000000", HIDDEN),
    (0x34, 0x0F): ("3467000100" + FOUR * 2, HIDDEN),
    (0x34, 0x10): ("34FF010100" + FOUR * 2, {}),
    (0x34, 0x12): ("3468000100" + FOUR * 2, HIDDEN),
    (0x3C, 0x03): ("3C00000000", {}),
    (0x3C, 0x10): ("3C00020000", {}),
    (0xA0, 0x03): ("A00204", {}),
    (0xA0, 0x10): ("A00203", {}),
    (0xA1, 0x0F): ("A1020400", {"session": 1}),
    (0xA1, 0x10): ("A1020B00", {"session": 0}),
    (0xA1, 0x13): ("A1020410", {"session": 0}),
    (0xB1, 0x0F): ("B10201" + EIGHT, {"session": 2}),
    (0xB1, 0x10): ("B10204" + EIGHT, {}),
    (0xB3, 0x03): ("B30200" + EIGHT, {}),
    (0xB3, 0x0F): ("B30200" + EIGHT, {}),
    (0xB3, 0x10): ("B302FF" + EIGHT, {}),
}


class ErrorTable(unittest.TestCase):
    def test_table_is_complete(self):
        self.assertEqual(set(CAN_GIVE), set(COMMANDS))
        self.assertEqual(set(PROVOKED), {(code, each) for code, errors in CAN_GIVE.items() for each in errors})
        self.assertEqual({each for _, each in PROVOKED} | {0x02}, set(CODES_OF_01))

    def test_model_declares_the_same_table(self):
        """A command that gave another error would raise at its undeclared branch."""
        for code, errors in CAN_GIVE.items():
            declared = {int(each, 16) for each in COMMAND_ERRORS[f"{code:02X}"].split()}
            declared |= {0x03} if f"{code:02X}" in WITHOUT_OPTION else set()
            self.assertEqual(declared, set(errors))

    def test_at_once(self):
        for (code, expected), (request, parts) in PROVOKED.items():
            tag = Tag(**parts)
            flags = (0x22 if code == 0x25 else 0x02) | (0x40 if expected == 0x03 else 0)
            before = tag.record
            self.assertEqual(tag.send(f"{flags:02X}{request}"), error(expected), request)
            self.assertEqual(tag.record, before)
            self.assertEqual(tag.memory, bytes(2048))

    def test_held(self):
        for (code, expected), (request, parts) in PROVOKED.items():
            if code not in WRITE_LIKE:
                continue
            tag = Tag(**parts)
            before = tag.record
            self.assertEqual(tag.send("42" + request), SILENT, request)
            self.assertEqual(tag.record, before._replace(held=expected))
            self.assertEqual(tag.happen("EOF"), error(expected))
            self.assertEqual(tag.record, before)
            self.assertEqual(tag.memory, bytes(2048))

    def test_option_on_reads_keeps_the_error(self):
        for pair in ((0x20, 0x15), (0x23, 0x15), (0x30, 0x10), (0x30, 0x15), (0x33, 0x10), (0x33, 0x15)):
            request, parts = PROVOKED[pair]
            self.assertEqual(Tag(**parts).send("42" + request), error(pair[1]))

    def test_not_listed(self):
        for request in ("022B", "023B00", "02C00200", "02C402", "02B402", "02FF"):
            self.assertEqual(Tag().send(request), error(0x02))

    def test_without_the_cause_there_is_success(self):
        """The same requests that write, on a tag where nothing is in the way."""
        for request in ("2100" + FOUR, "2200", "240001" + FOUR * 2, "2735", "28", "2935", "2A", "310000" + FOUR,
                        "320100", "3467000100" + FOUR * 2):
            self.assertEqual(Tag().send("02" + request), OK)
