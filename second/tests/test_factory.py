"""Factory tags: the host call, and the line FACTORY by the words of CASEBOOK.md."""

import unittest

from tagmodel import host
from tagmodel.record import NoRecord, Record, Round

from .support import LARGE, OK, SMALL, UID, UID_TEXT, Tag, error, framed, record_bytes
from .test_casebook import FRESH_ROOM, OFF_MEMORY, START_RECORD, ask, hexed, line

# 'A factory tag has zero memory, passwords, locks, AFI, DSFID and RFAiSS, and all ends at E.' By the places of an image
# header: mark, UID, then AFI, DSFID and locks, then the seven registers, then passwords 0 to 3, then bytes 51 to 63; after
# them the passing parts, bytes 64 to 71.
REST = "000000" + "00{end}00{end}00{end}00" + "0000000000000000" * 4 + "00" * 13 + "0000000000000000"
SMALL_RECORD = bytes.fromhex("01" + UID_TEXT + REST.format(end="3F"))
LARGE_RECORD = bytes.fromhex("02" + UID_TEXT + REST.format(end="FF"))
BOTH = ((2048, SMALL_RECORD), (8192, LARGE_RECORD))

FACTORY = "FACTORY " + UID_TEXT
NO_RECORD = b"\xFF" * 72
# In the field, Selected, session 3, a round in slot 15 after 60 bits; locks, registers and a password are set.
IN_USE = record_bytes(ends=(5, 6, 7), protections=(15, 14, 13, 12),
                      changes={9: 0x35, 10: 0x5A, 11: 0x1F, 19: 1, 50: 0x80, 64: 1, 65: 2, 66: 4, 67: 1, 68: 15, 69: 60})
NO_SIZES = (0, 1, 2047, 2049, 2112, 8191, 8193, 8256, 9000)


def filled(length):
    """The lines that lend so much memory, full of AAh, and its bytes."""
    return (f"MEM {length}", "PUT 0 " + "AA" * length), b"\xAA" * length


class HostCall(unittest.TestCase):
    def test_both_sizes(self):
        for size, length, end in ((SMALL, 2048, 63), (LARGE, 8192, 255)):
            for before in (NoRecord("not looked at"), Tag(size, session=2, held=0x12).record):
                memory = bytearray(b"\xAA" * length)
                expected = Record(uid=UID, afi=0, dsfid=0, locks=0, registers=(0, end, 0, end, 0, end, 0),
                                  passwords=(0, 0, 0, 0), field=False, state="Ready", session=None, round=None, held=None)
                self.assertEqual(host.factory(before, memory, UID), (0, 0, expected, None))
                self.assertEqual(memory, bytes(length))

    def test_uid_values_are_not_restricted(self):
        for uid in (0, 1, 0x8000000000000000, 0xFFFFFFFFFFFFFFFF):
            result = host.factory(NoRecord("not looked at"), bytearray(2048), uid)
            self.assertEqual((result.number, result.record.uid), (0, uid))

    def test_refused(self):
        for length in NO_SIZES:
            for before in (NoRecord("not looked at"), Tag(round=Round(3, 4)).record):
                memory = bytearray(b"\xAA" * length)
                self.assertEqual(host.factory(before, memory, UID), (1, 0, before, None), length)
                self.assertEqual(memory, b"\xAA" * length)


class Made(unittest.TestCase):
    def test_bytes_by_hand(self):
        self.assertEqual(len(SMALL_RECORD), 72)
        self.assertEqual(SMALL_RECORD[:19].hex().upper(), "01F0C8D601042302E0000000003F003F003F00")
        self.assertEqual(LARGE_RECORD[:19].hex().upper(), "02F0C8D601042302E000000000FF00FF00FF00")
        self.assertEqual(SMALL_RECORD[19:], bytes(53))
        self.assertEqual(LARGE_RECORD[19:], bytes(53))

    def test_both_sizes(self):
        """Over memory full of AAh, whatever the record's bytes were: another size's, a tag in use, no record."""
        for length, record in BOTH:
            for before in (START_RECORD, LARGE_RECORD, IN_USE, NO_RECORD):
                lines, _ = filled(length)
                answers = ask(*lines, "REC " + hexed(before), FACTORY)
                self.assertEqual(answers, ["ok"] * 3 + [line(0, b"", record, bytes(length), FRESH_ROOM)])

    def test_uid_as_it_travels(self):
        """The lowest byte is the first on the line, in the record and in the answer to an Inventory."""
        record = bytes.fromhex("01" + "0102030405060708") + SMALL_RECORD[9:]
        answers = ask("FACTORY 0102030405060708", "ON", "REQ " + hexed(framed("260100")))
        self.assertEqual(answers[0], line(0, b"", record, OFF_MEMORY, FRESH_ROOM))
        self.assertEqual(answers[2].split(" ")[:3], ["0", "12", hexed(framed("0000" + "0102030405060708"))])

    def test_uid_0_is_the_start(self):
        self.assertEqual(ask("FACTORY 0000000000000000"), [line(0, b"", START_RECORD, OFF_MEMORY, FRESH_ROOM)])

    def test_any_room(self):
        """No answer is written, so no room is asked for, and what stands in it stays."""
        for length in (0, 1, 10242, 11000):
            answers = ask(f"ROOM {length}", FACTORY)
            self.assertEqual(answers[1], line(0, b"", SMALL_RECORD, OFF_MEMORY, b"\xEE" * length))
        answers = ask("ON", "REQ " + hexed(framed("0226")), FACTORY)
        self.assertEqual(answers[2], line(0, b"", SMALL_RECORD, OFF_MEMORY, OK + FRESH_ROOM[3:]))

    def test_in_the_field(self):
        """001's Inventory and its answer; all is readable, writable and zero, and every password is 0."""
        for length, last, end in ((2048, "FF01", "3F"), (8192, "FF07", "FF")):
            expected = (("260100", bytes.fromhex("0000F0C8D601042302E064A3")),
                        ("023C0000" + last, framed("00" + "00" * (length // 4))),
                        ("0230" + last, framed("0000000000")),
                        *((f"02A002{address}", framed("00" + value)) for address, value in (
                            ("04", "00"), ("05", end), ("06", "00"), ("07", end), ("08", "00"), ("09", end), ("0A", "00"),
                            ("0F", "00"))),
                        *((f"02B3020{number}" + "00" * 8, OK) for number in range(4)),
                        ("02B302000000000000000001", error(0x0F)))
            lines, _ = filled(length)
            answers = ask(*lines, "REC " + hexed(NO_RECORD), FACTORY, "ON",
                          *("REQ " + hexed(framed(request)) for request, _ in expected))
            found = [answer.split(" ")[:3] for answer in answers[5:]]
            self.assertEqual(found, [["0", str(len(answer)), hexed(answer)] for _, answer in expected])

    def test_field_is_off(self):
        """Before ON a request is silence."""
        answers = ask("ON", FACTORY, "REQ " + hexed(framed("260100")))
        self.assertEqual(answers[2], line(0, b"", SMALL_RECORD, OFF_MEMORY, FRESH_ROOM))

    def test_image(self):
        for length, record in BOTH:
            image = record[:64] + bytes(length)
            answers = ask(f"MEM {length}", FACTORY, f"SAVE {64 + length}")
            self.assertEqual(answers[2], line(0, image, record, bytes(length), image))


class Refused(unittest.TestCase):
    def test_no_size(self):
        """Number 1; record, memory and room stay, with an answer in the room and with no room."""
        for length in NO_SIZES:
            lines, memory = filled(length)
            for record in (START_RECORD, IN_USE, NO_RECORD):
                answers = ask("ON", "REQ " + hexed(framed("0226")), *lines, "REC " + hexed(record), FACTORY, "EOF")
                refused = line(1, b"", record, memory, OK + FRESH_ROOM[3:])
                self.assertEqual(answers[5:], [refused, refused], length)
                answers = ask("ROOM 0", *lines, "REC " + hexed(record), FACTORY)
                self.assertEqual(answers[4], line(1, b"", record, memory, b""), length)


class NoForm(unittest.TestCase):
    EIGHT = "0102030405060708"
    LINES = ("FACTORY", "FACTORY ", "FACTORY  ", "FACTORY 01", "FACTORY " + EIGHT[:14], "FACTORY " + EIGHT + "09",
             "FACTORY " + EIGHT * 2, "FACTORY " + "01" * 72, "FACTORY 0", "FACTORY " + EIGHT[:15], "FACTORY " + EIGHT + "0",
             "FACTORY 0a0b0c0d0e0f0a0b", "FACTORY " + EIGHT[:15] + "a", "FACTORY " + EIGHT[:15] + "G",
             "FACTORY 0x02030405060708", "FACTORY" + EIGHT, "FACTORY  " + EIGHT, "FACTORY " + EIGHT + " ",
             " FACTORY " + EIGHT, "FACTORY\t" + EIGHT, "FACTORY " + EIGHT + "\r", "FACTORY " + EIGHT + "\x00",
             "FACTORY 01020304 05060708", "FACTORY 2048 " + EIGHT, "FACTORY 1 " + EIGHT, "FACTORY -", "FACTORY ?",
             "factory " + EIGHT, "Factory " + EIGHT, "FACTOR " + EIGHT, "FACTORYS " + EIGHT, "FACTORY " + "0" * 5000)

    def test_question_and_no_change(self):
        """What stands is shown by an event before and after."""
        lines, memory = filled(2048)
        record = record_bytes(changes={9: 0x35, 64: 1, 66: 2})
        stands = line(0, b"", record, memory, FRESH_ROOM)
        for text in self.LINES:
            answers = ask(*lines, "REC " + hexed(record), "EOF", text, "EOF")
            self.assertEqual(answers[3:], [stands, "?", stands], text[:40])

    def test_of_no_form_also_where_it_would_be_refused(self):
        stands = line(1, b"", START_RECORD, bytes(1), FRESH_ROOM)
        for text in self.LINES:
            self.assertEqual(ask("MEM 1", text, "EOF"), ["ok", "?", stands], text[:40])

    def test_of_the_form(self):
        self.assertEqual(ask("FACTORY " + self.EIGHT)[0][:6], "0 0 - ")
