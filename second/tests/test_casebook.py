"""The program casebook, by the words of CASEBOOK.md."""

import unittest

from tagmodel.casebook import Casebook
from tagmodel.crc import crc_by_bits

from .support import OK, framed, record_bytes, run_program

START_RECORD = bytes.fromhex("01" + "00" * 11 + "003F003F003F00" + "00" * 53)


def crc_text(data):
    """Four hex digits, high first."""
    return f"{crc_by_bits(data):04X}"


def hexed(data):
    return bytes(data).hex().upper()


def line(number, answer, record, memory, room):
    """An answer line; answer, memory and room are given as bytes."""
    return f"{number} {len(answer)} {hexed(answer) or '-'} {hexed(record)} {crc_text(memory)} {crc_text(room)}"


def ask(*lines):
    book = Casebook()
    return [book.answer(each.encode("latin-1")) for each in lines]


FRESH_ROOM = b"\xEE" * 10243
OFF_MEMORY = bytes(2048)


class Start(unittest.TestCase):
    def test_what_stands(self):
        """Memory 2,048 bytes of 0, room 10,243 bytes of EEh, factory 16 Kbit tag with UID 0."""
        self.assertEqual(len(START_RECORD), 72)
        self.assertEqual(ask("EOF"), [line(0, b"", START_RECORD, OFF_MEMORY, FRESH_ROOM)])

    def test_save_at_the_start(self):
        image = START_RECORD[:64] + OFF_MEMORY
        self.assertEqual(ask("SAVE 2112"), [line(0, image, START_RECORD, OFF_MEMORY, image)])


class Calls(unittest.TestCase):
    ON_RECORD = START_RECORD[:64] + bytes.fromhex("0100000000000000")

    def test_inventory_of_uid_0(self):
        """Room: the answer, then EEh as before; the next shorter answer leaves the rest of the first."""
        first, room = framed("00" * 10), bytearray(FRESH_ROOM)
        room[:12] = first
        answers = ask("ON", "REQ " + hexed(framed("260100")), "REQ " + hexed(framed("0226")))
        self.assertEqual(answers[0], line(0, b"", self.ON_RECORD, OFF_MEMORY, FRESH_ROOM))
        self.assertEqual(answers[1], line(0, first, self.ON_RECORD, OFF_MEMORY, room))
        room[:3] = OK
        self.assertEqual(answers[2], line(0, OK, self.ON_RECORD, OFF_MEMORY, room))

    def test_write_and_memory_crc(self):
        memory = bytearray(2048)
        memory[0:4] = bytes.fromhex("A1A2A3A4")
        room = OK + FRESH_ROOM[3:]
        answers = ask("ON", "REQ " + hexed(framed("022100A1A2A3A4")))
        self.assertEqual(answers[1], line(0, OK, self.ON_RECORD, memory, room))

    def test_put_and_read(self):
        memory = bytearray(2048)
        memory[2044:] = bytes.fromhex("01020304")
        answer = framed("0001020304")
        answers = ask("ON", "PUT 2044 01020304", "REQ " + hexed(framed("0230FF01")))
        self.assertEqual(answers[1:], ["ok", line(0, answer, self.ON_RECORD, memory, answer + FRESH_ROOM[7:])])

    def test_lend_and_refuse(self):
        record = START_RECORD
        self.assertEqual(ask("MEM 0", "ON"), ["ok", line(1, b"", record, b"", FRESH_ROOM)])
        self.assertEqual(ask("MEM 9000", "ON"), ["ok", line(1, b"", record, bytes(9000), FRESH_ROOM)])
        self.assertEqual(ask("ROOM 10242", "ON"), ["ok", line(2, b"", record, OFF_MEMORY, FRESH_ROOM[:-1])])
        self.assertEqual(ask("ROOM 0", "ON"), ["ok", line(2, b"", record, OFF_MEMORY, b"")])
        on_room = b"\xEE" * 11000
        self.assertEqual(ask("ROOM 11000", "ON"), ["ok", line(0, b"", self.ON_RECORD, OFF_MEMORY, on_room)])

    def test_size_mark_must_fit_the_memory(self):
        self.assertEqual(ask("MEM 8192", "ON"), ["ok", line(3, b"", START_RECORD, bytes(8192), FRESH_ROOM)])
        image = b"\xEE" * 8256
        self.assertEqual(ask("MEM 8192", "SAVE 8256"), ["ok", line(3, b"", START_RECORD, bytes(8192), image)])

    def test_record_is_kept_as_it_stands(self):
        """72 bytes of FFh are no record: events 3, save 3, after 1, 2 and 4, 1."""
        no_record = b"\xFF" * 72
        rec = "REC " + "FF" * 72
        self.assertEqual(ask(rec, "EOF"), ["ok", line(3, b"", no_record, OFF_MEMORY, FRESH_ROOM)])
        self.assertEqual(ask(rec, "MEM 1", "ROOM 1", "EOF")[3], line(1, b"", no_record, bytes(1), b"\xEE"))
        self.assertEqual(ask(rec, "ROOM 1", "EOF")[2], line(2, b"", no_record, OFF_MEMORY, b"\xEE"))
        self.assertEqual(ask(rec, "SAVE 5")[1], line(4, b"", no_record, OFF_MEMORY, b"\xEE" * 5))
        self.assertEqual(ask(rec, "SAVE 8256")[1], line(1, b"", no_record, OFF_MEMORY, b"\xEE" * 8256))
        self.assertEqual(ask(rec, "SAVE 2112")[1], line(3, b"", no_record, OFF_MEMORY, b"\xEE" * 2112))

    def test_load_does_not_look_at_the_record(self):
        record = record_bytes()
        contents = bytes(range(256)) * 8
        answers = ask("REC " + "FF" * 72, "LOAD " + hexed(record[:64] + contents), "LOAD ", "LOAD 00")
        self.assertEqual(answers[1], line(0, b"", record, contents, FRESH_ROOM))
        self.assertEqual(answers[2:], [line(4, b"", record, contents, FRESH_ROOM)] * 2)

    def test_refused_loads(self):
        no_record = b"\xFF" * 72
        image = bytearray(record_bytes()[:64] + OFF_MEMORY)
        image[0] = 2
        answers = ask("REC " + "FF" * 72, "LOAD " + hexed(image), "MEM 8192", "LOAD " + hexed(image))
        self.assertEqual(answers[1], line("5a:0", b"", no_record, OFF_MEMORY, FRESH_ROOM))
        self.assertEqual(answers[3], line(1, b"", no_record, bytes(8192), FRESH_ROOM))

    def test_save_shows_the_image_and_leaves_the_room(self):
        image = START_RECORD[:64] + OFF_MEMORY
        answers = ask("ON", "SAVE 2112", "EOF")
        self.assertEqual(answers[1], line(0, image, self.ON_RECORD, OFF_MEMORY, image))
        self.assertEqual(answers[2], line(0, b"", self.ON_RECORD, OFF_MEMORY, FRESH_ROOM))

    def test_empty_frame_drops(self):
        held = record_bytes(changes={64: 1, 70: 1})
        answers = ask("REC " + hexed(held), "REQ ")
        self.assertEqual(answers[1], line(0, b"", record_bytes(changes={64: 1}), OFF_MEMORY, FRESH_ROOM))

    def test_longest_frame(self):
        self.assertEqual(ask("REQ " + "00" * 1100), [line(0, b"", START_RECORD, OFF_MEMORY, FRESH_ROOM)])


class NoForm(unittest.TestCase):
    LINES = ("", " ", "on", "ON ", " ON", "ON\r", "EOF\x00", "HELLO", "022000",
             "MEM", "MEM ", "MEM  1", "MEM 01", "MEM 00", "MEM 9001", "MEM -1", "MEM +1", "MEM 1 ", "MEM A", "MEM \xB2",
             "ROOM 11001", "ROOM 0x1", "SAVE 8301", "SAVE 02112", "SAVE " + "1" * 5000,
             "REC", "REC ", "REC " + "00" * 71, "REC " + "00" * 73, "REC " + "00" * 71 + "0", "REC " + "0a" * 72,
             "REQ", "REQ 0", "REQ 0G", "REQ  00", "REQ 00 ", "REQ " + "00" * 1101,
             "LOAD", "LOAD 0", "LOAD zz", "LOAD " + "00" * 8301,
             "PUT", "PUT ", "PUT 0", "PUT 00 00", "PUT 0 0", "PUT 0 0g", "PUT 0  00", "PUT 2048 00", "PUT 2047 0000",
             "PUT 2049 ", "PUT x 00", "PUT 0 00 ", "PUT 99999999999999999999 00")

    def test_question_and_no_change(self):
        for text in self.LINES:
            answers = ask(text, "EOF")
            self.assertEqual(answers, ["?", line(0, b"", START_RECORD, OFF_MEMORY, FRESH_ROOM)], text[:30])

    def test_last_of_the_form(self):
        for text in ("MEM 9000", "MEM 0", "ROOM 11000", "ROOM 0", "PUT 2047 FF", "PUT 0 " + "FF" * 2048, "PUT 0 ",
                     "PUT 2048 ", "REC " + "00" * 72):
            self.assertEqual(ask(text), ["ok"], text[:30])
        for text in ("SAVE 0", "SAVE 8300", "LOAD ", "LOAD " + "00" * 8300):
            self.assertEqual(ask(text)[0][:6], "4 0 - ", text[:30])


class Program(unittest.TestCase):
    def test_lines(self):
        answer = line(0, b"", START_RECORD, OFF_MEMORY, FRESH_ROOM).encode("ascii")
        self.assertEqual(run_program("casebook", b""), (0, b""))
        self.assertEqual(run_program("casebook", b"EOF"), (0, answer + b"\n"))
        self.assertEqual(run_program("casebook", b"EOF\n"), (0, answer + b"\n"))
        self.assertEqual(run_program("casebook", b"\nEOF\r\nEOF"), (0, b"?\n?\n" + answer + b"\n"))
        self.assertEqual(run_program("casebook", b"\xFF\x00\x80\n" + b"REQ " + b"0" * 2000000), (0, b"?\n?\n"))
