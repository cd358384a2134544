"""The program casebook: a line a call, for any record, buffer size and frame."""

import re

from . import host
from .boundary import RECORD_BYTES, bytes_of_record, record_of_bytes
from .branches import hit
from .crc import crc
from .frame import UID_BYTES
from .lines import hex_of, is_hex
from .record import NoRecord, factory_record
from .search import search
from .sizes import LONGEST_ANSWER, SIZES, size_of_memory
from .tag import EOF, OFF, ON

MOST_MEMORY = 9000
MOST_ROOM = 11000
MOST_FRAME = 1100
MOST_IMAGE = 8300
MOST_UIDS = MOST_ENTRIES = 300
FRESH = b"\xEE"
FRESH_ENTRY = int.from_bytes(FRESH * UID_BYTES, "little")
EVENT_WORDS = {b"ON": ON, b"OFF": OFF, b"EOF": EOF}
NUMBER = re.compile(rb"0|[1-9][0-9]*")


class NoForm(Exception):
    """A line of no form; the text names what is wrong with it."""


class Casebook:
    """What the bench has lent: memory, room, and the record's 72 bytes as they stand."""

    def __init__(self):
        self.memory = bytearray(SIZES[0].memory_bytes)
        self.room = bytearray(FRESH * LONGEST_ANSWER)
        self.record = bytes_of_record(factory_record(0, SIZES[0]), SIZES[0])
        self.words = {b"MEM": self.lend_memory, b"ROOM": self.lend_room, b"REC": self.set_record,
                      b"PUT": self.put, b"REQ": self.request, b"LOAD": self.load, b"SAVE": self.save,
                      b"FACTORY": self.factory, b"SEARCH": self.search}

    def answer(self, line):
        """The answer line; 'A line of no such form answers `?` and changes nothing'."""
        try:
            return self.call(line)
        except NoForm as reason:
            word = line.partition(b" ")[0]
            hit(f"casebook.question.{word.decode('ascii') if word in self.words else 'line'}.{reason}")
            return "?"

    def call(self, line):
        """Finds the word of the line: 'followed by exactly one space, also where the bytes are none'."""
        if line in EVENT_WORDS:
            hit(f"casebook.{line.decode('ascii')}")
            return self.event(EVENT_WORDS[line])
        word, space, rest = line.partition(b" ")
        if not line or word not in self.words or not space:
            raise NoForm("empty" if not line else "no-space" if word in self.words else "word")
        answer = self.words[word](rest)
        hit(f"casebook.{word.decode('ascii')}")
        return answer

    def lend_memory(self, rest):
        """`MEM n`: n bytes of 0."""
        self.memory = bytearray(number_of(rest, MOST_MEMORY))
        return "ok"

    def lend_room(self, rest):
        """`ROOM n`: n bytes of EEh."""
        self.room = bytearray(FRESH * number_of(rest, MOST_ROOM))
        return "ok"

    def set_record(self, rest):
        """`REC hex`: exactly 72 bytes, kept as they stand."""
        data = bytes_of(rest, RECORD_BYTES)
        if len(data) != RECORD_BYTES:
            raise NoForm("record-short")
        self.record = data
        return "ok"

    def put(self, rest):
        """`PUT at hex`: bytes into the memory, within it."""
        at, digits = two_parts(rest)
        start = number_of(at, len(self.memory))
        data = bytes_of(digits, len(self.memory) - start)
        self.memory[start:start + len(data)] = data
        return "ok"

    def request(self, rest):
        """`REQ hex`: a frame as it stands, CRC included."""
        return self.event(bytes_of(rest, MOST_FRAME))

    def event(self, happening):
        """One event on what is lent."""
        result = host.event(self.read_record(), self.memory, self.room, happening)
        return self.report(result, self.room)

    def load(self, rest):
        """`LOAD hex`: does not look at the record that it replaces."""
        image = bytes_of(rest, MOST_IMAGE)
        return self.report(host.load(NoRecord("not looked at"), self.memory, image), self.room)

    def save(self, rest):
        """`SAVE n`: into an image of n bytes of EEh, which stands in the answer for the room."""
        image = bytearray(FRESH * number_of(rest, MOST_IMAGE))
        return self.report(host.save(self.read_record(), self.memory, image), image)

    def factory(self, rest):
        """`FACTORY hex`: '8 bytes, a UID as it travels'; does not look at the record that it replaces."""
        uid = bytes_of(rest, UID_BYTES)
        if len(uid) != UID_BYTES:
            raise NoForm("uid-short")
        result = host.factory(NoRecord("not looked at"), self.memory, int.from_bytes(uid, "little"))
        return self.report(result, self.room)

    def search(self, rest):
        """`SEARCH n hex`: a list of n fresh entries, and tags by their UIDs; nothing that is lent is looked at."""
        room, digits = two_parts(rest)
        entries = [FRESH_ENTRY] * number_of(room, MOST_ENTRIES)
        data = bytes_of(digits, UID_BYTES * MOST_UIDS)
        if len(data) % UID_BYTES:
            raise NoForm("uid-short")
        uids = [int.from_bytes(data[at:at + UID_BYTES], "little") for at in range(0, len(data), UID_BYTES)]
        found = search(uids, entries)
        as_bytes = b"".join(entry.to_bytes(UID_BYTES, "little") for entry in entries)
        shown = hex_of(as_bytes[:UID_BYTES * found.count]) or "-"
        return f"{found.number} {found.requests} {shown} {crc(as_bytes):04X}"

    def read_record(self):
        """The record of the 72 bytes; without a fitting memory there is none."""
        size = size_of_memory(len(self.memory))
        return record_of_bytes(self.record, size) if size else NoRecord("no size")

    def report(self, result, buffer):
        """'number length answer record memory room'; a refused call leaves the 72 bytes as they stand."""
        if result.number == host.NO_REFUSAL:
            self.record = bytes_of_record(result.record, size_of_memory(len(self.memory)))
        answer = hex_of(buffer[:result.length]) or "-"
        return (f"{shown_number(result)} {result.length} {answer} {hex_of(self.record)}"
                f" {crc(self.memory):04X} {crc(buffer):04X}")


def shown_number(result):
    """5a to 5e 'are printed with their place, also where it is 0'; the others have none."""
    return str(result.number) if result.place is None else f"{result.number:x}:{result.place}"


def two_parts(rest):
    """A number and the digits after the space behind it."""
    number, space, digits = rest.partition(b" ")
    if not space:
        raise NoForm("no-second-space")
    return number, digits


def number_of(text, most):
    """A decimal number without leading zero, at most `most`."""
    if not NUMBER.fullmatch(text):
        raise NoForm("number")
    if len(text) > len(str(most)) or int(text) > most:
        raise NoForm("number-over")
    return int(text)


def bytes_of(text, most):
    """Upper-case hex, at most `most` bytes."""
    if not is_hex(text):
        raise NoForm("digit")
    if len(text) % 2:
        raise NoForm("odd")
    if len(text) > 2 * most:
        raise NoForm("bytes-over")
    return bytes.fromhex(text.decode("ascii"))
