"""The session program tagrun."""

from . import host
from .branches import hit
from .crc import with_crc
from .lines import hex_of, is_hex
from .record import factory_record
from .sizes import LONGEST_ANSWER, SIZES
from .tag import EOF, OFF, ON

SESSION_UID = 0xE002230401D6C8F0
FEWEST_DIGITS, MOST_DIGITS = 2, 128
HIGHEST_LINE_NUMBER = 2 ** 64 - 1
WORDS = {b"ON": ON, b"OFF": OFF, b"EOF": EOF}


class Session:
    """'`tagrun` starts with a factory 16 Kbit tag of UID E0 02 23 04 01 D6 C8 F0.'"""

    def __init__(self):
        self.record = factory_record(SESSION_UID, SIZES[0])
        self.memory = bytearray(SIZES[0].memory_bytes)
        self.room = bytearray(LONGEST_ANSWER)
        self.number = 0

    def answer(self, line):
        """'line number from 1 in decimal, a space, then the whole answer in hex, `-` for silence, or `?`'."""
        self.number = min(self.number + 1, HIGHEST_LINE_NUMBER)
        event = event_of(line)
        return f"{self.number} {'?' if event is None else self.happen(event)}"

    def happen(self, event):
        """One event; a session never meets a refusal."""
        result = host.event(self.record, self.memory, self.room, event)
        self.record = result.record
        return hex_of(self.room[:result.length]) or "-"


def event_of(line):
    """'ON, OFF, EOF, or a request in upper-case hex without CRC, 2 to 128 digits, an even number'; else None."""
    if line in WORDS:
        hit(f"tagrun.{WORDS[line]}")
        return WORDS[line]
    fault = request_fault(line)
    if fault:
        hit(f"tagrun.question.{fault}")
        return None
    hit("tagrun.request")
    return with_crc(bytes.fromhex(line.decode("ascii")))


def request_fault(line):
    """Why a line is no request, or None."""
    if len(line) < FEWEST_DIGITS:
        return "short" if line else "empty"
    if len(line) > MOST_DIGITS:
        return "long"
    if not is_hex(line):
        return "digit"
    return "odd" if len(line) % 2 else None
