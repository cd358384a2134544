"""What a command comes to: its answer, the passing parts it changes, and its work on lasting parts."""

from typing import Any, Dict, NamedTuple, Tuple

from .crc import with_crc
from .record import SUCCESS
from .sizes import BLOCK_BYTES

SILENCE = b""


class Unit(NamedTuple):
    """One thing to be programmed: a block, a register, the AFI, the DSFID, a lock bit or a password."""

    part: str
    place: int
    value: Any


class Outcome(NamedTuple):
    """`error` is 0 for success; `body` follows the flags byte; `passing` names replaced passing parts."""

    error: int = SUCCESS
    body: bytes = b""
    silent: bool = False
    passing: Dict[str, Any] = {}
    work: Tuple[Unit, ...] = ()


def success_frame(body=b""):
    """'Success begins 00h', the CRC follows."""
    return with_crc(b"\x00" + body)


def error_frame(code):
    """'an error is 01h, code; CRC follows'."""
    return with_crc(bytes((0x01, code)))


def held_frame(held):
    """The frame of a held answer: 0 is success, else an error code."""
    return success_frame() if held == SUCCESS else error_frame(held)


def program(record, memory, unit):
    """Does one unit of work; the memory is changed in place, the next record returned."""
    if unit.part == "block":
        start = unit.place * BLOCK_BYTES
        memory[start:start + BLOCK_BYTES] = unit.value
        return record
    if unit.part == "register":
        return record.with_register(unit.place, unit.value)
    if unit.part == "lock":
        others = record.locks & ~unit.place
        return record._replace(locks=others | unit.place if unit.value else others)
    if unit.part == "password":
        return record.with_password(unit.place, unit.value)
    return record._replace(**{unit.part: unit.value})
