"""The listed commands, and checks 7 to 10."""

from typing import Callable, NamedTuple

from . import blocks, identity, passwords, registers
from .branches import hit
from .outcomes import SILENCE, error_frame, program, success_frame
from .record import SUCCESS, Record
from .sizes import BLOCK_BYTES, Size, size_of_memory

# Request flags of a command.
SELECT_FLAG = 0x10
ADDRESS_FLAG = 0x20
OPTION_FLAG = 0x40

INVENTORY = 0x01
STAY_QUIET = 0x02
SELECT = 0x25

# What Option_flag does to a command: error 03h, nothing, a status byte, or a held answer.
REFUSED, IGNORED, STATUS, HELD = "refused", "ignored", "status", "held"


class Tag(NamedTuple):
    """What a handler sees of the tag."""

    record: Record
    memory: bytearray
    size: Size


class Command(NamedTuple):
    """A listed command: the length its fields must have, its option rule, its handler."""

    length: Callable
    option: str
    handler: Callable


def fixed(length):
    """The length rule of a command whose fields never change in length."""
    return lambda fields: length


def counted(width):
    """24h and 34h: first block, count less one, and 4 bytes for each block counted."""
    def length(fields):
        if len(fields) < 2 * width:
            return 2 * width
        return 2 * width + BLOCK_BYTES * (blocks.number_at(fields, width, width) + 1)
    return length


COMMANDS = {
    STAY_QUIET: Command(fixed(0), IGNORED, identity.stay_quiet),
    0x20: Command(fixed(1), STATUS, blocks.read_one(1)),
    0x21: Command(fixed(5), HELD, blocks.write_one(1)),
    0x22: Command(fixed(1), HELD, blocks.lock(1)),
    0x23: Command(fixed(2), STATUS, blocks.read_many(1)),
    0x24: Command(counted(1), HELD, blocks.write_many(1)),
    SELECT: Command(fixed(0), REFUSED, identity.select),
    0x26: Command(fixed(0), REFUSED, identity.reset_to_ready),
    0x27: Command(fixed(1), HELD, identity.write_afi),
    0x28: Command(fixed(0), HELD, identity.lock_afi),
    0x29: Command(fixed(1), HELD, identity.write_dsfid),
    0x2A: Command(fixed(0), HELD, identity.lock_dsfid),
    0x2C: Command(fixed(2), REFUSED, blocks.status_list(1)),
    0x30: Command(fixed(2), STATUS, blocks.read_one(2)),
    0x31: Command(fixed(6), HELD, blocks.write_one(2)),
    0x32: Command(fixed(2), HELD, blocks.lock(2)),
    0x33: Command(fixed(4), STATUS, blocks.read_many(2)),
    0x34: Command(counted(2), HELD, blocks.write_many(2)),
    0x3C: Command(fixed(4), REFUSED, blocks.status_list(2)),
    0xA0: Command(fixed(1), REFUSED, registers.read_register),
    0xA1: Command(fixed(2), HELD, registers.write_register),
    0xB1: Command(fixed(9), HELD, passwords.write_password),
    0xB3: Command(fixed(9), REFUSED, passwords.present),
}


def execute(record, memory, flags, code, fields):
    """Checks 7 to 10, then the command; returns the next record and the answer."""
    command = COMMANDS.get(code)
    if command is None:
        hit(f"frame.unlisted.{'standard' if code < 0xA0 else 'custom' if code < 0xE0 else 'above-custom'}")
        return record, error_frame(0x02)
    length = command.length(fields)
    if len(fields) != length:
        hit(f"command.{code:02X}.{'short' if len(fields) < length else 'long'}")
        return record, SILENCE
    if code in (SELECT, STAY_QUIET) and not flags & ADDRESS_FLAG:
        hit(f"command.{code:02X}.not-addressed")
        return record, SILENCE
    option = bool(flags & OPTION_FLAG)
    if option and command.option == REFUSED:
        hit(f"command.{code:02X}.error-03")
        return record, error_frame(0x03)
    note_mode(record, flags, code)
    outcome = command.handler(Tag(record, memory, size_of_memory(len(memory))), fields, option)
    record = record._replace(**outcome.passing)
    for unit in outcome.work:
        record = program(record, memory, unit)
    return give(record, code, outcome, option, command.option)


def note_mode(record, flags, code):
    """Counts the command by addressing mode and state."""
    mode = "addressed" if flags & ADDRESS_FLAG else "select" if flags & SELECT_FLAG else "plain"
    hit(f"command.{code:02X}.{mode}.{record.state}")


def give(record, code, outcome, option, option_rule):
    """Answers at once, or 'holds the answer, error or success, until an end of frame gives it out'."""
    result = "success" if outcome.error == SUCCESS else f"error-{outcome.error:02X}"
    hit(f"command.{code:02X}.{'option-' if option else ''}{result}")
    if outcome.silent:
        return record, SILENCE
    if option and option_rule == HELD:
        return record._replace(held=outcome.error), SILENCE
    if outcome.error == SUCCESS:
        return record, success_frame(outcome.body)
    return record, error_frame(outcome.error)
