"""Lines for tagrun: one long session on one tag."""

from tagmodel.boundary import FIELD, HELD, ROUND, bytes_of_record
from tagmodel.session import MOST_DIGITS, Session
from tagmodel.sizes import size_of_memory

from . import fields, frames
from .dice import Dice
from .noforms import tagrun_no_form_lines

# Commands by how often they come; what locks for good comes seldom.
COMMON = (0x20, 0x21, 0x23, 0x24, 0x25, 0x26, 0x27, 0x29, 0x2C, 0x30, 0x31, 0x33, 0x34, 0x3C, 0xA0, 0xA1, 0xA1, 0xA1,
          0xB1, 0xB3, 0xB3, 0xB3)
SELDOM = (0x02, 0x22, 0x28, 0x2A, 0x32)
MODES = (frames.PLAIN, frames.ADDRESSED, frames.SELECT_MODE, frames.ADDRESSED | frames.SELECT_MODE)


def command_line(dice, record):
    """A command that is mostly heard; at times damaged, in any mode, for another tag or of any code."""
    code = dice.choose(SELDOM) if dice.one_in(40) else dice.choose(COMMON)
    mode, uid = fields.heard_mode(dice, record, code), fields.uid_of(record)
    chosen = command_fields(dice, record, code)
    kind = dice.below(40)
    if kind == 0:
        mode = dice.choose(MODES)
    elif kind == 1:
        uid = bytes((uid[0] ^ 1,)) + uid[1:]
    elif kind == 2:
        code = dice.below(256)
    elif kind == 3:
        code, mode, chosen = dice.choose((0x02, 0x25)), dice.choose(MODES), b""
    body = frames.command(code, chosen, mode, uid, dice.one_in(4))
    return frames.damage_bytes(dice, body) if dice.one_in(12) else body


def command_fields(dice, record, code):
    """Fields of the right length; LOCK_CFG is set only once in 200 times that it is chosen."""
    chosen = fields.fields_for(dice, record, code)
    if code == 0xA1 and chosen == b"\x0F\x01" and dice.below(200):
        return b"\x0F\x00"
    return chosen


def next_line(dice, session):
    """One line, from the record as it stands in the session."""
    record = bytes_of_record(session.record, size_of_memory(len(session.memory)))
    if record[ROUND] and dice.below(12) or record[HELD] and dice.one_in(2):
        return b"EOF"
    kind = dice.below(40)
    if kind == 0:
        return dice.choose(tagrun_no_form_lines(dice))
    if kind == 1 or not record[FIELD] and dice.one_in(2):
        return dice.choose([b"ON", b"ON", b"OFF", b"EOF"])
    return request_line(dice, record, kind)


def request_line(dice, record, kind):
    """An Inventory, the configuration password, or a command, as hex digits."""
    if kind < 6:
        body = fields.asked_inventory(dice, record)
        body = frames.damage_bytes(dice, body) if dice.one_in(6) else body
    elif kind < 9:
        body = frames.command(0xB3, b"\x00" + fields.password_of(record, 0), frames.ADDRESSED, fields.uid_of(record))
    else:
        body = command_line(dice, record)
    return body.hex().upper().encode("ascii")[:MOST_DIGITS]


def tagrun_lines(seed, count):
    """So many lines, one by one; the model follows them, so that passwords and areas are known."""
    dice, session = Dice(seed), Session()
    for _ in range(count):
        line = next_line(dice, session)
        session.answer(line)
        yield line
