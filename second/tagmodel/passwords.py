"""Presenting and writing passwords."""

from .branches import hit
from .outcomes import Outcome, Unit

HIGHEST_NUMBER = 3


def present(tag, fields, option):
    """'number over 3 is 10h, sessions unchanged. Wrong value: 0Fh, no session open.

    Right: that session alone is open.'
    """
    number, value = fields[0], int.from_bytes(fields[1:], "little")
    if number > HIGHEST_NUMBER:
        hit("present.number-over-3")
        return Outcome(error=0x10)
    before = "none" if tag.record.session is None else "same" if tag.record.session == number else "another"
    if value != tag.record.passwords[number]:
        hit(f"present.wrong.{before}-open")
        return Outcome(error=0x0F, passing={"session": None})
    hit(f"present.right.{before}-open")
    return Outcome(passing={"session": number})


def write_password(tag, fields, option):
    """'number over 3 is 10h; its session not open 0Fh; otherwise replaced, session kept'."""
    number, value = fields[0], int.from_bytes(fields[1:], "little")
    if number > HIGHEST_NUMBER:
        hit("write-password.number-over-3")
        return Outcome(error=0x10)
    if tag.record.session != number:
        hit("write-password.none-open" if tag.record.session is None else "write-password.another-open")
        return Outcome(error=0x0F)
    hit(f"write-password.done-{number}")
    return Outcome(work=(Unit("password", number, value),))
