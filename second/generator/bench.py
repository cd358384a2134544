"""The bench on which a group of casebook lines is made."""

from tagmodel.boundary import FIELD
from tagmodel.casebook import Casebook
from tagmodel.crc import with_crc
from tagmodel.sizes import BLOCK_BYTES, LONGEST_ANSWER, SIZES

from . import fields, frames, scenes


def hexed(data):
    """Upper-case hex as a line holds it."""
    return bytes(data).hex().upper().encode("ascii")


def is_call(answer):
    """Whether this answer line is that of an event, a load, a save or a factory tag."""
    return answer not in ("ok", "?")


class Bench:
    """The lines so far. The model follows them, so that the next line can know the record."""

    def __init__(self, dice):
        self.dice = dice
        self.lines = []
        self.calls = 0
        self.bytes = 0
        self.casebook = Casebook()

    @property
    def record(self):
        """The 72 bytes as they stand."""
        return self.casebook.record

    def say(self, line):
        """One line, which the model follows; returns its answer. Bytes are counted in and out, with newlines."""
        answer = self.casebook.answer(line)
        self.lines.append(line)
        self.calls += is_call(answer)
        self.bytes += len(line) + len(answer) + 2
        return answer

    def lend(self, size, room=LONGEST_ANSWER):
        """Memory of this size and a room that suffices."""
        self.say(b"MEM %d" % size.memory_bytes)
        self.say(b"ROOM %d" % room)

    def fill(self, record):
        """Contents at the edges of the record's areas; once in four times every block holds its number."""
        length = len(self.casebook.memory)
        if self.dice.one_in(4):
            self.say(b"PUT 0 " + b"".join(b"%08X" % block for block in range(length // BLOCK_BYTES)))
        for end in sorted(set(fields.ends_of(record)) | {0, 31}):
            at = min(32 * end + 16, length - 48)
            self.say(b"PUT %d " % at + hexed(self.dice.bytes(48)))

    def set_record(self, record):
        """The record as 72 bytes."""
        self.say(b"REC " + hexed(record))

    def request(self, body):
        """A request with its right CRC."""
        self.say(b"REQ " + hexed(with_crc(body)))

    def command(self, code, mode=None, option=None):
        """A listed command with fields of the right length; in a mode that is heard unless one is given."""
        dice, record = self.dice, self.record
        mode = fields.heard_mode(dice, record, code) if mode is None else mode
        option = dice.one_in(3) if option is None else option
        body = frames.command(code, fields.fields_for(dice, record, code), mode, fields.uid_of(record), option)
        self.request(body)

    def say_or_any(self, line):
        """The line, or any event where there is none."""
        if line is None:
            self.any_event()
        else:
            self.say(line)

    def open_scene(self, state=None, size=None):
        """Buffers, contents and a sound record with the field on."""
        size = size or self.dice.choose(SIZES)
        record = scenes.sound(self.dice, size, state)
        self.lend(size, self.dice.choose([LONGEST_ANSWER, LONGEST_ANSWER, LONGEST_ANSWER + 1, 11000]))
        self.fill(record)
        self.set_record(record)
        return size

    def any_event(self):
        """One event, mostly a command that is heard."""
        dice, kind = self.dice, self.dice.below(20)
        if kind < 11:
            self.command(dice.choose(fields.LISTED))
        elif kind < 13:
            self.request(fields.asked_inventory(dice, self.record))
        elif kind < 16:
            self.say(dice.choose([b"EOF", b"EOF", b"EOF", b"ON", b"OFF"]))
            if not self.record[FIELD]:
                self.say(b"ON")
        else:
            self.damaged(dice.choose(fields.LISTED))

    def damaged(self, code):
        """A command or an Inventory with something wrong."""
        dice, record = self.dice, self.record
        body = frames.command(code, fields.fields_for(dice, record, code), fields.heard_mode(dice, record, code),
                              fields.uid_of(record), dice.one_in(3))
        if dice.one_in(4):
            body = fields.asked_inventory(dice, record)
        if dice.one_in(3):
            self.say(b"REQ " + hexed(frames.damage_frame(dice, with_crc(body))))
        else:
            self.request(frames.damage_bytes(dice, body))
