"""Images to try the tool on, and the second model over them."""

import io
import re

from generator import scenes
from generator.dice import Dice
from generator.noforms import tagrun_no_form_lines
from generator.tagrun_cases import next_line
from tagmodel import host
from tagmodel.lines import answer_lines
from tagmodel.session import Session
from tagmodel.sizes import HEADER_BYTES, SIZES, size_of_image

from .tool_runs import KEPT, said

SESSION_UID = "E002230401D6C8F0"
PASSWORDS = slice(19, 51)
WORDS = {SIZES[0]: "16", SIZES[1]: "64"}  # the tool's words for the two sizes
STANDARD_INPUT = "standard input"
# 'ON, OFF, EOF, or a request in upper-case hex without CRC, 2 to 128 digits, an even number'
FORM = re.compile(rb"ON|OFF|EOF|([0-9A-F]{2}){1,64}")
LONGEST_WITH_CR = 129  # the longest request, and a carriage return behind it
PIECE = 65536
CARRIAGE_RETURN = ", which ends in a carriage return"
FORMS = "; a line is ON, OFF, EOF or upper-case hex, 2 to 128 digits, an even number, and ends in a newline alone"


def factory_image(size, uid=SESSION_UID):
    """01's image of a factory tag: mark, UID lowest byte first, AFI, DSFID, locks; RFAiSS 0 and ENDAi E; all else 0."""
    end = size.last_end
    registers = bytes((0, end, 0, end, 0, end, 0))
    image = bytes((size.mark,)) + bytes.fromhex(uid)[::-1] + bytes(3) + registers
    return image.ljust(size.image_bytes, b"\x00")


# Files that an image may replace, by their length alone; and files that it may not.
REPLACED = (factory_image(SIZES[0], "0123456789ABCDEF"), KEPT.ljust(SIZES[1].image_bytes, b"!"), b"")
NOT_REPLACED = {
    "a note": KEPT, "a session": b"ON\n022100A1A2A3A4\n", "one byte": b"\x00", "2,111 bytes": REPLACED[0][:-1],
    "2,113 bytes": REPLACED[0] + b"\x00", "8,255 bytes": REPLACED[1][:-1], "8,257 bytes": REPLACED[1] + b"\x00"}


def any_image(dice, size):
    """A sound header with four passwords that are not plain, and contents at both ends of the memory."""
    header = bytearray(scenes.lasting(dice, size)[:HEADER_BYTES])
    header[PASSWORDS] = dice.bytes(32)
    middle = bytes(size.memory_bytes - 512)
    return bytes(header) + dice.bytes(256) + middle + dice.bytes(256)


def refusal(image):
    """The number with which loading refuses an image, 0 for none; the host lends memory that fits its length."""
    size = size_of_image(len(image)) or SIZES[0]
    return host.load(None, bytearray(size.memory_bytes), image).number


class ImageSession(Session):
    """tagrun's lines over the tag of an image, the field off at the start."""

    def __init__(self, image):
        super().__init__()
        self.memory = bytearray(len(image) - HEADER_BYTES)
        self.record = host.load(None, self.memory, image).record

    def image(self):
        """The image that is saved: lasting parts alone."""
        image = bytearray(HEADER_BYTES + len(self.memory))
        host.save(self.record, self.memory, image)
        return bytes(image)


def followed(image, stream):
    """What the second model answers to a stream over this image, and the image it leaves."""
    session, sink = ImageSession(image), io.BytesIO()
    answer_lines(session.answer, io.BytesIO(stream), sink)
    return sink.getvalue(), session.image()


def starts_of_lines(source):
    """The lines of a file without their newlines; of a line that is too long for any form, the beginning."""
    cut = LONGEST_WITH_CR + 2
    start = source.readline(cut)
    while start:
        piece = start
        while piece and not piece.endswith(b"\n"):
            piece = source.readline(PIECE)
        yield start[:-1] if start.endswith(b"\n") else start
        start = source.readline(cut)


def of_no_form(name, text):
    """The line on a session's lines of no form, with how many they are and which is the first."""
    return said(f"{name}: lines of no form: {text}{FORMS}")


def no_form_line(source, name=STANDARD_INPUT):
    """What is said of the lines of no form of a session, a file or bytes: how many, and which is the first; or b''."""
    wrong = number = 0
    first = ""
    for number, line in enumerate(starts_of_lines(io.BytesIO(source) if isinstance(source, bytes) else source), 1):
        if not FORM.fullmatch(line):
            wrong += 1
            has_cr = len(line) <= LONGEST_WITH_CR and line.endswith(b"\r")
            first = first or f"line {number}" + (CARRIAGE_RETURN if has_cr else "")
    return of_no_form(name, f"{wrong} of {number}, the first is {first}") if wrong else b""


def any_stream(dice, image, count, newline=True):
    """So many lines on this image, one at least of no form; the model follows them, so that passwords are known."""
    session, lines = ImageSession(image), [b"ON"]
    session.answer(b"ON")
    while len(lines) < count:
        lines.append(next_line(dice, session))
        session.answer(lines[-1])
    lines.insert(dice.below(count), dice.choose(tagrun_no_form_lines(Dice(dice.below(1000)))))
    return b"\n".join(lines) + (b"\n" if newline else b"")
