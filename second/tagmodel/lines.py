"""Programs that read lines and answer each with a line."""

import re

from .branches import hit

HEX_DIGITS = re.compile(rb"[0-9A-F]*")


def is_hex(text):
    """Whether the bytes are upper-case hex digits alone."""
    return HEX_DIGITS.fullmatch(text) is not None


def hex_of(data):
    """Bytes in upper-case hex."""
    return bytes(data).hex().upper()


def answer_lines(answer, source, sink):
    """Answers each line of `source`; 'Lines end in a newline; a last one may lack it.'"""
    line = None
    for line in source:
        ended = line.endswith(b"\n")
        sink.write(answer(line[:-1] if ended else line).encode("ascii") + b"\n")
        if not ended:
            hit("lines.last-without-newline")
    if line is None:
        hit("lines.empty-input")
