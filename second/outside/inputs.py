"""Inputs that no reader sends, as files."""

import os

from generator.dice import Dice
from generator.streams import casebook_pieces, tagrun_pieces

CHUNK = 1000000
WORDS = {
    "tagrun": (b"0", b"ON", b"EOF", b"02"),
    "casebook": (b"MEM 1", b"ROOM 9", b"SAVE 1", b"PUT 0 00", b"PUT 1", b"FACTORY 00", b"SEARCH 1", b"SEARCH 1 00",
                 b"REC 00", b"REQ 00", b"LOAD 00", b"ON"),
}
EVENTS = {"tagrun": b"022000\n", "casebook": b"EOF\n"}


def repeated(head, byte, count, tail):
    """`head`, one byte so many times, `tail`; never held whole."""
    yield head
    for _ in range(count // CHUNK):
        yield byte * CHUNK
    yield byte * (count % CHUNK)
    yield tail


def lone_bytes(dice):
    """Every byte value in order, sixteen times, then random bytes."""
    yield bytes(range(256)) * 16
    for _ in range(16):
        yield dice.bytes(16384)


def long_words(program):
    """Each word of the program with a million digits behind it, then an event that is of the form."""
    for word in WORDS[program]:
        yield word + b"0" * CHUNK + b"\n"
    yield b"ON\n" + EVENTS[program]


def session(program):
    """An ordinary run of the program, long enough to fill its buffers many times."""
    return casebook_pieces(2, 40) if program == "casebook" else tagrun_pieces(2, 4000)


def readable_inputs(program, long_line):
    """By name, the bytes of each input; `long_line` is the length of the longest line."""
    word = WORDS[program][-3 if program == "casebook" else -1]
    dice = Dice(1)
    return {
        "empty": [],
        "one newline": [b"\n"],
        "all byte values and random bytes": lone_bytes(dice),
        "one random line": [dice.bytes(40000).replace(b"\n", b"\r")],
        "NULs without newline": repeated(b"", b"\x00", CHUNK, b""),
        "lines of a NUL": [b"\x00\n" * 1000, b"ON\x00\n", b"ON\n", EVENTS[program]],
        "long words": long_words(program),
        "a very long line": repeated(word, b"0", long_line, b"\nON\n" + EVENTS[program]),
        "a very long line without newline": repeated(b"ON\n" + word, b"0", long_line, b""),
        "no newline at the end": [b"ON\n" + EVENTS[program][:-1]],
        "half a line": [b"ON\n" + EVENTS[program][:-2]],
        "CR LF": [b"ON\r\n", EVENTS[program][:-1] + b"\r\n", b"ON\n", EVENTS[program]],
        "CR alone": [b"ON\rEOF\r"],
        "only newlines": [b"\n" * 100000],
        "an ordinary run": session(program),
    }


def write_inputs(folder, program, long_line):
    """Writes each input to a file of the folder; returns the names and the files."""
    files = {}
    for number, (name, pieces) in enumerate(readable_inputs(program, long_line).items()):
        files[name] = os.path.join(folder, f"{program}-{number}")
        with open(files[name], "wb") as file:
            file.writelines(pieces)
    return files
