"""What the tests share. Expected bytes come from document 01, its sources, or work shown beside them."""

import os
import subprocess
import sys

from tagmodel import host
from tagmodel.crc import crc_by_bits
from tagmodel.record import Record
from tagmodel.sizes import SIZES
from worked import examples

FOLDER = os.path.dirname(os.path.dirname(os.path.realpath(__file__)))
SMALL, LARGE = SIZES

UID_TEXT = examples.UID  # document 001, lowest byte first
UID = 0xE002230401D6C8F0
OTHER_UID_TEXT = "F1C8D601042302E0"

SILENT = b""
OK = bytes.fromhex("0078F0")  # document 01: CRC of 00 is 78 F0


def framed(text):
    """Bytes in hex with their CRC, worked bit by bit, low byte first."""
    body = bytes.fromhex(text)
    return body + crc_by_bits(body).to_bytes(2, "little")


def error(code):
    """'an error is 01h, code; CRC follows'."""
    return framed(f"01{code:02X}")


def registers(size, ends=(None, None, None), protections=(0, 0, 0, 0)):
    """The seven registers in their order; None stands for E."""
    first, second, third = (size.last_end if end is None else end for end in ends)
    return (protections[0], first, protections[1], second, protections[2], third, protections[3])


class Tag:
    """A tag on the bench with its memory and room; the field is on unless told otherwise."""

    def __init__(self, size=SMALL, ends=(None, None, None), protections=(0, 0, 0, 0), **parts):
        self.size = size
        self.record = Record(uid=UID, afi=0, dsfid=0, locks=0, registers=registers(size, ends, protections),
                             passwords=(0, 0, 0, 0), field=True)._replace(**parts)
        self.memory = bytearray(size.memory_bytes)
        self.room = bytearray(b"\xEE" * 10243)

    def happen(self, event):
        """The answer to one event that is not refused."""
        result = host.event(self.record, self.memory, self.room, event)
        assert result.number == 0, result
        self.record = result.record
        return bytes(self.room[:result.length])

    def send(self, text):
        """A request in hex without CRC."""
        return self.happen(framed(text))

    def block(self, number):
        """Four bytes of the memory."""
        return bytes(self.memory[4 * number:4 * number + 4])

    def number_blocks(self):
        """Writes into each block its own number, so that blocks can be told apart."""
        for number in range(self.size.blocks):
            self.memory[4 * number:4 * number + 4] = number.to_bytes(4, "big")


def numbered(*blocks):
    """The contents, in hex, of blocks that hold their own number."""
    return "".join(f"{block:08X}" for block in blocks)


def record_bytes(mark=1, ends=(63, 63, 63), protections=(0, 0, 0, 0), changes=None):
    """72 bytes by the places of CASEBOOK.md: a tag with the field off; `changes` sets bytes by place."""
    size = examples.SMALL._replace(mark=mark)
    return bytes.fromhex(examples.record_text(size, ends, protections, changes=changes))


def run_program(name, stream, *arguments):
    """The output of one of the programs of this folder, run from another folder."""
    done = subprocess.run([sys.executable, os.path.join(FOLDER, name), *arguments], input=stream, cwd="/",
                          stdout=subprocess.PIPE, stderr=subprocess.PIPE, check=False)
    return done.returncode, done.stdout
