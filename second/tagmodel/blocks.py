"""Reads, status, writes and locks of blocks."""

from .branches import hit
from .outcomes import Outcome, Unit
from .record import LOCK_BLOCK
from .rights import area_of, block_locked, readable, status_of, writable
from .sizes import BLOCK_BYTES

MOST_BLOCKS_WRITTEN = 4
FIRST_BLOCK_BEYOND_ONE_BYTE = 0x100


def number_at(fields, place, width):
    """A field of one or two bytes; 'Fields of several bytes travel lowest byte first.'"""
    return int.from_bytes(fields[place:place + width], "little")


def first_outside(size, width):
    """The first block outside; 'For one-byte commands, outside begins also at block 100h.'"""
    return min(size.blocks, FIRST_BLOCK_BEYOND_ONE_BYTE) if width == 1 else size.blocks


def read_one(width):
    """Reads 20h and 30h: one block."""
    def handler(tag, fields, option):
        return read(tag, number_at(fields, 0, width), 1, width, option)
    return handler


def read_many(width):
    """Reads 23h and 33h: 'first block, then count less one, same width'."""
    def handler(tag, fields, option):
        return read(tag, number_at(fields, 0, width), number_at(fields, width, width) + 1, width, option)
    return handler


def read(tag, first, count, width, option):
    """'First block outside: 10h. First block not readable: 15h.' Otherwise the list."""
    if first >= first_outside(tag.size, width):
        hit("read.first-outside")
        return Outcome(error=0x10)
    if not readable(tag.record, first):
        hit("read.first-hidden")
        return Outcome(error=0x15)
    body = bytearray()
    for block in range(first, first + count):
        if cut(tag, block, width):
            break
        if option:
            body.append(status_of(tag.record, block))
        body += tag.memory[block * BLOCK_BYTES:(block + 1) * BLOCK_BYTES]
    else:
        hit("read.whole")
    return Outcome(body=bytes(body))


def cut(tag, block, width):
    """'the list stops before the first block that is outside or not readable'."""
    if block >= first_outside(tag.size, width):
        hit("read.cut-at-memory-end" if block == tag.size.blocks else "read.cut-at-100h")
        return True
    if not readable(tag.record, block):
        hit("read.cut-at-hidden")
        return True
    return False


def status_list(width):
    """2Ch and 3Ch 'give status bytes alone: outside answers 10h or cuts as above, readability does not'."""
    def handler(tag, fields, option):
        first = number_at(fields, 0, width)
        wanted = first + number_at(fields, width, width) + 1
        outside = first_outside(tag.size, width)
        if first >= outside:
            hit("status-list.first-outside")
            return Outcome(error=0x10)
        hit("status-list.whole" if wanted <= outside else "status-list.cut")
        return Outcome(body=bytes(status_of(tag.record, block) for block in range(first, min(wanted, outside))))
    return handler


def write_one(width):
    """Writes 21h and 31h: block, 4 bytes."""
    def handler(tag, fields, option):
        return write(tag, number_at(fields, 0, width), fields[width:], width)
    return handler


def write_many(width):
    """Writes 24h and 34h: first, count less one, data."""
    def handler(tag, fields, option):
        return write(tag, number_at(fields, 0, width), fields[2 * width:], width)
    return handler


def write(tag, first, data, width):
    """'count over 4 is 0Fh; any block outside 10h; area border crossed 0Fh; any block not writable or locked 12h'."""
    blocks = range(first, first + len(data) // BLOCK_BYTES)
    if len(blocks) > MOST_BLOCKS_WRITTEN:
        hit("write.count-over-4")
        return Outcome(error=0x0F)
    if blocks[-1] >= first_outside(tag.size, width):
        hit("write.first-outside" if first >= first_outside(tag.size, width) else "write.later-outside")
        return Outcome(error=0x10)
    if area_of(tag.record, first) != area_of(tag.record, blocks[-1]):
        hit("write.border")
        return Outcome(error=0x0F)
    if any(block_locked(tag.record, block) for block in blocks):
        hit("write.locked")
        return Outcome(error=0x12)
    if not all(writable(tag.record, block) for block in blocks):
        hit("write.not-writable")
        return Outcome(error=0x12)
    hit(f"write.done-{len(blocks)}")
    return Outcome(work=tuple(
        Unit("block", block, data[BLOCK_BYTES * n:BLOCK_BYTES * (n + 1)]) for n, block in enumerate(blocks)))


def lock(width):
    """Locks 22h and 32h: 'block over 1 is 10h; already locked 11h; not writable 14h'."""
    def handler(tag, fields, option):
        block = number_at(fields, 0, width)
        if block > 1:
            hit("lock.over-1")
            return Outcome(error=0x10)
        if block_locked(tag.record, block):
            hit(f"lock.already-{block}")
            return Outcome(error=0x11)
        if not writable(tag.record, block):
            hit("lock.not-writable")
            return Outcome(error=0x14)
        hit(f"lock.done-{block}")
        return Outcome(work=(Unit("lock", LOCK_BLOCK[block], 1),))
    return handler
