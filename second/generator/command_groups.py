"""Groups about commands: blocks, areas, passwords, registers, held answers, codes and lengths."""

from tagmodel import boundary, image
from tagmodel.record import ERROR_CODES
from tagmodel.sizes import SIZES

from . import fields, frames, scenes

READS = (0x20, 0x23, 0x30, 0x33)
WRITES = (0x21, 0x24, 0x31, 0x34)
# RFAiSS 08h to 0Fh hide an area without its session; 05h to 07h only keep it from writing.
HIDING = tuple(range(0x08, 0x10))
KEEPING = (0x05, 0x06, 0x07)


def walk(bench, variant):
    """A run of events of all kinds."""
    bench.open_scene()
    for _ in range(12):
        bench.any_event()


def each_mode(bench, variant):
    """Two commands in every state and mode, with and without Option_flag."""
    size = bench.open_scene()
    for step in range(2):
        code = fields.LISTED[(variant * 2 + step) % len(fields.LISTED)]
        for state in (scenes.READY, scenes.QUIET, scenes.SELECTED):
            for mode in (frames.PLAIN, frames.ADDRESSED, frames.SELECT_MODE, frames.ADDRESSED | frames.SELECT_MODE):
                record = scenes.plain(bench.dice, size)
                record[boundary.STATE] = state
                record[boundary.SESSION] = bench.dice.below(5)
                bench.set_record(record)
                bench.command(code, mode, option=False)
                bench.set_record(record)
                bench.command(code, mode, option=True)
                bench.say(b"EOF")


def memory_end(bench, variant):
    """Two-byte commands on the last block, on the first beyond it and over the end, with and without Option_flag."""
    size = SIZES[variant % 2]
    bench.lend(size)
    bench.set_record(scenes.plain(bench.dice, size))
    for code in (0x30, 0x31, 0x32, 0x33, 0x34, 0x3C):
        for first in (size.blocks - 1, size.blocks, bench.dice.choose([size.blocks + 1, size.blocks - 2, 0xFFFF])):
            rest = fields.fields_for(bench.dice, bench.record, code)[2:]
            body = first.to_bytes(2, "little") + rest
            bench.request(frames.command(code, body, option=bench.dice.one_in(2)))


def borders(bench, variant):
    """Reads, status and writes around area borders, with the sessions in turn."""
    size = SIZES[variant % 2]
    bench.lend(size)
    record = scenes.plain(bench.dice, size)
    record[boundary.SESSION] = variant // 2 % 5
    bench.fill(record)
    bench.set_record(record)
    for code in (0x20, 0x30, 0x23, 0x33, 0x2C, 0x3C, 0x21, 0x31, 0x24, 0x34, 0x24, 0x34, 0x33, 0x23):
        bench.command(code, frames.PLAIN)


def kept_areas(bench, variant):
    """Areas of eight blocks that no open session serves: reads and writes within them, with and without option."""
    size = SIZES[variant % 2]
    bench.lend(size)
    record = scenes.plain(bench.dice, size)
    record[image.LOCKS] = bench.dice.below(4)
    record[13], record[15], record[17] = 0, 1, 2
    for place in (12, 14, 16, 18):
        record[place] = bench.dice.choose(HIDING + KEEPING)
    record[boundary.SESSION] = bench.dice.choose([0, 0, 1, 2, 3, 4])
    bench.fill(record)
    for code in READS + WRITES:
        for option in (False, True):
            bench.set_record(record)
            block = bytes((bench.dice.choose([0, 1, 6, 7, 8, 12, 15, 16, 20, 23, 24, 30]),))
            rest = fields.fields_for(bench.dice, record, code)[2 if code >= 0x30 else 1:]
            wide = block + b"\x00" if code >= 0x30 else block
            bench.request(frames.command(code, wide + rest, option=option))


def passwords(bench, variant):
    """Presentations and new passwords, right and wrong, in turn."""
    bench.open_scene()
    for _ in range(12):
        bench.command(bench.dice.choose([0xB3, 0xB3, 0xB1]))


def present(bench, number):
    """The right password of this number."""
    record = bench.record
    body = bytes((number,)) + fields.password_of(record, number)
    bench.request(frames.command(0xB3, body, frames.ADDRESSED, fields.uid_of(record)))


def registers(bench, variant):
    """Register reads and writes with the configuration session open."""
    size = SIZES[variant % 2]
    bench.lend(size)
    record = scenes.plain(bench.dice, size)
    record[image.LOCKS] &= 0xFF if bench.dice.one_in(3) else 0x0F
    bench.set_record(record)
    present(bench, 0)
    for _ in range(14):
        bench.command(bench.dice.choose([0xA1, 0xA1, 0xA0]))


def area_orders(bench, variant):
    """Ends programmed in many orders, 003's own among them."""
    size = SIZES[variant % 2]
    bench.lend(size)
    record = scenes.plain(bench.dice, size)
    record[image.LOCKS] = 0
    record[boundary.SESSION] = 1
    bench.set_record(record)
    for _ in range(12):
        area = 1 + bench.dice.below(3)
        ends = fields.ends_of(bench.record)
        value = bench.dice.choose([size.last_end, size.last_end, ends[max(area - 2, 0)] + 1, ends[area - 1] - 1, 0,
                                   bench.dice.below(256)]) & 0xFF
        bench.request(frames.command(0xA1, bytes((2 * area + 3, value))))


def held_answers(bench, variant):
    """Write-like commands with Option_flag, and what may follow them."""
    code = fields.HELD_COMMANDS[variant % len(fields.HELD_COMMANDS)]
    for follow in (b"EOF", b"ON", b"OFF", None):
        bench.open_scene()
        if bench.dice.one_in(2):
            present(bench, bench.dice.below(4))
        bench.command(code, option=True)
        bench.say_or_any(follow)
        bench.say(b"EOF")
        bench.say(b"EOF")


def set_held_answers(bench, variant):
    """A record that already holds each answer there is."""
    size = bench.dice.choose(SIZES)
    bench.lend(size)
    for code in (0,) + ERROR_CODES:
        record = scenes.plain(bench.dice, size)
        record[boundary.STATE] = variant % 3
        scenes.set_held(record, code)
        bench.set_record(record)
        bench.say_or_any(None if bench.dice.one_in(4) else b"EOF")
        bench.say(b"EOF")


def identities(bench, variant):
    """AFI, DSFID, block locks and states."""
    bench.open_scene()
    for _ in range(12):
        bench.command(bench.dice.choose([0x27, 0x28, 0x29, 0x2A, 0x22, 0x32, 0x02, 0x25, 0x26, 0x21]))


def codes(bench, variant):
    """Thirty-two codes of all 256, with fields of some length and with none."""
    bench.open_scene()
    for code in range(variant % 8 * 32, variant % 8 * 32 + 32):
        manufacturer = bench.dice.choose([2, 2, 2, 0, 4, bench.dice.below(256)])
        mode = fields.heard_mode(bench.dice, bench.record, code)
        body = frames.command(code, bench.dice.bytes(bench.dice.below(10)), mode, fields.uid_of(bench.record),
                              bench.dice.one_in(2), manufacturer)
        bench.request(body)
        bench.request(body[:2])


def lengths(bench, variant):
    """Three commands with every length from none to two bytes too many."""
    for step in range(3):
        code = fields.LISTED[(variant * 3 + step) % len(fields.LISTED)]
        bench.open_scene()
        right = fields.fields_for(bench.dice, bench.record, code)
        for length in range(len(right) + 3):
            cut = (right + bench.dice.bytes(2))[:length]
            mode = fields.heard_mode(bench.dice, bench.record, code)
            bench.request(frames.command(code, cut, mode, fields.uid_of(bench.record), bench.dice.one_in(3)))


def many_blocks(bench, variant):
    """24h and 34h whose count and data agree or not, to the longest that a casebook frame can carry."""
    bench.open_scene(state=scenes.READY)
    for code, width in ((0x24, 1), (0x34, 2)):
        for counted, sent in ((4, 4), (5, 5), (5, 4), (4, 5), (256, 256), (256, 4), (1, 0)):
            body = bytes(width) + (counted - 1).to_bytes(width, "little") + bench.dice.bytes(4 * sent)
            bench.request(frames.command(code, body, option=bench.dice.one_in(3)))
