"""Groups about host calls: broken records, unsuitable buffers, images, factory tags, and lines of no form."""

from tagmodel import boundary
from tagmodel.casebook import MOST_IMAGE
from tagmodel.crc import with_crc
from tagmodel.sizes import LONGEST_ANSWER, SIZES

from . import frames, scenes
from .bench import hexed
from .noforms import factory_no_form_lines, no_form_lines

MEMORY_LENGTHS = (0, 1, 2047, 2049, 2112, 8191, 8193, 9000)
ROOM_LENGTHS = (0, 1, 10242, 2048)
READ_BLOCK_0 = bytes.fromhex("022000")
IMAGE_LENGTHS = (0, 1, 64, 2048, 2111, 2113, 8192, 8255, 8257, 8300)


def event_on(bench):
    """One event on what stands; returns its answer."""
    return bench.say(bench.dice.choose([b"ON", b"OFF", b"EOF", b"REQ " + hexed(with_crc(READ_BLOCK_0))]))


def calls_on(bench, size):
    """One event and one save on what stands."""
    event_on(bench)
    bench.say(b"SAVE %d" % size.image_bytes)


def broken_records(bench, variant):
    """Records that break one rule each; then the last with other faults beside it."""
    turn, size = variant * 3 // len(scenes.RECORD_BREAKS), SIZES[0]
    if turn % 2:
        size = bench.dice.choose(SIZES)
    bench.lend(size)
    for step in range(3):
        record = scenes.plain(bench.dice, size)
        scenes.RECORD_BREAKS[(variant * 3 + step) % len(scenes.RECORD_BREAKS)](record)
        bench.set_record(record)
        calls_on(bench, size)
    bench.say(b"ROOM %d" % bench.dice.choose(ROOM_LENGTHS))
    calls_on(bench, size)
    bench.say(b"MEM %d" % bench.dice.choose(MEMORY_LENGTHS))
    calls_on(bench, size)


def broken_bytes(bench, variant):
    """Three bytes of the 72, one at a time, out of their range or at any value; a save where the event is refused.

    A save that succeeds answers a whole image, so it comes only once in twelve times.
    """
    size = bench.dice.choose(SIZES)
    bench.lend(size)
    for step in range(3):
        place = (3 * variant + step) % boundary.RECORD_BYTES
        for value in (0, 1, 3, 5, 16, 61, 64, 0x80, 0xFF, bench.dice.below(256)):
            record = scenes.sound(bench.dice, size)
            record[place] = value
            bench.set_record(record)
            if event_on(bench).startswith("3 ") or bench.dice.one_in(12):
                bench.say(b"SAVE %d" % size.image_bytes)


def buffers(bench, variant):
    """Memory, room and image lengths that suit and that do not, half of the time with a broken record."""
    size = bench.dice.choose(SIZES)
    record = scenes.sound(bench.dice, size)
    if bench.dice.one_in(2):
        bench.dice.choose(scenes.RECORD_BREAKS)(record)
    bench.set_record(record)
    for _ in range(6):
        bench.say(b"MEM %d" % bench.dice.choose(MEMORY_LENGTHS + (2048, 2048, 8192, 8192)))
        bench.say(b"ROOM %d" % bench.dice.choose(ROOM_LENGTHS + (LONGEST_ANSWER, LONGEST_ANSWER, 11000)))
        calls_on(bench, size)
        bench.say(b"SAVE %d" % bench.dice.choose(IMAGE_LENGTHS + (2112, 8256)))
        length = bench.dice.choose(IMAGE_LENGTHS + (2112, 2112, 8256))
        bench.say(b"LOAD " + hexed((record[:64] + bytes(MOST_IMAGE))[:length]))
        if bench.dice.one_in(2):
            bench.set_record(record)


def images(bench, variant):
    """Images with one fault each; then a sound one, loaded, saved, and loaded where it may not fit."""
    size = SIZES[0] if variant % 6 else SIZES[1]
    bench.open_scene(size=size)
    contents = bench.dice.bytes(32) + bytes(size.memory_bytes - 64) + bench.dice.bytes(32)
    header = scenes.lasting(bench.dice, size)[:64]
    for step in range(3):
        broken = bytearray(header)
        scenes.HEADER_BREAKS[(variant * 3 + step) % len(scenes.HEADER_BREAKS)](broken)
        bench.say(b"LOAD " + hexed(broken + contents))
    bench.say(b"LOAD " + hexed(header + contents))
    bench.say(b"SAVE %d" % size.image_bytes)
    bench.say(b"ON")
    bench.any_event()
    bench.say(b"SAVE %d" % size.image_bytes)
    bench.say(b"MEM %d" % bench.dice.choose((2048, 8192) + MEMORY_LENGTHS))
    bench.say(b"LOAD " + hexed(bench.dice.choose([header, broken]) + contents))


def no_forms(bench, variant):
    """Lines of no form between calls; they change nothing."""
    bench.open_scene(size=SIZES[0])
    for line in no_form_lines(bench.dice, len(bench.casebook.memory)):
        bench.say(line)
    bench.any_event()
    bench.say(b"SAVE 2112")


def make_factory_tag(bench):
    """FACTORY with any UID, or with one whose bytes are known."""
    uids = [bench.dice.bytes(8), bench.dice.bytes(8), scenes.SESSION_UID, bytes(8), b"\xFF" * 8]
    bench.say(b"FACTORY " + hexed(bench.dice.choose(uids)))


def set_no_record(bench):
    """72 bytes that are no record: one rule broken, all FFh, or any bytes."""
    record = scenes.plain(bench.dice, SIZES[0])
    bench.dice.choose(scenes.RECORD_BREAKS)(record)
    bench.set_record(bench.dice.choose([record, record, b"\xFF" * boundary.RECORD_BYTES,
                                        bench.dice.bytes(boundary.RECORD_BYTES)]))


def factory_tags(bench, variant):
    """Factory tags over a tag in use and over what is no record, in any room; refused ones; lines of no form."""
    size = SIZES[variant % 2]
    bench.open_scene(size=size)
    bench.say(b"PUT 0 " + hexed(bench.dice.bytes(16)))
    make_factory_tag(bench)
    use_factory_tag(bench)
    make_factory_tag(bench)
    if bench.dice.one_in(4):
        bench.say(b"SAVE %d" % size.image_bytes)
    bench.say(b"PUT %d " % bench.dice.below(size.memory_bytes - 47) + hexed(bench.dice.bytes(48)))
    set_no_record(bench)
    bench.say(b"ROOM %d" % bench.dice.choose(ROOM_LENGTHS))
    make_factory_tag(bench)
    refused_factory_tags(bench, variant)
    bench.open_scene()
    for line in factory_no_form_lines(bench.dice):
        bench.say(line)
    bench.say(b"EOF")


def use_factory_tag(bench):
    """An end of frame with the field off, field on, an Inventory, and some events of all kinds."""
    bench.say(b"EOF")
    bench.say(b"ON")
    bench.request(frames.inventory(0, b"", one_slot=True))
    for _ in range(4):
        bench.any_event()


def refused_factory_tags(bench, variant):
    """Four memory lengths that no tag has, with contents; record bytes of either kind stay."""
    for step in range(4):
        length = MEMORY_LENGTHS[(4 * variant + step) % len(MEMORY_LENGTHS)]
        bench.say(b"MEM %d" % length)
        bench.say(b"PUT 0 " + hexed(bench.dice.bytes(min(length, 32))))
        if bench.dice.one_in(2):
            set_no_record(bench)
        make_factory_tag(bench)
