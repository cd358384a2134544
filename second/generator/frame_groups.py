"""Groups about frames: flags, UIDs, short frames, the field, Inventory and its rounds."""

from tagmodel import boundary, image
from tagmodel.inventory import slot_of
from tagmodel.sizes import SIZES

from . import fields, frames, scenes
from .bench import hexed


def flag_bytes(bench, variant):
    """Thirty-two of the 256 flags bytes before a command, a Select or an Inventory."""
    bench.open_scene()
    for flags in range(variant % 8 * 32, variant % 8 * 32 + 32):
        uid = fields.uid_of(bench.record)
        tail = bench.dice.choose([b"\x20\x00", b"\x20" + uid + b"\x01", b"\x25" + uid, b"\x01\x00", b"\x01\x00\x00",
                                  b"\xA0\x02\x05", b"\xA0\x02" + uid + b"\x05", b"\x26", b"\x02" + uid])
        bench.request(bytes((flags,)) + tail)


def other_uids(bench, variant):
    """Another UID, parts of the own, and Selects of another tag."""
    for state in (scenes.READY, scenes.QUIET, scenes.SELECTED):
        bench.open_scene(state=state)
        uid = fields.uid_of(bench.record)
        other = bytes((uid[0] ^ 1,)) + uid[1:]
        for tail in (b"", b"\x00"):
            for flags in (0x22, 0x62, 0x32, 0x12):
                bench.request(bytes((flags, 0x25)) + other + tail)
                bench.set_record(scenes.sound(bench.dice, fields.size_of_record(bench.record), state))
                other = fields.uid_of(bench.record)[:7] + bytes((fields.uid_of(bench.record)[7] ^ 0x80,))
        for count in (0, 1, 7):
            bench.request(bytes((0x22, 0x20)) + fields.uid_of(bench.record)[:count])
        bench.request(bytes((0x22, 0x20)) + other + b"\x00")


def short_frames(bench, variant):
    """Frames of nought to four bytes and frames with a damaged CRC, over a round or a held answer."""
    for count in range(5):
        bench.open_scene()
        bench.say(b"REQ " + hexed(bench.dice.bytes(count)))
        bench.say(b"EOF")
        bench.damaged(bench.dice.choose(fields.LISTED))
        bench.request(bench.dice.bytes(2))


def field_off(bench, variant):
    """Events with the field off."""
    size = bench.dice.choose(SIZES)
    bench.lend(size)
    bench.set_record(scenes.lasting(bench.dice, size))
    for event in (b"EOF", b"OFF", b"REQ 0220001234", b"REQ "):
        bench.say(event)
    bench.command(bench.dice.choose(fields.LISTED))
    bench.request(fields.asked_inventory(bench.dice, bench.record))
    bench.say(b"SAVE %d" % size.image_bytes)
    bench.say(b"ON")
    bench.command(bench.dice.choose(fields.LISTED))


def rounds(bench, variant):
    """A round from its Inventory through all slots to its close."""
    dice, size = bench.dice, bench.dice.choose(SIZES)
    record = scenes.plain(dice, size)
    record[boundary.STATE] = dice.choose([scenes.READY, scenes.SELECTED])
    bench.lend(size)
    bench.set_record(record)
    length = variant % 61
    uid = int.from_bytes(fields.uid_of(record), "little")
    mask_bytes = (length + 7) // 8
    mask = (uid & (1 << length) - 1).to_bytes(mask_bytes, "little")
    bench.request(frames.inventory(length, mask, afi=dice.choose([None, 0, record[image.AFI]])))
    stop = dice.choose([17, 17, dice.below(16)])
    for _ in range(stop):
        bench.say(b"EOF")
    bench.any_event()
    bench.say(b"EOF")


def mask_before_slot(dice, record, slot):
    """A mask length after which the UID's next four bits are this slot, or any mask length."""
    uid = int.from_bytes(fields.uid_of(record), "little")
    lengths_found = [length for length in range(61) if slot_of(uid, length) == slot]
    return dice.choose(lengths_found or list(range(61)))


def set_rounds(bench, variant):
    """Records in which a round already stands in a slot; mostly the next slot is the tag's own."""
    size = bench.dice.choose(SIZES)
    bench.lend(size)
    for step, event in enumerate((b"EOF", b"EOF", b"ON", b"OFF", None)):
        slot = (5 * variant + step) % 16
        record = scenes.plain(bench.dice, size)
        record[boundary.STATE] = bench.dice.choose([scenes.READY, scenes.SELECTED])
        record[image.UID] = bench.dice.bytes(8)
        scenes.set_round(record, slot, mask_before_slot(bench.dice, record, slot + 1))
        bench.set_record(record)
        bench.say_or_any(event)
        bench.say(b"EOF")


def inventories(bench, variant):
    """Inventories that match and that do not, in all states."""
    bench.open_scene()
    for _ in range(12):
        bench.request(fields.asked_inventory(bench.dice, bench.record))


def damaged_inventories(bench, variant):
    """Inventories of every wrong length and with mask lengths at the limits."""
    bench.open_scene(state=scenes.READY)
    uid = fields.uid_of(bench.record)
    for one_slot in (False, True):
        for afi in (None, 0):
            whole = frames.inventory(variant % 65, uid[:(variant % 65 + 7) // 8], one_slot, afi)
            for length in range(2, len(whole)):
                bench.request(whole[:length])
            bench.request(whole + b"\x00")
        for length in (59, 60, 61, 62, 63, 64, 65, 255):
            bench.request(frames.inventory(length, (uid + bytes(24))[:(length + 7) // 8], one_slot))
