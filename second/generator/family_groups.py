"""Groups about AFI families: tags with AFIs of every form, asked for AFIs at the edges of the rule."""

from tagmodel import image
from tagmodel.inventory import UPPER_HALF, slot_of
from tagmodel.sizes import SIZES

from . import fields, frames, scenes
from .families import about, any_stored

IN_TURN = 5  # requests of each tag, beside the one for its family
WRITE_AFI = 0x27
MASK_LENGTHS = (0, 0, 4, 8, 12, 24, 59, 60)


def any_tag(bench, size, afi):
    """A tag with this AFI, seldom Quiet; half of the time the AFI is written, where it is not locked."""
    dice = bench.dice
    record = scenes.sound(dice, size, dice.choose([scenes.READY] * 3 + [scenes.SELECTED] * 3 + [scenes.QUIET]))
    record[image.AFI] = dice.below(256) if dice.one_in(2) else afi
    bench.set_record(record)
    if record[image.AFI] != afi:
        bench.request(frames.command(WRITE_AFI, bytes((afi,)), frames.ADDRESSED, fields.uid_of(record)))


def ask(bench, afi):
    """An Inventory for this AFI with 1 slot or 16, its mask mostly that of the tag, and ends of frame after it."""
    dice, uid = bench.dice, int.from_bytes(fields.uid_of(bench.record), "little")
    one_slot, length = dice.one_in(3), dice.choose(MASK_LENGTHS)
    mask = uid & (1 << length) - 1
    if length and dice.one_in(6):
        mask ^= 1 << dice.below(length)
    bench.request(frames.inventory(length, mask.to_bytes((length + 7) // 8, "little"), one_slot, afi))
    for _ in range(dice.choose((0, 0, 1, slot_of(uid, length)))):
        bench.say(b"EOF")


def families(bench, variant):
    """Tags with AFIs of each form, each asked for its family, then for what comes in turn."""
    size = SIZES[variant % 2]
    bench.lend(size)
    for afi in any_stored(bench.dice):
        any_tag(bench, size, afi)
        stored = bench.record[image.AFI]
        ask(bench, stored & UPPER_HALF)
        for step in range(IN_TURN):
            edges = about(bench.dice, stored)
            ask(bench, edges[(IN_TURN * variant + step) % len(edges)])
