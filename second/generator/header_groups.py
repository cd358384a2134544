"""Groups about image headers: every wrong byte alone, several at once, and a header that is right."""

from tagmodel.sizes import SIZES

from .headers import header_with, load_line, together, wrong_bytes

TURNS = 12  # in so many groups every wrong byte comes once


def any_contents(dice, size):
    """A memory with something at both ends."""
    return dice.bytes(16) + bytes(size.memory_bytes - 32) + dice.bytes(16)


def load(bench, size, changes):
    """A load of a header with these bytes, then an end of frame, which shows what stands after it."""
    bench.say(load_line(header_with(bench.dice, size, changes), any_contents(bench.dice, size)))
    bench.say(b"EOF")


def wrong_headers(bench, variant):
    """In both sizes one of so many wrong bytes, each alone; then several at once, and none."""
    for size in SIZES:
        bench.open_scene(size=size)
        for fault in wrong_bytes(size)[variant % TURNS::TURNS]:
            load(bench, size, fault)
    size = SIZES[0] if variant % 6 else SIZES[1]
    bench.open_scene(size=size)
    load(bench, size, together(bench.dice.choose(wrong_bytes(size)) for _ in range(2 + bench.dice.below(3))))
    load(bench, size, {})
