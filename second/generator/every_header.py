"""Lines of LOAD: every value of every byte that a rule looks at, every two wrong bytes, and ends at every edge."""

from itertools import combinations, product

from tagmodel import image
from tagmodel.sizes import SIZES

from .dice import Dice
from .headers import HIGHER, LOW, header_with, load_line, together, wrong_bytes

VALUES = range(256)
NO_ENDS = (image.MARK, image.LOCKS, *image.PROTECTIONS, *image.RESERVED)
RISING = (LOW, HIGHER, HIGHER + 10)
EDGES = (0, 1, LOW, 62, 63, 64, 254, 255)


def every_value(last_end):
    """Each place with all values; an end beside ends that are E, and beside ends that rise."""
    yield from ({place: value} for place in NO_ENDS for value in VALUES)
    for ends in ((last_end,) * 3, RISING):
        yield from ({**dict(zip(image.ENDS, ends)), place: value} for place in image.ENDS for value in VALUES)


def every_pair(size):
    """Each two wrong bytes of different places, with their least and their greatest wrong values."""
    for pair in combinations(wrong_bytes(size), 2):
        if max(pair[0]) != max(pair[1]):
            yield together(pair)


def every_edge():
    """The three ends at each of the edges, in every order."""
    return (dict(zip(image.ENDS, ends)) for ends in product(EDGES, repeat=3))


def every_header(seed, step=1):
    """The lines, or of each kind one in so many; a load asks for no room, and the image's memory is mostly zero."""
    dice = Dice(seed)
    yield b"ROOM 16"
    for size in SIZES:
        yield b"MEM %d" % size.memory_bytes
        for kind in (every_value(size.last_end), every_pair(size), every_edge()):
            for changes in list(kind)[::step]:
                yield load_line(header_with(dice, size, changes), dice.bytes(4) + bytes(size.memory_bytes - 4))
