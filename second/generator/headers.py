"""Image headers with wrong bytes: for each place that can be wrong, its least and its greatest wrong value."""

from tagmodel import image
from tagmodel.sizes import HEADER_BYTES

from . import scenes
from .bench import hexed

HIGHEST = 0xFF
LOW, HIGHER = 12, 30  # ends below the E of both sizes


def wrong_bytes(size):
    """Each wrong byte, as bytes by place: its own is the last, and of an end those before it stand with it."""
    found = [{image.MARK: value} for value in (0, HIGHEST)]
    found += [{image.LOCKS: value} for value in (0x20, HIGHEST)]
    found += [{place: value} for place in image.PROTECTIONS for value in (0x10, HIGHEST)]
    found += ends_above(size.last_end) + ends_not_above() + ends_after(size.last_end)
    return found + [{place: value} for place in image.RESERVED for value in (0x01, HIGHEST)]


def ends_above(last_end):
    """Ends above E; there are none where E is the highest byte."""
    values = (last_end + 1, HIGHEST) if last_end < HIGHEST else ()
    return [{place: value} for place in image.ENDS for value in values]


def ends_not_above():
    """Ends that are not above the end before them, which is below E."""
    first, second, third = image.ENDS
    return ([{first: LOW, second: value} for value in (0, LOW)]
            + [{first: LOW, second: HIGHER, third: value} for value in (0, HIGHER)])


def ends_after(last_end):
    """Ends below E that come after an end that is E."""
    first, second, third = image.ENDS
    befores = ({first: last_end}, {first: LOW, second: last_end}, {first: last_end, second: last_end})
    return [{**before, third if second in before else second: value} for before in befores for value in (0, last_end - 1)]


def together(faults):
    """Several wrong bytes in one header; where they need other ends, the lowest has them its way."""
    changes = {}
    for fault in sorted(faults, key=max, reverse=True):
        changes.update(fault)
    return changes


def header_with(dice, size, changes):
    """A drawn header with these bytes; where an end is among them, those that are not are E."""
    header = scenes.lasting(dice, size)[:HEADER_BYTES]
    if not set(image.ENDS).isdisjoint(changes):
        changes = {**dict.fromkeys(image.ENDS, size.last_end), **changes}
    for place, value in changes.items():
        header[place] = value
    return header


def load_line(header, contents):
    """LOAD of an image of this header and memory."""
    return b"LOAD " + hexed(header + contents)
