"""Where an image's header is wrong and what is said of it, worked here from the words of documents 01 and 02."""

from tagmodel.sizes import HEADER_BYTES, size_of_image

from .tool_tags import WORDS

MARK, LOCKS = 0, 11
PROTECTIONS, ENDS = (12, 14, 16, 18), (13, 15, 17)
RESERVED = range(51, HEADER_BYTES)
# 'It becomes 5a size mark, 5b lock byte, 5c protection byte, 5d area end, 5e reserved byte' (02)
NAMES = {"5a": "size mark", "5b": "lock byte", "5c": "protection byte", "5d": "area end", "5e": "reserved byte"}
LETTERS = {MARK: "5a", LOCKS: "5b", **dict.fromkeys(PROTECTIONS, "5c"), **dict.fromkeys(ENDS, "5d"),
           **dict.fromkeys(RESERVED, "5e")}  # by place; the other bytes may have any value


def allowed_end(image, place):
    """'each ENDAi is at most E; if ENDAi is below E then ENDA(i+1) is above ENDAi; if ENDAi is E then all later ends
    are E'.
    """
    last = size_of_image(len(image)).last_end
    lowest = 0 if place == ENDS[0] else min(image[place - 2] + 1, last)
    return range(lowest, last + 1)


def allowed(image, place):
    """The values that may stand at a place, after the bytes before it and in an image of this length."""
    mark = size_of_image(len(image)).mark
    ranges = {"5a": range(mark, mark + 1), "5b": range(0x20), "5c": range(0x10), "5e": range(1), None: range(0x100)}
    letter = LETTERS.get(place)
    return allowed_end(image, place) if letter == "5d" else ranges[letter]


def fault_of(image):
    """'the lowest offending byte's place', or None; the image has a length of images."""
    return next((place for place in range(HEADER_BYTES) if image[place] not in allowed(image, place)), None)


def area_at(place):
    """The area of the register at a place: bytes 12 to 18 are RFA1SS, ENDA1, RFA2SS, and so on."""
    return (place - 10) // 2


def end_text(value):
    """An end in hex, and as documents write it."""
    return f"{value:02X}h ({value})"


def ends_text(ends):
    """What an end may be."""
    if len(ends) == 1:
        return f"it has to be {end_text(ends[0])}"
    return f"it may be {ends[0]:02X}h to {ends[-1]:02X}h ({ends[0]} to {ends[-1]})"


def end_words(image, place):
    """'An end above E is charged to its own byte, a wrong pair to the later byte.'"""
    size, area, end = size_of_image(len(image)), area_at(place), image[place]
    starts, may = f"ENDA{area} is {end_text(end)}", ends_text(allowed_end(image, place))
    if end > size.last_end:
        return f"{starts}, above E, which is {end_text(size.last_end)} for {WORDS[size]} Kbit; {may}"
    before = end_text(image[place - 2])
    if image[place - 2] == size.last_end:
        return f"{starts}, but ENDA{area - 1} is E, {before}, after which every end is E; {may}"
    return f"{starts}, not above ENDA{area - 1}, which is {before}; {may}"


def lock_words(locks):
    """Bits 5 to 7 that are not 0, by number."""
    bits = [str(bit) for bit in (5, 6, 7) if locks >> bit & 1]
    which = f"bit {bits[0]}" if len(bits) == 1 else f"bits {', '.join(bits[:-1])} and {bits[-1]}"
    return f"it is {locks:02X}h, with {which} set; bits 5 to 7 have to be 0, so it may be 00h to 1Fh"


def fault_words(image, place):
    """What stands at a place that is at fault, and what may."""
    letter, value, size = LETTERS[place], image[place], size_of_image(len(image))
    if letter == "5a":
        return (f"it is {value:02X}h; the file has {len(image):,} bytes, as the image of a {WORDS[size]} Kbit tag, "
                f"so it has to be {size.mark:02X}h")
    if letter == "5b":
        return lock_words(value)
    if letter == "5c":
        return f"RFA{area_at(place)}SS is {value:02X}h; it may be 00h to 0Fh"
    return end_words(image, place) if letter == "5d" else f"it is {value:02X}h; it has to be 00h"


def fault_line(image, place):
    """What every command says after `refused` of an image with this fault."""
    return f"{LETTERS[place]}: {NAMES[LETTERS[place]]}, at place {place}: {fault_words(image, place)}"
