"""The tool's `show`: its ten lines on drawn and on hand-picked images, worked here from 01's words."""

from generator.dice import Dice
from tagmodel.image import record_of_header
from tagmodel.rights import area_of
from tagmodel.sizes import BLOCK_BYTES, HEADER_BYTES, SIZES, size_of_image

from .tool_tags import WORDS, any_image, factory_image

LOCK_NAMES = ("block 0", "block 1", "AFI", "DSFID", "configuration (LOCK_CFG)")  # bits 0 to 4 of byte 11
ALWAYS, SESSION, NEVER = "always", "in its session", "never"

# 'Area 1 is always readable; write: 00 always, 01 and 10 in session, 11 never.'
AREA_1 = ((ALWAYS, ALWAYS), (ALWAYS, SESSION), (ALWAYS, SESSION), (ALWAYS, NEVER))
# '00 read and write always; 01 read always, write in session; 10 both in session; 11 read in session, write never.'
AREAS_2_TO_4 = ((ALWAYS, ALWAYS), (ALWAYS, SESSION), (SESSION, SESSION), (SESSION, NEVER))


def rights(area, register):
    """Reading and writing in an area whose RFAiSS is this; 'With password bits 00 no session serves.'"""
    needs = (AREA_1 if area == 1 else AREAS_2_TO_4)[register >> 2]
    return tuple(NEVER if need == SESSION and register & 3 == 0 else need for need in needs)


def area_line(area, register, blocks):
    """The text of one area, of which these are the blocks."""
    where = f"blocks {blocks[0]:,} to {blocks[-1]:,}" if blocks else "no blocks"
    password = f"password {register & 3}" if register & 3 else "no password"
    read, write = rights(area, register)
    return f"{where}, protection {register >> 2:02b}, {password}: read {read}, write {write}"


def memory_line(memory):
    """Whether the memory is empty, and where it is not."""
    blocks = len(memory) // BLOCK_BYTES
    filled = [block for block in range(blocks) if any(memory[BLOCK_BYTES * block:BLOCK_BYTES * (block + 1)])]
    if not filled:
        return "empty, every byte is 00h"
    return f"not empty, other than 00h in {len(filled):,} of {blocks:,} blocks, first in block {filled[0]:,}"


def shown_lines(image):
    """The ten lines for a sound image: bytes 1 to 8 UID, 9 AFI, 10 DSFID, 11 locks, 12, 14, 16, 18 RFAiSS."""
    size, record = size_of_image(len(image)), record_of_header(image[:HEADER_BYTES])
    areas = [area_of(record, block) for block in range(size.blocks)]
    locked = [name for bit, name in enumerate(LOCK_NAMES) if image[11] >> bit & 1]
    texts = {"size": f"{WORDS[size]} Kbit, {size.blocks:,} blocks of 4 bytes", "UID": image[8:0:-1].hex().upper(),
             "AFI": f"{image[9]:02X}h", "DSFID": f"{image[10]:02X}h", "locked": ", ".join(locked) or "nothing"}
    for area in (1, 2, 3, 4):
        blocks = [block for block, its in enumerate(areas) if its == area]
        texts[f"Area {area}"] = area_line(area, image[10 + 2 * area], blocks)
    texts["memory"] = memory_line(image[HEADER_BYTES:])
    return "".join(f"{label:10}{text}\n" for label, text in texts.items()).encode("ascii")


def altered(image, changes):
    """An image with some bytes set, by place."""
    image = bytearray(image)
    for place, value in changes.items():
        image[place] = value
    return bytes(image)


def picked_images(dice, size):
    """By name: every protection with every password in every area, every lock, shapes of ends, places of memory."""
    end, last = size.last_end, size.image_bytes - 1
    base = factory_image(size)[:19] + dice.bytes(32) + factory_image(size)[51:]
    three = altered(base, {13: 12, 15: 13, 17: end - 1})
    images = {}
    for value in range(16):
        registers = {10 + 2 * area: (value + 5 * area) % 16 for area in (1, 2, 3, 4)}
        images[f"registers {registers}"] = altered(three, registers)
        images[f"registers {registers}, no borders"] = altered(base, registers)
    for locks in (0x01, 0x02, 0x04, 0x08, 0x10, 0x11, 0x0A, 0x1F):
        images[f"locks {locks:02X}h"] = altered(base, {11: locks})
    for ends in ((0, end, end), (12, end, end), (end - 1, end, end), (0, 1, end), (5, 6, end), (end - 2, end - 1, end),
                 (0, 1, 2), (end - 3, end - 2, end - 1), (12, 40, 62), (0, end // 2, end - 1)):
        images[f"ends {ends}"] = altered(base, dict(zip((13, 15, 17), ends)))
    for place in (HEADER_BYTES, HEADER_BYTES + 3, HEADER_BYTES + 4, last // 2, last - 3, last):
        images[f"byte {place} set"] = altered(base, {place: 1})
    images["all of the memory set"] = base[:HEADER_BYTES] + b"\xFF" * size.memory_bytes
    images["factory"] = factory_image(size)
    return images


def leaks(image, text):
    """The numbers of the passwords whose bytes are in a text, in hex of either order or as they are."""
    found = []
    for number in range(4):
        password = image[19 + 8 * number:27 + 8 * number]
        forms = (password.hex().encode("ascii"), password[::-1].hex().encode("ascii"))
        if any(password) and (any(form in text.lower() for form in forms) or password in text):
            found.append(number)
    return found


def show_one(trial, what, image):
    """One image: its ten lines, and no password in them."""
    trial.put("tag.img", image)
    found = trial.expect(f"show, {what}", ["show", "tag.img"], output=shown_lines(image))
    trial.hold(f"show, {what}: passwords shown", leaks(image, found.output + found.errors), [])


def shows(trial, drawn):
    """All hand-picked images, and so many drawn ones, of both sizes."""
    dice = Dice(6000)
    for size in SIZES:
        for name, image in picked_images(dice, size).items():
            show_one(trial, f"{WORDS[size]}, {name}", image)
        for number in range(drawn):
            show_one(trial, f"{WORDS[size]}, drawn {number}", any_image(dice, size))
