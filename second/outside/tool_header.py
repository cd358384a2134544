"""The tool's `header` on images that are right, wrong and none, and what every command says of headers typed wrong."""

import errno
import os

from generator import scenes
from generator.dice import Dice
from tagmodel.sizes import HEADER_BYTES, SIZES, size_of_image

from .tool_faults import ENDS, LETTERS, LOCKS, PROTECTIONS, RESERVED, area_at, fault_of, fault_words
from .tool_files import folders
from .tool_runs import DONE, REFUSED, lines_said, not_read, said
from .tool_show import LOCK_NAMES, leaks, picked_images, rights
from .tool_tags import REPLACED, WORDS, any_image, factory_image
from .tool_typed import LAST_ROWS, LISTED_RIGHT, LISTED_WRONG, REST, TYPED
from .tool_words import LENGTHS, LONGEST_IMAGE, refusal_line

HEADING = "place     bytes             what it is              what it says"
RIGHT = "the header breaks no rule"
ROW_BYTES = 8  # of the reserved bytes, so many stand in a row
STREAM = b"ON\n0221050A0B0C0D\n"


def typed_image(kbit, text, rest=REST):
    """The image of a typed header, with a memory that fits the size."""
    size = SIZES[(16, 64).index(kbit)]
    return bytes.fromhex(text + rest) + b"\xA5" * size.memory_bytes


# ---- what is listed


def blocks_text(image, area):
    """'Area i is the lowest i with block at most 8 × ENDAi + 7; Area 4 takes the rest.'"""
    blocks = [block for block in range(size_of_image(len(image)).blocks)
              if next((i for i, place in enumerate(ENDS, 1) if block <= 8 * image[place] + 7), 4) == area]
    return f"Area {area} has " + (f"blocks {blocks[0]:,} to {blocks[-1]:,}" if blocks else "no blocks")


def locks_text(locks):
    """The names of what is locked; bits that lock nothing are named as bits."""
    names = (*LOCK_NAMES, "bit 5", "bit 6", "bit 7")
    return "locked: " + (", ".join(name for bit, name in enumerate(names) if locks >> bit & 1) or "nothing")


def rights_text(area, register):
    """What a protection byte says."""
    if register > 0x0F:
        return f"Area {area}: {register:02X}h is above 0Fh"
    password = f"password {register & 3}" if register & 3 else "no password"
    read, write = rights(area, register)
    return f"Area {area}: protection {register >> 2:02b}, {password}: read {read}, write {write}"


def end_says(image, place, fault):
    """What an area end says; the last says it of Area 4 too, and one after a fault says its number alone."""
    if fault is not None and place > fault:
        return f"{image[place]}"
    areas = (3, 4) if place == ENDS[-1] else (area_at(place),)
    return f"{image[place]}: {', '.join(blocks_text(image, area) for area in areas)}"


def rows(image, fault):
    """Of bytes 0 to 50: first place, number of bytes, name, what they say."""
    size = size_of_image(len(image))
    yield 0, 1, "size mark", f"{WORDS[size]} Kbit, {size.blocks:,} blocks of 4 bytes"
    yield 1, 8, "UID, lowest byte first", image[8:0:-1].hex().upper()
    yield 9, 1, "AFI", f"{image[9]:02X}h"
    yield 10, 1, "DSFID", f"{image[10]:02X}h"
    yield LOCKS, 1, "lock byte", locks_text(image[LOCKS])
    for place in range(PROTECTIONS[0], PROTECTIONS[-1] + 1):
        area = area_at(place)
        if place in PROTECTIONS:
            yield place, 1, f"protection byte RFA{area}SS", rights_text(area, image[place])
        else:
            yield place, 1, f"area end ENDA{area}", end_says(image, place, fault)
    for number in range(4):
        yield 19 + 8 * number, 8, f"password {number}", "of areas" if number else "of the configuration"


def reserved_rows(fault):
    """Of bytes 51 to 63, eight a row; the one at fault has a row of its own."""
    place = RESERVED.start
    while place < HEADER_BYTES:
        end = min(place + ROW_BYTES, HEADER_BYTES)
        if fault is not None and place <= fault < end:
            end = max(fault, place + 1)
        yield place, end - place, "reserved byte" if end - place == 1 else "reserved bytes", "to be 00h"
        place = end


def listed(image):
    """All that `header` prints of an image whose length is right."""
    fault, lines = fault_of(image), [HEADING]
    for place, count, name, says in (*rows(image, fault), *reserved_rows(fault)):
        places = f"{place} to {place + count - 1}" if count > 1 else f"{place}"
        value = "not shown" if name.startswith("password") else image[place:place + count].hex().upper()
        says = f"<-- {LETTERS[place]}: {fault_words(image, place)}" if place == fault else says
        lines.append(f"{places:10}{value:16}  {name:24}{says}")
    last = f"the lowest byte at fault is at place {fault}; those after it are not judged"
    return "\n".join([*lines, RIGHT if fault is None else last, ""]).encode("ascii")


def list_one(trial, what, image, output=None):
    """One image: its listing, the line on its fault, and no password in them."""
    trial.put("tag.img", image)
    is_right = fault_of(image) is None
    errors = b"" if is_right else refusal_line("tag.img", image)
    found = trial.expect(f"header, {what}", ["header", "tag.img"], DONE if is_right else REFUSED,
                         output or listed(image), errors)
    trial.hold(f"header, {what}: passwords shown", leaks(image, found.output + found.errors), [])


# ---- the trials


def typed_header(trial, what, kbit, text, rest, words):
    """One header that was typed wrong: the same words from every command, and every file as it was."""
    image = typed_image(kbit, text, rest)
    trial.put("tag.img", image)
    trial.put("out.img", REPLACED[0])
    errors = said(f"tag.img: refused {words}")
    for command in (["show", "tag.img"], ["run", "tag.img"], ["run", "tag.img", "--out", "out.img"],
                    ["run", "tag.img", "--out", "new.img"], ["tray", "tag.img"],
                    ["tray", "--trace", "0" * 16, "tag.img"]):
        trial.expect(f"{what}, {command}", command, REFUSED, b"", errors, feed=STREAM)
    trial.expect(f"{what}, header", ["header", "tag.img"], REFUSED, listed(image), errors)


def typed_headers(trial):
    """All of them."""
    for typed in TYPED:
        typed_header(trial, *typed)


def by_hand(trial):
    """The listings that are written out."""
    list_one(trial, "by hand, right", typed_image(64, LISTED_RIGHT[0]), LISTED_RIGHT[1].encode("ascii"))
    list_one(trial, "by hand, wrong", typed_image(16, LISTED_WRONG[0]), LISTED_WRONG[1].encode("ascii"))
    for place, last_rows in LAST_ROWS.items():
        image = bytearray(factory_image(SIZES[0]))
        image[place:HEADER_BYTES] = b"\x01" * (HEADER_BYTES - place)
        start = listed(factory_image(SIZES[0])).decode("ascii").split("51 to 58")[0]
        last = f"the lowest byte at fault is at place {place}; those after it are not judged\n"
        list_one(trial, f"by hand, byte {place}", bytes(image), (start + last_rows + last).encode("ascii"))


def other_lengths(trial):
    """Nothing is listed of a file that has another length; nor of a header alone."""
    for length in LENGTHS:
        trial.put("tag.img", any_image(Dice(6200), SIZES[1]).ljust(length, b"\x00")[:length])
        line = refusal_line("tag.img", bytes(length))
        trial.expect(f"header, {length} bytes", ["header", "tag.img"], REFUSED, b"", line)
    trial.expect("header /dev/zero", ["header", "/dev/zero"], REFUSED, b"",
                 refusal_line("/dev/zero", bytes(LONGEST_IMAGE + 1)))


def files(trial):
    """Files that cannot be read, an image that cannot be written, and one that comes through a pipe."""
    folders(trial)
    for name, number in (("none.img", errno.ENOENT), ("folder", errno.EISDIR), ("loop", errno.ELOOP),
                         ("", errno.ENOENT)):
        trial.refuses(f"header {name!r}", ["header", name], not_read(name, number))
    image = typed_image(*TYPED[0][1:4])
    trial.put("only.img", image, 0o444)
    trial.expect("header, a read-only file", ["header", "only.img"], REFUSED, listed(image),
                 refusal_line("only.img", image))
    trial.expect("header, a pipe", ["header", "/dev/stdin"], REFUSED, listed(image), refusal_line("/dev/stdin", image),
                 feed=image)


def unwritable(trial):
    """Output that is closed or full: status 2, and why, for a right header and for a wrong one."""
    for image in (factory_image(SIZES[0]), typed_image(*TYPED[0][1:4])):
        trial.put("tag.img", image)
        for place, errors in ((">&-", lines_said(rb"standard output: not written: [^\n]+")),
                              (">/dev/full", said(f"standard output: not written: {os.strerror(errno.ENOSPC)}"))):
            command = ["sh", "-c", f'exec "$@" {place}', "sh", *trial.command]
            trial.refuses(f"header, {place}", ["header", "tag.img"], errors, command=command)


def one_stream(trial):
    """The listing stands before the line on the fault where both go to one place."""
    image = typed_image(*TYPED[0][1:4])
    trial.put("tag.img", image)
    command = ["sh", "-c", 'exec "$@" 2>&1', "sh", *trial.command]
    trial.expect("header, 2>&1", ["header", "tag.img"], REFUSED, listed(image) + refusal_line("tag.img", image),
                 command=command)


def headers(trial, drawn):
    """Hand-picked images of both sizes, every broken header, and so many drawn images."""
    for part in (by_hand, other_lengths, files, unwritable, one_stream):
        part(trial)
    dice = Dice(6100)
    for size in SIZES:
        for name, image in picked_images(dice, size).items():
            list_one(trial, f"{WORDS[size]}, {name}", image)
        for number in range(drawn):
            list_one(trial, f"{WORDS[size]}, drawn {number}", any_image(dice, size))
        for number, broken in enumerate(scenes.HEADER_BREAKS):
            image = bytearray(any_image(dice, size))
            broken(image)
            list_one(trial, f"{WORDS[size]}, broken header {number}", bytes(image))
