"""Document 02, W-202, "Where a header is wrong".

By 01 the places that can offend are 0 (mark), 11 (locks), 12, 14, 16, 18 (RFA1SS to RFA4SS), 13, 15, 17 (ENDA1 to ENDA3)
and 51 to 63 (reserved). E is 63 for an image of 2,112 bytes and 255 for one of 8,256. Each image is a factory tag's, all
ends at E, but for the bytes that are named.
"""

from ..examples import (AFI, FIELD, HELD, LARGE, LOCKS, NO_RECORD, SELECTED, SMALL, STATE, Case, event, image_text, lent,
                        line, load, places, record_text, save, shown_crc, standing)

ENDS = (13, 15, 17)
RESERVED = range(51, 64)
CONTENTS = {SMALL: "55" * 2048, LARGE: "55" * 8192}


def image(changes, size=SMALL):
    """The image with some bytes of its header set, its memory full of 55h."""
    return image_text(record_text(size, changes=changes), CONTENTS[size])


def ends(first, second, third):
    """The three ends by place."""
    return dict(zip(ENDS, (first, second, third)))


def wrong(number, changes, size=SMALL):
    """Refused with this number and place; the memory stays zero."""
    return (load(image(changes, size), number, memory=shown_crc("00" * size.memory)),)


def right(changes, size=SMALL):
    """Loaded: the header's bytes are the record's, and the memory is the image's."""
    record = record_text(size, changes=changes)
    return (load(image(changes, size), record=places(record), memory=shown_crc(CONTENTS[size])),)


def case(name, words, otherwise, *loads, size=SMALL):
    """A case of document 02 on a factory tag."""
    return Case(f"fault-{name}", words, otherwise, lent(size) + sum(loads, ()), "02")


CASES = (
    case("5a-size-mark", "It becomes 5a size mark",
         "were 5 still given, or a mark that is none told from that of the other size, one would not be 5a at place 0",
         wrong("5a:0", {0: 0}), wrong("5a:0", {0: 2}), wrong("5a:0", {0: 0xFF})),
    case("5a-size-mark-large", "It becomes 5a size mark",
         "were the mark of the smaller tag taken for this length, the image that begins 01 would be loaded",
         wrong("5a:0", {0: 1}, LARGE), size=LARGE),
    case("5b-lock-byte", "5b lock byte",
         "were one of bits 5 to 7 passed over, or only all of them together looked at, one would be loaded",
         wrong("5b:11", {LOCKS: 0x20}), wrong("5b:11", {LOCKS: 0x40}), wrong("5b:11", {LOCKS: 0x80})),
    case("5c-protection-byte", "5c protection byte",
         "were the place the area's number, or counted from 1, these would not be 12, 14, 16 and 18",
         *(wrong(f"5c:{place}", {place: 0x10}) for place in (12, 14, 16, 18))),
    case("5d-area-end", "5d area end",
         "were an end a register like RFAiSS, the letter would be c; were the place the end's number, 1, 2 and 3",
         *(wrong(f"5d:{place}", {place: 64}) for place in ENDS)),
    case("5e-reserved-byte", "5e reserved byte",
         "were all reserved bytes charged to the first, or one passed over, a place would be 51 or the image loaded",
         *(wrong(f"5e:{place}", {place: 1}) for place in RESERVED)),
    case("5e-any-value", "5e reserved byte",
         "were only the lowest or the highest bit of a reserved byte looked at, one of these would be loaded",
         wrong("5e:51", {51: 0x80}), wrong("5e:57", {57: 0x02})),
    case("places-in-the-large-image", "with the lowest offending byte's place",
         "were places counted otherwise in the longer image, these would not be the same as in the shorter one",
         wrong("5b:11", {LOCKS: 0x20}, LARGE), wrong("5c:18", {18: 0x10}, LARGE), wrong("5e:63", {63: 1}, LARGE), size=LARGE),
    case("lowest-byte", "with the lowest offending byte's place",
         "were the highest byte named, or the last one found, the place would be 63, 12, 18, 17 or 53",
         wrong("5a:0", {0: 3, 63: 1}), wrong("5b:11", {LOCKS: 0x20, 12: 0x10}), wrong("5c:12", {12: 0x10, 18: 0x10}),
         wrong("5d:13", {13: 64, 17: 64}), wrong("5e:52", {52: 1, 53: 1})),
    case("lowest-of-all", "with the lowest offending byte's place",
         "were a letter passed over where others offend too, the next byte would be named",
         *(wrong(number, {place: 0xFF for place in (0, 11, *range(12, 19), *RESERVED) if place >= first})
           for number, first in (("5a:0", 0), ("5b:11", 1), ("5c:12", 12), ("5d:13", 13), ("5c:14", 14), ("5d:15", 15),
                                 ("5c:16", 16), ("5d:17", 17), ("5c:18", 18), ("5e:51", 51)))),
    case("lowest-byte-not-letter", "with the lowest offending byte's place",
         "were the letters tried in their order, all protection bytes before all ends, these would be 5c",
         wrong("5d:13", {13: 64, 14: 0x10}), wrong("5d:15", {15: 64, 16: 0x10}), wrong("5d:17", {17: 64, 18: 0x10}),
         wrong("5d:13", {13: 64, 18: 0x10})),
    case("protection-before-end", "with the lowest offending byte's place",
         "were all ends tried before the protection bytes, these would be 5d",
         wrong("5c:12", {12: 0x10, 13: 64}), wrong("5c:14", {14: 0x10, 15: 64}), wrong("5c:16", {16: 0x10, 17: 64})),
    case("end-above-e", "An end above E is charged to its own byte",
         "were 64 before 63 a wrong pair, the later byte would be named; were it charged to the end before, 13 or 15",
         wrong("5d:13", ends(64, 63, 63)), wrong("5d:15", ends(5, 64, 63)), wrong("5d:17", ends(5, 9, 64)),
         wrong("5d:13", ends(64, 5, 9)), wrong("5d:15", ends(5, 64, 9))),
    case("ends-above-e", "An end above E is charged to its own byte",
         "were 64, 65 and 66, which rise, judged by their order alone, they would be loaded or charged to 15 or 17",
         wrong("5d:13", ends(64, 65, 66)), wrong("5d:15", ends(5, 65, 66)), wrong("5d:13", ends(64, 64, 64))),
    case("end-above-e-after-e", "An end above E is charged to its own byte",
         "were the end before, which is E, at fault for what follows it, the place would be 13 or 15",
         wrong("5d:15", ends(63, 64, 63)), wrong("5d:17", ends(63, 63, 64))),
    case("e-of-the-length", "An end above E is charged to its own byte",
         "were E 63 for the longer image too, 64 would be refused and 63 let others of 63 follow",
         wrong("5d:15", ends(63, 63, 63), LARGE), right(ends(64, 200, 254), LARGE), size=LARGE),
    case("pair-equal", "a wrong pair to the later byte",
         "were a pair charged to its earlier byte, or to the byte between, the places would be 13 and 15, or 14 and 16",
         wrong("5d:15", ends(12, 12, 63)), wrong("5d:17", ends(12, 13, 13)), wrong("5d:15", ends(0, 0, 63))),
    case("pair-falling", "a wrong pair to the later byte",
         "were a pair charged to its earlier byte, or only equal ends a wrong pair, one would be 13 or 15, or be loaded",
         wrong("5d:15", ends(12, 11, 63)), wrong("5d:17", ends(12, 14, 13)), wrong("5d:15", ends(62, 0, 63))),
    case("pair-after-e", "a wrong pair to the later byte",
         "were the earlier end, which is E, at fault, the place would be 13 or 15",
         wrong("5d:15", ends(63, 62, 63)), wrong("5d:17", ends(63, 63, 62)), wrong("5d:17", ends(5, 63, 62)),
         wrong("5d:15", ends(63, 5, 9)), wrong("5d:15", ends(63, 0, 0))),
    case("pair-large", "a wrong pair to the later byte",
         "were a pair charged to its earlier byte, the places would be 13 or 15",
         wrong("5d:15", ends(64, 64, 255), LARGE), wrong("5d:17", ends(64, 255, 254), LARGE),
         wrong("5d:15", ends(255, 254, 255), LARGE), size=LARGE),
    case("pair-of-neighbours", "a wrong pair to the later byte",
         "were ENDA3 held to be above ENDA1 alone, 5, 9, 9 would be loaded; 5, 4, 5 has its first wrong pair at 15",
         wrong("5d:17", ends(5, 9, 9)), wrong("5d:17", ends(5, 9, 7)), wrong("5d:15", ends(5, 4, 5))),
    case("byte-between-a-pair", "the lowest offending byte's place .. a wrong pair to the later byte",
         "were the pair charged to its earlier byte, 13 or 15 would be below the protection byte that lies between",
         wrong("5c:14", {13: 12, 14: 0x10, 15: 12}), wrong("5c:16", {13: 5, 15: 12, 16: 0x10, 17: 12}),
         wrong("5c:14", {14: 0x10, 15: 62})),
    case("byte-after-a-pair", "the lowest offending byte's place .. a wrong pair to the later byte",
         "were the order of the ends tried after all bytes by themselves, the later bytes would be named",
         wrong("5d:15", {13: 12, 15: 12, 16: 0x10}), wrong("5d:17", {17: 62, 18: 0x10}), wrong("5d:17", {17: 62, 51: 1})),
    case("above-e-beside-a-pair",
         "the lowest offending byte's place. An end above E is charged to its own byte, a wrong pair to the later byte.",
         "were ends above E looked for before wrong pairs, the second would be 17; were pairs first, the first 17",
         wrong("5d:13", ends(64, 12, 12)), wrong("5d:15", ends(12, 12, 64)), wrong("5d:15", ends(63, 5, 64)),
         wrong("5d:15", ends(12, 64, 12))),
    case("right-edges", "Exactly the same images are refused.",
         "were the highest right value of a lock byte, a protection byte or an end refused, one would not be loaded",
         right({LOCKS: 0x1F, 12: 0x0F, 14: 0x0F, 16: 0x0F, 18: 0x0F}), right(ends(61, 62, 63)), right(ends(62, 63, 63)),
         right(ends(0, 1, 2)), right(ends(60, 61, 62))),
    case("right-free-bytes", "Exactly the same images are refused.",
         "were UID, AFI, DSFID or a password looked at, or the first byte after the header, it would be refused",
         right({place: 0xFF for place in (*range(1, 11), *range(19, 51))})),
    case("right-large", "Exactly the same images are refused.",
         "were an end refused that only the longer image can have, one of these would not be loaded",
         right(ends(253, 254, 255), LARGE), right(ends(62, 63, 64), LARGE), size=LARGE),
    case("4-first", "5a to 5e stand where 5 stood.",
         "were the header looked at before the image's length, the number would be 5a:0 or 5c:12",
         (load(image({0: 3})[:-2], 4), load(image({12: 0x10}) + "00", 4), load("03", 4))),
    case("1-first", "5a to 5e stand where 5 stood.",
         "were the header looked at before the memory, the number would be 5a:0, 5c:12 or 5e:63",
         (line("MEM 8192"), load(image({0: 3}), 1), load(image({12: 0x10}), 1), line("MEM 2047"), load(image({63: 1}), 1))),
    case("nothing-else-asked", "5a to 5e stand where 5 stood.",
         "were the room or the record that is there looked at, the number would be 2 or 3",
         (line("ROOM 0"), line("REC " + NO_RECORD)), wrong("5c:12", {12: 0x10})),
    case("record-stays-3", "5a to 5e stand where 5 stood.",
         "were a record's bytes told by letter and place too, the number would be 5c:12, 5d:15 or 5e:63",
         *((line("REC " + record_text(SMALL, changes=changes)), event("ON", number=3), save(2112, number=3))
           for changes in ({12: 0x10}, {15: 5}, {63: 1}))),
    Case("fault-keeps-all", "Refusals: 5a to 5e stand where 5 stood.",
         "were record, memory or room altered before the byte at fault is found, record, memory or room would be others",
         standing(SMALL, {STATE: SELECTED, HELD: 1, AFI: 0x35}) + tuple(
             load(image(changes), number, record={FIELD: 1, STATE: SELECTED, HELD: 1, AFI: 0x35, 12: 0, 63: 0},
                  memory=shown_crc("00" * 2048), room=shown_crc("EE" * 10243))
             for number, changes in (("5a:0", {0: 2}), ("5b:11", {LOCKS: 0x20}), ("5c:18", {18: 0x10}),
                                     ("5d:17", {17: 64}), ("5e:63", {63: 1}))), "02"),
)
