"""Cases for the sentences of 01, Host calls and their numbers."""

from ..examples import (AFI, DONE, FACTORY, FIELD, HELD, INVENTORY_ANSWER, LARGE, NOT_AVAILABLE, NOT_LISTED, NO_RECORD,
                        SELECTED, SMALL, STATE, ZEROS, Case, event, framed, image_text, in_field, line, load, places,
                        record_text, request, save, shown_crc, standing)

BROKEN = record_text(SMALL, protections=(0x10, 0, 0, 0))  # RFA1SS over 0Fh: no record and no header
FILLED = "55" * 2048
ROOM = "EE" * 10243


def lend(memory=2048, room=10243, record=FACTORY):
    """Memory and room of any length and any record."""
    return (line(f"MEM {memory}"), line(f"ROOM {room}"), line("REC " + record))


def bytes_of_image(length):
    """So many bytes of a sound image, with zeros after it where they are more."""
    return (image_text() + "00" * length)[:2 * length]


def on(number=0):
    """Field on, which any sound tag takes."""
    return (event("ON", number=number),)


LARGE_FACTORY = record_text(LARGE)
LARGE_IMAGE = image_text(LARGE_FACTORY, "00" * 8192)

CASES = (
    Case(
        "number-1-at-2048", "user memory lent is not 2,048 or 8,192 bytes",
        "were 2,048 bytes a least or a greatest length, 2,049 or 2,047 would be taken",
        lend(2047) + on(1) + lend(2049) + on(1) + lend(2048) + on()),
    Case(
        "number-1-at-8192", "user memory lent is not 2,048 or 8,192 bytes",
        "were 8,192 bytes a least or a greatest length, 8,193 or 8,191 would be taken",
        lend(8191, record=LARGE_FACTORY) + on(1) + lend(8193, record=LARGE_FACTORY) + on(1)
        + lend(8192, record=LARGE_FACTORY) + on()),
    Case(
        "number-1-load", "user memory lent is not 2,048 or 8,192 bytes, or does not fit the image's length",
        "were the memory of a load only to be of either size, or long enough, a 16 Kbit image would go into 8,192",
        lend(8192) + (load(image_text(), 1),) + lend(2049) + (load(image_text(), 1),)
        + lend(2048) + (load(image_text()),)),
    Case(
        "number-1-save", "user memory lent is not 2,048 or 8,192 bytes, or does not fit the image's length",
        "were the image of a save only to be of either length, 2,112 bytes would take a part of 8,192 and the reverse",
        lend(8192, record=LARGE_FACTORY) + (save(2112, number=1),) + lend(2048) + (save(8256, number=1),)
        + lend(2047) + (save(2112, number=1),) + lend(2048) + (save(2112, image_text()),)),
    Case(
        "number-2-small", "answer room is below 10,243 bytes",
        "were the room measured by the 16 Kbit tag's longest answer, 1 + 512 x 5 + 2 = 2,563, 10,242 would be taken",
        lend(room=10242) + on(2) + lend(room=10243) + on()),
    Case(
        "number-2-large", "answer room is below 10,243 bytes",
        "were it refused at 10,243 too, or only below what is answered now, the numbers would be 2 and 2, or 0 and 0",
        lend(8192, 10242, LARGE_FACTORY) + on(2) + lend(8192, 10243, LARGE_FACTORY) + on()
        + lend(8192, 11000, LARGE_FACTORY) + on()),
    Case(
        "number-2-every-event", "An event checks 1, 2, 3",
        "were the room asked for only where something is answered, the four would have number 0 with the field off",
        lend(room=10242) + (event("ON", number=2), event("OFF", number=2), event("EOF", number=2),
                            request("260100", number=2))),
    Case(
        "number-3-every-event", "tag record breaks a record rule below",
        "were the record looked at only by a frame that needs it, ON, OFF and EOF would have number 0",
        lend(record=BROKEN) + (event("ON", number=3), event("OFF", number=3), event("EOF", number=3),
                               request("260100", number=3))),
    Case(
        "number-4-load-small", "image is not 2,112 or 8,256 bytes",
        "were bytes after the image passed over, or missing ones taken as zeros, 2,113 or 2,111 would be loaded",
        lend() + (load(bytes_of_image(2111), 4), load(bytes_of_image(2113), 4), load(bytes_of_image(2112)))),
    Case(
        "number-4-load-large", "image is not 2,112 or 8,256 bytes",
        "were the length only to reach that of the lent memory, 8,257 bytes would be loaded",
        lend(8192, record=LARGE_FACTORY) + (
            load(LARGE_IMAGE[:-2], 4), load(LARGE_IMAGE + "00", 4))),
    Case(
        "number-4-save", "image is not 2,112 or 8,256 bytes",
        "were a longer image filled at its start, 2,113 and 8,257 bytes would be saved into",
        lend() + (save(0, number=4), save(2111, number=4), save(2113, number=4))
        + lend(8192, record=LARGE_FACTORY) + (save(8255, number=4), save(8257, number=4))),
    Case(
        "number-5-byte-0-small", "byte 0 does not fit the image's length",
        "were byte 0 only to be 1 or 2, the 16 Kbit image that begins 02 would be loaded",
        lend() + (load("02" + image_text()[2:], "5a:0"), load(image_text()))),
    Case(
        "number-5-byte-0-large", "byte 0 does not fit the image's length",
        "were byte 0 only to be 1 or 2, the 64 Kbit image that begins 01 would be loaded",
        lend(8192) + (load("01" + LARGE_IMAGE[2:], "5a:0"), load(LARGE_IMAGE))),
    Case(
        "event-1-before-2", "An event checks 1, 2, 3 in that order.",
        "were the room looked at before the memory, the number would be 2",
        lend(2047, 10242) + on(1)),
    Case(
        "event-2-before-3", "An event checks 1, 2, 3 in that order.",
        "were the record looked at before the room, the number would be 3",
        lend(room=10242, record=BROKEN) + on(2)),
    Case(
        "event-1-before-3", "An event checks 1, 2, 3 in that order.",
        "were the record looked at before the memory, the number would be 3",
        lend(2047, record=BROKEN) + on(1)),
    Case(
        "load-4-before-1", "Loading checks 4, then 1, then 5",
        "were the memory looked at before the image's length, the number would be 1",
        lend(2047) + (load("", 4),)),
    Case(
        "load-1-before-5", "Loading checks 4, then 1, then 5",
        "were the header looked at before the memory, the number would be 5c:12",
        lend(2047) + (load(image_text(BROKEN), 1),)),
    Case(
        "load-4-before-5", "Loading checks 4, then 1, then 5",
        "were the header looked at before the image's length, the number would be 5c:12",
        lend() + (load(BROKEN[:128], 4),)),
    Case(
        "save-4-before-1", "saving checks 4, 1, 3",
        "were the memory looked at before the image's length, the number would be 1",
        lend(2047) + (save(2111, number=4),)),
    Case(
        "save-1-before-3", "saving checks 4, 1, 3",
        "were the record looked at before the memory, the number would be 3",
        lend(2047, record=BROKEN) + (save(2112, number=1),)),
    Case(
        "load-asks-no-room", "None is given otherwise.",
        "were a load to check the room, which it does not need, the number would be 2",
        lend(room=0) + (load(image_text()),)),
    Case(
        "load-heeds-no-record", "Loading checks 4, then 1, then 5 .. None is given otherwise.",
        "were the record that is replaced looked at, the number would be 3",
        lend(record=NO_RECORD) + (load(image_text(), record=places(FACTORY)),)),
    Case(
        "save-asks-no-room", "None is given otherwise.",
        "were a save to check the room, which it does not need, the number would be 2",
        lend(room=0) + (save(2112, image_text()),)),
    Case(
        "no-number-for-a-frame", "None is given otherwise.",
        "were a frame refused or unheard for its length, 1,100 bytes of a code that is not listed would not be 01 02",
        in_field(SMALL) + (request("022B" + "00" * 1096, NOT_LISTED), request("0220" + "00" * 1096))),
    Case(
        "refused-event-keeps-all", "A refusal returns its number and length 0; record and buffers stay.",
        "were the frame worked before the refusal, the held answer would be dropped, block 0 written, the room filled",
        lend(room=10242, record=record_text(SMALL, changes={FIELD: 1, STATE: SELECTED, HELD: 1})) + (
            request("022100A1A2A3A4", number=2, record={STATE: SELECTED, HELD: 1}, memory=shown_crc(ZEROS),
                    room=shown_crc("EE" * 10242)),
            line("ROOM 10243"), event("EOF", DONE))),
    Case(
        "refused-record-stays", "A refusal returns its number and length 0; record and buffers stay.",
        "were a broken record mended by field off, bytes 12 and 64 would be 00",
        lend(record=record_text(SMALL, protections=(0x10, 0, 0, 0), changes={FIELD: 1})) + (
            event("OFF", number=3, record={12: 0x10, FIELD: 1}),)),
    Case(
        "refused-load-keeps-all", "A refusal returns its number and length 0; record and buffers stay.",
        "were the memory filled before the header is found broken, it would hold 55h; were the field off, byte 64 00",
        standing(SMALL, {AFI: 0x35}) + (
            load(image_text(record_text(SMALL, changes={63: 1}), FILLED), "5e:63", record={AFI: 0x35, FIELD: 1},
                 memory=shown_crc(ZEROS), room=shown_crc(ROOM)),)),
    Case(
        "refused-save-keeps-image", "A refusal returns its number and length 0; record and buffers stay.",
        "were the image filled before the record is found broken, or cleared, it would not be EEh throughout",
        lend(record=BROKEN) + (save(2112, number=3, record=places(BROKEN), room=shown_crc("EE" * 2112)),
                               save(2111, number=4, room=shown_crc("EE" * 2111)))),
    Case(
        "answer-fills-first-bytes", "An answer of n bytes fills the first n bytes of the room, the rest unchanged.",
        "were the rest of the room cleared, bytes 4 to 11 of the longer answer would not stand after the shorter one",
        in_field(SMALL) + (
            request("260100", INVENTORY_ANSWER, room=shown_crc(INVENTORY_ANSWER + ROOM[24:])),
            request("02300002", NOT_AVAILABLE, room=shown_crc(NOT_AVAILABLE + INVENTORY_ANSWER[8:] + ROOM[24:])))),
    Case(
        "silence-is-length-0", "Silence is length 0 with no number.",
        "were silence a refusal, or an answer of zeros, it would have a number, a length or an altered room",
        in_field(SMALL) + (request("260100", INVENTORY_ANSWER),
                           request("0220", room=shown_crc(INVENTORY_ANSWER + ROOM[24:])))),
    Case(
        "load-fills-memory", "Loading fills the memory and returns the record, length 0",
        "were the record of before kept, byte 9 would be 00; were the image's length returned, it would be 2,112",
        lend() + (load(image_text(record_text(SMALL, changes={AFI: 0x35}), FILLED), memory=shown_crc(FILLED),
                       record={AFI: 0x35}, room=shown_crc(ROOM)),)),
    Case(
        "save-fills-image", "saving fills the image and returns its length.",
        "were length 0 returned as by a load, or the memory left out, the answer would not be all 2,112 bytes",
        lend(record=record_text(SMALL, changes={AFI: 0x35})) + (
            line("PUT 0 " + FILLED), save(2112, image_text(record_text(SMALL, changes={AFI: 0x35}), FILLED),
                                          record={AFI: 0x35}, memory=shown_crc(FILLED)))),
    Case(
        "longest-answer", "The longest answer is 2,048 blocks with status: 1 + 2,048 × 5 + 2 = 10,243.",
        "were a count beyond the memory answered in full or by an error, it would not be 10,243 bytes, the whole room",
        in_field(LARGE) + (
            request("42330000FFFF", framed("00" + "0000000000" * 2048),
                    room=shown_crc(framed("00" + "0000000000" * 2048))),)),
)
