"""Document 01: its session, its bench case that is not starred, its longest answer, and its factory tag."""

from .examples import (BYTES, DONE, FIELD, HELD, INVENTORY_ANSWER, LARGE, NO_RECORD, SILENCE, SMALL, UID, Example,
                       Step, event, framed, image_text, in_field, line, record_text, request, shown_crc)

# 'Input:' and 'Whole output:' of the session program.
SESSION_INPUT = b"ON\n260100\n022000\n02300002\n02B302010000000000000001\n02B302000000000000000000\n"
SESSION_OUTPUT = b"1 -\n2 0000F0C8D601042302E064A3\n3 000000000077CF\n4 01101E06\n5 010F68EE\n6 0078F0\n"

HELD_SUCCESS = {HELD: 1}
NOTHING_HELD = {HELD: 0}


def save(memory, field, held):
    """The image of a factory 16 Kbit tag with UID 0 and this memory; the passing parts stay."""
    return Step(b"SAVE 2112", image_text(record_text(SMALL, uid="00" * 8), memory), record={FIELD: field, HELD: held})


def held_write(write, read, shown=()):
    """A write with Option_flag, what is asked before its end of frame, and the block read back."""
    return (request(write + BYTES, record=HELD_SUCCESS),) + shown + (
        event("EOF", DONE, record=NOTHING_HELD), event("EOF", record=NOTHING_HELD), request(read, framed("00" + BYTES)))


def factory(memory, record, number=0):
    """FACTORY with the UID of 001, and the memory and record, in hex, that stand after it."""
    places = dict(enumerate(bytes.fromhex(record)))
    return Step(b"FACTORY " + UID.encode("ascii"), SILENCE, number, places, shown_crc(memory))


def made_factory_tag(size):
    """A factory tag where the memory is full of AAh and the record's bytes are no record; then it is in the field."""
    return (line(f"MEM {size.memory}"), line("ROOM 10243"), line("PUT 0 " + "AA" * size.memory), line("REC " + NO_RECORD),
            factory("00" * size.memory, record_text(size)),
            event("ON", record={FIELD: 1}), request("260100", INVENTORY_ANSWER))


def refused_factory_tag(length, record):
    """Number 1: memory full of AAh and the record's bytes stay as they were."""
    return (line(f"MEM {length}"), line("PUT 0 " + "AA" * length), line("REC " + record),
            factory("AA" * length, record, 1))


EXAMPLES = (
    Example(
        "01, Bench cases",
        "Option_flag write: silence, bytes changed; EOF gives 00 78 F0.",
        "block 5 by 21h, on the factory tag that stands at the start of casebook; SAVE shows the bytes while the answer is "
        "held, since a read would drop it",
        (save("00" * 2048, 0, 0), event("ON", record={FIELD: 1}))
        + held_write("422105", "022005", (save("00" * 20 + BYTES + "00" * 2024, 1, 1),))),
    Example(
        "01, Bench cases", "Option_flag write: silence, bytes changed; EOF gives 00 78 F0.",
        "the same by 24h, 31h and 34h",
        in_field(SMALL) + held_write("422407" + "00", "022007")
        + in_field(LARGE) + held_write("4231FF07", "0230FF07") + held_write("423400010000", "02300001")),
    Example(
        "01, Host calls and their numbers",
        "The longest answer is 2,048 blocks with status",
        "33h with Option_flag on a factory 64 Kbit tag: every block is writable and zero",
        in_field(LARGE) + (request("42330000FF07", framed("00" + "0000000000" * 2048)),)),
    Example(
        "01, Host calls and their numbers; Record and image",
        "user memory lent is not 2,048 or 8,192 bytes .. A factory tag has zero memory, passwords, locks, AFI, DSFID and "
        "RFAiSS, and all ends at E.",
        "FACTORY of both sizes with 001's UID, and 001's Inventory after it; number 1 on no memory and on the lengths beside "
        "the two, where the record's bytes are a record and where they are none",
        made_factory_tag(SMALL) + made_factory_tag(LARGE)
        + tuple(step for length in (0, 2047, 2049, 8191, 8193) for record in (record_text(SMALL), NO_RECORD)
                for step in refused_factory_tag(length, record))),
)
