"""What an example is made of. Nothing here comes from the model, not even the CRC.

Requests are given as the documents print them, without CRC. An answer whose CRC
a document prints is given whole; to the others `framed` adds the CRC of 01.
"""

from typing import Mapping, NamedTuple, Optional, Tuple, Union

UID = "F0C8D601042302E0"  # 001: E002230401D6C8F0, lowest byte first
OTHER_UID = "F1C8D601042302E0"
ZEROS = "00" * 2048  # a fresh memory of the smaller tag
BYTES, PASSWORD, ZERO_PASSWORD = "A1A2A3A4", "0102030405060708", "00" * 8
WRITTEN = BYTES + ZEROS[8:]  # that memory with the bytes in block 0
NO_RECORD = "FF" * 72
DONE = "0078F0"  # 001 and 01: success, CRC 78 F0
INVENTORY_ANSWER = "0000F0C8D601042302E064A3"  # 001 and 01
SILENCE = ""
AFI, DSFID, LOCKS, PASSWORD_1 = 9, 10, 11, range(27, 35)  # places in the record's 72 bytes
FIELD, STATE, SESSION, ROUND, SLOT, MASK_LENGTH, HELD, HELD_CODE = range(64, 72)
READY, QUIET, SELECTED = 0, 1, 2
NO_SESSION, CONFIGURATION_SESSION, SESSION_1, SESSION_2, SESSION_3 = 0, 1, 2, 3, 4  # none, or of password 0 to 3
NOTHING_PASSING = dict.fromkeys(range(64, 72), 0)
LOCK_CFG = 0x10  # bit 4 of the locks
CLOSED = 0x0C  # RFAiSS: protection 11, no password; never writable, and in Areas 2 to 4 never readable
RUNNING = {ROUND: 1, SLOT: 7, MASK_LENGTH: 8}  # a round; after F0h the slot of the UID is 8h, the next one


class Size(NamedTuple):
    """One of the two tags of 01: bytes of memory, byte 0 of its image, E."""

    memory: int
    mark: int
    last_end: int


SMALL, LARGE = Size(2048, 1, 63), Size(8192, 2, 255)


class Step(NamedTuple):
    """A line and what its answer must say: `ok` if `answer` is None, else a call's answer in hex.

    `number` is as it is printed, text where it has a letter and a place. `record` names bytes of the 72 by their place;
    `memory` and `room` are the CRC of their bytes, high byte first (for SAVE the image stands in place of the room, for
    SEARCH the list). For SEARCH `answer` has the UIDs found and `requests` is the number of requests; for the others it
    is None.
    """

    line: bytes
    answer: Optional[str] = None
    number: Union[int, str] = 0
    record: Mapping[int, int] = {}
    memory: Optional[str] = None
    room: Optional[str] = None
    requests: Optional[int] = None


class Example(NamedTuple):
    """A passage of a document, its words (`..` where some are left out), and how the lines try it."""

    source: str
    words: str
    note: str
    steps: Tuple[Step, ...]


class Case(NamedTuple):
    """A ruling sentence of 01 or 02 tried alone: the name that docs/TRACE.md cites, the document's words (`..` where
    some are left out), what the lines would answer were the words read otherwise, and the lines with their answers."""

    name: str
    words: str
    otherwise: str
    steps: Tuple[Step, ...]
    document: str = "01"


class SessionCase(NamedTuple):
    """The same for `tagrun`: lines that follow 01's session, each with what its output has after number and space."""

    name: str
    words: str
    otherwise: str
    lines: Tuple[bytes, ...]
    outputs: Tuple[str, ...]


def crc_text(text):
    """The CRC of bytes in hex, low byte first: polynomial 1021h (8408h reflected), lowest bit of a byte first."""
    value = 0xFFFF
    for byte in bytes.fromhex(text):
        for place in range(8):
            differs = value >> 15 != byte >> place & 1
            value = value << 1 & 0xFFFF
            value ^= 0x1021 if differs else 0
    reflected = int(f"{value ^ 0xFFFF:016b}"[::-1], 2)
    return reflected.to_bytes(2, "little").hex().upper()


def shown_crc(text):
    """The CRC as casebook shows it for memory and room, high byte first."""
    low, high = bytes.fromhex(crc_text(text))
    return f"{high:02X}{low:02X}"


def framed(text):
    """Bytes in hex with their CRC."""
    return text + crc_text(text)


def error(code):
    """'an error is 01h, code; CRC follows'."""
    return framed(f"01{code:02X}")


# The nine error codes of 01.
(NOT_LISTED, OPTION_REFUSED, NO_INFORMATION, NOT_AVAILABLE, LOCKED_ALREADY, NOT_WRITTEN, NOT_PROGRAMMED, NOT_LOCKED,
 NOT_READ) = map(error, (0x02, 0x03, 0x0F, 0x10, 0x11, 0x12, 0x13, 0x14, 0x15))


def line(text):
    """A line that is answered `ok`."""
    return Step(text.encode("ascii"))


def event(word, answer=SILENCE, **facts):
    """ON, OFF or EOF."""
    return Step(word.encode("ascii"), answer, **facts)


def frame(text, answer=SILENCE, **facts):
    """A frame as it stands."""
    return Step(b"REQ " + text.encode("ascii"), answer, **facts)


def request(text, answer=SILENCE, **facts):
    """A request as a document prints it; its CRC is added."""
    return frame(framed(text), answer, **facts)


def record_text(size, ends=None, protections=(0, 0, 0, 0), locks=0, changes=None, uid=UID):
    """A record's 72 bytes by the places of CASEBOOK.md: a tag with the field off; `changes` sets bytes by place."""
    data = bytearray(72)
    data[0] = size.mark
    data[1:9] = bytes.fromhex(uid)
    data[11] = locks
    data[12], data[14], data[16], data[18] = protections
    data[13], data[15], data[17] = ends or (size.last_end,) * 3
    for place, value in (changes or {}).items():
        data[place] = value
    return bytes(data).hex().upper()


def lent(size, *parts, **named):
    """Fresh memory, a room that suffices, and a record as `record_text` makes it."""
    return (line(f"MEM {size.memory}"), line("ROOM 10243"), line("REC " + record_text(size, *parts, **named)))


def in_field(size, ends=None, protections=(0, 0, 0, 0), locks=0, session=0):
    """The same with the field on and, where asked, a session open."""
    return lent(size, ends, protections, locks, {FIELD: 1, SESSION: session})


def configured(ends=None, size=SMALL, locks=0):
    """A tag whose configuration session is open."""
    return in_field(size, ends, locks=locks, session=CONFIGURATION_SESSION)


def standing(size, passing):
    """The same with the field on and these passing parts, by place."""
    return lent(size, changes={FIELD: 1, **passing})


def numbered(first, count):
    """Contents of blocks that hold their own number, high byte first."""
    return "".join(f"{block:08X}" for block in range(first, first + count))


FACTORY = record_text(SMALL)
ZERO_BLOCK = framed("0000000000")  # a block of a factory tag as it is read
PASSWORDS = tuple(bytes(range(start, start + 8)).hex().upper() for start in (0x10, 0x20, 0x30, 0x40))

# Every lasting part is set, no two of them alike; the field is off.
LASTING = record_text(SMALL, (0x11, 0x12, 0x13), (4, 5, 6, 7), 0x1F,
                      {AFI: 0x35, DSFID: 0x5A, **dict(enumerate(bytes.fromhex("".join(PASSWORDS)), 19))})


def image_text(record=FACTORY, memory=ZEROS):
    """An image: the record's first 64 bytes, then the memory."""
    return record[:128] + memory


def load(image, number=0, **facts):
    """LOAD of an image in hex."""
    return Step(b"LOAD " + image.encode("ascii"), SILENCE, number, **facts)


def save(length, answer=SILENCE, **facts):
    """SAVE into an image of so many bytes."""
    return Step(f"SAVE {length}".encode("ascii"), answer, **facts)


def places(record):
    """All bytes of a record in hex, by place."""
    return dict(enumerate(bytes.fromhex(record)))


# The parts of an answer line by name: that of a search, and that of any other call.
SEARCH_PARTS = ("number", "requests", "answer", "room")
CALL_PARTS = ("number", "length", "answer", "record", "memory", "room")


def expected_parts(step):
    """By name, what the parts of a call's answer line must be; of the others anything is taken."""
    parts = {"number": str(step.number), "answer": step.answer or "-", "memory": step.memory, "room": step.room}
    if step.requests is None:
        parts["length"] = str(len(step.answer) // 2)
    else:
        parts["requests"] = str(step.requests)
    parts.update({f"record byte {place}": f"{value:02X}" for place, value in step.record.items()})
    return {name: part for name, part in parts.items() if part is not None}


def faults(step, answer):
    """What an answer line says otherwise than the document."""
    if step.answer is None:
        return [] if answer == "ok" else [f"expected ok: {answer[:80]}"]
    names, parts = CALL_PARTS if step.requests is None else SEARCH_PARTS, answer.split(" ")
    if len(parts) != len(names):
        return [f"expected the answer of a call: {answer[:80]}"]
    found = dict(zip(names, parts))
    found.update({f"record byte {place}": found["record"][2 * place:2 * place + 2] for place in step.record})
    return [f"{name}: expected {wanted[:80]}, found {found[name][:80]}"
            for name, wanted in expected_parts(step).items() if wanted != found[name]]
