"""The host calls and their refusals. A refusal returns its number, length 0 and, for a header, the place at fault."""

from typing import NamedTuple, Optional, Union

from .branches import hit
from .image import header_fault, header_of_record, record_of_header
from .record import NoRecord, Record, factory_record
from .rules import record_fault
from .sizes import HEADER_BYTES, LONGEST_ANSWER, size_of_image, size_of_memory
from .tag import step

BAD_MEMORY, BAD_ROOM, BAD_RECORD, BAD_IMAGE_LENGTH = 1, 2, 3, 4  # 5a to 5e are 5Ah to 5Eh, see image
NO_REFUSAL = 0


class Result(NamedTuple):
    """The number of the refusal (0 for none), the length of the answer, the next record, the place that 5a to 5e have."""

    number: int
    length: int
    record: Union[Record, NoRecord]
    place: Optional[int] = None


def refuse(call, number, reason, record, place=None):
    """'record and buffers stay'."""
    hit(f"{call}.refusal-{number:x}.{reason}")
    return Result(number, 0, record, place)


def event(record, memory, room, happening):
    """'An event checks 1, 2, 3 in that order.' Memory and room are changed in place."""
    size = size_of_memory(len(memory))
    if size is None:
        return refuse("event", BAD_MEMORY, "memory", record)
    if len(room) < LONGEST_ANSWER:
        return refuse("event", BAD_ROOM, "room", record)
    fault = record_fault(record, size.last_end)
    if fault:
        return refuse("event", BAD_RECORD, fault, record)
    record, answer = step(record, memory, happening)
    room[:len(answer)] = answer
    hit("event.answer" if answer else "event.silence")
    return Result(NO_REFUSAL, len(answer), record)


def load(record, memory, image):
    """'Loading checks 4, then 1, then 5', '5a to 5e stand where 5 stood'; it 'fills the memory and returns the record'."""
    size = size_of_image(len(image))
    if size is None:
        return refuse("load", BAD_IMAGE_LENGTH, "image", record)
    if len(memory) != size.memory_bytes:
        return refuse("load", BAD_MEMORY, memory_fault(memory), record)
    fault = header_fault(image[:HEADER_BYTES], size)
    if fault:
        return refuse("load", fault.number, fault.rule, record, fault.place)
    memory[:] = image[HEADER_BYTES:]
    hit(f"load.done-{size.mark}")
    return Result(NO_REFUSAL, 0, record_of_header(image[:HEADER_BYTES]))


def save(record, memory, image):
    """'saving checks 4, 1, 3'; it 'fills the image and returns its length'."""
    size = size_of_image(len(image))
    if size is None:
        return refuse("save", BAD_IMAGE_LENGTH, "image", record)
    if len(memory) != size.memory_bytes:
        return refuse("save", BAD_MEMORY, memory_fault(memory), record)
    fault = record_fault(record, size.last_end)
    if fault:
        return refuse("save", BAD_RECORD, fault, record)
    image[:] = header_of_record(record, size) + memory
    hit(f"save.done-{size.mark}.field-{'on' if record.field else 'off'}")
    return Result(NO_REFUSAL, len(image), record)


def factory(record, memory, uid):
    """'fills the lent memory with zeros and makes the record of a factory tag of that size'.

    It checks 1 alone; the record that was there is not looked at.
    """
    size = size_of_memory(len(memory))
    if size is None:
        return refuse("factory", BAD_MEMORY, "memory", record)
    memory[:] = bytes(size.memory_bytes)
    hit(f"factory.done-{size.mark}")
    return Result(NO_REFUSAL, 0, factory_record(uid, size))


def memory_fault(memory):
    """'is not 2,048 or 8,192 bytes, or does not fit the image's length'."""
    return "memory" if size_of_memory(len(memory)) is None else "memory-does-not-fit"
