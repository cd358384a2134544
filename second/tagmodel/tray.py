"""A tray of tags, and the search over them event by event, as a reader makes it.

What the slots hear is what the tags answer. The module `search` comes to the same without a tag and without an event.
"""

from typing import List, NamedTuple, Tuple

from . import host
from .crc import crc_is_right
from .search import SLOTS, frame_of
from .sizes import LONGEST_ANSWER, SIZES
from .tag import EOF, ON

ANSWER_BYTES = 12  # 00h, DSFID, UID, CRC
UID_IN_ANSWER = slice(2, 10)


class Asked(NamedTuple):
    """A request: its mask, its frame, and by slot the answers that are not silence."""

    mask: Tuple[int, ...]
    frame: bytes
    answers: List[List[bytes]]

    @property
    def slots(self):
        """By slot the UIDs heard in it."""
        return [[uid_of_answer(answer) for answer in slot] for slot in self.answers]


class Tray:
    """Tags that stand in the field. All lend the same room, from which each answer is read at once."""

    def __init__(self):
        self.records, self.memories = [], []
        self.room = bytearray(LONGEST_ANSWER)

    def put(self, record, memory):
        """A tag more; its field is turned on."""
        self.records.append(record)
        self.memories.append(memory)
        self.happen(len(self.records) - 1, ON)

    def put_factory(self, uid, size=SIZES[0]):
        """A factory tag more."""
        memory = bytearray(size.memory_bytes)
        self.put(host.factory(None, memory, uid).record, memory)

    def happen(self, tag, event):
        """One tag's answer to one event."""
        result = host.event(self.records[tag], self.memories[tag], self.room, event)
        self.records[tag] = result.record
        return bytes(self.room[:result.length])

    def answers(self, event):
        """The answers of all tags to one event, without silence."""
        found = (self.happen(tag, event) for tag in range(len(self.records)))
        return [answer for answer in found if answer]

    def ask(self, mask):
        """A request and fifteen ends of frame, each given to every tag: what each of the sixteen slots heard."""
        frame = frame_of(mask)
        return Asked(mask, frame, [self.answers(frame)] + [self.answers(EOF) for _ in range(SLOTS - 1)])

    def search(self, mask=()):
        """The UIDs in the order found, and the requests in the order sent.

        One answer in a slot is a find; after more the search 'goes again with the mask longer by that slot's four bits'.
        """
        asked = self.ask(mask)
        uids, requests = [], [asked]
        for slot, heard in enumerate(asked.slots):
            if len(heard) == 1:
                uids += heard
            elif heard:
                found, sent = self.search((*mask, slot))
                uids += found
                requests += sent
        return uids, requests


def uid_of_answer(answer):
    """The UID of an answer that is whole: '00h, DSFID, UID, CRC'."""
    if len(answer) != ANSWER_BYTES or answer[0] != 0x00 or not crc_is_right(answer):
        raise ValueError(f"no answer to an Inventory: {answer.hex()}")
    return int.from_bytes(answer[UID_IN_ANSWER], "little")
