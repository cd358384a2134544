"""Finding every tag on a tray (document 02, W-201), from the masks that its UIDs share.

A reader asks, listens, and asks again where a slot collides. Here nothing is asked: a mask is sent if it is empty or two
or more tags share it. Which requests are sent, in which order, and what each slot hears follow from the UIDs alone.
A mask is written as its four-bit groups, lowest first.
"""

from collections import Counter
from typing import NamedTuple

from .branches import hit
from .crc import with_crc

MOST_TAGS = 256
TOO_MANY, EQUAL_UIDS, LIST_TOO_SMALL = 6, 7, 18
NO_REFUSAL = 0

GROUP_BITS = 4
UID_GROUPS = 16
SLOTS = 16

# Inventory_flag and high data rate; bit 6 is clear, so 16 slots; no AFI.
FLAGS, INVENTORY = 0x06, 0x01


class Found(NamedTuple):
    """The number of the refusal (0 for none), the number of requests sent, the number of UIDs in the list."""

    number: int
    requests: int
    count: int


def groups_of(uid):
    """The sixteen four-bit groups of a UID, 'taken from the lowest'."""
    return tuple(uid >> GROUP_BITS * place & 0x0F for place in range(UID_GROUPS))


def in_order(uids):
    """'in ascending order of the UID's four-bit groups taken from the lowest'."""
    return sorted(uids, key=groups_of)


def masks_asked(uids):
    """The masks of all requests in the order sent.

    A shorter mask stands before the longer ones that begin with it, and these before the mask of the next slot: that is
    the order of their groups. UIDs that are not equal share at most fifteen groups.
    """
    tags = Counter(groups[:length] for groups in map(groups_of, uids) for length in range(1, UID_GROUPS))
    return [(), *sorted(mask for mask in tags if tags[mask] > 1)]


def frame_of(mask):
    """The Inventory request: flags, code, mask length in bits, mask bytes lowest first, CRC."""
    bits = GROUP_BITS * len(mask)
    value = sum(group << GROUP_BITS * place for place, group in enumerate(mask))
    return with_crc(bytes((FLAGS, INVENTORY, bits)) + value.to_bytes((bits + 7) // 8, "little"))


def heard(uids, mask):
    """By slot, the UIDs that answer this mask: nobody, one that is found, or a collision."""
    slots = [[] for _ in range(SLOTS)]
    for uid in uids:
        groups = groups_of(uid)
        if groups[:len(mask)] == mask:
            slots[groups[len(mask)]].append(uid)
    return slots


def search(uids, entries):
    """The search; the list's entries are changed in place, those after the list and those of a refused call stay."""
    number = refusal(uids, len(entries))
    if number != NO_REFUSAL:
        hit(f"search.refusal-{number}")
        return Found(number, 0, 0)
    masks = masks_asked(uids)
    for mask in masks:
        hit(f"search.mask-{GROUP_BITS * len(mask)}")
    entries[:len(uids)] = in_order(uids)
    hit("search.list-full" if len(uids) == len(entries) else "search.entries-after")
    return Found(NO_REFUSAL, len(masks), len(uids))


def refusal(uids, room):
    """'6 for more than 256 tags, then 7 if two UIDs are equal, then 18 if the list's room is too small for all'."""
    if len(uids) > MOST_TAGS:
        return TOO_MANY
    if len(set(uids)) < len(uids):
        return EQUAL_UIDS
    return LIST_TOO_SMALL if room < len(uids) else NO_REFUSAL
