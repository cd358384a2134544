"""Paired runs of the search: the model's tags, asked event by event, beside what their UIDs alone say."""

from tagmodel.crc import with_crc
from tagmodel.record import READY, factory_record
from tagmodel.search import UID_GROUPS, frame_of, heard, masks_asked, search
from tagmodel.sizes import SIZES
from tagmodel.tray import Tray

from .dice import Dice
from .trays import any_tray, clustered, full_slots, loose, mixed, paired

FRESH = None  # what an entry holds before the search
KINDS = 60  # after so many trays their kinds begin again


def size_of(place):
    """Tags of both sizes in turn."""
    return SIZES[place % len(SIZES)]


def on_a_tray(uids):
    """Factory tags of these UIDs, in the field."""
    tray = Tray()
    for place, uid in enumerate(uids):
        tray.put_factory(uid, size_of(place))
    return tray


def faults(uids, tray):
    """In what the two searches differ, and what has become of the tags. They are Ready, and no two UIDs are equal."""
    found, sent = tray.search()
    entries, masks = [FRESH] * len(uids), masks_asked(uids)
    result = search(uids, entries)
    held = {
        "number": (result.number, 0),
        "UIDs found": (entries, found),
        "number of requests": (result.requests, len(sent)),
        "frames sent": ([frame_of(mask) for mask in masks], [asked.frame for asked in sent]),
        "answers": ([[list(map(answer_of, slot)) for slot in heard(uids, mask)] for mask in masks],
                    [asked.answers for asked in sent]),
        "tags afterwards": ([in_the_field(uid, size_of(place)) for place, uid in enumerate(uids)],
                            [record._replace(round=None) for record in tray.records]),
    }
    return [name for name, (ours, theirs) in held.items() if ours != theirs]


def answer_of(uid):
    """'Answer: 00h, DSFID, UID, CRC.' The DSFID of a factory tag is 00h."""
    return with_crc(bytes((0x00, 0x00)) + uid.to_bytes(8, "little"))


def in_the_field(uid, size):
    """A factory tag in the field, Ready; a round may stand beside it."""
    return factory_record(uid, size)._replace(field=True, state=READY)


def drawn_tray(seed, number):
    """Tags alike at each depth in turn, sixteen in one request, some; of KINDS trays three are larger."""
    dice, kind = Dice(2 ** 42 + seed * 1000003 + number), number % KINDS
    depth = kind % UID_GROUPS
    if kind == KINDS - 1:
        return mixed(dice, paired(dice, 2 * (1 + dice.below(12))))
    if kind == KINDS - 2:
        return loose(dice, dice.below(257))
    if kind == KINDS - 3:
        return any_tray(dice, dice.below(49))
    if kind >= 2 * UID_GROUPS:
        return any_tray(dice, kind % 11)
    return mixed(dice, full_slots(dice, depth)) if kind >= UID_GROUPS else clustered(dice, depth, 6)


def run(seed, count):
    """So many trays of a seed: how many tags and requests they have, and the faults by tray."""
    tags = requests = 0
    found = []
    for number in range(count):
        uids = drawn_tray(seed, number)
        tags, requests = tags + len(uids), requests + len(masks_asked(uids))
        found += [f"tray {number} of seed {seed}: {fault} differ" for fault in faults(uids, on_a_tray(uids))]
    return tags, requests, found
