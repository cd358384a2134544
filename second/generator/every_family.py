"""Lines that ask tags of every AFI for every AFI, with 1 slot and with 16."""

from tagmodel.boundary import FIELD, bytes_of_record
from tagmodel.crc import with_crc
from tagmodel.image import AFI
from tagmodel.record import factory_record
from tagmodel.sizes import SIZES

from .bench import hexed
from .frames import inventory

AFIS = range(256)
UIDS = (0xE002230401D6C8F0, 0xE002230401D6C8F5)  # with 16 slots and no mask the one speaks at once, the other in slot 5


def tag(stored):
    """A tag with this AFI, in the field; in each family, and among those of a lower half, both UIDs come in turn."""
    record = bytearray(bytes_of_record(factory_record(UIDS[(stored >> 4 ^ stored) & 1], SIZES[0]), SIZES[0]))
    record[FIELD], record[AFI] = 1, stored
    return b"REC " + hexed(record)


def ask(asked, one_slot):
    """An Inventory without a mask for this AFI."""
    return b"REQ " + hexed(with_crc(inventory(0, b"", one_slot, asked)))


def every_family(step=1):
    """The lines, for all pairs or one in so many.

    The request with 1 slot comes first: as any frame it drops the round that the one before it may have opened, and it
    opens none, so that both are asked of the tag as it was set.
    """
    asked_for = [(ask(asked, True), ask(asked, False)) for asked in AFIS]
    for stored in AFIS:
        yield tag(stored)
        for asked in AFIS[-stored * len(AFIS) % step::step]:
            yield from asked_for[asked]
