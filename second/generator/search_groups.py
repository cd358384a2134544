"""Groups about the search: trays of every kind with lists of every room, refused ones, and lines of no form."""

from tagmodel.casebook import MOST_ENTRIES, MOST_UIDS
from tagmodel.search import MOST_TAGS, UID_GROUPS
from tagmodel.sizes import SIZES

from . import scenes
from .bench import hexed
from .noforms import search_no_form_lines
from .trays import any_tray, clustered, edges, full_slots, mixed, paired, with_equal

SMALL_TRAY = 24


def search_line(uids, room):
    """SEARCH of these UIDs with a list of so many entries."""
    return b"SEARCH %d " % room + hexed(b"".join(uid.to_bytes(8, "little") for uid in uids))


def say_search(bench, uids, room):
    """The same on a bench, with 0 to 300 entries."""
    bench.say(search_line(uids, max(0, min(room, MOST_ENTRIES))))


def any_room(dice, count):
    """Mostly as many entries as tags, or one more or less; also none, and the most."""
    return dice.choose((count, count, count, count + 1, count - 1, 0, MOST_ENTRIES))


def small_trays(bench, variant):
    """Tags alike at every depth; sixteen in one request; trays of no tag, of one, and of some."""
    dice = bench.dice
    for depth in range(1, UID_GROUPS):
        uids = clustered(dice, depth, 3)
        say_search(bench, uids, any_room(dice, len(uids)))
    say_search(bench, mixed(dice, full_slots(dice, variant % UID_GROUPS)), 16)
    for count in (0, 0, 1, 1, 2, 3, dice.below(SMALL_TRAY), dice.below(SMALL_TRAY)):
        say_search(bench, any_tray(dice, count), any_room(dice, count))
    uids = edges(dice, 1 + dice.below(9))
    say_search(bench, uids, len(uids) + dice.below(2))


def large_trays(bench, variant):
    """A tray of any number of tags up to 257, and in turn the ones about the greatest number and of the most requests."""
    dice = bench.dice
    count = dice.below(MOST_TAGS + 2)
    say_search(bench, any_tray(dice, count), dice.choose((count, count + 1, MOST_ENTRIES)))
    count, room = ((256, 256), (257, 257), (256, 255), (257, 300), (32, 32), (256, 300))[variant % 6]
    say_search(bench, mixed(dice, paired(dice, 32)) if count == 32 else any_tray(dice, count), room)


def refused_trays(bench, variant):
    """Equal UIDs in rooms that suffice and do not; in turn more than 256 tags with equal UIDs or too small a room."""
    dice = bench.dice
    for room in (MOST_ENTRIES, 0):
        uids = with_equal(dice, any_tray(dice, 1 + dice.below(SMALL_TRAY)))
        say_search(bench, uids, min(room, len(uids) + dice.below(3)))
    uids = any_tray(dice, 1 + dice.below(SMALL_TRAY))
    say_search(bench, with_equal(dice, uids), len(uids))
    say_search(bench, uids, dice.below(len(uids)))
    kind = variant % 8
    if kind < 2:
        uids = with_equal(dice, any_tray(dice, MOST_TAGS - kind))
        say_search(bench, uids, dice.choose((0, MOST_TAGS - 1, MOST_TAGS, MOST_ENTRIES)))
    elif kind == 2:
        uids = any_tray(dice, MOST_TAGS + 1 + dice.below(MOST_UIDS - MOST_TAGS))
        say_search(bench, uids, dice.choose((0, MOST_TAGS, MOST_ENTRIES)))


def trays(bench, variant):
    """All of them on one bench; what is lent and the record, which are not looked at, stay as they were."""
    dice, size = bench.dice, SIZES[variant % 2]
    bench.lend(size)
    bench.set_record(scenes.sound(dice, size))
    small_trays(bench, variant)
    large_trays(bench, variant)
    refused_trays(bench, variant)
    for line in search_no_form_lines(dice):
        bench.say(line)
    bench.say(b"EOF")
