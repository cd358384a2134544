"""Lines of SEARCH for trays of every number of tags: of every shape and with rooms about that number, and with a tag that is there twice."""

from tagmodel.search import MOST_TAGS, UID_GROUPS

from .dice import Dice
from .search_groups import search_line
from .trays import SHAPES, clustered, mixed, with_equal

CLUSTERS, BESIDE = 20, 12  # clusters of a depth, and the most tags that each has beside two


def about(uids):
    """These tags with one entry less than they need, as many, and one more."""
    return [(uids, room) for room in (len(uids) - 1, len(uids), len(uids) + 1) if room >= 0]


def of_number(dice, count):
    """So many tags of each shape."""
    for shape in SHAPES:
        uids = mixed(dice, shape(dice, count))
        yield from about(uids)
        if uids:
            yield with_equal(dice, uids), count + 1


def of_depth(dice, depth):
    """Tags of which some are alike in so many groups."""
    for _ in range(CLUSTERS):
        yield from about(clustered(dice, depth, BESIDE))


def every_tray(seed, step=1):
    """The lines: every number of tags up to 257, or each so many, and every depth."""
    dice = Dice(seed)
    for count in (*range(0, MOST_TAGS, step), MOST_TAGS, MOST_TAGS + 1):
        yield from (search_line(uids, room) for uids, room in of_number(dice, count))
    for depth in range(1, UID_GROUPS):
        yield from (search_line(uids, room) for uids, room in of_depth(dice, depth))
