"""Trays of tags, given by their UIDs: apart, alike in their low groups at every depth, and of the most requests."""

from tagmodel.search import GROUP_BITS, UID_GROUPS

DEEPEST = UID_GROUPS - 1  # UIDs that are not equal are alike in at most so many groups
EDGES = (0, 1, 2 ** 63, 2 ** 64 - 1, 0x0F, 0x10, 0x02, 2 ** 60, 0xE002230401D6C8F0)


def alike(dice, uid, depth):
    """Any UID whose lowest groups, so many, are those of this one."""
    bits = GROUP_BITS * depth
    return uid & (1 << bits) - 1 | dice.roll() >> bits << bits


def grown(dice, count, depths):
    """So many UIDs, no two equal, each alike to one before it in one of these numbers of groups."""
    uids = [dice.roll()]
    while len(uids) < count:
        uid = alike(dice, dice.choose(uids), dice.choose(depths))
        if uid not in uids:
            uids.append(uid)
    return uids[:count]


def loose(dice, count):
    """UIDs that are alike by chance alone."""
    return grown(dice, count, (0,))


def branched(dice, count):
    """UIDs alike at any depth."""
    return grown(dice, count, range(UID_GROUPS))


def crowded(dice, count):
    """UIDs alike in many groups; fourteen are as deep as 256 tags can go."""
    return grown(dice, count, range(10, DEEPEST))


def paired(dice, count):
    """Pairs alike in all groups but the highest, sixteen of them with a lowest group of their own: the most requests."""
    uids = []
    for pair in range(count // 2):
        uid = dice.roll() & ~0xFF | pair % 16 | pair // 16 << GROUP_BITS
        uids += [uid, uid ^ (1 + dice.below(15)) << GROUP_BITS * DEEPEST]
    return uids + [dice.roll() for _ in range(count % 2)]


def full_slots(dice, depth):
    """Sixteen tags, one in each slot after so many groups that are alike."""
    uid, place = dice.roll(), GROUP_BITS * depth
    return [alike(dice, uid, depth) & ~(0x0F << place) | slot << place for slot in range(16)]


def edges(dice, count):
    """Some of the UIDs at the edges."""
    return mixed(dice, EDGES)[:count]


def mixed(dice, uids):
    """The same UIDs in another order."""
    uids = list(uids)
    return [uids.pop(dice.below(len(uids))) for _ in range(len(uids))]


SHAPES = (loose, branched, crowded, paired)


def clustered(dice, depth, most):
    """At least two tags alike in so many groups, and others beside them; at most so many more of each."""
    return mixed(dice, grown(dice, 2 + dice.below(most + 1), (depth,)) + loose(dice, dice.below(most + 1)))


def any_tray(dice, count):
    """So many tags of any shape, in any order."""
    return mixed(dice, dice.choose(SHAPES)(dice, count))


def with_equal(dice, uids):
    """The tray with one of its tags once more, at any place."""
    uids = list(uids)
    uids.insert(dice.below(len(uids) + 1), dice.choose(uids))
    return uids
