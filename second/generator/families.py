"""AFIs at the edges of the families, as upper and lower half."""


def joined(upper, lower):
    """The AFI of these halves; past Fh and 0h they go round."""
    return (upper & 0x0F) << 4 | lower & 0x0F


def any_stored(dice):
    """AFIs of each form: 00h, X0h, 0Yh, and two of XYh; half of their halves are the least or the greatest."""
    first, second, third, fourth = (dice.choose((1, 15, 1 + dice.below(15), 1 + dice.below(15))) for _ in range(4))
    return joined(0, 0), joined(first, 0), joined(0, second), joined(first, second), joined(third, fourth)


def about(dice, stored):
    """What may be asked of a tag: 00h, its AFI, each half alone, both exchanged, one of them one more or less, or any."""
    upper, lower = stored >> 4, stored & 0x0F
    halves = [(0, 0), (upper, lower), (upper, 0), (0, lower), (lower, 0), (0, upper), (lower, upper),
              (upper + 1, 0), (upper - 1, 0), (upper + 1, lower), (upper - 1, lower), (upper, lower + 1),
              (upper, lower - 1), (upper, dice.below(16)), (dice.below(16), lower), (dice.below(16), 0),
              (dice.below(16), dice.below(16))]
    return [joined(*pair) for pair in halves]
