"""Numbers from a seed, the same on each version of Python."""

MASK = 2 ** 64 - 1


class Dice:
    """A 64-bit xorshift generator (shifts 13, 7, 17)."""

    def __init__(self, seed):
        self.state = (seed * 0x9E3779B97F4A7C15 + 0x2545F4914F6CDD1D) & MASK or 1
        for _ in range(8):
            self.roll()

    def roll(self):
        """The next 64-bit number."""
        state = self.state
        state ^= state << 13 & MASK
        state ^= state >> 7
        state ^= state << 17 & MASK
        self.state = state
        return state

    def below(self, limit):
        """A number from 0 to limit - 1."""
        return (self.roll() >> 16) % limit

    def choose(self, things):
        """One of a list."""
        return things[self.below(len(things))]

    def one_in(self, chances):
        """True once in so many times."""
        return self.below(chances) == 0

    def bytes(self, count):
        """So many bytes."""
        return bytes(self.below(256) for _ in range(count))
