"""Two sizes: 512 blocks (2,048 bytes) and 2,048 blocks (8,192 bytes), 4 bytes a block."""

from typing import NamedTuple

BLOCK_BYTES = 4
HEADER_BYTES = 64

# 1 + 2,048 x 5 + 2: "The longest answer is 2,048 blocks with status".
LONGEST_ANSWER = 10243


class Size(NamedTuple):
    """One size of the tag; `last_end` is E and `mark` is image byte 0."""

    mark: int
    blocks: int
    last_end: int

    @property
    def memory_bytes(self):
        return self.blocks * BLOCK_BYTES

    @property
    def image_bytes(self):
        return HEADER_BYTES + self.memory_bytes


SIZES = (Size(mark=1, blocks=512, last_end=63), Size(mark=2, blocks=2048, last_end=255))


def size_of_memory(length):
    """The size whose user memory has this many bytes, or None."""
    for size in SIZES:
        if size.memory_bytes == length:
            return size
    return None


def size_of_image(length):
    """The size whose image has this many bytes, or None."""
    for size in SIZES:
        if size.image_bytes == length:
            return size
    return None
