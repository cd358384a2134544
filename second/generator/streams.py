"""The lines as a program reads them."""

from .casebook_cases import casebook_lines
from .tagrun_cases import tagrun_lines

DEFAULT_SEED = 1
DEFAULT_GROUPS = 2000
DEFAULT_LINES = 10000


def pieces(lines, seed):
    """Each line with its newline, one by one; with an odd seed the last line lacks it."""
    waiting = None
    for line in lines:
        if waiting is not None:
            yield waiting + b"\n"
        waiting = line
    if waiting is not None:
        yield waiting if seed % 2 else waiting + b"\n"


def casebook_pieces(seed=DEFAULT_SEED, groups=DEFAULT_GROUPS):
    return pieces(casebook_lines(seed, groups), seed)


def tagrun_pieces(seed=DEFAULT_SEED, lines=DEFAULT_LINES):
    return pieces(tagrun_lines(seed, lines), seed)


def casebook_stream(seed=DEFAULT_SEED, groups=DEFAULT_GROUPS):
    return b"".join(casebook_pieces(seed, groups))


def tagrun_stream(seed=DEFAULT_SEED, lines=DEFAULT_LINES):
    return b"".join(tagrun_pieces(seed, lines))
