"""The casebook lines of a seed: groups of all kinds in turn."""

from tagmodel.crc import with_crc

from . import call_groups as calls
from . import command_groups as commands
from . import family_groups as families
from . import frame_groups as frames
from . import header_groups as headers
from . import search_groups as searches
from .bench import Bench, hexed
from .dice import Dice
from .frames import inventory

KINDS = (
    commands.walk, commands.each_mode, commands.borders, commands.kept_areas, commands.passwords, commands.registers,
    commands.area_orders, commands.held_answers, commands.set_held_answers, commands.identities, commands.codes,
    commands.lengths, commands.many_blocks, commands.memory_end, commands.walk, commands.borders,
    frames.flag_bytes, frames.other_uids, frames.short_frames, frames.field_off, frames.rounds, frames.set_rounds,
    frames.inventories, frames.damaged_inventories,
    calls.broken_records, calls.broken_bytes, calls.buffers, calls.images, calls.no_forms,
    calls.broken_records, calls.broken_bytes, calls.images)
RARE = (frames.damaged_inventories, frames.other_uids, commands.many_blocks, calls.no_forms)

# Kinds that came later, each with dice of its own, so that it alters no line of the kinds above: its seeds begin at this
# number, far from theirs.
ADDED = ((calls.factory_tags, 2 ** 40), (searches.trays, 2 ** 41), (headers.wrong_headers, 2 ** 42),
         (families.families, 2 ** 43))

# Before the first group, what stands at the start is tried.
START_LINES = (b"SAVE 2112", b"EOF", b"ON", b"REQ " + hexed(with_crc(inventory(0, b""))), b"SAVE 8256")


def casebook_lines(seed, groups):
    """The lines of so many groups, one by one; the kinds take turns, the rare ones every fourth time.

    Before the first group come those of the added kinds, of each kind as many as there are turns.
    """
    if groups:
        yield from START_LINES
    yield from added_lines(seed, -(-groups // len(KINDS)))
    times = dict.fromkeys(KINDS, 0)
    for group in range(groups):
        kind = KINDS[group % len(KINDS)]
        if kind in RARE and group // len(KINDS) % 4:
            kind = commands.walk
        bench = Bench(Dice(seed * 1000003 + group))
        kind(bench, times[kind])
        times[kind] += 1
        yield from bench.lines


def added_lines(seed, turns):
    """So many groups of each added kind."""
    for kind, first in ADDED:
        for turn in range(turns):
            bench = Bench(Dice(first + seed * 1000003 + turn))
            kind(bench, turn)
            yield from bench.lines
