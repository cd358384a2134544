"""All lines of one kind, or one in so many, through the model and casebook: what families, headers and trays do."""

import argparse
import os
import shlex
import shutil
import time

from tagmodel.casebook import Casebook

from .comparison import Comparison
from .streams import DEFAULT_SEED, pieces

ROOT = os.path.dirname(os.path.dirname(os.path.dirname(os.path.realpath(__file__))))
DEFAULT_LIMIT = 600


def step(word):
    """A word that says to take one in so many; one below 1 is refused."""
    if int(word) < 1:
        raise ValueError(word)
    return int(word)


def compare_every(program, description, lines, step_help, seeded=True):
    """Reads the arguments and does what they ask; the exit status. Lines without dice are not seeded: their step is all
    that they take."""
    parser = argparse.ArgumentParser(description=description)
    if seeded:
        parser.add_argument("--seed", type=int, default=DEFAULT_SEED)
    parser.add_argument("--step", type=step, default=1, help=step_help)
    parser.add_argument("--limit", type=float, default=DEFAULT_LIMIT, help="seconds that the program may take")
    parser.add_argument("--casebook", type=shlex.split, default=[os.path.join(ROOT, "bin", "casebook")])
    asked, start = parser.parse_args(), time.monotonic()
    if not asked.casebook or shutil.which(asked.casebook[0]) is None:
        print(f"{program}: there is no program {' '.join(asked.casebook)}")
        return 1
    given = pieces(lines(asked.seed, asked.step), asked.seed) if seeded else pieces(lines(asked.step), DEFAULT_SEED)
    found = Comparison(program, Casebook(), asked.casebook, asked.limit).run(given)
    print(f"{program}: {found}, {time.monotonic() - start:.1f} seconds")
    return 1 if found.differences else 0
