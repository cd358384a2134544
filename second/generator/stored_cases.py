"""The stored cases of the two programs: what `stdin` and `stdout` of their crates hold."""

import io

from tagmodel.branches import COUNTS, reset_counts
from tagmodel.casebook import Casebook
from tagmodel.lines import answer_lines
from tagmodel.session import Session
from worked import CASEBOOK_PARTS, SESSION_CASES, SESSION_INPUT, SESSION_OUTPUT

from .streams import casebook_stream, tagrun_stream

# With this seed and so many groups every branch is reached, and stdin stays under 6 MB.
CASEBOOK_SEED, CASEBOOK_GROUPS = 1, 384
TAGRUN_SEED, TAGRUN_LINES = 1, 4000

PROGRAMS = {"casebook": Casebook, "tagrun": Session}


def worked_steps():
    """The steps of all worked examples and cases in their order: the first lines of casebook's stdin."""
    return [step for part in CASEBOOK_PARTS for step in part.steps]


def worked_session():
    """The session of 01 and the lines of its cases, with their output lines: the first lines of tagrun's stdin."""
    pairs = list(zip(SESSION_INPUT.split(b"\n")[:-1], SESSION_OUTPUT.decode("ascii").split("\n")[:-1]))
    for case in SESSION_CASES:
        for line, output in zip(case.lines, case.outputs):
            pairs.append((line, f"{len(pairs) + 1} {output}"))
    return pairs


def casebook_input():
    """The worked examples and cases, then the lines of the generator."""
    worked = b"".join(step.line + b"\n" for step in worked_steps())
    return worked + casebook_stream(CASEBOOK_SEED, CASEBOOK_GROUPS)


def tagrun_input():
    """The session of 01, its cases, then the lines of the generator."""
    worked = b"".join(line + b"\n" for line, _ in worked_session())
    return worked + tagrun_stream(TAGRUN_SEED, TAGRUN_LINES)


INPUTS = {"casebook": casebook_input, "tagrun": tagrun_input}


def answers(program, stream):
    """What the second model answers, and how often it reached each branch."""
    reset_counts()
    sink = io.BytesIO()
    answer_lines(PROGRAMS[program]().answer, io.BytesIO(stream), sink)
    return sink.getvalue(), dict(COUNTS)


def unreached(program, counts):
    """The branches that this program's cases should reach and do not. No stored case can be empty input."""
    def is_wanted(name):
        if program == "tagrun":
            return name.startswith("tagrun.")
        return not name.startswith("tagrun.") and name != "lines.empty-input"
    return [name for name, count in counts.items() if count == 0 and is_wanted(name)]
