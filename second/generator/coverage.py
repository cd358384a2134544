"""Runs generated cases through the model and counts its branches."""

import io

from tagmodel.branches import COUNTS, reset_counts
from tagmodel.casebook import Casebook
from tagmodel.lines import answer_lines
from tagmodel.session import Session

from .streams import casebook_stream, tagrun_stream


def run(answer, stream):
    """How many lines were answered."""
    sink = io.BytesIO()
    answer_lines(answer, io.BytesIO(stream), sink)
    return sink.getvalue().count(b"\n")


def count_branches(seed, groups, lines):
    """The number of cases and the count of each branch; an empty input and a lone `ON` are tried too."""
    streams = [(Casebook, casebook_stream(seed, groups)), (Session, tagrun_stream(seed, lines)),
               (Casebook, b""), (Session, b""), (Casebook, b"ON"), (Session, b"ON")]
    reset_counts()
    cases = sum(run(program().answer, stream) for program, stream in streams)
    return cases, dict(COUNTS)
