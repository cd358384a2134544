"""Runs a program on lines and compares its answers with the second model's, one line at a time."""

import subprocess
import tempfile
import threading
from typing import NamedTuple

MOST_SHOWN = 5
WIDEST_SHOWN = 240
PIECE = 65536


class Figures(NamedTuple):
    """What a comparison came to."""

    calls: int = 0
    lines: int = 0
    differences: int = 0

    def plus(self, other):
        """Both together."""
        return Figures(*(a + b for a, b in zip(self, other)))

    def __str__(self):
        return f"{self.calls:,} calls, {self.lines:,} lines, {self.differences:,} differences"


def shown(line, place=0):
    """A line for the eye: at most so many bytes, from shortly before the first difference."""
    start = max(0, place - 40)
    piece = line[start:start + WIDEST_SHOWN].rstrip(b"\n").decode("latin-1")
    return f"{'...' if start else ''}{piece}{'...' if len(line) > start + WIDEST_SHOWN else ''}"


def first_difference(ours, theirs):
    """The place of the first byte in which two lines differ."""
    for place, (a, b) in enumerate(zip(ours, theirs)):
        if a != b:
            return place
    return min(len(ours), len(theirs))


def read_line(source, most):
    """A line with its newline, or what is left; of a line longer than `most` bytes the rest is passed over."""
    line = source.readline(most + 1)
    rest = line
    while len(rest) > 0 and not rest.endswith(b"\n"):
        rest = source.readline(PIECE)
    return line


class Comparison:
    """One run of one program. Lines go by way of a file, so that neither side waits for the other."""

    def __init__(self, name, model, command, limit):
        self.name, self.model, self.command, self.limit = name, model, command, limit
        self.calls = self.lines = self.differences = 0

    def run(self, pieces):
        """The figures, with the first differences printed."""
        with tempfile.NamedTemporaryFile(prefix="uistermo-") as spool:
            spool.writelines(pieces)
            spool.flush()
            with open(spool.name, "rb") as given, open(spool.name, "rb") as followed:
                self.follow(given, followed)
        return Figures(self.calls, self.lines, self.differences)

    def follow(self, given, followed):
        """Starts the program on one handle of the lines and follows it on the other."""
        with subprocess.Popen(self.command, stdin=given, stdout=subprocess.PIPE) as program:
            clock = threading.Timer(self.limit, program.kill)
            clock.start()
            try:
                for line in followed:
                    self.compare_line(line, program.stdout)
                self.compare_end(program.stdout)
                code = program.wait()
            finally:
                clock.cancel()
                program.kill()
        if code != 0:
            self.differences += 1
            print(f"{self.name}: the program ended with {code} (killed after {self.limit} seconds if -9)")

    def compare_line(self, line, source):
        """One line of input: the model's answer and the program's."""
        ours = self.model.answer(line[:-1] if line.endswith(b"\n") else line)
        self.lines += 1
        self.calls += ours != "ok" and not ours.endswith("?")
        ours = ours.encode("ascii") + b"\n"
        theirs = read_line(source, len(ours) + WIDEST_SHOWN)
        if ours != theirs:
            self.differ(line, ours, theirs or b"(no line)")

    def compare_end(self, source):
        """After the last line nothing more may come."""
        if read_line(source, PIECE):
            self.differ(b"(past the input)", b"(no line)", b"(a line)")
            while source.read(PIECE):
                pass

    def differ(self, line, ours, theirs):
        """Counts a difference and prints it if it is among the first."""
        self.differences += 1
        if self.differences > MOST_SHOWN:
            return
        place = first_difference(ours, theirs)
        print(f"{self.name} line {self.lines}, byte {place + 1}: {shown(line)}")
        print(f"  second model: {shown(ours, place)}")
        print(f"  the program:  {shown(theirs, place)}")
