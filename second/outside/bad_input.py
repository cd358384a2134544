"""Bad input and output for a program that reads lines.

Expected: the program ends by itself within the limit, without a signal other
than SIGPIPE, in little memory; where its output can be written, it is that of
the second model.
"""

import filecmp
import os
import signal
import subprocess
import sys
import tempfile
import time
from typing import NamedTuple

from worked import SESSION_INPUT

from .inputs import write_inputs
from .runs import CLOSED, endless, run, run_in_pieces, run_to_closed_pipe

MEGABYTE = 1000000
MOST_MEMORY = 64 * MEGABYTE
MODELS = os.path.dirname(os.path.dirname(os.path.realpath(__file__)))
IN_PIECES = {"casebook": b"EOF\nON\nREQ 2601006A17\nREQ \nPUT 2 0102\n\nEOF", "tagrun": SESSION_INPUT[:-1]}


class Settings(NamedTuple):
    """Seconds a run may take, the length of the longest line, and the most memory in bytes."""

    limit: float = 300
    long_line: int = 100 * MEGABYTE
    most_memory: int = MOST_MEMORY


def model_output(program, source, sink):
    """What the second model answers to a file; in a process of its own, so that its memory is not counted here."""
    with open(source, "rb") as given, open(sink, "wb") as taken:
        subprocess.run([sys.executable, os.path.join(MODELS, program)], stdin=given, stdout=taken, check=True)


class BadInput:
    """The runs of one command, with the faults found; `program` is the model's that it must do as."""

    def __init__(self, program, command, folder, settings, label=None):
        self.program, self.command, self.folder, self.settings = program, command, folder, settings
        self.label = label or program
        self.sink, self.expected = (os.path.join(folder, f"{program}-{name}") for name in ("sink", "expected"))
        self.ended, self.faults, self.firsts = {}, [], {}

    def note(self, name, ended, want_success=False):
        """Keeps how a run ended, and what is wrong with that."""
        self.ended[name] = ended
        if ended.late:
            self.fault(name, f"did not end within {self.settings.limit} seconds")
        elif ended.signal not in (0, signal.SIGPIPE) or want_success and ended.signal:
            self.fault(name, f"was ended by signal {ended.signal}")
        elif want_success and ended.status:
            self.fault(name, f"ended with status {ended.status}")
        if ended.peak > self.settings.most_memory:
            self.fault(name, f"took {ended.peak // MEGABYTE} MB of memory")

    def fault(self, name, text):
        """Prints a fault and keeps it."""
        self.faults.append(name)
        print(f"bad input, {self.label}, {name}: {text}", flush=True)

    def hold_output(self, name):
        """The output must be that of the second model."""
        if not filecmp.cmp(self.sink, self.expected, shallow=False):
            self.fault(name, "the output is not that of the second model")

    def hold_no_output(self, name):
        """Where no line could be read there must be none."""
        if os.path.getsize(self.sink):
            self.fault(name, "there is output though nothing could be read")

    def readable(self, files):
        """Every input that can be read, to an output that can be written."""
        for name, path in files.items():
            model_output(self.program, path, self.expected)
            with open(self.expected, "rb") as file:
                self.firsts[path] = file.read(1)
            self.note(name, run(self.command, path, self.sink, self.settings.limit), want_success=True)
            self.hold_output(name)

    def small_pieces(self, path):
        """Input that comes in small pieces."""
        name, data = "input in pieces of one to three bytes", IN_PIECES[self.program]
        with open(path, "wb") as file:
            file.write(data)
        model_output(self.program, path, self.expected)
        self.note(name, run_in_pieces(self.command, data, self.sink, self.settings.limit), want_success=True)
        self.hold_output(name)

    def unreadable(self):
        """Input that cannot be read."""
        for name, source in (("closed input", CLOSED), ("a folder as input", self.folder)):
            self.note(name, run(self.command, source, self.sink, self.settings.limit))
            self.hold_no_output(name)

    def unwritable(self, path, long_path):
        """Output that cannot be written."""
        limit = self.settings.limit
        for name, sink in (("closed output", CLOSED), ("a full device as output", "/dev/full")):
            self.note(name, run(self.command, path, sink, limit))
            with endless("EOF") as source:
                self.note(f"{name}, endless input", run(self.command, None, sink, limit, stdin=source))
        with endless("EOF") as source:
            ended, _ = run_to_closed_pipe(self.command, None, limit, stdin=source)
            self.note("pipe closed after one byte, endless input", ended)
        self.note("closed input and output", run(self.command, CLOSED, CLOSED, limit))
        for name, source in (("pipe closed after one byte", path), ("pipe closed, very long line", long_path)):
            ended, first = run_to_closed_pipe(self.command, source, limit)
            self.note(name, ended)
            if first != self.firsts[source]:
                self.fault(name, f"the first byte is {first}")

    def failing(self, files):
        """Every run that cannot come to its end."""
        self.unreadable()
        self.unwritable(files["an ordinary run"], files["a very long line"])

    def every(self, files):
        """All runs on the files of `write_inputs`."""
        self.readable(files)
        self.small_pieces(os.path.join(self.folder, "pieces"))
        self.failing(files)

    def figures(self, seconds):
        """The line at the end."""
        longest = max(self.ended, key=lambda name: self.ended[name].seconds)
        peak = max(ended.peak for ended in self.ended.values())
        return (f"bad input, {self.label}: {len(self.ended)} runs, {len(self.faults)} faults, longest "
                f"{self.ended[longest].seconds:.1f} seconds ({longest}), peak {peak / MEGABYTE:.0f} MB, {seconds:.1f} seconds")


def try_program(program, command, settings):
    """All runs of one program; returns the number of faults."""
    began = time.monotonic()
    with tempfile.TemporaryDirectory(prefix="uistermo-") as folder:
        runs = BadInput(program, command, folder, settings)
        runs.every(write_inputs(folder, program, settings.long_line))
    print(runs.figures(time.monotonic() - began), flush=True)
    return len(runs.faults)
