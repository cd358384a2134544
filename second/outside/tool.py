"""The tool bin/uistermo beside the second model, by every trial, and once more as a build with sanitizers."""

import os
import tempfile
import time
from typing import NamedTuple

from .bad_input import MEGABYTE, Settings
from .tool_builds import example_host, sanitized
from .tool_factory import factories, wrong_factories
from .tool_files import files
from .tool_header import headers, typed_headers
from .tool_interrupts import interrupts
from .tool_limits import limits
from .tool_meanwhile import meanwhile
from .tool_pages import pages
from .tool_runs import Trial
from .tool_sessions import bad_sessions, no_forms, printed_session, sessions, streams
from .tool_show import shows
from .tool_tray import trays
from .tool_tray_files import tray_files
from .tool_words import refused_images, wrong_word_lists


class Amounts(NamedTuple):
    """How much is tried: images shown of each size, one broken header in so many, tags of three sessions, streams and
    their lines, drawn trays, bad input.
    """

    shown: int
    broken: int
    tags: int
    seeds: int
    lines: int
    trays: int
    bad: Settings


FULL = Amounts(40, 1, 100, 5, 4000, 120, Settings())
QUICK = Amounts(4, 5, 10, 1, 1000, 20, Settings(long_line=10 * MEGABYTE))
# A sanitizer takes memory of its own.
SANITIZED = Amounts(20, 1, 50, 2, 2000, 60, Settings(long_line=10 * MEGABYTE, most_memory=256 * MEGABYTE))
SANITIZED_QUICK = Amounts(4, 5, 10, 1, 1000, 20, Settings(long_line=MEGABYTE, most_memory=256 * MEGABYTE))


def parts(root, amounts):
    """By name, every trial, each a function of a Trial."""
    return {
        "factory": factories,
        "wrong factory": wrong_factories,
        "show": lambda trial: shows(trial, amounts.shown),
        "header": lambda trial: headers(trial, amounts.shown),
        "headers typed wrong": typed_headers,
        "session of 01": printed_session,
        "sessions": lambda trial: sessions(trial, amounts.tags),
        "streams": lambda trial: streams(trial, amounts.seeds, amounts.lines),
        "lines of no form": no_forms,
        "run": lambda trial: bad_sessions(trial, amounts.bad),
        "refused images": lambda trial: refused_images(trial, amounts.broken),
        "wrong words": wrong_word_lists,
        "files": files,
        "limits": limits,
        "interrupts": interrupts,
        "tray": lambda trial: trays(trial, amounts.trays),
        "tray, files and lines": tray_files,
        "meanwhile": meanwhile,
        "pages": lambda trial: pages(trial, root),
    }


def try_tool(command, root, amounts, label="tool"):
    """All trials of the tool that this command starts, each in a folder of its own; returns the number of faults."""
    began, runs, lines, faults = time.monotonic(), 0, 0, 0
    for name, part in parts(root, amounts).items():
        with tempfile.TemporaryDirectory(prefix="uistermo-") as folder:
            os.chmod(folder, 0o755)  # another user is to reach it
            trial = Trial(command, folder, f"{label}, {name}")
            part(trial)
        runs, lines, faults = runs + trial.runs, lines + trial.lines, faults + trial.faults
    seconds = time.monotonic() - began
    print(f"{label}: {runs:,} runs, {lines:,} lines of sessions, {faults} faults, {seconds:.1f} seconds", flush=True)
    return faults


def try_sanitized(root, amounts):
    """The same trials on a build with sanitizers."""
    with tempfile.TemporaryDirectory(prefix="uistermo-") as folder:
        os.chmod(folder, 0o755)
        command = sanitized(root, folder)
        if command is None:
            print("tool, sanitized: it is not built", flush=True)
            return 1
        return try_tool(command, root, amounts, "tool, sanitized") if command else 0


def try_all(root, command, quick):
    """The tool, the tool with sanitizers, and the example host; returns the number of faults."""
    faults = try_tool([command], root, QUICK if quick else FULL)
    faults += try_sanitized(root, SANITIZED_QUICK if quick else SANITIZED)
    with tempfile.TemporaryDirectory(prefix="uistermo-") as folder:
        return faults + example_host(root, folder, "examples/host.c")
