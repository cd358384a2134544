"""The tool as some command starts it: each run of it, and what is held after every run."""

import contextlib
import os
import re
import signal
import stat
import subprocess
from typing import NamedTuple

from generator.comparison import first_difference, shown

from .runs import FIRST_SIGNAL_STATUS

LIMIT = 120
DONE, REFUSED, WRONG = 0, 1, 2  # exit statuses of the tool
LATE = "no end within the limit"
KEPT = b"what was there"  # a note, which is no image, so that nothing may take its place
NO_IMAGE = "no image is written"  # what a session that fails says last
REPORT = re.compile(rb"Sanitizer|runtime error")  # of a build with sanitizers
SOME_LINES = re.compile(rb"(uistermo: [^\n]*\n)+")  # all that is said begins so
MOST_SHOWN = 40
NOBODY = 65534  # the user and group that own nothing


class Found(NamedTuple):
    """How a run ended: exit status (below 0 for a signal, as subprocess has it), and what it wrote."""

    status: object
    output: bytes
    errors: bytes


def read_file(path):
    """A file's bytes; None where this user may not read it."""
    try:
        with open(path, "rb") as file:
            return file.read()
    except PermissionError:
        return None


def snapshot(folder):
    """All that is in a folder: of each name the permissions with the kind, and the contents or where it leads."""
    found = {}
    for place, folders, files in os.walk(folder):
        for name in folders + files:
            path = os.path.join(place, name)
            mode, contents = os.lstat(path).st_mode, None
            if stat.S_ISLNK(mode):
                contents = os.readlink(path)
            elif stat.S_ISREG(mode):
                contents = read_file(path)
            found[os.path.relpath(path, folder)] = (mode, contents)
    return found


def changes(before, after):
    """By name, what became of all that differs: new contents, 'gone', or permissions that are others."""
    found = {}
    for name in set(before) | set(after):
        old, new = before.get(name), after.get(name)
        if new is None:
            found[name] = "gone"
        elif old is not None and old[0] != new[0]:
            found[name] = f"mode {old[0]:o} became {new[0]:o}"
        elif old != new:
            found[name] = new[1] if isinstance(new[1], bytes) else f"mode {new[0]:o}, {new[1]}"
    return found


def become_nobody():
    """In a child of root, before the tool starts."""
    os.setgroups([])
    os.setgid(NOBODY)
    os.setuid(NOBODY)


def said(*texts):
    """What the tool says on standard error, a line for each text."""
    return "".join(f"uistermo: {text}\n" for text in texts).encode("utf-8")


def lines_said(*patterns):
    """The same, where the words are left to the tool: a regular expression for each line."""
    return re.compile(b"".join(rb"uistermo: " + pattern + rb"\n" for pattern in patterns))


def no_image_there(path):
    """The line for a file that is there and that no image may replace."""
    return said(f"{path}: not written: it is there and is no image")


def failed(name, number, verb="not written: "):
    """What a session says that fails: why, for this error number, and that no image is written."""
    return said(f"{name}: {verb}{os.strerror(number)}", NO_IMAGE)


def wrong_words(command, word=""):
    """After a wrong word or number of words: a line that names it, then one with the usage of the command."""
    named = rb"[^\n]*" + re.escape(os.fsencode(word)) + rb"[^\n]*"
    return lines_said(named, rb"[^\n]*[Uu]sage[^\n]*\b" + command.encode("ascii") + rb"\b[^\n]*")


def not_written(path, number=None):
    """The line for a file that cannot be written; any reason where no error number is given."""
    if number is None:
        return lines_said(re.escape(os.fsencode(path)) + rb": not written: [^\n]+")
    return said(f"{path}: not written: {os.strerror(number)}")


def not_read(path, number):
    """The line for a file that cannot be read."""
    return said(f"{path}: {os.strerror(number)}")


class Trial:
    """Runs of the tool in a folder of the trial's own, with the faults found. Words may name files of the folder."""

    def __init__(self, command, folder, label="tool", limit=LIMIT):
        self.command, self.folder, self.label, self.limit = list(command), folder, label, limit
        self.runs = self.lines = self.faults = 0

    def path(self, name):
        """The whole path of a name in the folder."""
        return os.path.join(self.folder, name)

    def put(self, name, contents, mode=None):
        """Writes a file, in place of what was there."""
        self.drop(name)
        with open(self.path(name), "wb") as file:
            file.write(contents)
        if mode is not None:
            os.chmod(self.path(name), mode)

    def drop(self, *names):
        """Takes files or links away, where they are there."""
        for name in names:
            if os.path.lexists(self.path(name)):
                os.remove(self.path(name))

    def start(self, words, command=None, **ways):
        """Starts the tool, or another command, with pipes where `ways` names none."""
        self.runs += 1
        pipes = {"stdin": subprocess.PIPE, "stdout": subprocess.PIPE, "stderr": subprocess.PIPE, "cwd": self.folder}
        return subprocess.Popen([*(command or self.command), *words], start_new_session=True, **{**pipes, **ways})

    def run(self, words, feed=b"", **ways):
        """One run to its end; `feed` is its standard input unless `ways` names another."""
        with self.start(words, **ways) as program:
            return self.end(program, None if "stdin" in ways else feed)

    def plain_user(self):
        """How to start the tool as a user whom permissions bind; None, and a line, where that user cannot reach it."""
        if os.geteuid():
            return {}
        with contextlib.suppress(PermissionError):
            if self.run(["--help"], preexec_fn=become_nobody).status == DONE:
                return {"preexec_fn": become_nobody}
        print(f"{self.label}: as another user it is not tried, for that user cannot reach it", flush=True)
        return None

    def end(self, program, feed=None):
        """Waits for the end; after the limit the program's own group is ended."""
        try:
            output, errors = program.communicate(feed, timeout=self.limit)
        except subprocess.TimeoutExpired:
            os.killpg(program.pid, signal.SIGKILL)
            program.communicate()
            return Found(LATE, b"", b"")
        status = program.returncode
        return Found(FIRST_SIGNAL_STATUS - status if status > FIRST_SIGNAL_STATUS else status, output, errors or b"")

    def fault(self, text):
        """Counts a fault and prints it if it is among the first."""
        self.faults += 1
        if self.faults <= MOST_SHOWN:
            print(f"{self.label}, {text}", flush=True)

    def hold(self, what, found, expected):
        """What was found must be what is expected, or match it where it is a regular expression."""
        if hasattr(expected, "fullmatch"):
            if not expected.fullmatch(found):
                self.fault(f"{what}: expected a match of {expected.pattern[:200]!r}, found {found[:400]!r}")
        elif found != expected:
            if isinstance(found, bytes) and isinstance(expected, bytes):
                place = first_difference(found, expected)
                found, expected = (f"{len(text):,} bytes, '{shown(text, place)}'" for text in (found, expected))
            self.fault(f"{what}: expected {str(expected)[:400]}, found {str(found)[:400]}")

    def hold_end(self, what, found, status=DONE, output=b"", errors=b""):
        """Exit status, standard output (any if None) and standard error of a run."""
        self.hold(f"{what}: status", found.status, status)
        if output is not None:
            self.hold(f"{what}: standard output", found.output, output)
        self.hold(f"{what}: standard error", found.errors, errors)
        if REPORT.search(found.errors):
            self.fault(f"{what}: a sanitizer reports {found.errors[:1000]!r}")

    def hold_folder(self, what, before, written=None):
        """The folder must be as it was but for the files written: no file changed, gone or left over."""
        found, expected = changes(before, snapshot(self.folder)), dict(written or {})
        for name in set(found) | set(expected):
            old = before.get(name, (0, None))[1]
            self.hold(f"{what}: file {name[:60]}", found.get(name, old), expected.get(name, old))

    def expect(self, what, words, status=DONE, output=b"", errors=b"", written=None, **ways):
        """One run, and how it must end; `written` has the contents of the files that it makes or replaces."""
        before = snapshot(self.folder)
        found = self.run(words, **ways)
        self.hold_end(what, found, status, output, errors)
        self.hold_folder(what, before, written)
        return found

    def refuses(self, what, words, errors, **ways):
        """Status 2, no output, and every file as it was."""
        return self.expect(what, words, WRONG, b"", errors, **ways)
