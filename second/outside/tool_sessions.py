"""The tool's `run`: sessions on the images that it leaves, and tagrun's own streams."""

import errno
import os
import shlex
import signal
import tempfile
import time

from generator.dice import Dice
from generator.streams import tagrun_stream
from tagmodel.sizes import SIZES
from worked import SESSION_INPUT, SESSION_OUTPUT

from .bad_input import BadInput
from .inputs import write_inputs
from .tool_runs import DONE, NO_IMAGE, WRONG, changes, failed, lines_said, read_file, said, snapshot
from .tool_tags import (CARRIAGE_RETURN, FORMS, REPLACED, STANDARD_INPUT, any_image, any_stream, factory_image,
                        followed, no_form_line, of_no_form)

LINES_A_SESSION = 30
SESSIONS_A_TAG = 3
OTHER_INPUT = b"ON\n022000\n"  # on standard input where the session is a file: it is not to be read
NO_FORMS = (  # sessions, with what is said of their lines of no form
    (b"", ""), (b"ON", ""), (b"ON\n022000\nOFF\nEOF\n", ""), (b"ON\n" + b"00" * 64 + b"\n", ""),
    (b"\n", "1 of 1, the first is line 1"), (b"ON\n0220\nno\n", "1 of 3, the first is line 3"),
    (b"ON\nno\n0226\non\nno", "3 of 5, the first is line 2"),
    (b"OFF\n" * 1200 + b"?\n", "1 of 1201, the first is line 1201"),
    (b"ON\r\n0226\r\n", "2 of 2, the first is line 1" + CARRIAGE_RETURN),
    (b"\r\n", "1 of 1, the first is line 1" + CARRIAGE_RETURN),
    (b"ON\nOFF\r", "1 of 2, the first is line 2" + CARRIAGE_RETURN),
    (b"ON\n0226\r\nno\n", "2 of 3, the first is line 2" + CARRIAGE_RETURN),
    (b"ON\nno\n0226\r\n", "2 of 3, the first is line 2"), (b"ON\rEOF", "1 of 1, the first is line 1"),
    (b"ON\n" + b"00" * 64 + b"\r\n", "1 of 2, the first is line 2" + CARRIAGE_RETURN),  # 129 bytes
    (b"ON\n" + b"00" * 64 + b"0\r\n", "1 of 2, the first is line 2"),  # 130 bytes
    (b"0" * 70000 + b"\r\n", "1 of 1, the first is line 1"))
ENDS_IN_VAIN = NO_IMAGE.encode("ascii")
FAILURES = {  # by the beginning of a run's name, what it says
    "closed input and output": lines_said(rb"standard (in|out)put: [^\n]+", ENDS_IN_VAIN),
    "closed input": lines_said(rb"standard input: [^\n]+", ENDS_IN_VAIN),
    "a folder as input": failed(STANDARD_INPUT, errno.EISDIR, ""),
    "closed output": lines_said(rb"standard output: not written: [^\n]+", ENDS_IN_VAIN),
    "a full device as output": failed("standard output", errno.ENOSPC),
    "pipe closed": failed("standard output", errno.EPIPE),
}


def run_words(turn, out):
    """`run` with SESSION as a file, none or `-` in turn, and --out at each place where it may stand."""
    words = ["tag.img", *(["session.txt"], [], ["-"])[turn % 3]]
    option, place = (["--out", "out.img"] if out else []), min(turn // 12 % 3, len(words))
    return ["run", *words[:place], *option, *words[place:]]


def one_session(trial, turn, stream, image):
    """One session, written back or with --out in turn; returns the image that the model leaves."""
    out = turn // 3 % 2
    output, left = followed(image, stream)
    trial.put("tag.img", image)
    trial.put("session.txt", stream)
    trial.drop("out.img")
    if turn % 2:
        trial.put("out.img", REPLACED[turn // 2 % 3])
    trial.lines += output.count(b"\n")
    name = STANDARD_INPUT if turn % 3 else "session.txt"
    trial.expect(f"session {turn}", run_words(turn, out), output=output, errors=no_form_line(stream, name),
                 feed=stream if turn % 3 else OTHER_INPUT, written={"out.img" if out else "tag.img": left})
    return left


def sessions(trial, tags):
    """Sessions on so many tags, each on the image that the one before it left."""
    for tag in range(tags):
        dice, size = Dice(7000 + tag), SIZES[tag % 2]
        image = any_image(dice, size)
        for turn in range(SESSIONS_A_TAG * tag, SESSIONS_A_TAG * (tag + 1)):
            stream = any_stream(dice, image, LINES_A_SESSION, newline=turn // 6 % 2 == 0)
            image = one_session(trial, turn, b"" if tag % 10 == 9 and turn % 3 == 0 else stream, image)


def printed_session(trial):
    """The session that 01 prints, on the tag that it names."""
    trial.put("tag.img", factory_image(SIZES[0]))
    trial.expect("the session of 01", ["run", "tag.img"], output=SESSION_OUTPUT, feed=SESSION_INPUT)


def streams(trial, seeds, lines):
    """Long sessions of tagrun on the tag that it starts with; the image is written elsewhere."""
    image = factory_image(SIZES[0])
    trial.put("tag.img", image)
    trial.drop("out.img")
    for seed in range(1, seeds + 1):
        stream = tagrun_stream(seed, lines)
        output, left = followed(image, stream)
        trial.lines += output.count(b"\n")
        trial.expect(f"tagrun's stream of seed {seed}", ["run", "tag.img", "--out", "out.img"], output=output,
                     errors=no_form_line(stream), written={"out.img": left}, feed=stream)


def no_forms(trial, streams_and_texts=NO_FORMS):
    """Sessions with lines of no form and without, from standard input, from a file and to another file."""
    image = factory_image(SIZES[0])
    for stream, text in streams_and_texts:
        output, left = followed(image, stream)
        trial.put("session.txt", stream)
        for name, words in ((STANDARD_INPUT, []), (STANDARD_INPUT, ["-"]), ("session.txt", ["session.txt"]),
                            ("./session.txt", ["./session.txt", "--out", "out.img"])):
            trial.drop("out.img")
            trial.put("tag.img", image)
            trial.expect(f"{words}, session {stream[:20]!r}", ["run", "tag.img", *words], output=output,
                         errors=of_no_form(name, text) if text else b"",
                         feed=OTHER_INPUT if name != STANDARD_INPUT else stream,
                         written={"out.img" if "--out" in words else "tag.img": left})
    from_a_terminal(trial, image)


def from_a_terminal(trial, image):
    """From a terminal it is said first how a session ends."""
    stream, no_form = b"ON\nno\n0221050A0B0C0D\n", b"1 of 3, the first is line 2" + FORMS.encode("ascii")
    output, left = followed(image, stream)
    trial.put("tag.img", image)
    keyboard, terminal = os.openpty()
    os.write(keyboard, stream + b"\x04")
    trial.expect("from a terminal", ["run", "tag.img"], output=output, written={"tag.img": left}, stdin=terminal,
                 errors=lines_said(rb"[^\n]*Ctrl-D[^\n]*", rb"standard input: lines of no form: " + no_form))
    os.close(terminal)
    os.close(keyboard)


class BadSessions(BadInput):
    """tagrun's bad input and output for `run`; none of it may leave a trace in the trial's folder."""

    def __init__(self, trial, folder, settings):
        self.trial, self.image, self.sources = trial, factory_image(SIZES[0]), {}
        self.said = os.path.join(folder, "said")
        keeps_errors = f'exec "$@" 2>{shlex.quote(self.said)}'
        self.back = ["sh", "-c", keeps_errors, "sh", *trial.command, "run", trial.path("tag.img")]
        super().__init__("tagrun", [*self.back, "--out", trial.path("out.img")], folder, settings, trial.label)
        trial.put("tag.img", self.image)
        self.before, self.way = snapshot(trial.folder), ""

    def readable(self, files):
        """As for every program; what is said of each input is worked from its lines."""
        self.sources = files
        super().readable(files)

    def hold_errors(self, name, want_success):
        """What is said: of lines of no form; or why it failed, and that no image is written."""
        if not want_success:
            expected = next(errors for start, errors in FAILURES.items() if name.startswith(start))
        elif name in self.sources:
            with open(self.sources[name], "rb") as source:
                expected = no_form_line(source)
        else:
            expected = b""
        self.trial.hold(f"{name}{self.way}: standard error", read_file(self.said), expected)

    def note(self, name, ended, want_success=False):
        """As for every program but that no signal may end it; and status 2 where it cannot be done.

        Where the input ends, a pipe may have taken all answers before it is closed: then it is done, image and all.
        """
        done = ended.status == DONE and not ended.signal
        if want_success or not done:
            self.hold_errors(name, want_success)
        name += self.way
        super().note(name, ended, want_success)
        if ended.signal == signal.SIGPIPE:
            self.fault(name, "was ended by SIGPIPE")
        if done:
            self.trial.drop("out.img")
        if done and "pipe closed" in name and "endless" not in name:
            self.trial.put("tag.img", self.image)
        elif not ended.signal and ended.status != (DONE if want_success else WRONG):
            self.fault(name, f"ended with status {ended.status}")
        for place in changes(self.before, snapshot(self.trial.folder)):
            self.fault(name, f"{place} is not as it was")

    def written_back(self, files):
        """Once more what fails, where the image itself would be written at the end."""
        self.command, self.way = self.back, ", image written back"
        self.failing(files)


def bad_sessions(trial, settings):
    """All bad input and output of tagrun, on the tag that it starts with."""
    began = time.monotonic()
    with tempfile.TemporaryDirectory(prefix="uistermo-") as folder:
        files = write_inputs(folder, "tagrun", settings.long_line)
        runs = BadSessions(trial, folder, settings)
        runs.every(files)
        runs.written_back(files)
    print(runs.figures(time.monotonic() - began), flush=True)
    trial.runs += len(runs.ended)
    trial.faults += len(runs.faults)
