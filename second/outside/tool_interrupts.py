"""Sessions that go on while the tool runs: answers line by line, interrupts, and the end without one."""

import os
import resource
import select
import signal
import time

from generator.dice import Dice
from tagmodel.sizes import SIZES

from .tool_runs import said, snapshot
from .tool_tags import REPLACED, any_stream, factory_image, followed, no_form_line

SIGNALS = (signal.SIGINT, signal.SIGTERM, signal.SIGHUP, signal.SIGQUIT)
WRITES = b"ON\n0221050A0B0C0D\n022005\n02270A\n023106000E0F1011\nEOF\n"  # blocks 5 and 6 and the AFI are written
MANY_LINES = 200000  # their answers are many times what a pipe holds
TO_FILL_A_PIPE = 0.5  # seconds; were it not full by then, the tool would still be at work
TO_START = 1  # seconds
TO_END = 0.1  # seconds in which a signal that is heard would have ended it
WAITS = tuple(turn / 4000 for turn in range(24))  # seconds
INTERRUPTED = said("interrupted; no image is written")


def hear_signals():
    """In a child, before the tool starts: no signal is ignored, as some are where this is started in the background.

    SIGQUIT is to leave no copy of the tool's memory.
    """
    for number in SIGNALS:
        signal.signal(number, signal.SIG_DFL)
    resource.setrlimit(resource.RLIMIT_CORE, (0, 0))


def line_from(pipe, limit):
    """One line, or less where no more comes within the limit; read without a buffer."""
    line = b""
    while not line.endswith(b"\n") and select.select([pipe], [], [], limit)[0]:
        piece = pipe.read(1)
        if not piece:
            break
        line += piece
    return line


def talk(trial, what, program, stream, output):
    """Gives line after line, each when the answer to the one before it has come."""
    for line, expected in zip(stream.split(b"\n")[:-1], output.split(b"\n")[:-1]):
        try:
            program.stdin.write(line + b"\n")
        except BrokenPipeError:
            trial.fault(f"{what}: it reads no more")
            return
        answer = line_from(program.stdout, trial.limit)
        trial.hold(f"{what}: answer to {line!r}", answer, expected + b"\n")
        if not answer:
            return


def interrupted(trial, number, image, words, part_of_a_line):
    """The tool is ended by this signal; it says so, and the folder is as it was."""
    what, before = f"{signal.Signals(number).name}, {' '.join(words)}", snapshot(trial.folder)
    with trial.start(words, bufsize=0, preexec_fn=hear_signals) as program:
        talk(trial, what, program, WRITES, followed(image, WRITES)[0])
        if program.poll() is None:
            program.stdin.write(part_of_a_line)
            program.send_signal(number)
        trial.hold_end(what, trial.end(program), -number, b"", INTERRUPTED)
    trial.hold_folder(what, before)


def interrupted_while_it_writes(trial, number, image):
    """The same while nobody takes its answers, so that it waits in a write."""
    what = f"{signal.Signals(number).name}, answers not taken"
    trial.put("session.txt", WRITES + b"022000\n" * MANY_LINES)
    before = snapshot(trial.folder)
    with trial.start(["run", "tag.img", "session.txt"], bufsize=0, preexec_fn=hear_signals) as program:
        trial.hold(f"{what}: first answer", line_from(program.stdout, trial.limit), followed(image, b"ON\n")[0])
        time.sleep(TO_FILL_A_PIPE)
        program.send_signal(number)
        trial.hold_end(what, trial.end(program), -number, None, INTERRUPTED)
    trial.hold_folder(what, before)


def interrupted_before_a_line(trial, number):
    """The same where SESSION is a named pipe that nobody writes, so that it waits for one to open it."""
    what = f"{signal.Signals(number).name}, a pipe without a writer"
    os.mkfifo(trial.path("pipe"))
    before = snapshot(trial.folder)
    with trial.start(["run", "tag.img", "pipe"], preexec_fn=hear_signals) as program:
        time.sleep(TO_START)
        program.send_signal(number)
        trial.hold_end(what, trial.end(program), -number, b"", INTERRUPTED)
    trial.hold_folder(what, before)
    trial.drop("pipe")


def ignored_signals(trial, number, image):
    """A signal that was ignored when the tool started is ignored by it too."""
    what, (output, left) = f"{signal.Signals(number).name} ignored", followed(image, WRITES)
    trial.put("tag.img", image)
    before = snapshot(trial.folder)
    with trial.start(["run", "tag.img"], bufsize=0,
                     preexec_fn=lambda: signal.signal(number, signal.SIG_IGN)) as program:
        half = len(b"ON\n0221050A0B0C0D\n")
        talk(trial, what, program, WRITES[:half], output)
        program.send_signal(number)
        time.sleep(TO_END)
        talk(trial, what, program, WRITES[half:], output[len(followed(image, WRITES[:half])[0]):])
        trial.hold_end(what, trial.end(program))
    trial.hold_folder(what, before, {"tag.img": left})


def at_the_end(trial, number, image, wait):
    """A signal so long after the last line: it ends the session, or the image is written; never half of each."""
    what, left = f"{signal.Signals(number).name}, {1000 * wait:.1f} ms after the end", followed(image, WRITES)[1]
    trial.put("tag.img", image)
    before = snapshot(trial.folder)
    with trial.start(["run", "tag.img"], bufsize=0, preexec_fn=hear_signals) as program:
        talk(trial, what, program, WRITES, followed(image, WRITES)[0])
        program.stdin.close()
        program.stdin = None
        time.sleep(wait)
        program.send_signal(number)
        found = trial.end(program)
    is_done = found.status == 0
    trial.hold_end(what, found, 0 if is_done else -number, b"", b"" if is_done else INTERRUPTED)
    trial.hold_folder(what, before, {"tag.img": left} if is_done else {})


def to_the_end(trial, image, stream, words, place):
    """The same without an interrupt: the image is the model's."""
    what, before = f"line by line, {' '.join(words)}", snapshot(trial.folder)
    output, left = followed(image, stream)
    with trial.start(words, bufsize=0) as program:
        talk(trial, what, program, stream, output)
        trial.hold_end(what, trial.end(program), errors=no_form_line(stream))
    trial.hold_folder(what, before, {place: left})


def interrupts(trial):
    """Each signal, where the image is written back, with --out over a file and with --out where there is none."""
    image = factory_image(SIZES[0])
    trial.put("tag.img", image)
    trial.put("out.img", REPLACED[1])
    for number in SIGNALS:
        for words, part in ((["run", "tag.img"], b""), (["run", "tag.img", "-", "--out", "out.img"], b"0221"),
                            (["run", "--out", "new.img", "tag.img"], b"OFF")):
            interrupted(trial, number, image, words, part)
        interrupted_while_it_writes(trial, number, image)
    to_the_end(trial, image, WRITES, ["run", "tag.img", "--out", "out.img"], "out.img")
    to_the_end(trial, image, WRITES, ["run", "tag.img"], "tag.img")
    interrupted_before_a_line(trial, signal.SIGINT)
    for number in (signal.SIGINT, signal.SIGHUP):
        ignored_signals(trial, number, image)
    for turn, wait in enumerate(WAITS):
        at_the_end(trial, SIGNALS[turn % len(SIGNALS)], image, wait)
    trial.put("tag.img", image)
    large = factory_image(SIZES[1])
    trial.put("tag.img", large)
    to_the_end(trial, large, any_stream(Dice(9900), large, 60), ["run", "tag.img", "-"], "tag.img")
