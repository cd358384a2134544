"""Runs a program to its end, or to a limit, and says how it ended."""

import contextlib
import os
import select
import shlex
import signal
import subprocess
import time
from typing import NamedTuple

CLOSED = "&-"
FIRST_SIGNAL_STATUS = 128  # a shell says 128 + n for a child that signal n ended
LOOK_EVERY = 0.005


class Ended(NamedTuple):
    """Exit status, signal (0 for none), seconds, peak memory in bytes, and whether the limit ended it.

    The peak is the system's figure for the process, which counts in that of the starter before it: some 15 MB.
    """

    status: int
    signal: int
    seconds: float
    peak: int
    late: bool


def place(path):
    """A file name as a shell's redirection takes it; CLOSED stands for itself."""
    return path if path == CLOSED else shlex.quote(path)


def start(command, source, sink, **streams):
    """Starts the command in a process group of its own, with redirections as in a shell."""
    script = 'exec "$@"' + (f" <{place(source)}" if source else "") + (f" >{place(sink)}" if sink else "")
    return subprocess.Popen(["sh", "-c", script, "sh", *command], stderr=subprocess.DEVNULL, start_new_session=True,
                            **streams)


def wait(program, limit):
    """Waits for the end; after the limit the program's own group is ended."""
    began, late = time.monotonic(), False
    while True:
        pid, status, usage = os.wait4(program.pid, os.WNOHANG)
        seconds = time.monotonic() - began
        if pid:
            break
        if seconds > limit and not late:
            late = True
            os.killpg(program.pid, signal.SIGKILL)
        time.sleep(LOOK_EVERY)
    code = os.WEXITSTATUS(status) if os.WIFEXITED(status) else 0
    by_signal = os.WTERMSIG(status) if os.WIFSIGNALED(status) else max(code - FIRST_SIGNAL_STATUS, 0)
    program.returncode = code
    return Ended(code, by_signal, seconds, usage.ru_maxrss * 1024, late)


def run(command, source, sink, limit, **streams):
    """From a file to a file; CLOSED closes one or the other."""
    return wait(start(command, source, sink, **streams), limit)


@contextlib.contextmanager
def endless(word):
    """A pipe through which this line comes again and again."""
    with subprocess.Popen(["yes", word], stdout=subprocess.PIPE, stderr=subprocess.DEVNULL) as feeder:
        try:
            yield feeder.stdout
        finally:
            feeder.kill()


def run_in_pieces(command, data, sink, limit):
    """The input comes by a pipe in pieces of one to three bytes."""
    program = start(command, None, sink, stdin=subprocess.PIPE)
    try:
        at, size = 0, 1
        while at < len(data):
            os.write(program.stdin.fileno(), data[at:at + size])
            at, size = at + size, size % 3 + 1
            time.sleep(0.001)
    except BrokenPipeError:
        pass
    program.stdin.close()
    return wait(program, limit)


def run_to_closed_pipe(command, source, limit, **streams):
    """As `| head -c 1`: one byte is taken and the pipe closed. Returns the byte too, or none if it does not come."""
    program = start(command, source, None, stdout=subprocess.PIPE, **streams)
    ready = select.select([program.stdout], [], [], limit)[0]
    first = os.read(program.stdout.fileno(), 1) if ready else b""
    program.stdout.close()
    return wait(program, limit), first
