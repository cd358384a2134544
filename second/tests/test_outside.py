"""The runs of tools/outside, on programs that are sound and on programs that are not."""

import contextlib
import io
import os
import signal
import sys
import tempfile
import unittest

from outside.bad_input import MOST_MEMORY, BadInput, Settings, try_program
from outside.runs import CLOSED, Ended, endless, run, run_in_pieces, run_to_closed_pipe

from .support import FOLDER

GOOD = Ended(status=0, signal=0, seconds=0.1, peak=1000, late=False)


class Runs(unittest.TestCase):
    def test_status_and_signal(self):
        self.assertEqual(run(["true"], os.devnull, os.devnull, 9)[:2], (0, 0))
        self.assertEqual(run(["sh", "-c", "exit 3"], os.devnull, os.devnull, 9)[:2], (3, 0))
        self.assertEqual(run(["sh", "-c", "kill -SEGV $$"], os.devnull, os.devnull, 9).signal, signal.SIGSEGV)
        self.assertEqual(run(["sh", "-c", "exit 139"], os.devnull, os.devnull, 9).signal, signal.SIGSEGV)

    def test_limit_ends_the_whole_group(self):
        ended = run(["sh", "-c", "sleep 60 & wait"], os.devnull, os.devnull, 0.2)
        self.assertTrue(ended.late)
        self.assertLess(ended.seconds, 10)

    def test_redirections(self):
        with tempfile.TemporaryDirectory(prefix="a 'name ") as folder:
            sink = os.path.join(folder, "sink")
            self.assertEqual(run(["cat"], __file__, sink, 9).status, 0)
            self.assertEqual(os.path.getsize(sink), os.path.getsize(__file__))
            self.assertNotEqual(run(["cat"], CLOSED, sink, 9).status, 0)
            self.assertNotEqual(run(["cat"], folder, sink, 9).status, 0)
            self.assertNotEqual(run(["cat"], __file__, CLOSED, 9).status, 0)
            run_in_pieces(["cat"], b"abcdefg", sink, 9)
            with open(sink, "rb") as file:
                self.assertEqual(file.read(), b"abcdefg")

    def test_closed_pipe(self):
        ended, first = run_to_closed_pipe(["yes"], os.devnull, 9)
        self.assertEqual((ended.signal, first), (signal.SIGPIPE, b"y"))
        ended, first = run_to_closed_pipe(["sleep", "60"], os.devnull, 0.2)
        self.assertEqual((ended.late, first), (True, b""))

    def test_endless_input(self):
        with endless("x") as source:
            self.assertEqual(run(["head", "-n", "9"], None, os.devnull, 9, stdin=source).status, 0)
        with endless("x") as source:
            self.assertTrue(run(["cat"], None, os.devnull, 0.2, stdin=source).late)

    def test_peak(self):
        small = run([sys.executable, "-c", "pass"], os.devnull, os.devnull, 9).peak
        large = run([sys.executable, "-c", "b'x' * 90000000"], os.devnull, os.devnull, 9).peak
        self.assertLess(small, MOST_MEMORY)
        self.assertGreater(large, MOST_MEMORY)


class Judgement(unittest.TestCase):
    def faults(self, ended, **wish):
        runs = BadInput("tagrun", [], "/", Settings())
        with contextlib.redirect_stdout(io.StringIO()):
            runs.note("a run", ended, **wish)
        return len(runs.faults)

    def test_how_a_run_may_end(self):
        self.assertEqual(self.faults(GOOD, want_success=True), 0)
        self.assertEqual(self.faults(GOOD._replace(status=1)), 0)
        self.assertEqual(self.faults(GOOD._replace(status=1), want_success=True), 1)
        self.assertEqual(self.faults(GOOD._replace(signal=signal.SIGPIPE)), 0)
        self.assertEqual(self.faults(GOOD._replace(signal=signal.SIGPIPE), want_success=True), 1)
        for wrong in (signal.SIGSEGV, signal.SIGABRT, signal.SIGKILL, signal.SIGBUS):
            self.assertEqual(self.faults(GOOD._replace(signal=wrong)), 1)
        self.assertEqual(self.faults(GOOD._replace(late=True, signal=signal.SIGKILL)), 1)
        self.assertEqual(self.faults(GOOD._replace(peak=MOST_MEMORY + 1)), 1)


class Programs(unittest.TestCase):
    SETTINGS = Settings(limit=20, long_line=100000)

    def test_the_model_itself(self):
        """Every kind of run once."""
        command = [sys.executable, os.path.join(FOLDER, "tagrun")]
        with tempfile.TemporaryDirectory() as folder:
            path = os.path.join(folder, "lines")
            with open(path, "wb") as file:
                file.write(b"ON\r\n\x00\xFF\nON\n022000")
            runs = BadInput("tagrun", command, folder, self.SETTINGS)
            runs.readable({"a file": path})
            runs.small_pieces(os.path.join(folder, "pieces"))
            runs.unreadable()
            runs.unwritable(path, path)
        self.assertEqual(runs.faults, [])
        self.assertIn("bad input, tagrun: 12 runs, 0 faults", runs.figures(1.0))

    def test_a_program_that_says_nothing(self):
        """Every readable input but the empty one has an answer; so has a pipe."""
        printed = io.StringIO()
        with contextlib.redirect_stdout(printed):
            faults = try_program("casebook", ["true"], self.SETTINGS)
        self.assertEqual(faults, 14 + 1 + 2, printed.getvalue())
        self.assertIn("bad input, casebook: 26 runs, 17 faults", printed.getvalue())
