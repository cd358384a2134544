"""The cases for sentences of 01 and 02: each has its own name, quotes its document, stands alone, and the model answers so."""

import os
import re
import subprocess
import sys
import unittest

from generator.stored_list import all_places, expected_text, shown_case
from tagmodel.casebook import Casebook
from tagmodel.session import Session
from worked import CASES, SESSION_CASES, SESSION_INPUT
from worked.examples import Step, faults

from .support import FOLDER, run_program

# The files of the documents, which are not in this repository; None where the environment names none.
DOCUMENTS = {number: os.environ.get(f"DOCUMENT_{number}") for number in ("01", "02")}


def unfound_words(words, text):
    """The first part of these words, between the `..`, that does not follow those before it in the text, or None."""
    at = 0
    for part in (part.strip() for part in words.split("..")):
        found = text.find(part, at)
        if found < 0:
            return part
        at = found + len(part)
    return None


def after_01s_session():
    """A session in which 01's has run."""
    session = Session()
    for line in SESSION_INPUT.split(b"\n")[:-1]:
        session.answer(line)
    return session


class Cases(unittest.TestCase):
    def test_names(self):
        names = [case.name for case in CASES + SESSION_CASES]
        self.assertEqual(sorted(names), sorted(set(names)))
        for name in names:
            self.assertRegex(name, r"^[a-z0-9]+(-[a-z0-9]+)*$")

    def words_stand_in(self, number, cases):
        if DOCUMENTS[number] is None:
            self.skipTest(f"DOCUMENT_{number} does not name the file of document {number}")
        with open(DOCUMENTS[number], encoding="utf-8") as file:
            text = re.sub(r"\s+", " ", file.read())
        for case in cases:
            self.assertIsNone(unfound_words(case.words, text), case.name)

    def test_words_stand_in_01(self):
        self.words_stand_in("01", [case for case in CASES if case.document == "01"] + list(SESSION_CASES))

    def test_words_stand_in_02(self):
        self.words_stand_in("02", [case for case in CASES if case.document == "02"])

    def test_otherwise_is_short(self):
        for case in CASES + SESSION_CASES:
            self.assertTrue(0 < len(case.otherwise) <= 240, case.name)

    def test_each_lends_what_it_needs(self):
        """Memory, room and record, before anything is called; a search needs none of them."""
        for case in CASES:
            words = [step.line.split(b" ")[0] for step in case.steps]
            self.assertTrue(words[:3] == [b"MEM", b"ROOM", b"REC"] or set(words) == {b"SEARCH"}, case.name)

    def test_model_answers_so(self):
        """One after the other, as they are stored, and each alone."""
        book = Casebook()
        for case in CASES:
            alone = Casebook()
            for step in case.steps:
                answer = book.answer(step.line)
                self.assertEqual(faults(step, answer), [], (case.name, step.line[:60]))
                self.assertEqual(alone.answer(step.line), answer, (case.name, step.line[:60]))

    def test_something_is_called(self):
        for case in CASES:
            self.assertTrue(any(step.answer is not None for step in case.steps), case.name)


class SessionCases(unittest.TestCase):
    def test_model_answers_so(self):
        for case in SESSION_CASES:
            session = after_01s_session()
            answered = [session.answer(line).split(" ", 1)[1] for line in case.lines]
            self.assertEqual(answered, list(case.outputs), case.name)

    def test_each_leaves_the_tag_as_it_was(self):
        session = after_01s_session()
        record, memory = session.record, bytes(session.memory)
        self.assertEqual((record.field, record.session), (True, 0))
        for case in SESSION_CASES:
            for line in case.lines:
                session.answer(line)
            self.assertEqual((session.record, bytes(session.memory)), (record, memory), case.name)

    def test_lines_are_lines(self):
        for case in SESSION_CASES:
            self.assertEqual(len(case.lines), len(case.outputs), case.name)
            self.assertFalse(any(b"\n" in line for line in case.lines), case.name)


class Listing(unittest.TestCase):
    def test_places(self):
        """casebook's lines run on without a gap; tagrun's cases begin at line 7."""
        places = all_places()
        for program, first in (("casebook", 1), ("tagrun", 7)):
            for place in (place for place in places if place.program == program):
                self.assertEqual(place.first, first)
                first = place.last + 1

    def test_expected_text(self):
        step = Step(b"EOF", "0078F0", record={70: 1, 71: 2, 64: 0}, memory="F078")
        self.assertEqual(expected_text(step), "number 0, length 3, answer 0078F0, record from byte 64: 00, "
                                              "record from byte 70: 0102, memory F078")
        self.assertEqual(expected_text(Step(b"MEM 0")), "ok")
        self.assertEqual(expected_text(Step(b"SEARCH 0 ", "", room="0000", requests=1)),
                         "number 0, requests 1, answer -, room 0000")

    def test_one_case(self):
        code, output = run_program("stored", b"", "--case", "check-2-under-4")
        self.assertEqual((code, output.decode("ascii")), (0, shown_case("check-2-under-4") + "\n"))
        self.assertIn(b'"Under 4 bytes .. silence."\n', output)
        self.assertIn(b"REQ 0078F0\n    number 0, length 0, answer -\n", output)

    def test_one_session_case(self):
        """The last line of the last case stands after 01's six and those of all cases."""
        last = 6 + sum(len(case.lines) for case in SESSION_CASES)
        self.assertTrue(shown_case(SESSION_CASES[-1].name).endswith(f"\n    {last} ?"))

    def test_unknown_case(self):
        done = subprocess.run([sys.executable, os.path.join(FOLDER, "stored"), "--case", "no-such"], check=False,
                              stdout=subprocess.PIPE, stderr=subprocess.PIPE)
        self.assertEqual((done.returncode, done.stdout), (2, b""))
        self.assertIn(b"no case has the name no-such", done.stderr)
