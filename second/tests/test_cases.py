"""The generator, the branch counts and the comparison."""

import os
import re
import sys
import unittest
from unittest import mock

from generator import casebook_cases
from generator.casebook_cases import added_lines, casebook_lines
from generator.coverage import count_branches
from generator.dice import Dice
from generator.streams import casebook_stream, tagrun_stream
from tagmodel.branches import COUNTS, all_branches, hit, reset_counts
from tagmodel.casebook import Casebook

from .support import FOLDER, run_program


class Branches(unittest.TestCase):
    def test_every_branch_is_reached(self):
        _, counts = count_branches(seed=4, groups=400, lines=3000)
        self.assertEqual([name for name, count in counts.items() if count == 0], [])

    def test_program(self):
        """Too few cases leave branches at zero: the program names them and fails."""
        code, output = run_program("branches", b"", "--groups", "1", "--lines", "1")
        self.assertEqual(code, 1)
        self.assertIn(b"not reached: casebook.question.LOAD", output)
        self.assertNotIn(b"not reached: lines.", output)

    def test_names_are_declared_once(self):
        self.assertEqual(len(all_branches()), len(set(all_branches())))

    def test_undeclared_name_is_noticed(self):
        with self.assertRaises(KeyError):
            hit("no such branch")


class Generator(unittest.TestCase):
    def test_dice_by_hand(self):
        """From state 1: 1 xor 1 << 13 is 2001h; xor 2001h >> 7 (40h) is 2041h; xor 2041h << 17 is 40822041h."""
        dice = Dice(0)
        dice.state = 1
        self.assertEqual(dice.roll(), 0x40822041)

    def test_same_seed_same_lines(self):
        self.assertEqual(casebook_stream(5, 60), casebook_stream(5, 60))
        self.assertEqual(tagrun_stream(5, 300), tagrun_stream(5, 300))
        self.assertNotEqual(casebook_stream(5, 60), casebook_stream(7, 60))
        self.assertNotEqual(tagrun_stream(5, 300), tagrun_stream(7, 300))

    def test_program(self):
        self.assertEqual(run_program("generate", b"", "casebook", "--seed", "4", "--groups", "30"),
                         (0, casebook_stream(4, 30)))
        self.assertEqual(run_program("generate", b"", "tagrun", "--seed", "4", "--lines", "50"),
                         (0, tagrun_stream(4, 50)))
        self.assertEqual(tagrun_stream(4, 50).count(b"\n"), 50)

    def test_last_newline(self):
        self.assertTrue(casebook_stream(2, 5).endswith(b"\n"))
        self.assertFalse(casebook_stream(1, 5).endswith(b"\n"))


class AddedKinds(unittest.TestCase):
    def answers(self, lines):
        book = Casebook()
        return [book.answer(each) for each in lines]

    def test_no_other_line_or_answer_is_altered(self):
        """Without the added groups, which stand together, lines and answers are those of the other kinds alone."""
        with mock.patch.object(casebook_cases, "ADDED", ()):
            others = list(casebook_lines(5, 70))
        lines, added = list(casebook_lines(5, 70)), list(added_lines(5, 3))
        start, end = len(casebook_cases.START_LINES), len(casebook_cases.START_LINES) + len(added)
        self.assertEqual(lines[start:end], added)
        self.assertEqual(lines[:start] + lines[end:], others)
        answers = self.answers(lines)
        self.assertEqual(answers[:start] + answers[end:], self.answers(others))

    def test_fresh_cases_have_factory_tags(self):
        """Made, refused and of no form, in the first group of any seed."""
        for seed in range(1, 30):
            lines = list(casebook_lines(seed, 1))
            found = {answer[0] for each, answer in zip(lines, self.answers(lines)) if each.startswith(b"FACTORY")}
            self.assertEqual(found, {"0", "1", "?"}, seed)

    def test_fresh_cases_have_searches(self):
        """In the first group of any seed some take sixteen requests or more, some are refused, some are of no form."""
        for seed in range(1, 6):
            lines = list(casebook_lines(seed, 1))
            answered = [answer.split(" ") for each, answer in zip(lines, self.answers(lines)) if each.startswith(b"SEARCH")]
            self.assertTrue({"0", "7", "18", "?"} <= {parts[0] for parts in answered} <= {"0", "6", "7", "18", "?"}, seed)
            self.assertTrue(any(parts[0] == "0" and int(parts[1]) >= 16 for parts in answered), seed)

    def test_searches_of_every_size(self):
        """Twenty turns have more than 40 sizes of trays, 0, 256 and 257 among them."""
        with mock.patch.object(casebook_cases, "ADDED", casebook_cases.ADDED[1:]):
            lines = list(added_lines(3, 20))
        sizes = [len(each.split(b" ")[2]) // 16 for each in lines
                 if re.fullmatch(rb"SEARCH (0|[1-9][0-9]?|[12][0-9][0-9]|300) (([0-9A-F]{16}){0,300})", each)]
        self.assertTrue({0, 1, 2, 3, 4, 5, 6, 7, 8, 16, 32, 256, 257} <= set(sizes))
        self.assertGreater(len(set(sizes)), 40)
        self.assertLessEqual(max(sizes), 300)

    def test_fresh_cases_have_wrong_headers(self):
        """In twelve turns of any seed there is a load that is refused at each place, and one that is taken."""
        with mock.patch.object(casebook_cases, "ADDED", casebook_cases.ADDED[2:]):
            lines = list(added_lines(6, 12))
        numbers = {answer.split(" ")[0] for each, answer in zip(lines, self.answers(lines)) if each.startswith(b"LOAD")}
        self.assertEqual(numbers, {"0", "5a:0", "5b:11", *(f"5c:{place}" for place in (12, 14, 16, 18)),
                                   *(f"5d:{place}" for place in (13, 15, 17)), *(f"5e:{place}" for place in range(51, 64))})

    def test_fresh_cases_have_families(self):
        """Six turns of any seed reach each way that the comparison of two AFIs can go."""
        wanted = [name for name in all_branches() if name.startswith("inventory.afi.") and not name.endswith("none-asked")]
        with mock.patch.object(casebook_cases, "ADDED", casebook_cases.ADDED[3:]):
            for seed in range(1, 10):
                reset_counts()
                self.answers(added_lines(seed, 6))
                self.assertEqual([name for name in wanted if not COUNTS[name]], [], seed)

    def test_other_seeds_have_others(self):
        self.assertEqual(len({b"".join(added_lines(seed, 1)) for seed in range(1, 30)}), 29)

    def test_no_groups(self):
        self.assertEqual(list(casebook_lines(1, 0)), [])


class Compare(unittest.TestCase):
    def compare(self, casebook, tagrun, *more):
        return run_program("compare", b"", "--seed", "2", "--groups", "2", "--lines", "30",
                           "--casebook", casebook, "--tagrun", tagrun, *more)

    def own(self, name):
        return f"{sys.executable} {os.path.join(FOLDER, name)}"

    def test_equal(self):
        code, output = self.compare(self.own("casebook"), self.own("tagrun"), "--seeds", "2..3", "--groups", "12")
        self.assertEqual(code, 0, output)
        self.assertEqual(output.count(b" 0 differences"), 5)
        self.assertIn(b"compare: 2 x 12 groups, ", output.splitlines()[-1])

    def test_unequal(self):
        for casebook, tagrun in (("casebook", "casebook"), ("tagrun", "tagrun")):
            code, output = self.compare(self.own(casebook), self.own(tagrun))
            self.assertEqual(code, 1)
            self.assertIn(b"  second model: ", output)

    def test_one_byte(self):
        """One digit of one answer is found, and named by its line and byte."""
        code, output = self.compare(self.own("casebook"), f"sh -c '{self.own('tagrun')} | sed \"3s/^3/4/\"'")
        self.assertEqual(code, 1)
        self.assertIn(b"seed 2 tagrun line 3, byte 1: ", output)
        self.assertIn(b", 1 differences, ", output.splitlines()[-1])

    def test_more_less_and_failing(self):
        """A line too many, a line too few, an answer without its newline, and an exit status are differences."""
        for after in ("; echo", " | head -n -1", " | head -c -1", "; exit 3"):
            code, output = self.compare(self.own("casebook"), f"sh -c '{self.own('tagrun')}{after}'")
            self.assertEqual(code, 1, after)
            self.assertIn(b", 1 differences, ", output.splitlines()[-1], after)

    def test_no_end(self):
        """A program that never ends is ended by the limit."""
        code, output = self.compare("sleep 60", self.own("tagrun"), "--limit", "0.5")
        self.assertEqual(code, 1)
        self.assertIn(b"ended with -9", output)

    def test_no_program(self):
        code, output = self.compare(self.own("casebook"), "/no/such/program")
        self.assertEqual(code, 1)
        self.assertEqual(output, b"compare: there is no program /no/such/program\n")

    def test_seeds(self):
        self.assertEqual(run_program("compare", b"", "--seeds", "1-3")[0], 2)
