"""AFI families by the words of document 02, W-203: every pair of AFIs, the groups about them, and the run of all pairs."""

import os
import shlex
import sys
import unittest
from collections import Counter

from generator.bench import Bench
from generator.dice import Dice
from generator.every_family import every_family
from generator.families import about, any_stored
from generator.family_groups import families
from tagmodel.casebook import Casebook
from tagmodel.inventory import afi_matches
from tagmodel.record import QUIET, SELECTED, Round

from .support import FOLDER, SILENT, Tag, framed, run_program

ANSWER = bytes.fromhex("0000F0C8D601042302E064A3")  # documents 001 and 01
OWN = f"{sys.executable} {os.path.join(FOLDER, 'casebook')}"
# casebook with another rule for the AFIs `asked` and `stored`; without an AFI asked for every tag matches.
OTHER_CASEBOOK = """import sys
sys.path.insert(0, {folder!r})
from tagmodel import inventory
from tagmodel.casebook import Casebook
from tagmodel.lines import answer_lines
inventory.afi_matches = lambda asked, stored: asked is None or {rule}
answer_lines(Casebook().answer, sys.stdin.buffer, sys.stdout.buffer)
"""


def by_digits(asked, stored):
    """The rule by the two digits of each AFI as it is printed; a dot takes any digit."""
    if asked == "00":
        pattern = ".."
    elif asked[1] == "0":
        pattern = asked[0] + "."
    else:
        pattern = asked
    return all(wanted in (".", digit) for wanted, digit in zip(pattern, stored))


def other_casebook(rule):
    """The command of a casebook with this rule."""
    return shlex.join([sys.executable, "-c", OTHER_CASEBOOK.format(folder=FOLDER, rule=rule)])


class Rule(unittest.TestCase):
    def test_every_pair(self):
        for asked in range(256):
            for stored in range(256):
                self.assertEqual(afi_matches(asked, stored), by_digits(f"{asked:02X}", f"{stored:02X}"), (asked, stored))

    def test_how_many(self):
        """00h matches 256, each of the 15 families 16, each of the 240 others 1: 736."""
        matched = Counter(asked for asked in range(256) for stored in range(256) if afi_matches(asked, stored))
        self.assertEqual(matched[0], 256)
        self.assertEqual([matched[asked] for asked in range(0x10, 0x100, 0x10)], [16] * 15)
        self.assertEqual([matched[asked] for asked in range(256) if asked % 16], [1] * 240)
        self.assertEqual(sum(matched.values()), 736)

    def test_without_an_afi(self):
        for stored in range(256):
            self.assertTrue(afi_matches(None, stored))

    def test_found_by(self):
        """A tag with 00h by 00h alone; with X0h or 0Yh by two requests, with XYh by three."""
        found = [[asked for asked in range(256) if afi_matches(asked, stored)] for stored in (0x00, 0x30, 0x05, 0x35)]
        self.assertEqual(found, [[0x00], [0x00, 0x30], [0x00, 0x05], [0x00, 0x30, 0x35]])


class Tags(unittest.TestCase):
    def test_every_family(self):
        for upper in range(1, 16):
            for lower in range(16):
                tag = Tag(afi=upper << 4 | lower)
                self.assertEqual(tag.send(f"3601{upper:X}000"), ANSWER)
                self.assertIsNone(tag.record.round)
                self.assertEqual(tag.send(f"1601{upper:X}000"), ANSWER)
                self.assertEqual(tag.record.round, Round(0, 0))
                self.assertEqual(tag.send(f"1601{upper % 15 + 1:X}000"), SILENT)
                self.assertIsNone(tag.record.round)

    def test_later_slot(self):
        """After 24 bits the slot is 1; AFIs are not compared again at an end of frame."""
        tag = Tag(afi=0x35)
        self.assertEqual([tag.send("16013018F0C8D6"), tag.happen("EOF"), tag.happen("EOF")], [SILENT, ANSWER, SILENT])
        self.assertEqual(tag.record.round, Round(2, 24))

    def test_states(self):
        self.assertEqual(Tag(afi=0x35, state=QUIET).send("36013000"), SILENT)
        tag = Tag(afi=0x35, state=SELECTED)
        self.assertEqual((tag.send("36013000"), tag.record.state), (ANSWER, SELECTED))

    def test_mask(self):
        self.assertEqual(Tag(afi=0x35).send("36013008F1"), SILENT)
        self.assertEqual(Tag(afi=0x35).send("36013008F0"), ANSWER)

    def test_written(self):
        tag = Tag()
        self.assertEqual(tag.send("36013000"), SILENT)
        tag.send("022735")
        self.assertEqual(tag.send("36013000"), ANSWER)


def answered(lines):
    """Each line with the stored AFI before it, as printed, and the parts of the model's answer."""
    book = Casebook()
    for each in lines:
        stored = f"{book.record[9]:02X}"
        yield each, stored, book.answer(each).split(" ")


def asked_and_stored(lines):
    """Of each Inventory for an AFI: both AFIs, whether it has 1 slot, and the parts of its answer."""
    for each, stored, answer in answered(lines):
        flags = int(each[4:6], 16) if each.startswith(b"REQ ") and each[6:8] == b"01" else 0
        if flags & 0x14 == 0x14:
            yield each[8:10].decode("ascii"), stored, bool(flags & 0x20), answer


class Groups(unittest.TestCase):
    def test_forms(self):
        """00h, X0h, 0Yh, XYh, XYh."""
        for seed in range(40):
            forms = [(afi >= 0x10, afi % 0x10 > 0) for afi in any_stored(Dice(seed))]
            self.assertEqual(forms, [(False, False), (True, False), (False, True), (True, True), (True, True)])

    def test_edges(self):
        """Of a tag with 35h, and of one with F0h, whose neighbours go round."""
        self.assertTrue({0x00, 0x35, 0x30, 0x05, 0x50, 0x03, 0x53, 0x40, 0x20, 0x45, 0x25, 0x36, 0x34}
                        <= set(about(Dice(1), 0x35)))
        self.assertTrue({0x00, 0xF0, 0x0F, 0xE0, 0xF1, 0xFF} <= set(about(Dice(1), 0xF0)))

    def test_what_twelve_have(self):
        """Every kind of pair with 1 slot and with 16, found where the words say so; later slots; every state."""
        lines = []
        for turn in range(12):
            bench = Bench(Dice(turn))
            families(bench, turn)
            lines += bench.lines
        kinds, states = set(), set()
        for asked, stored, one_slot, answer in asked_and_stored(lines):
            matches, found = by_digits(asked, stored), answer[2] != "-" or answer[3][134:136] == "01"
            self.assertLessEqual(found, matches)
            kinds.add((asked[0] == "0", asked[1] == "0", asked == stored, matches, found, one_slot))
            states.add(answer[3][130:132])
        for one_slot in (False, True):
            for upper_0, lower_0 in ((False, False), (False, True), (True, False), (True, True)):
                self.assertIn((upper_0, lower_0, True, True, True, one_slot), kinds)
                self.assertIn((upper_0, lower_0, False, lower_0, lower_0, one_slot), kinds)
            self.assertIn((False, True, False, True, False, one_slot), kinds)  # the mask differs, or Quiet
            self.assertIn((False, True, False, False, False, one_slot), kinds)
        self.assertEqual(states, {"00", "01", "02"})
        later = [each for each, _, answer in answered(lines) if each == b"EOF" and answer[1] == "12"]
        self.assertGreater(len(later), 10)


class EveryFamily(unittest.TestCase):
    def test_every_pair(self):
        """256 records, and 65,536 pairs each with 1 slot and with 16, once."""
        times, records, stored = {b"16": bytearray(65536), b"36": bytearray(65536)}, 0, None
        for each in every_family():
            if each.startswith(b"REC "):
                stored, records = each[22:24], records + 1
            else:
                self.assertEqual(each[6:8] + each[10:12], b"0100")
                times[each[4:6]][int(each[8:10] + stored, 16)] += 1
        self.assertEqual((records, times[b"16"], times[b"36"]), (256, b"\x01" * 65536, b"\x01" * 65536))

    def test_what_one_in_seven_has(self):
        """Answer, round and the other passing parts as the words have them, where slot 0 is the tag's and where it is not."""
        seen = Counter()
        for asked, stored, one_slot, answer in asked_and_stored(every_family(7)):
            uid, matches = answer[3][2:18], by_digits(asked, stored)
            at_once = one_slot or uid[1] == "0"
            expected = framed(f"0000{uid}").hex().upper() if matches and at_once else "-"
            self.assertEqual(answer[2], expected, (asked, stored))
            self.assertEqual(answer[3][128:], "01000001" + "00" * 4 if matches and not one_slot else "01" + "00" * 7)
            seen[matches, uid, one_slot] += 1
        self.assertEqual((len(seen), sum(seen.values())), (8, 2 * 9363))  # 65,536 by seven, rounded up
        self.assertGreater(min(seen.values()), 30)

    def run_families(self, casebook):
        return run_program("families", b"", "--step", "61", "--casebook", casebook)

    def test_program(self):
        code, output = self.run_families(OWN)
        self.assertEqual((code, output[:10]), (0, b"families: "), output)
        self.assertIn(b"families: 2,150 calls, 2,406 lines, 0 differences, ", output)
        self.assertEqual(run_program("families", b"", "--casebook", "/no/such/program"),
                         (1, b"families: there is no program /no/such/program\n"))

    def test_step(self):
        """A step below 1 is refused, by the other runs of this kind too."""
        for program in ("families", "headers", "trays"):
            for word in ("0", "-1"):
                self.assertEqual(run_program(program, b"", "--step", word, "--casebook", OWN), (2, b""), program)

    def test_other_rules(self):
        """The rule itself is taken; the one of 01 and others beside it are not."""
        right = "asked == 0 or asked == stored or asked % 16 == 0 and asked == stored - stored % 16"
        self.assertEqual(self.run_families(other_casebook(right))[0], 0)
        for rule in ("asked in (0, stored)", "asked % 16 == 0 and asked in (0, stored - stored % 16)",
                     f"stored == 0 or {right}", f"asked % 16 == stored % 16 and asked < 16 or {right}"):
            code, output = self.run_families(other_casebook(rule))
            self.assertEqual(code, 1, rule)
            self.assertIn(b"  second model: ", output)
