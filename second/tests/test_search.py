"""Finding every tag on a tray: the search by the words of document 02, its line in casebook, and the paired runs."""

import unittest
from unittest import mock

from generator import paired_runs, trays
from generator.dice import Dice
from generator.every_tray import every_tray
from generator.paired_runs import drawn_tray, faults, on_a_tray
from tagmodel import search as model
from tagmodel.search import frame_of, groups_of, heard, in_order, masks_asked, search
from tagmodel.tray import Tray, uid_of_answer

from .support import UID, framed, run_program
from .test_casebook import FRESH_ROOM, OFF_MEMORY, START_RECORD, ask, crc_text, hexed, line

FRESH = b"\xEE" * 8
# 001's UID, its groups from the lowest.
UID_GROUPS = (0x0, 0xF, 0x8, 0xC, 0x6, 0xD, 0x1, 0x0, 0x4, 0x0, 0x3, 0x2, 0x2, 0x0, 0x0, 0xE)


def searched(uids, room):
    """The result, and the entries after it; they were None."""
    entries = [None] * room
    return tuple(search(uids, entries)), entries


def travels(*uids):
    """UIDs lowest byte first."""
    return b"".join(uid.to_bytes(8, "little") for uid in uids)


def sought(room, *uids):
    """The line of casebook."""
    return f"SEARCH {room} {hexed(travels(*uids))}"


class Search(unittest.TestCase):
    def test_groups(self):
        self.assertEqual(groups_of(UID), UID_GROUPS)
        self.assertEqual(groups_of(0x10), (0, 1) + (0,) * 14)

    def test_order(self):
        """From the lowest group: 10h and 20h end in 0, 02h in 2, Fh in F."""
        self.assertEqual(in_order([0x02, 0x0F, 0x20, 0x10]), [0x10, 0x20, 0x02, 0x0F])
        self.assertEqual(in_order([1 << 63, 1 << 60, 0]), [0, 1 << 60, 1 << 63])

    def test_masks(self):
        """1ABh and 2ABh share B and AB; CBh shares B with them; 7h shares nothing."""
        self.assertEqual(masks_asked([0x1AB, 0x7, 0xCB, 0x2AB]), [(), (0xB,), (0xB, 0xA)])
        self.assertEqual(masks_asked([]), [()])
        self.assertEqual(masks_asked([UID]), [()])

    def test_order_of_masks(self):
        """Slots 1 and 2 collide, and within 1 slot 5: after mask 1 comes all that follows from it, then mask 2."""
        uids = [0x002, 0x012, 0x151, 0x251, 0x031, 0x061, 0x161]
        self.assertEqual(masks_asked(uids), [(), (1,), (1, 5), (1, 6), (2,)])

    def test_longest_mask(self):
        """Two that differ in the highest group: masks of 0 to 15 groups."""
        other = UID ^ 1 << 60
        self.assertEqual(masks_asked([UID, other]), [UID_GROUPS[:length] for length in range(16)])

    def test_frames(self):
        """06h, 01h, length in bits, bytes lowest first, the last with its high half 0 where the groups are odd."""
        for length, text in ((0, "060100"), (1, "06010400"), (2, "060108F0"), (3, "06010CF008"), (4, "060110F0C8"),
                             (15, "06013CF0C8D60104230200"), (5, "060114F0C806")):
            self.assertEqual(frame_of(UID_GROUPS[:length]), framed(text), length)

    def test_heard(self):
        slots = heard([0x1AB, 0x7, 0xCB, 0x2AB], ())
        self.assertEqual({slot: uids for slot, uids in enumerate(slots) if uids}, {0xB: [0x1AB, 0xCB, 0x2AB], 7: [7]})
        slots = heard([0x1AB, 0x7, 0xCB, 0x2AB], (0xB,))
        self.assertEqual({slot: uids for slot, uids in enumerate(slots) if uids}, {0xA: [0x1AB, 0x2AB], 0xC: [0xCB]})
        self.assertEqual(len(slots), 16)

    def test_found(self):
        self.assertEqual(searched([], 0), ((0, 1, 0), []))
        self.assertEqual(searched([], 2), ((0, 1, 0), [None, None]))
        self.assertEqual(searched([0x02, 0x10], 3), ((0, 1, 2), [0x10, 0x02, None]))
        self.assertEqual(searched([0x12, 0x02], 2), ((0, 2, 2), [0x02, 0x12]))

    def test_refused(self):
        many = list(range(257))
        for uids, room, number in ((many, 257, 6), (many, 0, 6), (many[:256] + [0], 300, 6), ([1, 2, 1], 3, 7),
                                   ([1, 1], 1, 7), ([1, 1], 0, 7), ([1], 0, 18), (many[:256], 255, 18)):
            self.assertEqual(searched(uids, room), ((number, 0, 0), [None] * room), (len(uids), room))
        self.assertEqual(searched(many[:256], 256)[0], (0, 17, 256))

    def test_at_most(self):
        """'for n tags it is at most 1 + 15 x (n halved, rounded down)'; up to 32 tags that many can come."""
        dice = Dice(21)
        for count in (*range(8), 31, 32, 33, 100, 255, 256, 257):
            for shape in trays.SHAPES:
                uids = shape(dice, count)
                self.assertEqual((len(uids), len(set(uids))), (count, count))
                self.assertLessEqual(len(masks_asked(uids)), 1 + 15 * (count // 2))
        for count in range(0, 33, 2):
            self.assertEqual(len(masks_asked(trays.paired(dice, count))), 1 + 15 * (count // 2))


class Line(unittest.TestCase):
    def test_found(self):
        """`number requests list room`: 10h before 02h; the third entry stays."""
        entries = travels(0x10, 0x02)
        self.assertEqual(ask(sought(3, 0x02, 0x10)), [f"0 1 {hexed(entries)} {crc_text(entries + FRESH)}"])

    def test_none(self):
        self.assertEqual(ask("SEARCH 5 ", "SEARCH 0 "), [f"0 1 - {crc_text(FRESH * 5)}", f"0 1 - {crc_text(b'')}"])

    def test_refused(self):
        """'Refused: `6 0 - room`', and so 7 and 18."""
        for number, room, uids in ((6, 300, range(257)), (6, 0, range(300)), (7, 2, (5, 5)), (7, 0, (5, 5)),
                                   (18, 1, (5, 6))):
            self.assertEqual(ask(sought(room, *uids)), [f"{number} 0 - {crc_text(FRESH * room)}"])

    def test_entry_as_it_travels(self):
        """Lowest byte first in line, answer and list."""
        data = bytes.fromhex("0102030405060708")
        self.assertEqual(ask("SEARCH 1 0102030405060708"), [f"0 1 0102030405060708 {crc_text(data)}"])

    def test_most(self):
        """300 entries and 300 UIDs are of the form."""
        self.assertEqual(ask(sought(300, 9))[0], f"0 1 {hexed(travels(9))} {crc_text(travels(9) + FRESH * 299)}")
        self.assertEqual(ask(sought(300, *range(300)))[0][:6], "6 0 - ")

    def test_nothing_else_changes(self):
        stands = line(0, b"", START_RECORD, OFF_MEMORY, FRESH_ROOM)
        self.assertEqual(ask("EOF", sought(2, 1, 2), sought(0, 1), "EOF")[::3], [stands, stands])

    def test_no_lent_tag_is_needed(self):
        answers = ask("MEM 0", "ROOM 0", "REC " + "FF" * 72, sought(1, 3))
        self.assertEqual(answers[3], f"0 1 {hexed(travels(3))} {crc_text(travels(3))}")

    def test_program(self):
        self.assertEqual(run_program("casebook", b"SEARCH 0 "), (0, b"0 1 - 0000\n"))


class NoForm(unittest.TestCase):
    EIGHT = "0102030405060708"
    LINES = ("SEARCH", "SEARCH ", "SEARCH  ", "SEARCH 1", "SEARCH 0", "SEARCH " + EIGHT, "SEARCH  " + EIGHT,
             "SEARCH  1 " + EIGHT, "SEARCH 1  " + EIGHT, "SEARCH 1 " + EIGHT + " ", "SEARCH 1\t" + EIGHT, "SEARCH1 " + EIGHT,
             " SEARCH 1 " + EIGHT, "search 1 " + EIGHT, "Search 1 " + EIGHT, "SEARCHES 1 " + EIGHT, "SEARCH 01 " + EIGHT,
             "SEARCH 00 ", "SEARCH -1 ", "SEARCH +1 ", "SEARCH 1.0 ", "SEARCH 0x1 ", "SEARCH A ", "SEARCH 301 ",
             "SEARCH 1000 ", "SEARCH " + "9" * 40 + " ", "SEARCH 1 " + EIGHT[:15], "SEARCH 1 " + EIGHT[:14],
             "SEARCH 1 " + EIGHT + "0", "SEARCH 1 " + EIGHT + "00", "SEARCH 1 " + EIGHT[:15] + "g", "SEARCH 1 " + "ab" * 8,
             "SEARCH 2 " + EIGHT + " " + EIGHT, "SEARCH 1 " + EIGHT + "\r", "SEARCH 1 " + EIGHT + "\x00", "SEARCH 1 -",
             "SEARCH 300 " + "00" * 8 * 301, "SEARCH 300 " + "00" * 2401, "SEARCH 1 " + EIGHT + " 1")

    def test_question(self):
        stands = line(0, b"", START_RECORD, OFF_MEMORY, FRESH_ROOM)
        for text in self.LINES:
            self.assertEqual(ask(text, "EOF"), ["?", stands], text[:40])


class EveryTray(unittest.TestCase):
    def test_numbers_of_tags(self):
        """Each with rooms about it in every shape, and once more with a tag that is there twice."""
        said = [line.split(b" ") for line in every_tray(1)]
        rooms = {}
        for _, room, digits in said:
            rooms.setdefault(len(digits) // 16, []).append(int(room))
        self.assertEqual(sorted(rooms), list(range(259)))
        for count in range(1, 258):
            for room in (count - 1, count, count + 1):
                self.assertGreaterEqual(rooms[count].count(room), len(trays.SHAPES))
        self.assertEqual(rooms[258], [258] * len(trays.SHAPES))

    def test_every_number_of_refusal(self):
        _, output = run_program("casebook", b"\n".join(every_tray(2, 128)))
        answers = output.split(b"\n")[:-1]
        self.assertEqual({answer.split(b" ")[0] for answer in answers}, {b"0", b"6", b"7", b"18"})


class Tags(unittest.TestCase):
    def test_what_they_answer(self):
        """001's answer, whole, in slot 0 of the first request and in slot 15 after the mask 0."""
        tray = on_a_tray([UID])
        self.assertEqual(tray.answers(framed("060100")), [bytes.fromhex("0000F0C8D601042302E064A3")])
        self.assertEqual(tray.ask((0,)).slots, [[]] * 15 + [[UID]])
        self.assertEqual(tray.ask((1,)).slots, [[]] * 16)

    def test_search(self):
        """As in `Search.test_masks`."""
        uids, sent = on_a_tray([0x1AB, 0x7, 0xCB, 0x2AB]).search()
        self.assertEqual(uids, [0x7, 0x1AB, 0x2AB, 0xCB])
        self.assertEqual([asked.frame for asked in sent], [framed("060100"), framed("0601040B"), framed("060108AB")])

    def test_no_answer(self):
        for answer in ("0000F0C8D601042302E064A2", "0000F0C8D601042302E0", "010F68EE"):
            with self.assertRaises(ValueError):
                uid_of_answer(bytes.fromhex(answer))
        self.assertEqual(uid_of_answer(framed("00A5" + "F0C8D601042302E0")), UID)


class PairedRuns(unittest.TestCase):
    """The tags, event by event, and the UIDs alone come to the same."""

    def same(self, uids):
        self.assertEqual(faults(uids, on_a_tray(uids)), [], [f"{uid:016X}" for uid in uids])

    def test_small(self):
        for uids in ([], [0], [2 ** 64 - 1], [UID, 0], [0x10, 0x02], list(range(40)), list(trays.EDGES)):
            self.same(uids)

    def test_every_depth(self):
        """Two, three and sixteen alike in 0 to 15 groups; a tag beside them."""
        for depth in range(16):
            for count in (2, 3):
                self.same(trays.grown(Dice(depth), count, (depth,)) + [depth])
            self.same(trays.full_slots(Dice(depth), depth))

    def test_drawn(self):
        """Some of each kind but the larger ones, which `second/paired` has."""
        for number in (*range(0, 57, 4), 59):
            self.same(drawn_tray(5, number))

    def test_other_tags_and_states(self):
        """The slots are what tags answer: one that is Quiet is not found, and a DSFID is passed over."""
        tray = on_a_tray([0x1AB, 0x2AB])
        tray.records = [tray.records[0]._replace(state="Quiet"), tray.records[1]._replace(dsfid=0xA5)]
        self.assertEqual(tray.search()[0], [0x2AB])
        self.assertEqual(faults([0x1AB, 0x2AB], tray), [
            "UIDs found", "number of requests", "frames sent", "answers", "tags afterwards"])

    def test_each_difference_is_noticed(self):
        uids = [0x1AB, 0x7, 0xCB, 0x2AB]
        for name, wrong, found in (("in_order", sorted, "UIDs found"), ("refusal", lambda *_: 7, "number"),
                                   ("MOST_TAGS", 3, "number of requests")):
            with mock.patch.object(model, name, wrong):
                self.assertIn(found, faults(uids, on_a_tray(uids)), name)
        with mock.patch.object(paired_runs, "frame_of", lambda mask: b""):
            self.assertEqual(faults(uids, on_a_tray(uids)), ["frames sent"])
        with mock.patch.object(paired_runs, "heard", lambda *_: [[]] * 16):
            self.assertEqual(faults(uids, on_a_tray(uids)), ["answers"])
        with mock.patch.object(paired_runs, "answer_of", lambda uid: framed("00A5" + hexed(travels(uid)))):
            self.assertEqual(faults(uids, on_a_tray(uids)), ["answers"])
        with mock.patch.object(Tray, "put", lambda tray, record, memory: None):
            self.assertIn("tags afterwards", faults(uids, on_a_tray(uids)))

    def test_program(self):
        code, output = run_program("paired", b"", "--seed", "3", "--trays", "4")
        self.assertEqual((code, output[:17]), (0, b"paired: 4 trays, "), output)
        self.assertIn(b", 0 differences, ", output)
