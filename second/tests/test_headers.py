"""Where a header is wrong: letters and places by the words of document 02, W-202, and the images that 01 refuses."""

import os
import sys
import unittest
from itertools import combinations

from generator.bench import Bench
from generator.dice import Dice
from generator.every_header import every_header
from generator.header_groups import TURNS, wrong_headers
from tagmodel import host
from tagmodel.record import NoRecord

from .support import FOLDER, LARGE, SMALL, Tag, record_bytes, run_program
from .test_casebook import FRESH_ROOM, ask, hexed, line

# W-202's letters, as 5Ah to 5Eh, by 01's places.
NUMBERS = {0: 0x5A, 11: 0x5B, **dict.fromkeys((12, 14, 16, 18), 0x5C), **dict.fromkeys((13, 15, 17), 0x5D),
           **dict.fromkeys(range(51, 64), 0x5E)}
ENDS = (13, 15, 17)
# By place, the least and the greatest wrong value that a byte has by itself, in both sizes.
WRONG = {0: (0, 255), 11: (0x20, 255), **dict.fromkeys((12, 14, 16, 18), (0x10, 255)),
         **dict.fromkeys(range(51, 64), (1, 255))}
SIZES = ((SMALL, 1, 63), (LARGE, 2, 255))  # each with its mark and its E
EDGES = (0, 1, 2, 3, 0x0F, 0x10, 0x1F, 0x20, 61, 62, 63, 64, 65, 0x80, 0xE0, 253, 254, 255)


def header_of(mark, last_end, changes):
    """A factory tag's header with some bytes set."""
    return record_bytes(mark, (last_end,) * 3, changes=changes)[:64]


def loaded(size, header):
    """Number and place of a load."""
    result = host.load(NoRecord("not looked at"), bytearray(size.memory_bytes), header + bytes(size.memory_bytes))
    return result.number, result.place


def with_ends(*ends):
    return dict(zip(ENDS, ends))


def breaks_01(header, mark, last_end):
    """Whether a header breaks a rule, sentence by sentence of 01."""
    protections, ends = header[12:19:2], header[13:18:2]
    return (header[0] != mark  # 'or byte 0 does not fit the image's length'
            or header[11] & 0b11100000 != 0  # 'bits 0, 1 .. bit 4 LOCK_CFG; others 0'
            or any(value > 0x0F for value in protections)  # 'each RFAiSS is at most 0Fh'
            or any(end > last_end for end in ends)  # 'each ENDAi is at most E'
            # 'if ENDAi is below E then ENDA(i+1) is above ENDAi'
            or any(ends[i] < last_end and not ends[i + 1] > ends[i] for i in (0, 1))
            # 'if ENDAi is E then all later ends are E'
            or any(ends[i] == last_end and ends[later] != last_end for i in (0, 1) for later in range(i + 1, 3))
            or header[51:64] != bytes(13))  # '51 to 63 zero'


def offending(header, mark, last_end):
    """All places whose byte offends."""
    ends = header[13:18:2]
    found = {place for place in (12, 14, 16, 18) if header[place] > 0x0F} | {place for place in range(51, 64) if header[place]}
    found |= {0} if header[0] != mark else set()
    found |= {11} if header[11] >= 0x20 else set()
    for later, end in enumerate(ends):
        before = ends[:later]
        # 'An end above E is charged to its own byte, a wrong pair to the later byte.'
        if end > last_end or last_end in before and end != last_end or before and end <= before[-1] < last_end:
            found.add(ENDS[later])
    return found


def right_from(header, first, mark, last_end):
    """The header with each byte that has a rule made right, from this place on: ends at E break no pair with those before."""
    mended = bytearray(header)
    for place in NUMBERS:
        if place >= first:
            mended[place] = mark if place == 0 else last_end if place in ENDS else 0
    return bytes(mended)


def expected(header, mark, last_end):
    """The lowest place whose byte, with all after it made right, is refused by 01, with its number; 0 where there is none."""
    for place in sorted(NUMBERS):
        if breaks_01(right_from(header, place + 1, mark, last_end), mark, last_end):
            return NUMBERS[place], place
    return 0, None


def drawn(dice, mark, last_end):
    """A header of any free bytes with up to four bytes at their edges or at any value."""
    header = bytearray(dice.bytes(64))
    header[:] = right_from(header, 0, mark, last_end)
    if dice.one_in(2):
        header[13], header[15] = 12, dice.choose((13, 30, last_end))
    for _ in range(dice.below(5)):
        place = dice.choose((*NUMBERS, *ENDS, *ENDS, *range(64)))
        header[place] = dice.choose((*EDGES, dice.below(256)))
    return bytes(header)


class Letters(unittest.TestCase):
    def refused(self, size, mark, last_end, place, changes):
        self.assertEqual(loaded(size, header_of(mark, last_end, changes)), (NUMBERS[place], place), changes)

    def test_least_and_greatest(self):
        """The values beside them are right."""
        for size, mark, last_end in SIZES:
            for place, values in WRONG.items():
                for value in values:
                    self.refused(size, mark, last_end, place, {place: value})
            for place, (least, _) in WRONG.items():
                if place:
                    self.assertEqual(loaded(size, header_of(mark, last_end, {place: least - 1})), (0, None), place)

    def test_marks(self):
        for size, mark, last_end in SIZES:
            for value in range(256):
                found = loaded(size, header_of(mark, last_end, {0: value}))
                self.assertEqual(found, (0, None) if value == mark else (0x5A, 0))

    def test_ends_above(self):
        for place in ENDS:
            for value in (64, 255):
                self.refused(SMALL, 1, 63, place, {place: value})
        for ends, place in (((64, 5, 9), 13), ((5, 64, 9), 15), ((5, 9, 64), 17), ((64, 65, 66), 13), ((63, 64, 63), 15)):
            self.refused(SMALL, 1, 63, place, with_ends(*ends))

    def test_nothing_is_above_in_the_large_tag(self):
        for value in range(256):
            self.assertEqual(loaded(LARGE, header_of(2, 255, {13: value})), (0, None))

    def test_wrong_pairs(self):
        for size, mark, last_end in SIZES:
            for ends, place in (((12, 12, last_end), 15), ((12, 0, last_end), 15), ((12, 30, 30), 17), ((12, 30, 0), 17),
                                ((12, 30, 12), 17), ((12, 12, 12), 15), ((12, 5, 9), 15),
                                ((last_end - 1, last_end - 1, last_end), 15)):
                self.refused(size, mark, last_end, place, with_ends(*ends))

    def test_after_e(self):
        for size, mark, last_end in SIZES:
            for value in (0, last_end - 1):
                for ends, place in (((last_end, value, last_end), 15), ((last_end, last_end, value), 17),
                                    ((12, last_end, value), 17), ((last_end, value, value), 15)):
                    self.refused(size, mark, last_end, place, with_ends(*ends))

    def test_above_e_beside_a_wrong_pair(self):
        for ends, place in (((64, 12, 12), 13), ((12, 12, 64), 15), ((12, 64, 12), 15), ((63, 5, 64), 15), ((63, 63, 64), 17)):
            self.refused(SMALL, 1, 63, place, with_ends(*ends))

    def test_byte_between_and_after_a_pair(self):
        self.refused(SMALL, 1, 63, 14, {13: 12, 14: 0x10, 15: 12})
        self.refused(SMALL, 1, 63, 15, {13: 12, 15: 12, 16: 0x10})
        self.refused(LARGE, 2, 255, 16, {15: 255, 16: 0x10, 17: 254})

    def test_lowest_of_two(self):
        """Each pair of places that are wrong by themselves: the lower one is named."""
        for size, mark, last_end in SIZES:
            wrong = {**WRONG, **(dict.fromkeys(ENDS, (64, 255)) if last_end == 63 else {})}
            for low, high in combinations(sorted(wrong), 2):
                self.refused(size, mark, last_end, low, {low: wrong[low][0], high: wrong[high][1]})

    def test_no_bare_5(self):
        for place in NUMBERS:
            self.assertNotEqual(loaded(SMALL, header_of(1, 63, {place: 255}))[0], 5)


class SameImages(unittest.TestCase):
    def test_drawn_headers(self):
        """Refused exactly where 01 refuses, at the lowest place; most letters come some hundred times."""
        dice, numbers = Dice(202), []
        for _ in range(6000):
            for size, mark, last_end in SIZES:
                header = drawn(dice, mark, last_end)
                found = loaded(size, header)
                self.assertEqual(found[0] != 0, breaks_01(header, mark, last_end), header.hex())
                self.assertEqual(found, expected(header, mark, last_end), header.hex())
                numbers.append(found[0])
        for number in (0, *range(0x5A, 0x5F)):
            self.assertGreater(numbers.count(number), 200, number)

    def test_no_byte_before_offends(self):
        """With all from the named place on made right the header is loaded; with that one kept it is not."""
        dice = Dice(203)
        for _ in range(3000):
            for size, mark, last_end in SIZES:
                header = drawn(dice, mark, last_end)
                number, place = loaded(size, header)
                self.assertEqual(place, min(offending(header, mark, last_end), default=None))
                if number:
                    self.assertEqual(loaded(size, right_from(header, place, mark, last_end)), (0, None))
                    self.assertEqual(loaded(size, right_from(header, place + 1, mark, last_end)), (number, place))

    def test_every_three_ends(self):
        for size, mark, last_end in SIZES:
            for first in EDGES:
                for second in EDGES:
                    for third in EDGES:
                        header = header_of(mark, last_end, with_ends(first, second, third))
                        self.assertEqual(loaded(size, header), expected(header, mark, last_end), (first, second, third))

    def test_free_bytes(self):
        for size, mark, last_end in SIZES:
            changes = dict.fromkeys((*range(1, 11), *range(19, 51)), 255)
            self.assertEqual(loaded(size, header_of(mark, last_end, changes)), (0, None))


class Order(unittest.TestCase):
    def test_4_and_1_come_first(self):
        """'5a to 5e stand where 5 stood'; neither has a place."""
        for place in NUMBERS:
            header = header_of(1, 63, {place: 255})
            for image, memory, number in ((2111, 2048, 4), (2113, 0, 4), (2112, 2047, 1), (2112, 8192, 1)):
                result = host.load(NoRecord("not looked at"), bytearray(memory), (header + bytes(2049))[:image])
                self.assertEqual((result.number, result.place), (number, None))

    def test_record_and_memory_stay(self):
        tag = Tag(session=1)
        tag.number_blocks()
        before = bytes(tag.memory)
        for place, number in NUMBERS.items():
            image = header_of(1, 63, {place: 255}) + bytes(2048)
            self.assertEqual(host.load(tag.record, tag.memory, image), (number, 0, tag.record, place))
            self.assertEqual(tag.memory, before)

    def test_a_record_stays_3(self):
        for place in NUMBERS:
            record = record_bytes(changes={place: 255})
            answers = ask("REC " + hexed(record), "ON", "SAVE 2112")
            self.assertEqual([answer.split(" ")[0] for answer in answers[1:]], ["3", "3"], place)


class NumberColumn(unittest.TestCase):
    def test_printed(self):
        """`5a:0`, `5d:15`: lower-case letter, place in decimal; what was lent stays."""
        record = record_bytes(changes={64: 1, 65: 2})
        for place, number in NUMBERS.items():
            image = header_of(1, 63, {place: 255}) + b"\x55" * 2048
            answers = ask("REC " + hexed(record), "LOAD " + hexed(image), "EOF")
            text = f"5{chr(ord('a') + number - 0x5A)}:{place}"
            self.assertEqual(answers[1:], [line(text, b"", record, bytes(2048), FRESH_ROOM),
                                           line(0, b"", record, bytes(2048), FRESH_ROOM)])

    def test_others_as_before(self):
        sound = hexed(header_of(1, 63, {}) + bytes(2048))
        answers = ask("LOAD " + sound, "LOAD " + sound[2:], "MEM 1", "LOAD " + sound, "ON", "MEM 2048", "ROOM 1", "ON")
        self.assertEqual([answer.split(" ")[0] for answer in answers], ["0", "4", "ok", "1", "1", "ok", "ok", "2"])


def loads(lines):
    """The headers that are loaded, each with mark and E for its length."""
    for each in lines:
        if each.startswith(b"LOAD "):
            image = bytes.fromhex(each[5:].decode("ascii"))
            yield (image[:64], *SIZES[len(image) == 8256][1:])


class StoredGroups(unittest.TestCase):
    def alone(self):
        """Mark, ends where an end offends, place and value of each header in twelve groups with one offending byte."""
        found = []
        for turn in range(TURNS):
            bench = Bench(Dice(turn))
            wrong_headers(bench, turn)
            for header, mark, last_end in loads(bench.lines):
                places = offending(header, mark, last_end)
                if len(places) == 1:
                    place = places.pop()
                    found.append((mark, tuple(header[13:18:2]) if place in ENDS else None, place, header[place]))
        return found

    def test_every_wrong_byte_alone(self):
        found = set(self.alone())
        for mark in (1, 2):
            for place, values in WRONG.items():
                for value in values:
                    self.assertIn((mark, None, place, value), found)
        kinds = {(mark, place, value) for mark, _, place, value in found}
        for place in ENDS:
            self.assertTrue({(1, place, 64), (1, place, 255)} <= kinds)

    def test_every_kind_of_pair_alone(self):
        found = set(self.alone())
        for _, mark, last_end in SIZES:
            pairs = [(12, 0, last_end), (12, 12, last_end), (12, 30, 0), (12, 30, 30)]
            for value in (0, last_end - 1):
                pairs += [(last_end, value, last_end), (12, last_end, value), (last_end, last_end, value)]
            for ends in pairs:
                place = 17 if ends[2] != last_end else 15
                self.assertIn((mark, ends, place, ends[ENDS.index(place)]), found)


class EveryHeader(unittest.TestCase):
    def test_every_value_and_every_pair(self):
        """Each place has all 256 values in both sizes; each two places that can be wrong are wrong together."""
        values, pairs = set(), set()
        for header, mark, last_end in loads(every_header(1)):
            values |= {(mark, place, header[place]) for place in NUMBERS}
            pairs |= {(mark, *pair) for pair in combinations(sorted(offending(header, mark, last_end)), 2)}
        self.assertEqual(len(values), 2 * 22 * 256)
        self.assertEqual(len(pairs), 22 * 21 // 2 + 21 * 20 // 2)  # in the large tag 13 is never wrong

    def test_program(self):
        own = f"{sys.executable} {os.path.join(FOLDER, 'casebook')}"
        code, output = run_program("headers", b"", "--step", "200", "--casebook", own)
        self.assertEqual((code, output[:9]), (0, b"headers: "), output)
        self.assertIn(b", 0 differences, ", output)
        code, output = run_program("headers", b"", "--step", "200", "--casebook", f"sh -c '{own} | sed s/5d:17/5d:15/'")
        self.assertEqual(code, 1)
        self.assertIn(b"second model: 5d:17 ", output)
        self.assertEqual(run_program("headers", b"", "--casebook", "/no/such/program"),
                         (1, b"headers: there is no program /no/such/program\n"))
