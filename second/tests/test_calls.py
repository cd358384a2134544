"""Host calls: refusals in their order, record rules one by one, images. Letters and places of 5 are in test_headers."""

import unittest

from tagmodel import host
from tagmodel.boundary import bytes_of_record, record_of_bytes
from tagmodel.record import NoRecord, Round, factory_record

from .support import LARGE, OK, SILENT, SMALL, UID, UID_TEXT, Tag, framed, record_bytes

# What breaks one rule each, as bytes by place on a 16 Kbit tag with the field off.
HEADER_FAULTS = {
    "mark 0": {0: 0}, "mark of the other size": {0: 2}, "mark 3": {0: 3},
    "lock bit 5": {11: 0x20}, "lock bit 6": {11: 0x40}, "lock bit 7": {11: 0x80},
    "RFA1SS": {12: 0x10}, "RFA2SS": {14: 0x10}, "RFA3SS": {16: 0xFF}, "RFA4SS": {18: 0x10},
    "ENDA1 over E": {13: 64}, "ENDA2 over E": {13: 1, 15: 64}, "ENDA3 over E": {13: 1, 15: 2, 17: 64},
    "ENDA2 equals ENDA1": {13: 5, 15: 5}, "ENDA2 below ENDA1": {13: 5, 15: 4},
    "ENDA3 equals ENDA2": {13: 5, 15: 6, 17: 6}, "ENDA3 below ENDA2": {13: 5, 15: 7, 17: 6},
    "ENDA1 at E, ENDA2 not": {15: 5}, "ENDA1 at E, ENDA3 not": {17: 5}, "ENDA2 at E, ENDA3 not": {13: 5, 17: 6},
    **{f"reserved byte {place}": {place: 1} for place in range(51, 64)},
}
ON = {64: 1}
PASSING_FAULTS = {
    "field 2": {64: 2}, "state 3": {**ON, 65: 3}, "session 5": {**ON, 66: 5}, "round 2": {**ON, 67: 2},
    "held 3": {**ON, 70: 3}, "slot without round": {**ON, 68: 1}, "mask without round": {**ON, 69: 1},
    "code without held": {**ON, 71: 0x0F}, "code with held success": {**ON, 70: 1, 71: 0x0F},
    "held error of code 0": {**ON, 70: 2}, "slot 16": {**ON, 67: 1, 68: 16}, "mask 61": {**ON, 67: 1, 69: 61},
    "round with held": {**ON, 67: 1, 70: 1}, "round in Quiet": {**ON, 65: 1, 67: 1},
    "off and Quiet": {65: 1}, "off and Selected": {65: 2}, "off with session": {66: 1}, "off with round": {67: 1},
    "off with held": {70: 1},
    **{f"held code {code:02X}h": {**ON, 70: 2, 71: code} for code in range(1, 256)
       if code not in (0x02, 0x03, 0x0F, 0x10, 0x11, 0x12, 0x13, 0x14, 0x15)},
}
# Just inside each rule.
SOUND = ({}, ON, {11: 0x1F}, {12: 0x0F, 14: 0x0F, 16: 0x0F, 18: 0x0F}, {13: 0, 15: 1, 17: 2}, {13: 61, 15: 62},
         {13: 62}, {13: 5, 15: 6, 17: 62}, {**ON, 65: 1}, {**ON, 65: 2}, {**ON, 66: 4}, {**ON, 67: 1},
         {**ON, 67: 1, 68: 15, 69: 60}, {**ON, 65: 2, 67: 1}, {**ON, 70: 1}, {**ON, 65: 1, 70: 2, 71: 0x15},
         {1: 0xFF, 8: 0xFF, 9: 0xFF, 10: 0xFF, 19: 0xFF, 50: 0xFF},
         *({**ON, 70: 2, 71: code} for code in (0x02, 0x03, 0x0F, 0x10, 0x11, 0x12, 0x13, 0x14, 0x15)))


def event_number(data, memory=2048, room=10243, size=SMALL, happening="ON"):
    return host.event(record_of_bytes(data, size), bytearray(memory), bytearray(room), happening).number


def save_number(data, memory=2048, image=2112, size=SMALL):
    return host.save(record_of_bytes(data, size), bytearray(memory), bytearray(image)).number


def load_number(header, memory=2048, image=2112):
    loaded = (header[:64] + bytes(8300))[:image]
    return host.load(NoRecord("not looked at"), bytearray(memory), loaded).number


class RecordRules(unittest.TestCase):
    def test_each_broken_rule(self):
        for name, changes in {**HEADER_FAULTS, **PASSING_FAULTS}.items():
            data = record_bytes(changes=changes)
            self.assertEqual(event_number(data), 3, name)
            self.assertEqual(save_number(data), 3, name)

    def test_sound_records(self):
        for changes in SOUND:
            data = record_bytes(changes=changes)
            self.assertEqual(event_number(data), 0, changes)
            self.assertEqual(save_number(data), 0, changes)

    def test_large_tag_takes_every_end(self):
        """E is 255, so no end is over it; the order still holds."""
        self.assertEqual(event_number(record_bytes(2, (64, 200, 254)), 8192, size=LARGE), 0)
        self.assertEqual(event_number(record_bytes(2, (63, 63, 63)), 8192, size=LARGE), 3)
        self.assertEqual(event_number(record_bytes(2, (255, 255, 254)), 8192, size=LARGE), 3)

    def test_rules_of_the_record_itself(self):
        """The same rules where a record is given without bytes; a slot is not tied to the tag's own."""
        broken = ({"field": False, "state": "Quiet"}, {"field": False, "session": 0}, {"field": False, "held": 0},
                  {"field": False, "round": Round(0, 0)}, {"round": Round(16, 0)}, {"round": Round(0, 61)},
                  {"round": Round(0, 0), "held": 0}, {"round": Round(0, 0), "state": "Quiet"}, {"held": 0x01},
                  {"registers": (0x10, 63, 0, 63, 0, 63, 0)}, {"registers": (0, 63, 0, 5, 0, 63, 0)})
        for parts in broken:
            tag = Tag(**parts)
            result = host.event(tag.record, tag.memory, tag.room, "EOF")
            self.assertEqual((result.number, result.length, result.record), (3, 0, tag.record), parts)


class Refusals(unittest.TestCase):
    BROKEN = record_bytes(changes={12: 0x10})
    SOUND = record_bytes()

    def test_event_order(self):
        """1, then 2, then 3."""
        for memory in (0, 1, 2047, 2049, 8191, 8193, 9000):
            self.assertEqual(event_number(self.BROKEN, memory, 0), 1)
            self.assertEqual(event_number(self.SOUND, memory), 1)
        self.assertEqual(event_number(self.BROKEN, room=10242), 2)
        self.assertEqual(event_number(self.SOUND, room=10242), 2)
        self.assertEqual(event_number(self.SOUND, room=0), 2)
        self.assertEqual(event_number(self.BROKEN), 3)
        self.assertEqual(event_number(self.SOUND, room=11000), 0)

    def test_every_event_checks(self):
        """Also with the field off, and the small tag asks for the same room."""
        for happening in ("ON", "OFF", "EOF", b"", framed("022000")):
            self.assertEqual(event_number(self.SOUND, memory=0, happening=happening), 1)
            self.assertEqual(event_number(self.SOUND, room=10242, happening=happening), 2)
            self.assertEqual(event_number(self.BROKEN, happening=happening), 3)

    def test_load_order(self):
        """4, then 1, then 5a to 5e, which are 5Ah to 5Eh."""
        bad = record_bytes(changes={0: 3})
        for image in (0, 64, 2111, 2113, 8255, 8257):
            self.assertEqual(load_number(bad, 0, image), 4)
            self.assertEqual(load_number(self.SOUND, image=image), 4)
        for memory in (0, 2047, 8192):
            self.assertEqual(load_number(bad, memory), 1)
            self.assertEqual(load_number(self.SOUND, memory), 1)
        self.assertEqual(load_number(self.SOUND, 2048, 8256), 1)
        self.assertEqual(load_number(bad), 0x5A)
        self.assertEqual(load_number(self.SOUND, 8192, 8256), 0x5A)  # mark 1 with the large image
        self.assertEqual(load_number(self.SOUND), 0)

    def test_save_order(self):
        """4, then 1, then 3."""
        for image in (0, 2048, 2111, 2113, 8257):
            self.assertEqual(save_number(self.BROKEN, 0, image), 4)
            self.assertEqual(save_number(self.SOUND, image=image), 4)
        self.assertEqual(save_number(self.BROKEN, 0), 1)
        self.assertEqual(save_number(self.BROKEN, 8192), 1)
        self.assertEqual(save_number(self.BROKEN, 2048, 8256), 1)
        self.assertEqual(save_number(self.BROKEN), 3)
        self.assertEqual(save_number(self.SOUND), 0)

    def test_header_rules(self):
        for name, changes in HEADER_FAULTS.items():
            self.assertIn(load_number(record_bytes(changes=changes)), range(0x5A, 0x5F), name)
        for changes in SOUND:
            self.assertEqual(load_number(record_bytes(changes=changes)), 0, changes)

    def test_a_refusal_changes_nothing(self):
        """A refused frame drops no held answer and no round."""
        for parts in ({"held": 0x12}, {"round": Round(3, 4)}):
            tag = Tag(**parts)
            short = bytearray(b"\xEE" * 10242)
            result = host.event(tag.record, tag.memory, short, framed("022100A1A2A3A4"))
            self.assertEqual(result, (2, 0, tag.record, None))
            self.assertEqual((tag.memory, short), (bytes(2048), b"\xEE" * 10242))

    def test_refused_load_and_save(self):
        tag = Tag(session=1)
        tag.number_blocks()
        before, image = bytes(tag.memory), bytearray(b"\xEE" * 2112)
        wrong = record_bytes(changes={63: 1})[:64] + bytes(2048)
        self.assertEqual(host.load(tag.record, tag.memory, wrong), (0x5E, 0, tag.record, 63))
        broken = tag.record._replace(round=Round(16, 0))
        self.assertEqual(host.save(broken, tag.memory, image), (3, 0, broken, None))
        self.assertEqual((tag.memory, image), (before, b"\xEE" * 2112))


class Answers(unittest.TestCase):
    def test_rest_of_the_room_is_unchanged(self):
        tag = Tag()
        tag.send("260100")
        self.assertEqual(tag.room, bytes.fromhex("0000F0C8D601042302E064A3") + b"\xEE" * (10243 - 12))
        self.assertEqual(tag.send("0226"), OK)
        self.assertEqual(tag.room, bytes.fromhex("0078F0C8D601042302E064A3")[:3]
                         + bytes.fromhex("C8D601042302E064A3") + b"\xEE" * (10243 - 12))
        self.assertEqual(tag.send("02FF")[:2], b"\x01\x02")
        self.assertEqual(tag.happen("EOF"), SILENT)


class Images(unittest.TestCase):
    HEADER = bytes.fromhex(
        "01" + UID_TEXT + "35" + "5A" + "1F" + "0F050E060D070C"
        + "0001020304050607" + "1011121314151617" + "2021222324252627" + "3031323334353637" + "00" * 13)

    def test_places(self):
        """Each part of a header where document 01 puts it."""
        memory = bytearray(2048)
        contents = bytes(range(256)) * 8
        result = host.load(NoRecord("not looked at"), memory, self.HEADER + contents)
        record = result.record
        self.assertEqual((result.number, result.length), (0, 0))
        self.assertEqual((record.uid, record.afi, record.dsfid, record.locks), (UID, 0x35, 0x5A, 0x1F))
        self.assertEqual([record.protection(area) for area in (1, 2, 3, 4)], [0x0F, 0x0E, 0x0D, 0x0C])
        self.assertEqual([record.end(area) for area in (1, 2, 3)], [5, 6, 7])
        self.assertEqual(record.passwords, (0x0706050403020100, 0x1716151413121110,
                                            0x2726252423222120, 0x3736353433323130))
        self.assertEqual((record.field, record.state, record.session, record.round, record.held),
                         (False, "Ready", None, None, None))
        self.assertEqual(memory, contents)

    def test_round_trip(self):
        for size, mark in ((SMALL, 1), (LARGE, 2)):
            image = bytes((mark,)) + self.HEADER[1:] + bytes(range(256)) * (size.memory_bytes // 256)
            memory, saved = bytearray(size.memory_bytes), bytearray(b"\xEE" * len(image))
            record = host.load(NoRecord("not looked at"), memory, image).record
            self.assertEqual(host.save(record, memory, saved), (0, len(image), record, None))
            self.assertEqual(saved, image)

    def test_saving_with_the_field_on(self):
        """Lasting parts only; the record that is saved stays as it is."""
        tag = Tag(state="Selected", session=2, held=0x0F)
        image = bytearray(2112)
        self.assertEqual(host.save(tag.record, tag.memory, image), (0, 2112, tag.record, None))
        self.assertEqual(host.load(tag.record, bytearray(2048), image).record, Tag(field=False).record)

    def test_factory_images(self):
        for size, mark, end in ((SMALL, "01", "3F"), (LARGE, "02", "FF")):
            image = bytearray(size.image_bytes)
            host.save(factory_record(UID, size), bytearray(size.memory_bytes), image)
            expected = bytes.fromhex(mark + UID_TEXT + "000000" + f"00{end}00{end}00{end}00")
            self.assertEqual(image, expected + bytes(size.image_bytes - 19))


class RecordAsBytes(unittest.TestCase):
    def test_places(self):
        """CASEBOOK.md: 64 field, 65 state, 66 session, 67 round, 68 slot, 69 mask length, 70 held, 71 code."""
        cases = (({}, "0100000000000000"), ({"state": "Quiet", "session": 0}, "0101010000000000"),
                 ({"state": "Selected", "session": 3, "held": 0}, "0102040000000100"),
                 ({"held": 0x0F}, "010000000000020F"), ({"round": Round(15, 60)}, "010000010F3C0000"))
        for parts, expected in cases:
            record = Tag(**parts).record
            data = bytes_of_record(record, SMALL)
            self.assertEqual(data, record_bytes()[:64] + bytes.fromhex(expected))
            self.assertEqual(record_of_bytes(data, SMALL), record)
