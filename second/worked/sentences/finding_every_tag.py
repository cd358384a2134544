"""Document 02, W-201, "Finding every tag on a tray".

UIDs are written highest byte first, leading zeros left out, so that the four-bit groups from the lowest are read from
the right: of 210h they are 0, 1, 2, then 0. On a line they travel lowest byte first.
Requests are counted by their masks: the empty one, and each lowest part that two or more UIDs have in common.
"""

from ..examples import NO_RECORD, Case, Step, event, line, places, shown_crc

MANY = 300  # the longest list of casebook
DIGITS = "0123456789ABCDEF"

# 00h to FFh. From the lowest group: those that end in 0, then those that end in 1 and so on. Each of the sixteen slots
# of the first request has sixteen answers; after its four bits each slot has one. Requests: 1 + 16.
ALL_256 = tuple(high + low for low in DIGITS for high in DIGITS)

# Sixteen pairs; their lowest groups are 0 to F, and each pair is alike in all groups but the highest, which is 0 and 1.
# Each pair needs masks of 4, 8, .. 60 bits, fifteen, and shares none of them: 1 + 15 x 16.
PAIRS = tuple(f"{high}23456789ABCDE0{low}" for low in DIGITS for high in "01")


def travels(uids):
    """The UIDs as they travel, one behind the other."""
    return "".join(bytes.fromhex(uid.rjust(16, "0"))[::-1].hex().upper() for uid in uids)


def asked(room, uids):
    """The line."""
    return f"SEARCH {room} {travels(uids)}".encode("ascii")


def finds(given, found, requests, room=None):
    """All are found, in this order; the entries of the list that are left over stay EEh."""
    room = len(given) if room is None else room
    entries = travels(found) + "EE" * 8 * (room - len(found))
    return Step(asked(room, given), travels(found), room=shown_crc(entries), requests=requests)


def refuses(number, room, given):
    """The list stays EEh and the number of requests is 0."""
    return Step(asked(room, given), "", number, room=shown_crc("EE" * 8 * room), requests=0)


def case(name, words, otherwise, *steps):
    """A case of document 02."""
    return Case(f"search-{name}", words, otherwise, steps, "02")


CASES = (
    case("up-to-256", "Over up to 256 simulated tags",
         "were 256 the first number refused, or 255 the most, the number would be 6",
         finds(ALL_256, ALL_256, 17)),
    case("any-uid", "given by their UIDs",
         "were a UID to begin with E0h, or 0, FF..FFh or what a fresh entry holds to be no tag, one would be missing",
         finds(("F" * 16, "0", "E" * 16), ("0", "E" * 16, "F" * 16), 1)),
    case("heeds-no-lent-tag", "simulated tags, all Ready and given by their UIDs",
         "were lent memory, room or record looked at, the number would be 1, 2 or 3; were one changed, EOF would show it",
         line("MEM 0"), line("ROOM 0"), line("REC " + NO_RECORD), finds(("A",), ("A",), 1),
         event("EOF", number=1, record=places(NO_RECORD), memory=shown_crc(""), room=shown_crc(""))),
    case("each-once", "list each UID once",
         "were a UID listed by each request that hears it, 01h, 11h and 21h would stand there twice",
         finds(("01", "11", "21"), ("01", "11", "21"), 2, room=6)),
    case("rest-of-list-stays", "list each UID once",
         "were the entries after the list cleared, or filled with the last UID, its CRC would be another",
         finds(("10", "02"), ("10", "02"), 1, room=3), finds((), (), 1, room=2)),
    case("order-from-lowest", "in ascending order of the UID's four-bit groups taken from the lowest",
         "were UIDs compared as numbers, or from the highest group, 02h would stand before 10h",
         finds(("02", "10"), ("10", "02"), 1)),
    case("order-of-groups-not-bytes", "in ascending order of the UID's four-bit groups taken from the lowest",
         "were bytes compared from the lowest, 01h would stand before 10h",
         finds(("01", "10"), ("10", "01"), 1)),
    case("order-ascending", "in ascending order",
         "were the order descending, or that in which the tags are given, 02h or 03h would be first",
         finds(("02", "03", "01"), ("01", "02", "03"), 1)),
    case("order-second-group", "in ascending order of the UID's four-bit groups taken from the lowest",
         "were the lowest group alone compared, 21h would stay first; were the rest compared as a number, 101h be last",
         finds(("21", "11", "101"), ("101", "11", "21"), 2)),
    case("order-highest-group", "in ascending order of the UID's four-bit groups taken from the lowest",
         "were the highest bit a sign, 8..01h would be first; were the highest group not compared, it would stay first",
         finds(("8000000000000001", "1000000000000001", "0000000000000001"),
               ("0000000000000001", "1000000000000001", "8000000000000001"), 16)),
    case("order-collision-before-next-slot", "in ascending order of the UID's four-bit groups taken from the lowest",
         "were the finds of a request listed before its collisions are settled, 10h or 01h would be first",
         # slot 0 hears 000h, 100h and 010h; with mask 0 slot 0 hears 000h and 100h; with mask 00 each is alone
         finds(("01", "10", "100", "0"), ("0", "100", "10", "01"), 3)),
    case("16-slots", "The search asks with 16 slots",
         "were there one slot, or two or four or eight, some of the sixteen would collide: more than one request",
         finds(tuple(DIGITS), tuple(DIGITS), 1)),
    case("slot-of-lowest-group", "The search asks with 16 slots",
         "were the slot the highest group, the first two would collide and the others be found by one request",
         finds(("01", "02"), ("01", "02"), 1),
         finds(("1" + "0" * 15, "2" + "0" * 15), ("1" + "0" * 15, "2" + "0" * 15), 16)),
    case("two-answers", "a slot with two or more answers is a collision",
         "were two answers told apart in their slot, or a collision only more than two, there would be one request",
         finds(("11", "21"), ("11", "21"), 2)),
    case("more-answers", "a slot with two or more answers is a collision",
         "were a collision settled tag by tag, three and sixteen tags of one slot would need more than two requests",
         finds(("11", "21", "31"), ("11", "21", "31"), 2),
         finds(ALL_256[:16], ALL_256[:16], 2)),
    case("one-answer", "a slot with two or more answers is a collision",
         "were a tag that is alone in its slot asked once more by its mask, there would be two requests, or three",
         finds(("21",), ("21",), 1), finds(("21", "32"), ("21", "32"), 1)),
    case("again-by-four-bits", "the search goes again with the mask longer by that slot's four bits",
         "alike in 8 bits, so masks of 0, 4 and 8; were the mask longer by eight bits, two requests; by one or two, more",
         finds(("1AB", "2AB"), ("1AB", "2AB"), 3)),
    case("again-for-each-slot", "the search goes again with the mask longer by that slot's four bits",
         "were all collisions asked for by one request, or the first alone, there would be two requests",
         finds(("01", "11", "0F", "1F"), ("01", "11", "0F", "1F"), 3)),
    case("again-from-the-slot", "the search goes again with the mask longer by that slot's four bits",
         "were all begun anew after a collision, or the shorter mask asked again, there would be four requests or more",
         finds(("1AB", "2AB", "C"), ("1AB", "2AB", "C"), 3)),
    case("no-tags", "The result gives the number of Inventory requests sent",
         "were nothing asked where there is no tag, it would be 0; were ends of frame requests, 16",
         finds((), (), 1), finds((), (), 1, room=5)),
    case("ends-of-frame-are-none", "The result gives the number of Inventory requests sent",
         "were ends of frame counted, or slots, it would be 16 for slot 15",
         finds(("F",), ("F",), 1)),
    case("requests-for-two", "for n tags it is at most 1 + 15 × (n halved, rounded down)",
         "alike in 60 bits: masks of 0, 4, .. 60; were 56 bits the longest it would be 15, were 64 asked for too 17",
         finds(PAIRS[:2], PAIRS[:2], 16)),
    case("requests-for-three", "at most 1 + 15 × (n halved, rounded down)",
         "three alike in 60 bits need the same masks as two; were there masks for each pair, it would be 31 or 46",
         finds(("2" + PAIRS[0][1:], *PAIRS[:2]), (*PAIRS[:2], "2" + PAIRS[0][1:]), 16)),
    case("requests-for-pairs", "at most 1 + 15 × (n halved, rounded down)",
         "were a mask asked for twice, or one left out, 4 tags would not have 31 and 32 tags not 241",
         finds(PAIRS[:4], PAIRS[:4], 31), finds(PAIRS, PAIRS, 241)),
    case("6-at-257", "6 for more than 256 tags",
         "were 257 tags taken, or the first 256 of them, the number would be 0",
         refuses(6, MANY, (*ALL_256, "100"))),
    case("7-equal", "7 if two UIDs are equal",
         "were neighbours alone compared, or a tag that is there twice listed once, the number would be 0",
         refuses(7, 3, ("21", "02", "21")), refuses(7, 2, ("0", "0")), refuses(7, MANY, ("FF", *ALL_256[1:]))),
    case("7-whole-uids", "7 if two UIDs are equal",
         "were 32, 60 or 63 bits compared, these, which differ in the highest bit, would be refused with 7",
         finds(("8000000000000001", "1"), ("1", "8000000000000001"), 16)),
    case("18-at-one-less", "18 if the list's room is too small for all",
         "were the list filled as far as it goes, one entry would be taken; were one more asked for, two would not",
         refuses(18, 1, ("10", "02")), finds(("10", "02"), ("10", "02"), 1, room=2)),
    case("18-no-room", "18 if the list's room is too small for all",
         "were a list of no entries too small for no tags, the first would be refused; were it any, the second taken",
         finds((), (), 1, room=0), refuses(18, 0, ("10",))),
    case("18-at-255", "18 if the list's room is too small for all",
         "were the room measured otherwise than in entries, 255 of them would be taken or 256 refused",
         refuses(18, 255, ALL_256), finds(ALL_256, ALL_256, 17, room=256)),
    case("6-before-7", "6 for more than 256 tags, then 7 if two UIDs are equal",
         "were equal UIDs looked for first, the number would be 7",
         refuses(6, MANY, (*ALL_256, "FF"))),
    case("6-before-18", "6 for more than 256 tags, then .. then 18",
         "were the room looked at first, the number would be 18",
         refuses(6, 0, (*ALL_256, "100"))),
    case("7-before-18", "7 if two UIDs are equal, then 18",
         "were the room looked at first, the number would be 18; were two equal ones to need one entry, 1 would be enough",
         refuses(7, 0, ("21", "21")), refuses(7, 1, ("21", "21"))),
    case("refused-list-unchanged", "the list is unchanged and the number is 0",
         "were the list filled as the search goes, 10h, or 10h and 02h, would stand in it; were the requests told, 1",
         refuses(18, 1, ("02", "10")), refuses(7, 3, ("02", "10", "10")), refuses(6, 256, (*ALL_256, "100"))),
)
