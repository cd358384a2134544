"""The tool's `factory`: images of both sizes, every spelling of a UID, and wrong sizes and UIDs."""

from tagmodel.sizes import SIZES

from .tool_runs import wrong_words
from .tool_tags import REPLACED, SESSION_UID, WORDS, factory_image

UIDS = (SESSION_UID, "0000000000000000", "FFFFFFFFFFFFFFFF", "0123456789ABCDEF", "A0B1C2D3E4F50617")
WRONG_SIZES = ("0", "1", "2", "8", "32", "61", "016", "164", "16 ", " 16", "+16", "16K", "16Kbit", "64.0", "0x40", "")
WRONG_UIDS = (
    "", "E", "E0", "E002", "E002230401D6C8", "E002230401D6C8F", "E002230401D6C8F00", "E002230401D6C8F000", "E0" * 16,
    "E002230401D6C8FG", "G002230401D6C8F0", "EO02230401D6C8F0", "E0 02 23 04 01 D6 C8 F", "E0 02 23 04 01 D6 C8 F0 00",
    " E002230401D6C8F0", "E002230401D6C8F0 ", ":E002230401D6C8F0", "E002230401D6C8F0:", " : E0:02:23:04:01:D6:C8:F0",
    "E 002230401D6C8F0", "E0:02:23:04:01:D6:C8:F:0", "E0:0 2:23:04:01:D6:C8:F0", "E002230401D6C8 F 0",
    "E:002230401D6C8F0", "E0-02-23-04-01-D6-C8-F0", "E0.02.23.04.01.D6.C8.F0", "E0,02,23,04,01,D6,C8,F0",
    "E0_02230401D6C8F0", "E0\t02\t23\t04\t01\tD6\tC8\tF0", "0xE002230401D6C8F0", "E002230401D6C8F0h",
    "+E002230401D6C8F0", "\u0661002230401D6C8F0", "::", "  ")
WRONG_UID_WORDS = (
    ("E0", "02", "23", "04", "01", "D6", "C8"), ("E0", "02", "23", "04", "01", "D6", "C8", "F0", "00"),
    ("E0", "02", "23", "04", "01", "D6", "C8", "G0"), ("E0", "02", "23", "04", "0", "1", "D6", "C8", "F0"),
    ("E00", "2230401D6C8F0"), ("E", "002230401D6C8F0"), ("E002230401D6C8F", "0"), (SESSION_UID, "00"),
    (SESSION_UID, SESSION_UID), ("E0:", "02:", "23:", "04:", "01:", "D6:", "C8:", "F0:"),
    (":E0", "02", "23", "04", "01", "D6", "C8", "F0"), ("E0:", "02:", "23:", "04:", "01:", "D6:", "C8:"))


def spellings(uid):
    """The ways in which a UID may be written, as words of the command line."""
    pairs = [uid[at:at + 2] for at in range(0, 16, 2)]
    mixed_case = "".join(pair.lower() if at % 2 else pair for at, pair in enumerate(pairs))
    return ([uid], [uid.lower()], [mixed_case], [":".join(pairs)], [" ".join(pairs).lower()], pairs,
            [pair.lower() for pair in pairs], ["  ".join(pairs)], ["::".join(pairs)], [" : ".join(pairs)],
            [pairs[0] + ":: :" + "".join(pairs[1:])], ["".join(pairs[:7]) + "   " + pairs[7]], [uid[:8], uid[8:]],
            [uid[:2], uid[2:]], [uid[:14], uid[14:]], [":".join(pairs[:3]), " ".join(pairs[3:5]), uid[10:14], pairs[7]],
            [pairs[0] + " :" + pairs[1], uid[4:]], [*(pair + ":" for pair in pairs[:7]), pairs[7]],
            [uid[:8] + ": :", uid[8:]])


def one_factory(trial, size, uid, words, there=None):
    """A UID in these words, over a file that is there or over none; nothing is printed."""
    trial.drop("new.img")
    if there is not None:
        trial.put("new.img", there)
    trial.expect(f"factory {WORDS[size]} {words}", ["factory", WORDS[size], *words, "new.img"],
                 written={"new.img": factory_image(size, uid)})


def factories(trial):
    """Every spelling of two UIDs, and one of the others."""
    for size in SIZES:
        for number, uid in enumerate(UIDS):
            for way, words in enumerate(spellings(uid) if number in (0, 4) else [[uid]]):
                one_factory(trial, size, uid, words, (None, *REPLACED)[way % 4])


def wrong_factories(trial):
    """Sizes and UIDs that are none: the word is named, and the file that was there stays."""
    trial.put("new.img", REPLACED[0])
    for size in WRONG_SIZES:
        trial.refuses(f"factory size {size!r}", ["factory", size, SESSION_UID, "new.img"], wrong_words("factory", size))
    for uid in WRONG_UIDS:
        trial.refuses(f"factory UID {uid!r}", ["factory", "16", uid, "new.img"], wrong_words("factory", uid))
    for words in WRONG_UID_WORDS:
        trial.refuses(f"factory UID {words}", ["factory", "64", *words, "new.img"], wrong_words("factory"))
    for uid in (SESSION_UID, "E0:02:23:04:01:D6:C8:F0"):
        words = ["factory", "16", uid, "new.img", "next.img"]
        trial.refuses(f"factory {uid}, a word too many", words, wrong_words("factory", "'next.img'"))
    trial.refuses("factory, no file there", ["factory", "17", SESSION_UID, "other.img"], wrong_words("factory", "17"))
