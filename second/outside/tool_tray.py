"""The tool's `tray`: trays as words, lines and images. What it prints is worked from the UIDs, with no tag asked."""

import os

from generator.dice import Dice
from generator.paired_runs import drawn_tray
from generator.trays import EDGES, branched, clustered, full_slots, loose, mixed, paired
from tagmodel.search import MOST_TAGS, UID_GROUPS, frame_of, heard, in_order, masks_asked
from tagmodel.sizes import SIZES

from .tool_factory import UIDS, spellings
from .tool_runs import REFUSED, lines_said, said
from .tool_tags import SESSION_UID, any_image, factory_image

SIGNS = ".1*"  # nobody, one answer, a collision
OTHER_INPUT = b"no UID\n"  # on standard input where no word asks for it
USAGE = rb"[^\n]*[Uu]sage[^\n]*\btray\b[^\n]*"
TWICE = rb"[^\n]*it is there twice[^\n]*"


def digits(uid):
    """A UID as it is printed: highest byte first."""
    return f"{uid:016X}"


def picture(uids):
    """The lines of --trace: each request, and below it, two columns further in, each slot with an answer.

    A request stands under its mask, a tag that is found under the mask and slot that it is alone in; the order of these
    groups is that of the lines.
    """
    lines = {}
    for number, mask in enumerate(masks_asked(uids), 1):
        slots = heard(uids, mask)
        before = f"slot {mask[-1]} collision, " if mask else ""
        ending = "".join(f"{group:X}" for group in reversed(mask)) or "-"
        signs = "".join(SIGNS[min(len(tags), 2)] for tags in slots)
        lines[mask] = f"{before}request {number} {frame_of(mask).hex().upper()} mask {ending} slots {signs}"
        lines.update({(*mask, slot): f"slot {slot} {digits(*tags)}" for slot, tags in enumerate(slots) if len(tags) == 1})
    return "".join(f"{'  ' * len(groups)}{lines[groups]}\n" for groups in sorted(lines))


def printed(uids, trace=False):
    """All that is printed for a tray that is not refused."""
    found = "".join(f"{digits(uid)}\n" for uid in in_order(uids))
    return f"{picture(uids) if trace else ''}{found}{len(masks_asked(uids))} requests\n".encode("ascii")


def text_of(uids, end="\n"):
    """A UID a line."""
    return "".join(digits(uid) + end for uid in uids).encode("ascii")


def words_of(uids):
    """A UID a word."""
    return [digits(uid) for uid in uids]


def finds(trial, what, words, uids, trace=False, **ways):
    """A tray whose tags are all found; nothing is written."""
    trial.expect(f"tray, {what}", ["tray", *words], output=printed(uids, trace), **{"feed": OTHER_INPUT, **ways})


def too_many(trial, what, words, **ways):
    """Number 6."""
    line = said("tray: refused 6: more than 256 tags")
    trial.expect(f"tray, {what}", ["tray", *words], REFUSED, b"", line, **{"feed": OTHER_INPUT, **ways})


def equal(trial, what, words, uid, **ways):
    """Number 7 names the UID that is the first to come again: words in the order given, standard input last."""
    line = said(f"tray: refused 7: two UIDs are equal; {digits(uid)} is there twice")
    trial.expect(f"tray, {what}", ["tray", *words], REFUSED, b"", line, **{"feed": OTHER_INPUT, **ways})


def every_way(trial, what, uids):
    """A tray as words, from standard input and from a file, with --trace and without."""
    trial.put("tray.txt", text_of(uids))
    finds(trial, f"{what}, words", words_of(uids) if uids else ["/dev/null"], uids)
    finds(trial, f"{what}, traced lines", ["--trace"], uids, True, feed=text_of(uids))
    finds(trial, f"{what}, -", ["-"], uids, feed=text_of(uids))
    finds(trial, f"{what}, traced file", ["tray.txt", "--trace"], uids, True)


def printed_example(trial):
    """Three tags, two of which collide in slot 0; written out here, but for the CRCs."""
    first, second = (frame_of(mask).hex().upper() for mask in ((), (0,)))
    picture_lines = (f"request 1 {first} mask - slots *1..............",
                     f"  slot 0 collision, request 2 {second} mask 0 slots ..............11",
                     "    slot 14 E002230401D6C8E0", "    slot 15 E002230401D6C8F0", "  slot 1 E002230401D6C8F1")
    found = ("E002230401D6C8E0", "E002230401D6C8F0", "E002230401D6C8F1", "2 requests")
    for trace, lines in ((["--trace"], (*picture_lines, *found)), ([], found)):
        words = ["tray", *trace, "E002230401D6C8F0", "E002230401D6C8E0", "E002230401D6C8F1"]
        trial.expect(f"tray, the example {trace}", words, output="".join(line + "\n" for line in lines).encode("ascii"))


def small_trays(trial):
    """No tag, one, some; both ways to write a mask's end; the trace at every place among the words."""
    for uids in ([], [0x0F], [0x10, 0x02], list(EDGES), [0x1AB, 0x7, 0xCB, 0x2AB], list(range(0x100, 0x140))):
        every_way(trial, f"{len(uids)} tags", uids)
    words = words_of(EDGES[:4])
    for place in range(len(words) + 1):
        finds(trial, f"--trace as word {place}", [*words[:place], "--trace", *words[place:]], EDGES[:4], True)
    finds(trial, "no words but --trace", ["--trace"], [], True, feed=b"")


def spelled(trial):
    """Every spelling of a UID that is one word; a file of such a name is none, but with ./ before it."""
    for uid in (UIDS[0], UIDS[4]):
        ways = [words[0] for words in spellings(uid) if len(words) == 1]
        for word in ways:
            finds(trial, f"word {word!r}", [word, "0" * 16], [int(uid, 16), 0])
            finds(trial, f"line {word!r}", ["-"], [int(uid, 16)], feed=word.encode("ascii"))
    trial.put(SESSION_UID, text_of([1, 2]))
    finds(trial, "a file of a UID's name", [SESSION_UID], [int(SESSION_UID, 16)])
    finds(trial, "a file of a UID's name behind ./", [f"./{SESSION_UID}"], [1, 2])
    trial.drop(SESSION_UID)


def images(trial):
    """Images of both sizes in use, whose AFI and DSFID are any; with words, lines and texts between them."""
    dice, names, uids = Dice(9700), [], []
    for place in range(6):
        image = any_image(dice, SIZES[place % 2])
        names.append(f"tag-{place}.img")
        uids.append(dice.roll())
        trial.put(names[-1], image[:1] + uids[-1].to_bytes(8, "little") + image[9:])
    finds(trial, "images", names, uids)
    finds(trial, "images, traced", ["--trace", *names], uids, True)
    trial.put("twin.img", factory_image(SIZES[1], digits(uids[0] ^ 1 << 60)))
    trial.put("tray.txt", text_of([5, 6]))
    words = [names[0], "0" * 16, "tray.txt", "-", "twin.img", names[1], "--trace"]
    finds(trial, "a mix", words, [uids[0], 0, 5, 6, 7, 8, uids[0] ^ 1 << 60, uids[1]], True, feed=text_of([7, 8]))
    equal(trial, "an image twice", [names[0], names[1], names[0]], uids[0])
    equal(trial, "a word, and its tag in an image", [digits(uids[2]), *names], uids[2])
    trial.put("same.img", factory_image(SIZES[0], digits(uids[3])))
    equal(trial, "two images of one UID", [*names, "same.img"], uids[3])
    finds(trial, "an image through a pipe", ["/dev/stdin"], [9], feed=factory_image(SIZES[1], digits(9)))


def depths(trial, tried=range(1, UID_GROUPS)):
    """Tags alike at every depth, and sixteen in one request."""
    for depth in tried:
        uids = clustered(Dice(9800 + depth), depth, 4)
        finds(trial, f"alike in {depth} groups", ["--trace", *words_of(uids)], uids, True)
        uids = full_slots(Dice(9900 + depth), depth)
        finds(trial, f"all slots after {depth} groups", ["--trace", "-"], uids, True, feed=text_of(uids))


def drawn_trays(trial, count):
    """Trays of all the kinds of the paired runs."""
    for number in range(count):
        uids = drawn_tray(9, number)
        finds(trial, f"drawn {number}", ["--trace", "-"], uids, True, feed=text_of(uids))


def most_tags(trial, shapes=(loose, branched, paired)):
    """256 tags are taken, as words, as lines and in a file; among them pairs that need the most requests."""
    for number, shape in enumerate(shapes):
        uids = mixed(Dice(9600 + number), shape(Dice(9600 + number), MOST_TAGS))
        trial.put("tray.txt", text_of(uids, "  \t\r\n"))
        finds(trial, f"256 tags, shape {number}, words", words_of(uids), uids)
        finds(trial, f"256 tags, shape {number}, file", ["tray.txt", "--trace"], uids, True)


def over_the_most(trial):
    """257 tags are refused with 6, also where two are equal. Nothing after them is looked at, so endless input ends."""
    uids = list(range(MOST_TAGS + 1))
    trial.put("257.txt", text_of(uids))
    trial.put("256.txt", text_of(uids[1:]))
    trial.put("wrong-after.txt", text_of(uids) + b"no UID\n")
    trial.put("equal.txt", text_of([0, *uids[:-1]]))
    too_many(trial, "257 words", words_of(uids))
    too_many(trial, "257 lines", ["-"], feed=text_of(uids))
    too_many(trial, "257 lines, the last without newline", [], feed=text_of(uids)[:-1])
    for name in ("257.txt", "wrong-after.txt", "equal.txt"):
        too_many(trial, name, [name])
        too_many(trial, f"{name}, --trace", ["--trace", name])
    too_many(trial, "256 and one", ["256.txt", "0" * 16])
    too_many(trial, "256 and one, then a file that is not there", ["256.txt", "0" * 16, "none.txt"])
    too_many(trial, "256 and one, then lines", ["256.txt", "0" * 16, "-"])
    too_many(trial, "256 lines, then one", ["-", "0" * 16], feed=text_of(uids[1:]))
    endless(trial)


def endless(trial):
    """The same UID again and again, and UIDs one higher each: the 257th ends it."""
    for what, feeder in (("one UID", "yes " + SESSION_UID), ("UIDs that rise", "seq -f %016.0f 1 inf")):
        command = ["sh", "-c", f'{feeder} 2>/dev/null | "$@"', "sh", *trial.command]
        too_many(trial, f"{what}, endless", ["-"], command=command)


def equal_uids(trial):
    """Equal UIDs, wherever they stand and however they are written."""
    one, two, three = UIDS[0], UIDS[3], UIDS[4]
    equal(trial, "two words", [one, one], int(one, 16))
    equal(trial, "two spellings", [one.lower(), two, ":".join(one[at:at + 2] for at in range(0, 16, 2))], int(one, 16))
    equal(trial, "A B C B A", [one, two, three, two, one], int(two, 16))
    equal(trial, "--trace", ["--trace", one, three, three], int(three, 16))
    trial.put("tray.txt", "\n".join((two, three)).encode("ascii"))
    lines = f"{three}\n{one}\n".encode("ascii")
    equal(trial, "a word, a file and lines", [one, "tray.txt", "-"], int(three, 16), feed=lines)
    equal(trial, "lines before a word and a file", ["-", one, "tray.txt"], int(three, 16), feed=lines)
    equal(trial, "a file twice", ["tray.txt", "tray.txt"], int(two, 16))
    equal(trial, "256 tags", words_of([*range(255), 254]), 254)


def twice(trial):
    """--trace and - stand once."""
    for words, word in ((["--trace", "--trace"], b"--trace"), (["--trace", SESSION_UID, "--trace"], b"--trace"),
                        (["-", "-"], b"'-'"), (["-", SESSION_UID, "-", "--trace"], b"'-'")):
        named = rb"[^\n]*" + word + TWICE
        trial.refuses(f"tray, {words}", ["tray", *words], lines_said(named, USAGE), feed=b"")


def unread_input(trial):
    """Standard input is read where a word asks for it, and nowhere else; it may be closed."""
    trial.put("lines.txt", text_of([1, 2]))
    with open(trial.path("lines.txt"), "rb") as source:
        finds(trial, "words, with lines on standard input", words_of([3, 4]), [3, 4], stdin=source)
        trial.hold("tray, bytes of standard input read", os.lseek(source.fileno(), 0, os.SEEK_CUR), 0)
    command = ["sh", "-c", 'exec "$@" <&-', "sh", *trial.command]
    finds(trial, "words, standard input closed", words_of([3, 4]), [3, 4], command=command)


def trays(trial, count):
    """All trays that are found, so many of them drawn, and all that are refused for their tags."""
    for part in (printed_example, small_trays, spelled, images, depths, most_tags, over_the_most, equal_uids, twice,
                 unread_input):
        part(trial)
    drawn_trays(trial, count)
