"""What the tool must refuse: images that are none, and wrong words."""

import re

from generator import scenes
from generator.dice import Dice
from tagmodel.sizes import SIZES, size_of_image

from .tool_faults import fault_line, fault_of
from .tool_runs import REFUSED, SOME_LINES, said, wrong_words
from .tool_tags import REPLACED, SESSION_UID, any_image, factory_image, refusal

LENGTHS = (0, 1, 63, 64, 2048, 2111, 2113, 8192, 8255, 8257, 20000, 300000)
LONGEST_IMAGE = 8256
NO_LENGTH = "4: image is not 2,112 or 8,256 bytes"  # 01's number and its words
STREAM = b"ON\n022000\n"
COMMANDS = ("factory", "show", "header", "run", "tray")
UNKNOWN = ("Show", "shows", "sho", "headers", "head", "Header", "trays", "Tray", "", "FACTORY", "--out", "-x",
           "--version", "-", "show ", "16", "tag.img")
WRONG_WORDS = {  # the words after each command, with the one that has to be named
    "factory": (([], ""), (["16"], ""), (["16", SESSION_UID], ""), (["tag.img"], ""),
                (["-x", "16", SESSION_UID, "tag.img"], "-x"), (["16", SESSION_UID, "--out", "tag.img"], "--out"),
                (["16", "--uid", SESSION_UID, "tag.img"], "--uid"), (["16", SESSION_UID, "-tag.img"], "-tag.img"),
                (["-16", SESSION_UID, "tag.img"], "-16"), (["16", "-" + SESSION_UID, "tag.img"], "-" + SESSION_UID),
                (["16", SESSION_UID, "-"], "'-'"), (["16", *"E0 02 23 04 01 D6 C8 F0".split(), "-"], "'-'")),
    "show": (([], ""), (["tag.img", "out.img"], "'out.img'"), (["tag.img", "session.txt", "tag.img"], ""),
             (["-x"], "-x"), (["-"], "'-'"),
             (["tag.img", "--all"], "--all"), (["--out", "out.img", "tag.img"], "--out"), (["-tag.img"], "-tag.img")),
    "header": (([], ""), (["tag.img", "out.img"], "'out.img'"), (["tag.img", "tag.img"], "'tag.img'"), (["-x"], "-x"),
               (["-"], "'-'"), (["tag.img", "-"], "'-'"), (["tag.img", "--all"], "--all"), (["--"], "--"),
               (["--out", "out.img", "tag.img"], "--out"), (["-tag.img"], "-tag.img")),
    "run": (([], ""), (["--out", "out.img"], ""), (["tag.img", "session.txt", "tag.img"], ""),
            (["tag.img", "-", "-"], ""), (["tag.img", "session.txt", "-", "--out", "out.img"], ""),
            (["tag.img", "--out"], "--out"), (["--out"], "--out"), (["tag.img", "session.txt", "--out"], "--out"),
            (["tag.img", "--out", "out.img", "--out", "out.img"], "--out"),
            (["--out", "out.img", "tag.img", "--out", "other.img"], "--out"),
            (["tag.img", "--out=out.img"], "--out=out.img"), (["tag.img", "-x"], "-x"),
            (["-o", "out.img", "tag.img"], "-o"), (["--in", "tag.img"], "--in"),
            (["tag.img", "-session.txt"], "-session.txt"), (["tag.img", "--"], "--"),
            (["-"], "'-'"), (["-", "session.txt"], "'-'"), (["-", "--out", "out.img"], "'-'"),
            (["tag.img", "--out", "-"], "-"), (["tag.img", "session.txt", "--out", "-"], "-"),
            (["--Out", "out.img", "tag.img"], "--Out"), (["tag.img", "---out", "out.img"], "---out")),
    "tray": ((["-x"], "-x"), ([SESSION_UID, "--all"], "--all"), (["--Trace", SESSION_UID], "--Trace"),
             (["--trace=1", SESSION_UID], "--trace=1"), (["-t", SESSION_UID], "-t"), (["--"], "--"),
             (["-" + SESSION_UID], "-" + SESSION_UID), (["-tag.img"], "-tag.img"), (["---trace"], "---trace"),
             (["--out", "out.img", "tag.img"], "--out")),
}


def refusal_line(path, image):
    """The number and its words: 4 with the image's length, 5a to 5e with the place and what stands there."""
    if size_of_image(len(image)):
        return said(f"{path}: refused {fault_line(image, fault_of(image))}")
    length = f"over {LONGEST_IMAGE:,}" if len(image) > LONGEST_IMAGE else f"{len(image):,}"
    return said(f"{path}: refused {NO_LENGTH}; it has {length} bytes")


def refused_image(trial, what, image):
    """An image that loading refuses, by `show` and by `run`: number and words, and every file as it was."""
    trial.put("broken.img", image)
    trial.put("out.img", REPLACED[0])
    for words in (["show", "broken.img"], ["run", "broken.img"], ["run", "broken.img", "--out", "out.img"],
                  ["run", "--out", "new.img", "broken.img", "session.txt"]):
        trial.expect(f"{what}, {' '.join(words)}", words, REFUSED, b"", refusal_line("broken.img", image), feed=STREAM)


def refused_images(trial, step=1):
    """Every broken header of both sizes, or one in so many of them, and lengths that no image has."""
    dice = Dice(8000)
    trial.put("session.txt", STREAM)
    for size in SIZES:
        for number, broken in list(enumerate(scenes.HEADER_BREAKS))[::step]:
            image = bytearray(any_image(dice, size))
            broken(image)
            if refusal(image):  # an end over that of 16 Kbit may be sound in 64
                refused_image(trial, f"{size.blocks} blocks, broken header {number}", bytes(image))
    endless_image(trial)
    for length in LENGTHS:
        refused_image(trial, f"image of {length} bytes", any_image(dice, SIZES[1]).ljust(length, b"\x00")[:length])


def endless_image(trial):
    """A device without an end is too long as well; by `show` alone, which writes no file."""
    line = refusal_line("/dev/zero", bytes(LONGEST_IMAGE + 1))
    trial.expect("show /dev/zero", ["show", "/dev/zero"], REFUSED, b"", line)


def wrong_word_lists(trial):
    """Every kind of wrong word of each command: nothing on standard output, no file is touched."""
    trial.drop("new.img")
    trial.put("tag.img", factory_image(SIZES[0]))
    trial.put("session.txt", b"ON\n")
    trial.put("out.img", REPLACED[0])
    trial.put("-tag.img", factory_image(SIZES[0]))
    for command, lists in WRONG_WORDS.items():
        for words, named in lists:
            trial.refuses(f"words {[command, *words]}", [command, *words], wrong_words(command, named), feed=b"ON\n")
    trial.drop("-tag.img")
    for word in UNKNOWN:
        wrong_command(trial, word)
    no_words(trial)


def wrong_command(trial, word):
    """A command that is none is named."""
    found = trial.refuses(f"command {word!r}", [word, "tag.img"], SOME_LINES)
    trial.hold(f"command {word!r} is named", word.encode("ascii") in found.errors.split(b"\n")[0], True)


def named_commands(text):
    """The commands that a text names."""
    return [name for name in COMMANDS if name.encode("ascii") in text]


def no_words(trial):
    """Without words the commands are listed, on standard error."""
    found = trial.refuses("no words", [], re.compile(rb"(?s).+\n"))
    trial.hold("no words: commands listed", named_commands(found.errors), list(COMMANDS))
