"""The tool's `tray` on files and lines that are wrong, unreadable, unusual or typed, and on output that cannot be
written.
"""

import contextlib
import errno
import os

from generator.dice import Dice
from generator.trays import mixed, paired
from tagmodel.search import MOST_TAGS
from tagmodel.sizes import SIZES

from .tool_factory import WRONG_UIDS
from .tool_files import READ_FAILS, folders
from .tool_interrupts import line_from
from .tool_runs import REFUSED, WRONG, lines_said, said, snapshot
from .tool_show import altered
from .tool_tags import SESSION_UID, STANDARD_INPUT, any_image, factory_image
from .tool_tray import digits, finds, printed, text_of, words_of
from .tool_words import LENGTHS, LONGEST_IMAGE, refusal_line

NO_UID = "a UID is 16 hex digits, as E002230401D6C8F0 or E0:02:23:04:01:D6:C8:F0"
AND_A_UID = f"; and {NO_UID}"
NOT_TAKEN = f"{NO_UID}; this line is not taken"
KEYBOARD = said("UIDs from the keyboard, one a line: Ctrl-D ends them")
ONE = SESSION_UID.encode("ascii")
TWO = b"0" * 15 + b"2"
TAG = int(SESSION_UID, 16)
# Spaces at a line's ends are passed over, and so are lines of nothing else: these are no wrong lines.
SPACED = ("", "  ", f" {SESSION_UID}", f"{SESSION_UID} ")
WRONG_LINES = (*(uid.encode("utf-8") for uid in WRONG_UIDS if uid not in SPACED), b"-", b"tray.txt", b"--trace",
               ONE + b"\x00", ONE + b"\x0B", b"\x0C" + ONE, ONE + b"\xA0", ONE + b"," + ONE, ONE + b" " + ONE,
               b"# " + ONE, ONE[:8] + b"\r" + ONE[8:], b"\xEF\xBB\xBF" + ONE, b"\xFF" * 300, b"E0" * 5000)
TEXTS = {  # by name, texts with the UID of 001 and 2
    "CR LF": ONE + b"\r\n" + TWO + b"\r\n",
    "no last newline": ONE + b"\n" + TWO,
    "no last newline, CR": ONE + b"\r\n" + TWO + b"\r",
    "blank lines": b"\n\n" + ONE + b"\n\r\n  \n\t\n \t\r\n" + TWO + b"\n\n\n",
    "spaces and tabs": b"  " + ONE + b"\t\n\t \t" + TWO + b" \t \r\n",
    "long lines": b" " * 9000 + ONE + b"\t" * 9000 + b"\n" + b"00" + b": " * 5000 + b"0" * 13 + b"2",
    "lines after spaces": b" " * 100000 + b"\n" + ONE + b"\n" + TWO + b"\n",
}
CTRL_D = b"\x04"  # at a line's start it ends what is typed, elsewhere it hands on what there is of the line
TYPED = {  # by where a line is wrong, what is typed, with the UID of 001 and 2; then the numbers of such lines
    "in no line": (b"\n\n" + ONE + b"\n  \n\t\n" + TWO + b" \n\n" + CTRL_D, ()),
    "in the middle": (ONE + b"\n\nE002230401D6C8G0\n" + TWO + b"\n" + CTRL_D, (3,)),
    "at the start": (b"no " + ONE + b"\n" + TWO + b"\n" + ONE + CTRL_D * 2, (1,)),
    "at the end": (ONE + b"\n" + TWO + b"\nno\n" + CTRL_D, (3,)),
    "at the end, without newline": (ONE + b"\n" + TWO + b"\nE00223" + CTRL_D * 2, (3,)),
    "at the end, of another form, without newline": (ONE + b"\n" + TWO + b"\nno" + CTRL_D * 2, (3,)),
    "in most lines": (ONE + b"x\n" + ONE + b" " + ONE + b"\n\n" + ONE + b"\n" + ONE[:8] + b"\n" + ONE[8:] + b"\n" +
                      TWO + b"\n\x00\n" + b"E0" * 900 + b"\n" + CTRL_D, (1, 2, 5, 6, 8, 9)),
}


def refuses_line(trial, what, words, name, number, **ways):
    """A line that is no UID is named by its number; nothing is printed."""
    trial.refuses(f"tray, {what}", ["tray", *words], said(f"{name}: line {number}: {NO_UID}"), **ways)


def one_text(trial, name):
    """A text of two UIDs as a file, from standard input and by its path."""
    text = TEXTS[name]
    trial.put("tray.txt", text)
    finds(trial, f"{name}, file", ["tray.txt"], [TAG, 2])
    finds(trial, f"{name}, standard input", ["-", "--trace"], [TAG, 2], True, feed=text)
    finds(trial, f"{name}, /dev/stdin", ["/dev/stdin"], [TAG, 2], feed=text)


def text_of_length(trial, count, length):
    """So many UIDs with colons, 24 bytes a line, and empty lines up to this length."""
    uids = list(range(0x1000, 0x1000 + count))
    text = b"".join(b":".join(b"%02X" % byte for byte in uid.to_bytes(8, "big")) + b"\n" for uid in uids)
    trial.put("tray.txt", text.ljust(length, b"\n"))
    finds(trial, f"a text of {length:,} bytes", ["tray.txt"], uids)


def texts(trial):
    """Texts as editors leave them; 88 lines that have the length of an image; empty ones."""
    for name in TEXTS:
        one_text(trial, name)
    for count, length in ((88, 88 * 24), (256, 256 * 24), (256, LONGEST_IMAGE), (256, 20000)):
        text_of_length(trial, count, length)
    for name in ("/dev/null", "tray.txt"):
        trial.put("tray.txt", b"")
        finds(trial, f"{name} that is empty", [name, "--trace"], [], True)
        finds(trial, f"{name} that is empty, and a word", [SESSION_UID, name], [TAG])


def wrong_line(trial, line):
    """A line that is no UID, after others: lines are counted from 1, empty ones too."""
    refuses_line(trial, f"line {line[:20]!r}", ["--trace"], STANDARD_INPUT, 3, feed=b"\n" + ONE + b"\n" + line)
    if b"\x00" not in line:
        trial.put("tray.txt", b"\r\n \n" + ONE + b"\n" + line + b"\n" + ONE + b"\n")
        refuses_line(trial, f"line {line[:20]!r}, file", [SESSION_UID, "./tray.txt"], "./tray.txt", 4)


def wrong_lines(trial):
    """Every kind of line that is no UID; it is told before equal UIDs are."""
    for line in WRONG_LINES:
        wrong_line(trial, line)
    trial.put("tray.txt", text_of([1, 2]))
    refuses_line(trial, "after a file", ["tray.txt", "-"], STANDARD_INPUT, 1, feed=b"3\n")
    refuses_line(trial, "after equal UIDs", ["-"], STANDARD_INPUT, 3, feed=(ONE + b"\n") * 2 + b"3\n")
    refuses_line(trial, "an image on standard input", ["-"], STANDARD_INPUT, 1, feed=factory_image(SIZES[0]))


def wrong_image(trial, what, image):
    """What is an image, for it has a 00h byte, and is refused as one."""
    trial.put("it", image)
    for words in (["it"], [SESSION_UID, "it", "--trace"], ["it", "it"]):
        trial.expect(f"tray, {what}, {words}", ["tray", *words], REFUSED, b"", refusal_line("it", image))


def images_or_texts(trial):
    """A 00h byte among the first 8,257 makes an image, and only that."""
    for what, image in (("00h as byte 8,257", b"\n" * LONGEST_IMAGE + b"\x00"), ("a text with 00h", ONE + b"\n\x00\n"),
                        ("257 lines, then 00h", text_of(range(MOST_TAGS + 1)) + b"\x00"),
                        ("lines before an image", text_of([1]) + factory_image(SIZES[0])),
                        *((f"{length} bytes", bytes(length)) for length in LENGTHS if length),
                        ("a wrong size mark", altered(any_image(Dice(9650), SIZES[0]), {0: 2})),
                        ("a reserved byte", altered(any_image(Dice(9651), SIZES[1]), {63: 1}))):
        wrong_image(trial, what, image)
    line = refusal_line("/dev/zero", bytes(LONGEST_IMAGE + 1))
    trial.expect("tray /dev/zero", ["tray", "/dev/zero"], REFUSED, b"", line)
    trial.put("it", b"\n" * (LONGEST_IMAGE + 1) + b"\x00")
    refuses_line(trial, "00h as byte 8,258", ["it"], "it", LONGEST_IMAGE + 2)
    trial.put("it", b"\x01" * 2112)
    refuses_line(trial, "2,112 bytes without 00h", ["it"], "it", 1)
    trial.drop("it")


def unreadable_word(trial, name, number):
    """A word that is no UID, and no file that can be read."""
    line = said(f"{name}: {os.strerror(number)}{AND_A_UID}")
    trial.refuses(f"tray, {name[:20]!r}", ["tray", name], line, feed=b"")


def unreadable(trial):
    """Such words, also after others, whose tags are not printed then."""
    folders(trial)
    for name, number in (("none.txt", errno.ENOENT), ("folder", errno.EISDIR), (".", errno.EISDIR),
                         ("tag.img/x", errno.ENOTDIR), ("loop", errno.ELOOP), ("n" * 256, errno.ENAMETOOLONG),
                         ("nowhere", errno.ENOENT), (READ_FAILS, errno.EIO),
                         *((uid, errno.ENOENT) for uid in WRONG_UIDS)):
        unreadable_word(trial, name, number)
    for words in ([SESSION_UID, "--trace", "none.txt"], ["tag.img", "none.txt", SESSION_UID]):
        line = said(f"none.txt: {os.strerror(errno.ENOENT)}{AND_A_UID}")
        trial.refuses(f"tray, {words}", ["tray", *words], line, feed=b"")


def unreadable_input(trial):
    """Standard input that is closed, or a folder."""
    folders(trial)
    for source, errors in (("<&-", lines_said(rb"standard input: [^\n]+")),
                           ("<folder", said(f"{STANDARD_INPUT}: {os.strerror(errno.EISDIR)}"))):
        command = ["sh", "-c", f'exec "$@" {source}', "sh", *trial.command]
        for words in ([], ["-"], [SESSION_UID, "-", "--trace"]):
            trial.refuses(f"tray, {source}, {words}", ["tray", *words], errors, command=command)


def closed_to_others(trial):
    """A file that may not be read by this user."""
    ways = trial.plain_user()
    if ways is not None:
        trial.put("closed.txt", ONE, 0o000)
        line = said(f"closed.txt: {os.strerror(errno.EACCES)}{AND_A_UID}")
        trial.refuses("tray, a closed file", ["tray", "closed.txt"], line, **ways)
        trial.drop("closed.txt")


@contextlib.contextmanager
def terminal_with(text):
    """A terminal, at which this was typed, and its keyboard."""
    keyboard, terminal = os.openpty()
    try:
        os.write(keyboard, text)
        yield terminal, keyboard
    finally:
        os.close(terminal)
        os.close(keyboard)


def from_a_terminal(trial):
    """Where lines come from a keyboard it is said first how they end; where none are asked for, nothing is said."""
    for words, uids, errors in (([], [TAG, 2], KEYBOARD), (["-", digits(7)], [7, TAG, 2], KEYBOARD),
                                ([digits(7)], [7], b"")):
        with terminal_with(TYPED["in no line"][0]) as (terminal, _):
            finds(trial, f"from a terminal, {words}", words, uids, errors=errors, stdin=terminal)


def not_taken(name, *numbers):
    """The lines for those that are no UID, from a keyboard."""
    return said(*(f"{name}: line {number}: {NOT_TAKEN}" for number in numbers))


def typed(trial, where):
    """A line from a keyboard that is no UID is named and not taken, and the others are: standard input, and a file."""
    text, numbers = TYPED[where]
    with terminal_with(text) as (terminal, _):
        finds(trial, f"typed, wrong {where}", ["-", "--trace", digits(7)], [7, TAG, 2], True, stdin=terminal,
              errors=KEYBOARD + not_taken(STANDARD_INPUT, *numbers))
    with terminal_with(text) as (terminal, _):
        path = os.ttyname(terminal)
        finds(trial, f"typed, wrong {where}, a file", [digits(7), path], [7, TAG, 2],
              errors=KEYBOARD + not_taken(path, *numbers))


def typed_and_refused(trial):
    """The status is that of the lines that are taken: without any there is no tag, and equal ones are refused."""
    with terminal_with(b"no\n" + CTRL_D) as (terminal, _):
        finds(trial, "typed, no UID", [], [], stdin=terminal, errors=KEYBOARD + not_taken(STANDARD_INPUT, 1))
    with terminal_with(ONE + b"\nno\n" + ONE + b"\n" + CTRL_D) as (terminal, _):
        errors = KEYBOARD + not_taken(STANDARD_INPUT, 2) + \
            said(f"tray: refused 7: two UIDs are equal; {SESSION_UID} is there twice")
        trial.expect("tray, typed, equal UIDs", ["tray"], REFUSED, b"", errors, stdin=terminal)


def typed_at_once(trial):
    """A line that is no UID is named before the next is typed."""
    for is_file in (False, True):
        with terminal_with(b"") as (terminal, keyboard):
            name = os.ttyname(terminal) if is_file else STANDARD_INPUT
            line_by_line(trial, name, keyboard, ["tray", name] if is_file else ["tray"], terminal)


def line_by_line(trial, name, keyboard, words, terminal):
    """Types line after line, each when what is said about the one before it has come."""
    what, before = f"tray, typed line by line, {words}", snapshot(trial.folder)
    with trial.start(words, bufsize=0, stdin=terminal) as program:
        for text, errors in ((b"", KEYBOARD), (b"no\n", not_taken(name, 1)), (ONE + b"\nE002\n", not_taken(name, 3))):
            os.write(keyboard, text)
            trial.hold(f"{what}: said of {text!r}", line_from(program.stderr, trial.limit), errors)
        os.write(keyboard, TWO + b"\n" + CTRL_D)
        trial.hold_end(what, trial.end(program), output=printed([TAG, 2]))
    trial.hold_folder(what, before)


def leaves_input(trial, words, status, errors):
    """A run that ends before standard input is read: from a pipe, whose bytes are still there, and from a terminal."""
    source, sink = os.pipe()
    os.write(sink, ONE + b"\n")
    os.close(sink)
    trial.expect(f"tray, {words}, a pipe", ["tray", *words], status, b"", errors, stdin=source)
    trial.hold(f"tray, {words}: left in the pipe", os.read(source, len(ONE) + 1), ONE + b"\n")
    os.close(source)
    with terminal_with(ONE + b"\n" + CTRL_D) as (terminal, _):
        trial.expect(f"tray, {words}, a terminal", ["tray", *words], status, b"", errors, stdin=terminal)


def before_input(trial):
    """Standard input is taken last, wherever it stands: what is wrong with another word is said before it is read."""
    broken, too_many = bytes(63), said("tray: refused 6: more than 256 tags")
    trial.put("wrong.txt", ONE + b"\nno\n")
    trial.put("broken.img", broken)
    trial.put("257.txt", text_of(range(MOST_TAGS + 1)))
    for word, status, errors in (("none.txt", WRONG, said(f"none.txt: {os.strerror(errno.ENOENT)}{AND_A_UID}")),
                                 ("wrong.txt", WRONG, said(f"wrong.txt: line 2: {NO_UID}")),
                                 ("broken.img", REFUSED, refusal_line("broken.img", broken)),
                                 ("257.txt", REFUSED, too_many)):
        for words in (["-", word], [word, "-"], ["--trace", digits(7), "-", digits(8), word]):
            leaves_input(trial, words, status, errors)


def unwritable(trial):
    """Output that is closed or full: status 2, and why."""
    for place, errors in ((">&-", lines_said(rb"standard output: not written: [^\n]+")),
                          (">/dev/full", said(f"standard output: not written: {os.strerror(errno.ENOSPC)}"))):
        command = ["sh", "-c", f'exec "$@" {place}', "sh", *trial.command]
        for words in ([SESSION_UID], ["--trace", SESSION_UID], ["/dev/null"]):
            trial.refuses(f"tray, {place}, {words}", ["tray", *words], errors, command=command)


def closed_errors(trial):
    """Standard error that is closed: the same status, and nothing of it elsewhere."""
    command = ["sh", "-c", 'exec "$@" 2>&-', "sh", *trial.command]
    finds(trial, "2>&-", [SESSION_UID], [TAG], command=command)
    trial.expect("tray, 2>&-, refused", ["tray", SESSION_UID, SESSION_UID], REFUSED, command=command)
    trial.expect("tray, 2>&-, wrong", ["tray", "none.txt"], WRONG, command=command)


def no_reader(trial):
    """More than a pipe holds, the picture of the most requests, as `| head` reads it."""
    uids = mixed(Dice(9602), paired(Dice(9602), MOST_TAGS))
    command = ["sh", "-c", '{ "$@" 2>said; echo $? >status; } | head -n 1', "sh", *trial.command]
    first = printed(uids, True).split(b"\n")[0] + b"\n"
    trial.expect("tray | head -n 1", ["tray", "--trace", *words_of(uids)], output=first, written={
        "said": said(f"standard output: not written: {os.strerror(errno.EPIPE)}"), "status": b"%d\n" % WRONG},
        command=command)
    trial.drop("said", "status")


def tray_files(trial):
    """All of them."""
    for part in (texts, wrong_lines, images_or_texts, unreadable, unreadable_input, closed_to_others, before_input,
                 from_a_terminal, typed_and_refused, typed_at_once, unwritable, closed_errors, no_reader):
        part(trial)
    for where in TYPED:
        typed(trial, where)
