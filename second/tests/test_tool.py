"""The trials of the tool bin/uistermo, on a model of it that is sound and on ones that are not."""

import contextlib
import errno
import io
import os
import signal
import sys
import tempfile
import unittest

from generator import scenes
from generator.dice import Dice
from outside import (tool_factory, tool_faults, tool_files, tool_header, tool_interrupts, tool_limits, tool_meanwhile,
                     tool_pages, tool_sessions, tool_show, tool_tags, tool_tray, tool_tray_files, tool_typed,
                     tool_words)
from outside.bad_input import Settings
from outside.tool_runs import KEPT, Trial, changes, said, snapshot, wrong_words
from tagmodel import rights
from tagmodel.record import factory_record

from .support import FOLDER, LARGE, SMALL, UID, framed

PYTHON = [sys.executable, "-S"]  # without the packages that a machine may have beside the library it starts sooner
MODEL = [*PYTHON, os.path.join(FOLDER, "tests", "model_tool.py")]
SESSIONS = (None, 0, 1, 2, 3)
SESSION = os.path.join(os.path.dirname(FOLDER), "examples", "session.txt")
README = """# A page

    $ false

## At the bench

A factory tag, and a session on it:

    $ bin/uistermo factory 16 E002230401D6C8F0 tag.img
    $ printf 'ON\\n260100\\nno\\n' | bin/uistermo run tag.img 2>&1 | cut -d ';' -f 1
    1 -
    2 0000F0C8D601042302E064A3
    3 ?
    uistermo: standard input: lines of no form: 1 of 3, the first is line 3
    not printed, were it not here
and so on

    no command stands before this

    $ bin/uistermo show none.img
    uistermo: none.img: No such file or directory

## After it

    $ false
"""


def wrong_tool(name):
    """The command of a tool with something wrong."""
    return [*PYTHON, os.path.join(FOLDER, "tests", "wrong_tools.py"), name]


def faults(command, *trials, limit=60):
    """The faults of some trials, each a function of a Trial; and what was printed."""
    printed = io.StringIO()
    with tempfile.TemporaryDirectory() as folder, contextlib.redirect_stdout(printed):
        os.chmod(folder, 0o755)
        trial = Trial(command, folder, limit=limit)
        for run in trials:
            run(trial)
    return trial.faults, printed.getvalue()


def broken(trial):
    """Byte 51 of an image is not 0: number 5e."""
    image = tool_show.altered(tool_tags.any_image(Dice(1), SMALL), {51: 1})
    tool_words.refused_image(trial, "broken", image)


def too_long(trial):
    """Number 4."""
    tool_words.refused_image(trial, "long", bytes(20000))


def typed(*names):
    """A trial of some headers typed wrong, by what was mistyped."""
    def run(trial):
        for entry in tool_typed.TYPED:
            if entry[0] in names:
                tool_header.typed_header(trial, *entry)
    return run


def listed(trial):
    """A listing that is written out, and one with a reserved byte at fault, which has a row of its own."""
    image = tool_header.typed_image(64, tool_typed.LISTED_RIGHT[0])
    tool_header.list_one(trial, "by hand", image, tool_typed.LISTED_RIGHT[1].encode("ascii"))
    tool_header.list_one(trial, "byte 55", tool_show.altered(tool_tags.any_image(Dice(7), SMALL), {55: 1}))


def factory(trial):
    """One UID in three spellings, over no file, an image and an empty file."""
    uid = tool_factory.UIDS[4]
    for size, way, there in ((SMALL, 0, None), (LARGE, 15, tool_tags.REPLACED[0]), (LARGE, 17, b"")):
        tool_factory.one_factory(trial, size, uid, tool_factory.spellings(uid)[way], there)
    trial.refuses("a word too many", ["factory", "16", uid, "a.img", "b.img"], wrong_words("factory", "'b.img'"))
    trial.refuses("a UID", ["factory", "16", "E0-02", "new.img"], wrong_words("factory", "E0-02"))


def show(trial):
    """Two images, one of them with a password and a protection of its own for each area."""
    registers = {11: 31, 12: 5, 13: 12, 14: 10, 15: 13, 16: 15, 17: 254, 18: 2}
    tool_show.show_one(trial, "three borders", tool_show.altered(tool_tags.any_image(Dice(5), LARGE), registers))
    tool_show.show_one(trial, "factory", tool_tags.factory_image(SMALL))


def one_session(trial):
    """A session of three lines, written back."""
    tool_sessions.one_session(trial, 1, b"ON\n0226\n022100A1A2A3A4\n", tool_tags.factory_image(SMALL))


def words(trial):
    """A wrong word, a command that is none, and no words."""
    trial.put("tag.img", tool_tags.factory_image(SMALL))
    trial.refuses("an option", ["run", "tag.img", "--on"], wrong_words("run", "--on"))
    for command in ("show", "header"):
        trial.refuses("a word too many", [command, "tag.img", "b.img"], wrong_words(command, "'b.img'"))
    for command, rest in (("factory", ["16", tool_tags.SESSION_UID]), ("show", []), ("header", []),
                          ("run", ["tag.img", "--out"])):
        trial.refuses("no file's name", [command, *rest, "-"], wrong_words(command, "-"))
    tool_words.wrong_command(trial, "shows")
    tool_words.no_words(trial)


def link(trial):
    """A link into a folder."""
    tool_files.folders(trial)
    tool_files.one_link(trial, tool_files.Case(2), "near", "folder/real.img")


def not_a_place(trial):
    """A folder and a read-only file as files to write."""
    tool_files.folders(trial)
    tool_files.unwritable_place(trial, "folder")
    tool_files.unwritable_place(trial, "nowhere", errno.ENOENT)
    trial.put("only.img", tool_tags.factory_image(SMALL), 0o444)
    tool_files.unwritable_place(trial, "only.img")


def small_files(trial):
    """A file that can be begun and not ended."""
    tool_limits.file_size_limits(trial, (1000,))


def interrupt(trial, number=signal.SIGINT):
    """One signal of the four."""
    image = tool_tags.factory_image(SMALL)
    trial.put("tag.img", image)
    tool_interrupts.interrupted(trial, number, image, ["run", "tag.img"], b"02")


def quit_signal(trial):
    """Another of them."""
    interrupt(trial, signal.SIGQUIT)


def before_a_line(trial):
    """A signal while a pipe is waited for."""
    trial.put("tag.img", tool_tags.factory_image(SMALL))
    tool_interrupts.interrupted_before_a_line(trial, signal.SIGINT)


def ignored(trial):
    """A signal that is ignored."""
    tool_interrupts.ignored_signals(trial, signal.SIGHUP, tool_tags.factory_image(SMALL))


def end_of_input(trial):
    """Two signals at the end of a session."""
    for wait in (0, 0.01):
        tool_interrupts.at_the_end(trial, signal.SIGTERM, tool_tags.factory_image(SMALL), wait)


def no_forms(trial):
    """Two sessions with lines of no form."""
    tool_sessions.no_forms(trial, tool_sessions.NO_FORMS[5:9:3])


def changed(trial):
    """An image that another one replaces meanwhile."""
    tool_meanwhile.start_again(trial)
    tool_meanwhile.with_a_change(trial, "a new image", ["run", "tag.img"],
                                 lambda: trial.put("tag.img", tool_tags.any_image(Dice(1), SMALL)),
                                 said(f"tag.img: {tool_meanwhile.CHANGED}"))


def other_files(trial):
    """A note, which stays."""
    tool_files.other_files(trial, ("a note",))


def no_reader(trial):
    """Answers that nobody takes."""
    trial.put("tag.img", tool_tags.factory_image(SMALL))
    tool_files.no_reader(trial)


def line_by_line(trial):
    """Answers that come before the next line is given."""
    image = tool_tags.factory_image(SMALL)
    trial.put("tag.img", image)
    tool_interrupts.to_the_end(trial, image, b"ON\n0226\n", ["run", "tag.img", "--out", "new.img"], "new.img")


def collisions(trial):
    """Words of which two pairs collide, one of them twice; the second request has a mask of two digits."""
    uids = [0x2AB, 0x1CD, 0x1AB, 0x7, 0xCB, 0x2CD]
    tool_tray.finds(trial, "collisions", [*tool_tray.words_of(uids), "--trace"], uids, True)


def equal_uids(trial):
    """Two pairs of equal UIDs."""
    tool_tray.equal(trial, "A B C B A", tool_tray.words_of([1, 2, 3, 2, 1]), 2)


def many_tags(trial):
    """257 tags, and then what is not to be looked at."""
    trial.put("tray.txt", tool_tray.text_of(range(257)) + b"no UID\n")
    tool_tray.too_many(trial, "257 tags", ["tray.txt", "none.txt"])


def crlf(trial):
    """Lines that end in CR LF."""
    tool_tray_files.one_text(trial, "CR LF")


def wrong_line(trial):
    """A line that is no UID, after empty ones."""
    tool_tray_files.wrong_line(trial, b"no UID")


def mistyped(trial):
    """Lines from a keyboard, some of which are no UID."""
    for where in ("in the middle", "at the end, without newline", "in most lines"):
        tool_tray_files.typed(trial, where)


def text_like_an_image(trial):
    """88 lines."""
    tool_tray_files.text_of_length(trial, 88, 2112)


class Model(unittest.TestCase):
    """The model of the tool is sound, so no trial finds a fault."""

    def no_fault(self, *trials):
        self.assertEqual(faults(MODEL, *trials), (0, ""))

    def test_commands(self):
        self.no_fault(factory, show, one_session, tool_sessions.printed_session, no_forms,
                      lambda trial: tool_sessions.sessions(trial, 1),
                      lambda trial: tool_sessions.streams(trial, 1, 300))

    def test_refusals(self):
        self.no_fault(broken, too_long, words)

    def test_headers(self):
        self.no_fault(listed, tool_header.unwritable, tool_header.one_stream,
                      typed("16 for the mark of 16 Kbit", "the digits of 09h", "the E of the larger", "two pairs",
                            "one value is left", "the last end left at 00h", "lock byte and a reserved byte"))

    def test_files(self):
        self.no_fault(not_a_place, lambda trial: tool_files.unreadable_file(trial, "none/tag.img", errno.ENOENT), link,
                      tool_files.pipes, small_files, other_files, no_reader, tool_meanwhile.meanwhile)

    def test_files_as_the_system_lets_them_be(self):
        """A line says what is not tried, where the user may make no devices or another user cannot reach the tool."""
        self.assertEqual(faults(MODEL, tool_files.devices, tool_files.to_streams, tool_limits.other_user)[0], 0)

    def test_interrupts(self):
        self.no_fault(interrupt, line_by_line, quit_signal, before_a_line, ignored, end_of_input)

    def test_pages(self):
        self.no_fault(lambda trial: tool_pages.help_pages(trial, SESSION))

    def test_trays(self):
        self.no_fault(tool_tray.printed_example, tool_tray.images, tool_tray.twice, tool_tray.unread_input, collisions,
                      equal_uids, many_tags, tool_tray.endless, lambda trial: tool_tray.depths(trial, (15,)))

    def test_trays_of_files(self):
        self.no_fault(crlf, wrong_line, text_like_an_image, tool_tray_files.unwritable,
                      lambda trial: tool_tray_files.unreadable_word(trial, "E0-02", errno.ENOENT),
                      lambda trial: tool_tray_files.wrong_image(trial, "one byte", b"\x00"))

    def test_trays_that_are_typed(self):
        self.no_fault(mistyped, tool_tray_files.from_a_terminal, tool_tray_files.typed_and_refused,
                      tool_tray_files.typed_at_once, tool_tray_files.before_input)

    def test_output_that_cannot_be_written(self):
        with tempfile.TemporaryDirectory() as folder, contextlib.redirect_stdout(io.StringIO()) as printed:
            trial = Trial(MODEL, tempfile.mkdtemp(dir=folder))
            trial.put("lines", b"ON\n022100A1A2A3A4\n")
            runs = tool_sessions.BadSessions(trial, folder, Settings(limit=20))
            runs.readable({"a file": trial.path("lines")})
            runs.command = runs.back
            runs.unwritable(trial.path("lines"), trial.path("lines"))
        self.assertEqual((runs.faults, printed.getvalue()), ([], ""))


class Wrong(unittest.TestCase):
    """Tools that are not sound, and what the trials find."""

    def found(self, name, *trials, limit=60):
        count, printed = faults(wrong_tool(name), *trials, limit=limit)
        self.assertGreater(count, 0)
        return printed

    def test_a_tool_that_does_nothing(self):
        for run in (factory, show, listed, typed("two pairs"), tool_header.other_lengths, tool_header.unwritable,
                    tool_header.one_stream, one_session, broken, too_long, words, link, not_a_place, small_files,
                    interrupt, line_by_line, ignored, no_reader, tool_files.pipes, other_files, tool_files.to_streams,
                    tool_meanwhile.no_image_any_more, no_forms, tool_tray.printed_example, collisions, equal_uids,
                    many_tags, crlf, wrong_line, text_like_an_image, mistyped, tool_tray.twice, tool_tray.equal_uids,
                    tool_tray_files.from_a_terminal, tool_tray_files.typed_and_refused,
                    tool_tray_files.typed_at_once, tool_tray_files.before_input, tool_tray_files.unwritable,
                    lambda trial: tool_pages.help_pages(trial, SESSION)):
            self.assertGreater(faults(["true"], run)[0], 0, run)

    def test_devices_that_nothing_is_written_to(self):
        count, printed = faults(["true"], tool_files.devices)
        self.assertTrue(count or "devices are not tried" in printed)

    def test_answers(self):
        self.assertIn("standard output: expected 22 bytes, '1 -\n2 0078F0", self.found("one-digit", one_session))
        self.assertIn("answer to b'ON'", self.found("late-answers", line_by_line, limit=1))
        self.assertIn("it has over 8,256 bytes", self.found("lengths", too_long))
        self.assertIn("the first is line 3", self.found("line-numbers", no_forms))
        self.assertIn("no image is written", self.found("one-line", no_reader))
        self.assertIn("file status", self.found("closed-pipe", no_reader))
        self.assertIn("no file's name", self.found("dash", words))

    def test_faults(self):
        self.assertIn("refused 5e: reserved byte, at place 51", self.found("fault-names", broken))
        self.assertIn("refused 5e: reserved byte, at place 51", self.found("places-from-1", broken))
        self.assertIn("refused 5b: lock byte", self.found("highest-fault", typed("lock byte and a reserved byte")))
        self.assertIn("at place 15: ENDA2", self.found("earlier-end", typed("two pairs")))
        self.assertIn("ENDA2 is 0Bh (11)", self.found("ends-in-hex", typed("two pairs")))

    def test_what_is_listed(self):
        self.assertIn("passwords shown: expected [], found [0, 1, 2, 3]", self.found("passwords-listed", listed))
        self.assertIn("51 to 54", self.found("no-row-of-its-own", listed))
        self.assertIn("header, byte 55: standard output", self.found("no-row-of-its-own", listed))

    def test_what_is_shown(self):
        self.assertIn("password 2", self.found("another-area", show))
        self.assertIn("(LOCK_CFG)", self.found("lock-names", show))
        self.assertIn("passwords shown: expected [], found [0, 1, 2, 3]", self.found("passwords", show))

    def test_trays(self):
        self.assertIn("0000000000000007\n00000000000000CB\n", self.found("uids-as-numbers", collisions))
        self.assertIn("0700000000000000", self.found("uids-lowest-first", collisions))
        self.assertIn("mask AB slots", self.found("mask-lowest-first", collisions))
        self.assertIn("slots .......1...*.*..", self.found("signs", collisions))
        self.assertIn("request 4 ", self.found("requests-by-length", collisions))
        self.assertIn("0000000000000002 is there twice", self.found("last-again", equal_uids))

    def test_what_trays_are_read_from(self):
        self.assertIn("status: expected 1, found 0", self.found("tray-of-256", many_tags))
        self.assertIn("line 258: a UID", self.found("tray-without-end", many_tags))
        self.assertIn("no end within the limit", self.found("tray-without-end", tool_tray.endless, limit=1))
        self.assertIn("refused 5a: size mark", self.found("images-by-length", text_like_an_image))
        self.assertIn("line 1: a UID", self.found("carriage-returns", crlf))
        self.assertIn("line 4: a UID", self.found("filled-lines", wrong_line))

    def test_trays_that_are_typed(self):
        self.assertIn("status: expected 0, found 2", self.found("mistyped-lines", mistyped))
        self.assertIn("said of b'no\\n'", self.found("lines-of-keyboards", tool_tray_files.typed_at_once, limit=1))
        printed = self.found("input-in-its-place", tool_tray_files.before_input)
        self.assertIn("['-', 'none.txt']: left in the pipe: expected 17 bytes", printed)
        self.assertIn("['-', 'none.txt'], a terminal: standard error", printed)
        self.assertIn("is there twice", self.found("input-in-its-place", tool_tray.equal_uids))

    def test_files(self):
        self.assertIn("file tag.img: expected 2,112 bytes", self.found("in-place", small_files))
        self.assertIn("file new.img~", self.found("left-over", factory))
        self.assertIn("file near: ", self.found("over-the-link", link))
        self.assertIn("mode 100640 became 100600", self.found("permissions", link))
        self.assertIn("bytes of the session read", self.found("no-look", not_a_place))
        self.assertIn("factory to 'a note'", self.found("any-file", other_files))
        self.assertIn("a new image, run tag.img: standard error", self.found("others-work", changed))

    @unittest.skipIf(os.geteuid(), "files of other owners are made by root")
    def test_owners(self):
        count, printed = faults(wrong_tool("group"), tool_limits.other_user)
        self.assertTrue("mode 100664 became 100604" in printed if count else "is not tried" in printed, printed)

    def test_interrupts(self):
        self.assertIn("SIGINT, run tag.img: status: expected -2", self.found("quiet-interrupt", interrupt))
        self.assertIn("SIGQUIT, run tag.img: standard error", self.found("three-signals", quit_signal))
        self.assertIn("SIGHUP ignored: status: expected 0", self.found("ignored-signals", ignored))


class Expected(unittest.TestCase):
    """What the trials expect, held to the model and to 01."""

    def test_rights(self):
        """Each area under each register: always, in the session of its password alone, or never."""
        record = factory_record(UID, SMALL)._replace(registers=(0, 1, 0, 2, 0, 3, 0), field=True)
        for area, block in ((1, 0), (2, 16), (3, 24), (4, 32)):
            for register in range(16):
                meant = {tool_show.ALWAYS: list(SESSIONS), tool_show.SESSION: [register & 3], tool_show.NEVER: []}
                for access, right in zip((rights.READ, rights.WRITE), tool_show.rights(area, register)):
                    in_session = {session: record.with_register(2 * (area - 1), register)._replace(session=session)
                                  for session in SESSIONS}
                    allows = [session for session in SESSIONS if rights.allowed(in_session[session], block, access)]
                    self.assertEqual(allows, meant[right], (area, register, access))

    def test_shown_lines(self):
        """ENDA1 is 12, so that Area 2 begins at block 104 (004); 09h is protection 10 with password 1."""
        image = tool_show.altered(tool_tags.factory_image(SMALL), {13: 12, 14: 9, 64: 1, 72: 1, 11: 0x12, 9: 0xAB})
        self.assertEqual(tool_show.shown_lines(image).decode("ascii").split("\n"), [
            "size      16 Kbit, 512 blocks of 4 bytes", "UID       E002230401D6C8F0", "AFI       ABh", "DSFID     00h",
            "locked    block 1, configuration (LOCK_CFG)",
            "Area 1    blocks 0 to 103, protection 00, no password: read always, write always",
            "Area 2    blocks 104 to 511, protection 10, password 1: read in its session, write in its session",
            "Area 3    no blocks, protection 00, no password: read always, write always",
            "Area 4    no blocks, protection 00, no password: read always, write always",
            "memory    not empty, other than 00h in 2 of 512 blocks, first in block 0", ""])

    def test_faults(self):
        """Every image that the model refuses has a fault, and no other: each byte alone, and ends with each other."""
        dice = Dice(4)
        for size in (SMALL, LARGE):
            sound = tool_tags.factory_image(size)
            images = [tool_show.altered(sound, {place: value})
                      for place in range(64) for value in (0, 1, 2, 15, 16, 31, 32, 63, 64, 255)]
            images += [tool_show.altered(sound, {13: dice.below(72), 15: dice.below(72), 17: dice.below(72)})
                       for _ in range(300)]
            for broken_header in scenes.HEADER_BREAKS:
                images.append(bytearray(tool_tags.any_image(dice, size)))
                broken_header(images[-1])
            for image in images:
                found = tool_faults.fault_of(image)
                self.assertEqual(found is not None, bool(tool_tags.refusal(image)), image[:64].hex())

    def test_typed_headers(self):
        """What is worked from the documents is what is written by hand, number and place, name and words."""
        for what, kbit, text, rest, words in tool_typed.TYPED:
            image = tool_header.typed_image(kbit, text, rest)
            self.assertEqual(tool_faults.fault_line(image, tool_faults.fault_of(image)), words, what)
        for kbit, (text, listing) in ((64, tool_typed.LISTED_RIGHT), (16, tool_typed.LISTED_WRONG)):
            self.assertEqual(tool_header.listed(tool_header.typed_image(kbit, text)).decode("ascii"), listing)

    def test_picture(self):
        """Slot Bh hears three, of which 1ABh and 2ABh have the next group in common. CRCs are worked bit by bit."""
        frames = [framed(text).hex().upper() for text in ("060100", "0601040B", "060108AB")]
        self.assertEqual(tool_tray.printed([0x1AB, 0x7, 0xCB, 0x2AB], True).decode("ascii").split("\n"), [
            f"request 1 {frames[0]} mask - slots .......1...*....", "  slot 7 0000000000000007",
            f"  slot 11 collision, request 2 {frames[1]} mask B slots ..........*.1...",
            f"    slot 10 collision, request 3 {frames[2]} mask AB slots .11.............",
            "      slot 1 00000000000001AB", "      slot 2 00000000000002AB", "    slot 12 00000000000000CB",
            "0000000000000007", "00000000000001AB", "00000000000002AB", "00000000000000CB", "3 requests", ""])
        self.assertEqual(tool_tray.printed([]), b"1 requests\n")

    def test_lines_of_no_form(self):
        for stream, text in tool_sessions.NO_FORMS:
            expected = f"uistermo: a name: lines of no form: {text}{tool_tags.FORMS}\n" if text else ""
            self.assertEqual(tool_tags.no_form_line(stream, "a name").decode("ascii"), expected, stream[:40])

    def test_leaks(self):
        image = tool_tags.any_image(Dice(3), SMALL)
        self.assertEqual(tool_show.leaks(image, b""), [])
        self.assertEqual(tool_show.leaks(image, image[27:35].hex().upper().encode("ascii")), [1])
        self.assertEqual(tool_show.leaks(image, image[50:42:-1].hex().encode("ascii") + image[19:27]), [0, 3])

    def test_snapshots(self):
        with tempfile.TemporaryDirectory() as folder:
            trial = Trial([], folder)
            for name in ("a", "b", "c"):
                trial.put(name, KEPT, 0o644)
            before = snapshot(folder)
            self.assertEqual(changes(before, snapshot(folder)), {})
            trial.put("a", b"x", 0o644)
            trial.put("b", KEPT, 0o600)
            trial.drop("c")
            os.mkdir(trial.path("d"), 0o755)
            os.symlink("a", trial.path("e"))
            found = changes(before, snapshot(folder))
        self.assertEqual((found["a"], found["b"], found["c"]), (b"x", "mode 100644 became 100600", "gone"))
        self.assertEqual(sorted(found), ["a", "b", "c", "d", "e"])

    def test_examples_on_a_page(self):
        page = "usage: x\n  bin/uistermo show\n\nExamples:\n  bin/uistermo show a\n  printf x | bin/uistermo run a\n"
        self.assertEqual(tool_pages.example_commands(page), ["bin/uistermo show a", "printf x | bin/uistermo run a"])
        self.assertEqual(tool_pages.example_commands("no example"), [])

    def test_worked_commands(self):
        commands = tool_pages.worked_commands(README)
        self.assertEqual([line for line, _ in commands], [
            "bin/uistermo factory 16 E002230401D6C8F0 tag.img",
            "printf 'ON\\n260100\\nno\\n' | bin/uistermo run tag.img 2>&1 | cut -d ';' -f 1",
            "bin/uistermo show none.img"])

    def test_worked_example(self):
        def tried(text):
            return faults(MODEL, lambda trial: tool_pages.worked_example(trial, text, SESSION))
        count, printed = tried(README)
        self.assertEqual(count, 1, printed)
        self.assertIn("README.md, printf", printed)
        self.assertEqual(tried(README.replace("    not printed, were it not here\n", "")), (0, ""))
        self.assertEqual(tried("# No such section\n")[0], 1)
