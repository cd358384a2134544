"""Files that others change while a session of the tool runs."""

import errno
import os

from generator.dice import Dice
from tagmodel.sizes import SIZES

from .tool_interrupts import WRITES, talk
from .tool_runs import DONE, KEPT, WRONG, failed, no_image_there, read_file, said, snapshot
from .tool_tags import any_image, factory_image, followed

CHANGED = "not written: it was changed during the session"


def with_a_change(trial, what, words, change, errors, status=WRONG, left=None):
    """A session with a change after its answers and before its end; then the folder is as it was changed to.

    `left` has the files that the tool is to write after all.
    """
    what = f"{what}, {' '.join(words)}"
    with trial.start(words, bufsize=0) as program:
        talk(trial, what, program, WRITES, followed(factory_image(SIZES[0]), WRITES)[0])
        change()
        before = snapshot(trial.folder)
        trial.hold_end(what, trial.end(program), status, b"", errors)
    trial.hold_folder(what, before, left)


def start_again(trial):
    """Two tags, a link to the first, and no other file."""
    trial.drop("new.img", "link", "tag.img")
    trial.put("tag.img", factory_image(SIZES[0]))
    trial.put("other.img", any_image(Dice(9990), SIZES[0]))
    os.symlink("tag.img", trial.path("link"))


def another_image(trial):
    """Another image in the place of the one that was loaded: by a rename, by a write into it, by its link."""
    other = any_image(Dice(9991), SIZES[0])

    def lead_elsewhere():
        trial.drop("link")
        os.symlink("other.img", trial.path("link"))

    def write_into():
        with open(trial.path("tag.img"), "r+b") as file:
            file.seek(100)
            file.write(b"!")
    for what, name, change in (
            ("another image in its place", "tag.img", lambda: trial.put("tag.img", other)),
            ("a larger image in its place", "tag.img", lambda: trial.put("tag.img", any_image(Dice(1), SIZES[1]))),
            ("a note in its place", "tag.img", lambda: trial.put("tag.img", KEPT)),
            ("one byte changed", "tag.img", write_into), ("a link led elsewhere", "link", lead_elsewhere),
            ("another image behind the link", "link", lambda: trial.put("tag.img", other))):
        start_again(trial)
        with_a_change(trial, what, ["run", name], change, said(f"{name}: {CHANGED}"))
        start_again(trial)
        with_a_change(trial, what, ["run", name, "--out", name], change, said(f"{name}: {CHANGED}"))
        if name == "tag.img":
            start_again(trial)
            left = {"new.img": followed(factory_image(SIZES[0]), WRITES)[1]}
            with_a_change(trial, what, ["run", name, "--out", "new.img"], change, b"", DONE, left)


def no_image_any_more(trial):
    """Where the image cannot be read any more the system's words say why; where it is as it was, it is written."""
    def become_a_folder():
        trial.drop("tag.img")
        os.mkdir(trial.path("tag.img"))
    image = factory_image(SIZES[0])
    start_again(trial)
    with_a_change(trial, "gone", ["run", "tag.img"], lambda: trial.drop("tag.img"),
                  failed("tag.img", errno.ENOENT, ""))
    start_again(trial)
    with_a_change(trial, "the same again", ["run", "tag.img"], lambda: trial.put("tag.img", image), b"", DONE,
                  {"tag.img": followed(image, WRITES)[1]})
    start_again(trial)
    with_a_change(trial, "a folder", ["run", "tag.img"], become_a_folder, failed("tag.img", errno.EISDIR, ""))
    os.rmdir(trial.path("tag.img"))


def another_file_at_the_end(trial):
    """A file that is no image, where --out is to write: it came during the session."""
    start_again(trial)
    with_a_change(trial, "a note came", ["run", "tag.img", "--out", "new.img"], lambda: trial.put("new.img", KEPT),
                  no_image_there("new.img"))


def at_once(trial, times=10):
    """Two sessions over one image that end at once: the later one sees what the earlier wrote, and does not write."""
    image, streams = factory_image(SIZES[0]), (WRITES, b"ON\n02211022222222\n")
    for _ in range(times):
        start_again(trial)
        programs = [trial.start(["run", "tag.img"], bufsize=0) for _ in streams]
        for program, stream in zip(programs, streams):
            talk(trial, "two at once", program, stream, followed(image, stream)[0])
        for program in programs:
            program.stdin.close()
            program.stdin = None
        ended = [trial.end(program) for program in programs]
        trial.hold("two at once: status", sorted(found.status for found in ended), [DONE, WRONG])
        for found, stream in zip(ended, streams):
            errors = said(f"tag.img: {CHANGED}") if found.status else b""
            trial.hold("two at once: standard error", found.errors, errors)
            if found.status == DONE:
                trial.hold("two at once: image", read_file(trial.path("tag.img")), followed(image, stream)[1])


def meanwhile(trial):
    """All of them."""
    for part in (another_image, no_image_any_more, another_file_at_the_end, at_once):
        part(trial)
