"""Files that the tool cannot read or write, and those that ask for care: links, permissions, devices, long names."""

import errno
import functools
import os
import re
import stat
import threading

from generator.dice import Dice
from tagmodel.sizes import SIZES

from .tool_runs import (KEPT, NO_IMAGE, SOME_LINES, WRONG, failed, lines_said, no_image_there, not_read,
                        not_written, said)
from .tool_tags import (NOT_REPLACED, REPLACED, SESSION_UID, WORDS, any_image, any_stream, factory_image, followed,
                        no_form_line)

LONG_NAME = "n" * 255  # the longest name that Linux has
READ_FAILS = "/proc/self/mem"  # it can be opened, and nothing lies at its start
MANY_LINES = 20000  # their answers are more than a pipe holds
STREAM = b"ON\n0221050A0B0C0D\n022005\n"
DEVICES = {"null": 3, "full": 7}  # of major number 1, as /dev has them
MODES = (0o600, 0o640, 0o644, 0o664, 0o666, 0o700, 0o755)


class Case:
    """A tag and a session on it, with what the model answers and leaves."""

    def __init__(self, seed, size=SIZES[0]):
        dice = Dice(seed)
        self.image = any_image(dice, size)
        self.stream = any_stream(dice, self.image, 30)
        self.output, self.left = followed(self.image, self.stream)
        self.said = no_form_line(self.stream)

    def says_at_the_end(self, line):
        """This line, where all is answered and no image is written; that of the lines of no form may stand before."""
        return re.compile(b"(" + re.escape(self.said) + b")?" + re.escape(line))

    def runs(self, trial, what, words, place, errors=None, **ways):
        """The session with these words, which leaves its image at this place."""
        trial.expect(f"run, {what}", ["run", *words], output=self.output, written={place: self.left}, feed=self.stream,
                     errors=self.said if errors is None else errors, **ways)


def makes(trial, what, size, word, place, **ways):
    """A factory tag whose image is to stand at this place."""
    trial.expect(f"factory, {what}", ["factory", WORDS[size], SESSION_UID, word], written={place: factory_image(size)},
                 **ways)


def folders(trial):
    """A folder, an empty one, a link to itself, one that leads nowhere, and a tag."""
    for name in ("folder", "empty"):
        os.makedirs(trial.path(name), exist_ok=True)
    trial.put("folder/in-it", KEPT)
    trial.drop("loop", "nowhere")
    os.symlink("loop", trial.path("loop"))
    os.symlink("none.img", trial.path("nowhere"))
    trial.put("tag.img", factory_image(SIZES[0]))
    trial.put("session.txt", STREAM)


def unreadable(trial):
    """Files that are not there, folders, and paths that lead nowhere: as image and as session."""
    folders(trial)
    for name, number in (("none.img", errno.ENOENT), ("folder", errno.EISDIR), ("tag.img/x", errno.ENOTDIR),
                         ("loop", errno.ELOOP), ("n" * 256, errno.ENAMETOOLONG), ("none/tag.img", errno.ENOENT),
                         ("nowhere", errno.ENOENT), ("", errno.ENOENT), (READ_FAILS, errno.EIO)):
        unreadable_file(trial, name, number)


def unreadable_file(trial, name, number):
    """A file that cannot be read, as image and as session. As an image to be written back it may be told as either."""
    shown, line = repr(name[:20]), not_read(name, number)
    trial.refuses(f"show {shown}", ["show", name], line)
    trial.refuses(f"run {shown} --out", ["run", name, "--out", "out.img"], line, feed=STREAM)
    either = re.escape(name.encode("ascii")) + rb": (not written: )?" + re.escape(os.strerror(number).encode("ascii"))
    trial.refuses(f"run {shown}", ["run", name], lines_said(either), feed=STREAM)
    opens = number in (errno.EISDIR, errno.EIO)  # then it fails at its first line; else the second line is left open
    line = failed(name, number, "") if opens else re.compile(re.escape(line) + b"(" + re.escape(said(NO_IMAGE)) + b")?")
    trial.refuses(f"session {shown}", ["run", "tag.img", name], line, feed=STREAM)
    trial.refuses(f"session {shown} --out", ["run", "tag.img", name, "--out", "new.img"], line)


def stays_unread(trial, what, words, errors, **ways):
    """`run` refuses before the session: no line of it is read."""
    with open(trial.path("session.txt"), "rb") as session:
        trial.refuses(what, words, errors, stdin=session, **ways)
        trial.hold(f"{what}: bytes of the session read", os.lseek(session.fileno(), 0, os.SEEK_CUR), 0)


def unwritable_place(trial, place, number=None, line=None, **ways):
    """Neither `factory` nor `run --out` can write here, which is seen before the session starts."""
    shown, line = repr(place[:20]), line or not_written(place, number)
    trial.refuses(f"factory to {shown}", ["factory", "16", SESSION_UID, place], line, **ways)
    stays_unread(trial, f"run to {shown}", ["run", "tag.img", "--out", place], line, **ways)


def unwritable(trial):
    """Folders, folders that are not there, names that are too long, and files that nobody may write."""
    folders(trial)
    for place, number in (("folder", errno.EISDIR), ("empty", errno.EISDIR), (".", errno.EISDIR), ("folder/", None),
                          ("none/new.img", errno.ENOENT), ("tag.img/x", errno.ENOTDIR), ("loop", errno.ELOOP),
                          ("nowhere", errno.ENOENT), ("n" * 256, errno.ENAMETOOLONG), ("", None)):
        unwritable_place(trial, place, number)
    for mode in (0o444, 0o400, 0o555, 0o000):
        trial.put("only.img", factory_image(SIZES[0]), mode)
        unwritable_place(trial, "only.img")
        if mode != 0o000:
            stays_unread(trial, f"run on a file of mode {mode:o}", ["run", "only.img"], not_written("only.img"))
    trial.drop("link.img")
    os.symlink("only.img", trial.path("link.img"))
    unwritable_place(trial, "link.img")
    trial.drop("link.img", "only.img")


def other_files(trial, kept=tuple(NOT_REPLACED)):
    """Files that are no images are not replaced, also behind a link; images of either size and empty files are."""
    case = Case(9050)
    folders(trial)
    trial.put("tag.img", case.image)
    for name in kept:
        trial.put(name, NOT_REPLACED[name])
        os.symlink(name, trial.path("to it"))
        for place in (name, "to it"):
            unwritable_place(trial, place, line=no_image_there(place))
        trial.drop(name, "to it")
    for contents in REPLACED:
        trial.put("there", contents)
        makes(trial, f"over {len(contents)} bytes", SIZES[0], "there", "there")
        trial.put("there", contents)
        case.runs(trial, f"--out over {len(contents)} bytes", ["tag.img", "--out", "there"], "there")
    trial.drop("there")


def replaced(trial):
    """Permissions stay; a name may be long, or begin with `-` behind a folder's; --out may name the image itself."""
    case = Case(9100)
    for mode in MODES:
        trial.put("tag.img", case.image, mode)
        case.runs(trial, f"file of mode {mode:o}", ["tag.img"], "tag.img")
        makes(trial, f"file of mode {mode:o}", SIZES[1], "tag.img", "tag.img")
    for name in (LONG_NAME, "-name", "-", "a b'c", "\u00e4.img"):
        word = "./" + name if name.startswith("-") else name
        makes(trial, f"name {name[:9]!r}", SIZES[0], word, name)
        trial.put(name, case.image)
        case.runs(trial, f"name {name[:9]!r}", [word], name)
        trial.drop(name)
    makes(trial, "whole path", SIZES[0], trial.path("new.img"), "new.img")
    trial.drop("new.img")
    trial.put("tag.img", case.image)
    case.runs(trial, "--out the same file", ["tag.img", "--out", "./tag.img"], "tag.img")


def new_files(trial):
    """A new file has the permissions of any new file."""
    case = Case(9150)
    trial.put("tag.img", case.image)
    for mask in (0o000, 0o022, 0o027, 0o077):
        ways = {"preexec_fn": functools.partial(os.umask, mask)}
        for make in (lambda: makes(trial, "new file", SIZES[0], "new.img", "new.img", **ways),
                     lambda: case.runs(trial, "new file", ["tag.img", "--out", "new.img"], "new.img", **ways)):
            trial.drop("new.img")
            make()
            mode = os.stat(trial.path("new.img")).st_mode & 0o777
            trial.hold(f"new file, umask {mask:o}: permissions", f"{mode:o}", f"{0o666 & ~mask:o}")


def links(trial):
    """What a link leads to is replaced, and the link stays; also over two links and folders."""
    case = Case(9200, SIZES[1])
    folders(trial)
    for link, target in (("near", "real.img"), ("far", "folder/real.img"), ("folder/up", "../real.img"),
                         ("twice", "near"), ("whole", trial.path("folder/real.img"))):
        one_link(trial, case, link, target)
    trial.drop("near", "far", "folder/up", "twice", "whole", "real.img", "folder/real.img")


def one_link(trial, case, link, target):
    """One link, by every way to write."""
    trial.drop(link)
    os.symlink(target, trial.path(link))
    real = os.path.relpath(os.path.realpath(trial.path(link)), os.path.realpath(trial.folder))
    trial.put(real, case.image, 0o640)
    case.runs(trial, f"link {link}", [link], real)
    makes(trial, f"link {link}", SIZES[1], link, real)
    trial.put("tag.img", case.image)
    case.runs(trial, f"--out, link {link}", ["tag.img", "--out", link], real)


def own_devices(trial):
    """Makes the devices in the trial's folder; whether this user may make them, and open them there."""
    try:
        for name, minor in DEVICES.items():
            os.mknod(trial.path(name), stat.S_IFCHR | 0o666, os.makedev(1, minor))
            os.chmod(trial.path(name), 0o666)
            os.close(os.open(trial.path(name), os.O_WRONLY))
    except PermissionError:
        trial.drop(*DEVICES)
        return False
    return True


def devices(trial):
    """A null device and a full one, which are written straight.

    A tool that renames a file over those of /dev would take them from the whole machine. So they are the trial's own.
    """
    case = Case(9300)
    if not own_devices(trial):
        print(f"{trial.label}: devices are not tried, for this user may make none here", flush=True)
        return
    trial.put("tag.img", case.image)
    words = ["run", "tag.img", "--out", "null"]
    trial.expect("run --out null", words, output=case.output, errors=case.said, feed=case.stream)
    trial.expect("factory to null", ["factory", "16", SESSION_UID, "null"])
    full, words = not_written("full", errno.ENOSPC), ["run", "tag.img", "--out", "full"]
    trial.expect("run --out full", words, WRONG, case.output, case.says_at_the_end(full), feed=case.stream)
    trial.refuses("factory to full", ["factory", "16", SESSION_UID, "full"], full)
    trial.drop(*DEVICES)


def to_streams(trial):
    """--out to what a stream leads to: a pipe is written straight; a file that has the answers is no image.

    A tool that replaces the link itself would take /dev/stdout from the whole machine. So the links are the trial's
    own, and those of /dev are named by a plain user alone.
    """
    ways = trial.plain_user()
    for number in (1, 3):
        trial.drop(f"to-{number}")
        os.symlink(f"/proc/self/fd/{number}", trial.path(f"to-{number}"))
    stream_places(trial, "to-1", "to-3", {})
    if ways is not None:
        stream_places(trial, "/dev/stdout", "/dev/fd/3", ways)
        stream_places(trial, "/dev/fd/1", "/dev/fd/3", ways)
    trial.drop("to-1", "to-3")


def stream_places(trial, first, third, ways):
    """Streams 1 and 3 by these paths."""
    case, image = Case(9350), factory_image(SIZES[1])
    trial.put("tag.img", case.image)
    words, command = ["run", "tag.img", "--out", first], ["sh", "-c", '"$@" | cat', "sh", *trial.command]
    trial.expect(f"run --out {first}", words, output=case.output + case.left, errors=case.said, feed=case.stream,
                 command=command, **ways)
    trial.expect(f"factory to {first}", ["factory", "64", SESSION_UID, first], output=image, command=command, **ways)
    command = ["sh", "-c", '"$@" 3>&1 >answers | cat', "sh", *trial.command]
    trial.put("answers", b"", 0o666)
    trial.expect(f"run --out {third}", ["run", "tag.img", "--out", third], output=case.left, errors=case.said,
                 feed=case.stream, command=command, written={"answers": case.output}, **ways)
    os.mkdir(trial.path("open"))
    os.chmod(trial.path("open"), 0o777)
    trial.put("open/answers", b"", 0o666)
    command = ["sh", "-c", 'exec "$@" >open/answers', "sh", *trial.command]
    trial.expect(f"run --out {first}, which is a file", words, WRONG, b"", case.says_at_the_end(no_image_there(first)),
                 {"open/answers": case.output}, feed=case.stream, command=command, **ways)
    trial.drop("answers", "open/answers")
    os.rmdir(trial.path("open"))


def pipes(trial):
    """A named pipe is written straight."""
    case = Case(9400)
    trial.put("tag.img", case.image)
    os.mkfifo(trial.path("pipe"))
    for words, image, output in ((["run", "tag.img", "--out", "pipe"], case.left, case.output),
                                 (["factory", "64", SESSION_UID, "pipe"], factory_image(SIZES[1]), b"")):
        taken = []
        # both ends are open from the start, so that neither the reader nor the tool waits for the other to open
        held = os.open(trial.path("pipe"), os.O_RDWR)
        reader = threading.Thread(target=read_pipe, args=(held, len(image), taken), daemon=True)
        reader.start()
        trial.expect(f"{words[0]} to a pipe", words, output=output, errors=case.said if output else b"",
                     feed=case.stream)
        os.write(held, KEPT)  # ends the reader even if nothing came
        reader.join(10)
        os.close(held)
        trial.hold(f"{words[0]} to a pipe: image", b"".join(taken), image + KEPT)
    trial.drop("pipe")


def read_pipe(pipe, length, taken):
    """Takes what comes, up to the bytes that are written last."""
    while not b"".join(taken).endswith(KEPT) and len(b"".join(taken)) < length + len(KEPT):
        taken.append(os.read(pipe, length + len(KEPT)))


def closed_streams(trial):
    """What is closed at the start must not become a file that is written to by mistake."""
    case = Case(9450)
    trial.put("tag.img", case.image)
    trial.drop("new.img")
    for closed in ("2>&-", "<&- 2>&-", "<&- >&- 2>&-"):
        command = ["sh", "-c", f'exec "$@" {closed}', "sh", *trial.command]
        trial.put("new.img", REPLACED[0])
        makes(trial, closed, SIZES[0], "new.img", "new.img", command=command)
        trial.expect(f"wrong word {closed}", ["factory", "17", SESSION_UID, "new.img"], WRONG, command=command)
        trial.expect(f"run {closed}", ["run", "none.img"], WRONG, command=command)
    trial.put("session.txt", case.stream)
    command = ["sh", "-c", 'exec "$@" <&- 2>&-', "sh", *trial.command]
    case.runs(trial, "<&- 2>&-", ["tag.img", "session.txt"], "tag.img", b"", command=command)
    for place, errors in ((">&-", lines_said(rb"standard output: not written: [^\n]+", NO_IMAGE.encode("ascii"))),
                          (">/dev/full", failed("standard output", errno.ENOSPC))):
        command = ["sh", "-c", f'exec "$@" {place}', "sh", *trial.command]
        trial.refuses(f"show {place}", ["show", "tag.img"], SOME_LINES, command=command)
        trial.refuses(f"run {place}", ["run", "tag.img", "session.txt"], errors, command=command)
    no_reader(trial)


def no_reader(trial):
    """Answers whose reader goes away, as `| head` does."""
    trial.put("session.txt", STREAM + b"022000\n" * MANY_LINES)
    command = ["sh", "-c", '{ "$@" 2>said; echo $? >status; } | head -n 1', "sh", *trial.command]
    trial.expect("run | head -n 1", ["run", "tag.img", "session.txt"], output=b"1 -\n", written={
        "said": failed("standard output", errno.EPIPE), "status": b"%d\n" % WRONG}, command=command)
    trial.drop("said", "status")


def files(trial):
    """All of them."""
    for part in (unreadable, unwritable, other_files, replaced, new_files, links, devices, pipes, to_streams,
                 closed_streams):
        part(trial)
