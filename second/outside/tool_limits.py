"""The tool where it may not write, or where there is no room: another user, file size limits, a disk that is full."""

import errno
import os
import resource
import signal
import subprocess

from tagmodel.sizes import SIZES

from .tool_files import Case, stays_unread
from .tool_runs import NOBODY, WRONG, become_nobody, not_read, not_written, read_file
from .tool_tags import SESSION_UID, factory_image

OTHER, THIRD = 12345, 23456  # users and groups other than NOBODY's
FILE_SIZES = (0, 1, 2111)  # bytes that a file may have; an image has one more at least
# A disk of its own, full but for the image; what is on it at the end is copied, since it goes with its namespace.
FULL_DISK = """mount -t tmpfs -o size=256k,mode=755 none disk && cp tag.img disk/tag.img || exit 77
head -c 1000000 /dev/zero >disk/filler 2>/dev/null
"$@"
status=$?
rm disk/filler
cp -a disk/. copy
exit $status"""
TRY_MOUNT = "mount -t tmpfs none disk"


def owned(trial, name, mode):
    """Sets the permissions of a name, and gives it to the user of `plain_user`."""
    if not os.geteuid():
        os.chown(trial.path(name), NOBODY, NOBODY)
    os.chmod(trial.path(name), mode)


def other_user(trial):
    """Files and folders that permissions close."""
    ways = trial.plain_user()
    if ways is not None:
        closed_files(trial, ways)
        closed_folder(trial, ways)
        if not os.geteuid():
            owners(trial)


def closed_files(trial, ways):
    """In a folder that is open to all: a file that may not be read, and files that may not be written."""
    case = Case(9500)
    os.mkdir(trial.path("open"))
    os.chmod(trial.path("open"), 0o777)
    trial.put("session.txt", case.stream)
    trial.put("open/tag.img", case.image)
    owned(trial, "open/tag.img", 0o000)
    line = not_read("open/tag.img", errno.EACCES)
    trial.refuses("show of a closed file", ["show", "open/tag.img"], line, **ways)
    trial.refuses("run of a closed file", ["run", "open/tag.img", "--out", "open/new.img"], line, **ways)
    owned(trial, "open/tag.img", 0o444)
    line = not_written("open/tag.img")
    stays_unread(trial, "run on a read-only file", ["run", "open/tag.img"], line, **ways)
    trial.refuses("factory on a read-only file", ["factory", "16", SESSION_UID, "open/tag.img"], line, **ways)
    if not os.geteuid():
        os.chown(trial.path("open/tag.img"), 0, 0)
        os.chmod(trial.path("open/tag.img"), 0o644)
        stays_unread(trial, "run on another's file", ["run", "open/tag.img"], line, **ways)
        trial.refuses("factory on another's file", ["factory", "16", SESSION_UID, "open/tag.img"], line, **ways)
    owned(trial, "open/tag.img", 0o600)
    case.runs(trial, "one's own file", ["open/tag.img"], "open/tag.img", **ways)
    trial.drop("open/tag.img")
    os.rmdir(trial.path("open"))


def closed_folder(trial, ways):
    """A file that may be written, in a folder in which nothing can be made: it cannot be written beside its place."""
    case = Case(9600)
    os.mkdir(trial.path("shut"))
    trial.put("shut/tag.img", case.image)
    owned(trial, "shut/tag.img", 0o644)
    owned(trial, "shut", 0o555)
    for place in ("shut/tag.img", "shut/new.img"):
        line = not_written(place, errno.EACCES)
        trial.refuses(f"factory to {place}", ["factory", "16", SESSION_UID, place], line, **ways)
        words = ["run", "shut/tag.img", "--out", place]
        trial.expect(f"run to {place}", words, WRONG, None, case.says_at_the_end(line), feed=case.stream, **ways)
    os.chmod(trial.path("shut"), 0o755)
    trial.drop("shut/tag.img")
    os.rmdir(trial.path("shut"))


def become_member():
    """As `become_nobody`, but a member of one group more."""
    os.setgroups([OTHER])
    os.setgid(NOBODY)
    os.setuid(NOBODY)


def owners(trial):
    """Owner and group stay where the system lets the user keep them; a group that is lost loses its permissions."""
    os.mkdir(trial.path("open"))
    os.chmod(trial.path("open"), 0o777)
    for user, owner, mode, expected in (
            (None, (OTHER, THIRD), 0o640, (OTHER, THIRD, 0o640)),
            (None, (NOBODY, OTHER), 0o664, (NOBODY, OTHER, 0o664)),
            (become_nobody, (NOBODY, NOBODY), 0o660, (NOBODY, NOBODY, 0o660)),
            (become_nobody, (NOBODY, OTHER), 0o664, (NOBODY, NOBODY, 0o604)),
            (become_nobody, (NOBODY, 0), 0o670, (NOBODY, NOBODY, 0o600)),
            (become_nobody, (OTHER, THIRD), 0o666, (NOBODY, NOBODY, 0o606)),
            (become_nobody, (OTHER, NOBODY), 0o664, (NOBODY, NOBODY, 0o664)),
            (become_member, (NOBODY, OTHER), 0o664, (NOBODY, OTHER, 0o664)),
            (become_member, (THIRD, OTHER), 0o660, (NOBODY, OTHER, 0o660)),
            (become_member, (NOBODY, THIRD), 0o660, (NOBODY, NOBODY, 0o600))):
        owned_file(trial, user, owner, mode, expected)
    trial.drop("open/tag.img")
    os.rmdir(trial.path("open"))


def owned_file(trial, user, owner, mode, expected):
    """One file that is replaced by `factory` and by `run`, with its owner, group and permissions after it."""
    case, path = Case(9650), trial.path("open/tag.img")
    for words, errors, image in ((["run", "open/tag.img"], case.said, case.left),
                                 (["factory", "64", SESSION_UID, "open/tag.img"], b"", factory_image(SIZES[1]))):
        what = f"{words[0]} by {user.__name__ if user else 'root'} on a file of {owner}, mode {mode:o}"
        trial.put("open/tag.img", case.image)
        os.chown(path, *owner)
        os.chmod(path, mode)
        changed = f"mode {0o100000 | mode:o} became {0o100000 | expected[2]:o}"
        trial.expect(what, words, output=None, errors=errors, feed=case.stream, preexec_fn=user,
                     written={"open/tag.img": image if expected[2] == mode else changed})
        after = os.stat(path)
        trial.hold(f"{what}: owner, group", (after.st_uid, after.st_gid), expected[:2])
        trial.hold(f"{what}: image", read_file(path), image)


def small_files(most):
    """What a child does before the tool starts, so that no file can be longer; without the signal a write fails."""
    def before():
        signal.signal(signal.SIGXFSZ, signal.SIG_IGN)
        resource.setrlimit(resource.RLIMIT_FSIZE, (most, most))
    return before


def file_size_limits(trial, sizes=FILE_SIZES):
    """Files that can be begun and not ended: what was there stays, and nothing is left over."""
    case = Case(9700)
    trial.put("tag.img", case.image)
    trial.drop("new.img")
    for most in sizes:
        for place, words in (("tag.img", ["factory", "16", SESSION_UID, "tag.img"]), ("tag.img", ["run", "tag.img"]),
                             ("new.img", ["factory", "64", SESSION_UID, "new.img"]),
                             ("new.img", ["run", "tag.img", "--out", "new.img"])):
            trial.expect(f"{' '.join(words)}, files of {most} bytes", words, WRONG, None,
                         case.says_at_the_end(not_written(place, errno.EFBIG)), feed=case.stream,
                         preexec_fn=small_files(most))


def namespace(trial):
    """The words that give a command mounts of its own, or None where this user may not."""
    for words in (["unshare", "-m"], ["unshare", "-r", "-m"]):
        try:
            done = subprocess.run([*words, "sh", "-c", TRY_MOUNT], cwd=trial.folder, stdout=subprocess.DEVNULL,
                                  stderr=subprocess.DEVNULL, check=False)
        except FileNotFoundError:
            return None
        if done.returncode == 0:
            return words
    return None


def full_disk(trial):
    """A disk with no room for one image more."""
    case = Case(9800)
    trial.put("tag.img", case.image)
    for name in ("disk", "copy"):
        os.makedirs(trial.path(name), exist_ok=True)
    words = namespace(trial)
    if words is None:
        print(f"{trial.label}: a full disk is not tried, for this user may mount none", flush=True)
        return
    command = [*words, "sh", "-c", FULL_DISK, "sh", *trial.command]
    for place in ("disk/tag.img", "disk/new.img"):
        line = case.says_at_the_end(not_written(place, errno.ENOSPC))
        for what in (["factory", "64", SESSION_UID, place], ["run", "disk/tag.img", "--out", place]):
            trial.drop("copy/tag.img")
            trial.expect(f"{what[0]} to {place}, which is full", what, WRONG, None, line, {"copy/tag.img": case.image},
                         feed=case.stream, command=command)
    trial.drop("copy/tag.img")
    trial.expect("factory beside a full disk", ["factory", "16", SESSION_UID, "new.img"], written={
        "copy/tag.img": case.image, "new.img": factory_image(SIZES[0])}, command=command)


def limits(trial):
    """All of them."""
    for part in (other_user, file_size_limits, full_disk):
        part(trial)
