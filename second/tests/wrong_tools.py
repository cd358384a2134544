"""The tool of model_tool.py with one thing wrong, which the trials have to find: wrong_tools.py WHAT WORDS.."""

import io
import os
import re
import shutil
import signal
import sys

sys.dont_write_bytecode = True
sys.path.insert(0, os.path.dirname(os.path.dirname(os.path.realpath(__file__))))

from tests import model_tool

WAITING = []
look_at, write_file = model_tool.look_at, model_tool.write_file
answered, area_text, no_form_text = model_tool.answered, model_tool.area_text, model_tool.no_form_text
request_numbers = model_tool.request_numbers
fault_place, header_rows, refusal_text = model_tool.fault_place, model_tool.header_rows, model_tool.refusal_text


def write_in_place(path, contents):
    """What was there is gone as soon as the file is opened."""
    look_at(path)
    try:
        with open(path, "wb") as file:
            file.write(contents)
    except OSError as error:
        raise model_tool.refuse_to_write(path, error.strerror) from error


def write_over_the_link(path, contents):
    """A link is replaced, not what it leads to."""
    if os.path.islink(path):
        os.remove(path)
    write_file(path, contents)


def write_and_leave(path, contents):
    """A copy stays beside the file."""
    write_file(path, contents)
    shutil.copy(path, path + "~")


def write_with_new_permissions(path, contents):
    """A file that is replaced gets the permissions of a new one."""
    write_file(path, contents)
    os.chmod(path, 0o600)


def answer_one_digit_off(line, *more):
    """A success's CRC ends in 1."""
    answered(line.replace(b"0078F0", b"0078F1"), *more)


def answer_late(line, *more):
    """Each answer comes when the next line has been read."""
    for earlier in WAITING:
        answered(earlier, *more)
    WAITING[:] = [line]


def show_another_area(record, blocks, area):
    """The next area's password stands in the place of an area's own."""
    register = record.protection(area) & 0x0C | record.protection(area % 4 + 1) & 0x03
    return area_text(record.with_register(2 * (area - 1), register), blocks, area)


def show_passwords(record, blocks, area):
    """A password's value is told."""
    return f"{area_text(record, blocks, area)} {record.passwords[area - 1]:016X}"


def highest_fault(image):
    """Of two bytes that are wrong the higher is named."""
    sound = model_tool.sound_image(len(image))
    return max(place for place in range(64) if model_tool.is_refused(sound[:place] + image[place:]))


def earlier_of_a_pair(image):
    """A wrong pair is charged to the earlier byte."""
    place = fault_place(image)
    return place - 2 if place in (15, 17) and image[place] <= (63, 255)[image[0] - 1] else place


def count_places_from_1(image):
    """The first byte is at place 1."""
    return re.sub(r"place (\d+)", lambda found: f"place {int(found[1]) + 1}", refusal_text(image))


def end_quietly(number, frame):
    """An interrupt ends it as if all were done."""
    raise model_tool.Stop(0)


def look_at_nothing(path):
    """Nothing is looked at before the session."""


def hold_nothing(path, loaded):
    """What others wrote meanwhile is lost."""


def keep_permissions(beside, found):
    """A group that is not kept leaves its permissions to another."""
    os.chmod(beside, found.st_mode & 0o777)


def count_from_nothing(name, wrong, count):
    """Lines are counted from 0."""
    return no_form_text(name, [(wrong[0][0] - 1, wrong[0][1]), *wrong[1:]], count)


def end_at_a_closed_pipe(line, *more):
    """SIGPIPE ends it."""
    signal.signal(signal.SIGPIPE, signal.SIG_DFL)
    answered(line, *more)


def count_filled_lines(lines):
    """Empty lines are not counted."""
    number = 0
    for line in lines:
        number += bool(line.strip())
        yield number, line


def end_at_a_slip(text):
    """A mistyped line loses those that were typed before it."""
    raise model_tool.Stop(2, text)


def name_the_last(uids):
    """Of two pairs that are equal the later is named."""
    return next(uid for place, uid in reversed(list(enumerate(uids))) if uid in uids[:place])


def number_by_length(requests):
    """Requests are numbered as if all of a length were sent before the longer ones; each stands with its own slots."""
    requests.sort(key=lambda asked: len(asked.mask))
    return request_numbers(requests)


WRONG = {
    "in-place": ("write_file", write_in_place),
    "over-the-link": ("write_file", write_over_the_link),
    "left-over": ("write_file", write_and_leave),
    "permissions": ("write_file", write_with_new_permissions),
    "one-digit": ("answered", answer_one_digit_off),
    "late-answers": ("answered", answer_late),
    "another-area": ("area_text", show_another_area),
    "passwords": ("area_text", show_passwords),
    "quiet-interrupt": ("interrupt", end_quietly),
    "no-look": ("look_at", look_at_nothing),
    "any-file": ("REPLACED_LENGTHS", range(1000000)),
    "others-work": ("hold_unchanged", hold_nothing),
    "one-line": ("NO_IMAGE", ()),
    "closed-pipe": ("answered", end_at_a_closed_pipe),
    "line-numbers": ("no_form_text", count_from_nothing),
    "three-signals": ("SIGNALS", model_tool.SIGNALS[:3]),
    "ignored-signals": ("is_ignored", lambda number: False),
    "lock-names": ("LOCKS", ("block 0", "block 1", "AFI", "DSFID", "configuration")),
    "dash": ("NOT_IMAGES", ()),
    "group": ("keep_owner", keep_permissions),
    "lengths": ("NO_LENGTH", "the image has a wrong length"),
    "fault-names": ("FAULTS", dict.fromkeys(model_tool.FAULTS, "image header breaks a rule")),
    "highest-fault": ("fault_place", highest_fault),
    "earlier-end": ("fault_place", earlier_of_a_pair),
    "places-from-1": ("refusal_text", count_places_from_1),
    "ends-in-hex": ("both", lambda end: f"{end:02X}h"),
    "passwords-listed": ("row_bytes", lambda image, place, end: image[place:end].hex().upper()),
    "no-row-of-its-own": ("header_rows", lambda image, fault: header_rows(image, 64)),
    "uids-as-numbers": ("uid_lines", lambda found: [f"{uid:016X}" for uid in sorted(found)]),
    "uids-lowest-first": ("uid_lines", lambda found: [uid.to_bytes(8, "little").hex().upper() for uid in found]),
    "tray-of-256": ("ENOUGH_TAGS", 256),
    "tray-without-end": ("ENOUGH_TAGS", None),
    "images-by-length": ("is_image", lambda start: len(start) in model_tool.REPLACED_LENGTHS[1:]),
    "carriage-returns": ("PASSED_OVER", " \t"),
    "filled-lines": ("numbered", count_filled_lines),
    "mistyped-lines": ("mistyped", end_at_a_slip),
    "lines-of-keyboards": ("typed_lines", lambda source: io.BytesIO(source.read())),
    "input-in-its-place": ("in_turn", list),
    "last-again": ("comes_again", name_the_last),
    "mask-lowest-first": ("mask_text", lambda mask: "".join(f"{group:X}" for group in mask) or "-"),
    "signs": ("sign", lambda heard: ".1*"[len(heard) > 0]),
    "requests-by-length": ("request_numbers", number_by_length),
}


if __name__ == "__main__":
    setattr(model_tool, *WRONG[sys.argv[1]])
    sys.exit(model_tool.main(sys.argv[2:]))
