"""The tool bin/uistermo as the second model would do its work, so that the trials of it can be tried themselves."""

import contextlib
import fcntl
import io
import itertools
import os
import re
import signal
import stat
import sys

sys.dont_write_bytecode = True
sys.path.insert(0, os.path.dirname(os.path.dirname(os.path.realpath(__file__))))

from tagmodel import host, rights
from tagmodel.record import ALL_LOCKS
from tagmodel.search import search
from tagmodel.session import Session
from tagmodel.sizes import BLOCK_BYTES, HEADER_BYTES, SIZES, size_of_image
from tagmodel.tray import Tray

READ_MOST = 8257  # one byte more than the longest image
SIZE_WORDS = {"16": SIZES[0], "64": SIZES[1]}
USAGE = {"factory": "factory 16|64 UID IMAGE", "show": "show IMAGE", "header": "header IMAGE",
         "run": "run IMAGE [SESSION] [--out FILE]", "tray": "tray [--trace] [UID | FILE | -].."}
EXAMPLES = {
    "factory": ["factory 16 E002230401D6C8F0 tag.img"],
    "show": ["factory 64 E0:02:23:04:01:D6:C8:F0 tag.img", "show tag.img"],
    "header": ["factory 64 E0:02:23:04:01:D6:C8:F0 tag.img", "header tag.img"],
    "run": ["factory 16 E002230401D6C8F0 tag.img", "run tag.img examples/session.txt"],
    "tray": ["tray --trace E002230401D6C8F0 E0:02:23:04:01:D6:C8:E0"],
}
UID = re.compile(r"[0-9A-Fa-f]{2}([ :]*[0-9A-Fa-f]{2}){7}")
NO_LENGTH = "image is not 2,112 or 8,256 bytes"
FAULTS = {"5a": "size mark", "5b": "lock byte", "5c": "protection byte", "5d": "area end", "5e": "reserved byte"}
REGISTERS = "RFA1SS ENDA1 RFA2SS ENDA2 RFA3SS ENDA3 RFA4SS".split()  # bytes 12 to 18
PASSWORD_ROWS = "not shown"
NEEDS = {"always": "always", "session": "in its session", "never": "never"}
LOCKS = ("block 0", "block 1", "AFI", "DSFID", "configuration (LOCK_CFG)")
SIGNALS = (signal.SIGINT, signal.SIGTERM, signal.SIGHUP, signal.SIGQUIT)
REPLACED_LENGTHS = (0, 2112, 8256)
NO_IMAGE = ("no image is written",)
NOT_IMAGES = ("-",)
OPTIONS = (("run", "--out"), ("tray", "--trace"))
ENOUGH_TAGS = 257  # with so many nothing more is looked at
PASSED_OVER = " \t\r"  # at the ends of a line
NO_UID = "a UID is 16 hex digits, as E002230401D6C8F0 or E0:02:23:04:01:D6:C8:F0"


class Stop(Exception):
    """The end of a command: the status, and what is said on standard error."""

    def __init__(self, status, *lines):
        super().__init__(lines)
        self.status, self.lines = status, lines


def wrong(command, text):
    """A wrong word, or a wrong number of them."""
    return Stop(2, text, f"usage: uistermo {USAGE[command]}")


# ---- files


def read_image(path):
    """The bytes of an image, and of a longer file one byte more."""
    try:
        with open(path, "rb") as file:
            return file.read(READ_MOST)
    except OSError as error:
        raise Stop(2, f"{path}: {error.strerror}") from error


def refuse_to_write(path, reason):
    """The file cannot be written."""
    return Stop(2, f"{path}: not written: {reason}")


def look_at(path):
    """Whether a file can be written here is seen before the work."""
    try:
        found = os.stat(path)
    except FileNotFoundError as error:
        if not path or os.path.islink(path) or not os.path.isdir(os.path.dirname(os.path.abspath(path))):
            raise refuse_to_write(path, error.strerror) from error
        return
    except OSError as error:
        raise refuse_to_write(path, error.strerror) from error
    if stat.S_ISDIR(found.st_mode):
        raise refuse_to_write(path, "Is a directory")
    if not found.st_mode & 0o222 or not os.access(path, os.W_OK):
        raise refuse_to_write(path, "Permission denied")
    if stat.S_ISREG(found.st_mode) and found.st_size not in REPLACED_LENGTHS:
        raise refuse_to_write(path, "it is there and is no image")


def keep_owner(beside, found):
    """Owner, group and permissions of the file that was there; without its group, without the group's permissions."""
    mode = stat.S_IMODE(found.st_mode)
    with contextlib.suppress(PermissionError):
        os.chown(beside, found.st_uid, -1)
    try:
        os.chown(beside, -1, found.st_gid)
    except PermissionError:
        mode &= ~stat.S_IRWXG
    os.chmod(beside, mode)


def write_file(path, contents):
    """Writes beside the place and renames; a device or a pipe is written straight."""
    look_at(path)
    place = os.path.realpath(path)
    beside = os.path.join(os.path.dirname(place), f".uistermo-{os.getpid()}")
    straight = os.path.exists(path) and not os.path.isfile(path)
    try:
        with open(path if straight else beside, "wb") as file:
            file.write(contents)
        if not straight:
            if os.path.exists(place):
                keep_owner(beside, os.stat(place))
            os.rename(beside, place)
    except OSError as error:
        if os.path.exists(beside):
            os.remove(beside)
        raise refuse_to_write(path, error.strerror) from error


# ---- tags


def load(path):
    """Record and memory of an image, and its bytes."""
    image = read_image(path)
    return (*tag_of_image(path, image), image)


def tag_of_image(path, image):
    """Record and memory of an image that was read."""
    size = size_of_image(len(image)) or SIZES[0]
    memory = bytearray(size.memory_bytes)
    result = host.load(None, memory, image)
    if result.number:
        raise Stop(1, f"{path}: refused {refusal_text(image)}")
    return result.record, memory


def is_refused(image):
    """Whether the model refuses an image that has the memory of its length."""
    return bool(host.load(None, bytearray(len(image) - HEADER_BYTES), image).number)


def sound_image(length):
    """A factory tag's image of this length."""
    memory, image = bytearray(length - HEADER_BYTES), bytearray(length)
    host.save(host.factory(None, memory, 0).record, memory, image)
    return image


def fault_place(image):
    """The lowest byte that is wrong: the bytes up to it are refused also before a factory tag's."""
    sound = sound_image(len(image))
    return next(place for place in range(HEADER_BYTES) if is_refused(image[:place + 1] + sound[place + 1:]))


def fault_letter(place):
    """The number of a fault at this place."""
    return "5" + ("a" if place == 0 else "b" if place == 11 else "e" if place > 50 else "cd"[place % 2])


def both(end):
    """An end in hex and decimal."""
    return f"{end:02X}h ({end})"


def end_reason(image, place):
    """Why an end is wrong, and what it may be."""
    size, before, name = size_of_image(len(image)), image[place - 2] if place > 13 else -1, REGISTERS[place - 14]
    low = min(before + 1, size.last_end)
    span = f"may be {low:02X}h to {size.last_end:02X}h ({low} to {size.last_end})"
    may = span if low < size.last_end else f"has to be {both(low)}"
    if image[place] > size.last_end:
        reason = f"above E, which is {both(size.last_end)} for {size.blocks // 32} Kbit"
    elif before < size.last_end:
        reason = f"not above {name}, which is {both(before)}"
    else:
        reason = f"but {name} is E, {both(before)}, after which every end is E"
    return f"{REGISTERS[place - 12]} is {both(image[place])}, {reason}; it {may}"


def set_bits(locks):
    """The names of bits 5 to 7 that are set."""
    return {1: "bit 5", 2: "bit 6", 3: "bits 5 and 6", 4: "bit 7", 5: "bits 5 and 7", 6: "bits 6 and 7",
            7: "bits 5, 6 and 7"}[locks >> 5]


def fault_reason(image, place):
    """What stands at this place, and what may."""
    letter, size, value = fault_letter(place), size_of_image(len(image)), f"{image[place]:02X}h"
    return {
        "5a": lambda: f"it is {value}; the file has {len(image):,} bytes, as the image of a {size.blocks // 32} Kbit "
                      f"tag, so it has to be {size.mark:02X}h",
        "5b": lambda: f"it is {value}, with {set_bits(image[place])} set; bits 5 to 7 have to be 0, "
                      "so it may be 00h to 1Fh",
        "5c": lambda: f"{REGISTERS[place - 12]} is {value}; it may be 00h to 0Fh",
        "5d": lambda: end_reason(image, place),
        "5e": lambda: f"it is {value}; it has to be 00h",
    }[letter]()


def refusal_text(image):
    """Number and words for an image that is refused."""
    if size_of_image(len(image)):
        place = fault_place(image)
        letter = fault_letter(place)
        return f"{letter}: {FAULTS[letter]}, at place {place}: {fault_reason(image, place)}"
    length = f"over {READ_MOST - 1:,}" if len(image) == READ_MOST else f"{len(image):,}"
    return f"4: {NO_LENGTH}; it has {length} bytes"


def save(path, record, memory):
    """Writes the image of a tag."""
    image = bytearray(HEADER_BYTES + len(memory))
    host.save(record, memory, image)
    write_file(path, image)


def factory_tag(uid, size=SIZES[0]):
    """Record and memory of a factory tag whose UID is written so."""
    memory = bytearray(size.memory_bytes)
    return host.factory(None, memory, int(re.sub("[ :]", "", uid), 16)).record, memory


def factory(*words):
    """factory 16|64 UID IMAGE"""
    if len(words) < 3:
        raise wrong("factory", "words are missing")
    size, uid, path = words[0], " ".join(words[1:-1]), words[-1]
    if UID.fullmatch(words[1]) and len(words) > 3:
        raise wrong("factory", f"'{words[3]}' is a word too many")
    if size not in SIZE_WORDS:
        raise wrong("factory", f"{size}: a size is 16 or 64")
    if not UID.fullmatch(uid):
        raise wrong("factory", f"{uid}: a UID is 16 hex digits")
    save(path, *factory_tag(uid, SIZE_WORDS[size]))


def area_text(record, blocks, area):
    """One area: its blocks, protection, password and rights."""
    register = record.protection(area)
    table = rights.AREA_1 if area == 1 else rights.AREAS_2_TO_4
    needs = [table[access][register >> 2] for access in (rights.READ, rights.WRITE)]
    if not register & 3:
        needs = ["never" if need == "session" else need for need in needs]
    its = [block for block in range(blocks) if rights.area_of(record, block) == area]
    where = f"blocks {its[0]:,} to {its[-1]:,}" if its else "no blocks"
    password = f"password {register & 3}" if register & 3 else "no password"
    return (f"{where}, protection {register >> 3 & 1}{register >> 2 & 1}, {password}: "
            f"read {NEEDS[needs[0]]}, write {NEEDS[needs[1]]}")


def show(path):
    """show IMAGE"""
    record, memory, _ = load(path)
    blocks = len(memory) // BLOCK_BYTES
    filled = sorted({at // BLOCK_BYTES for at, byte in enumerate(memory) if byte})
    locked = [LOCKS[bit] for bit in range(ALL_LOCKS.bit_length()) if record.is_locked(1 << bit)]
    lines = [f"size      {blocks // 32} Kbit, {blocks:,} blocks of 4 bytes", f"UID       {record.uid:016X}",
             f"AFI       {record.afi:02X}h", f"DSFID     {record.dsfid:02X}h",
             f"locked    {', '.join(locked) if locked else 'nothing'}"]
    lines += [f"Area {area}    {area_text(record, blocks, area)}" for area in (1, 2, 3, 4)]
    where = f"other than 00h in {len(filled):,} of {blocks:,} blocks, first in block {filled[0]:,}" if filled else ""
    lines += [f"memory    {'not empty, ' + where if filled else 'empty, every byte is 00h'}", ""]
    answered("\n".join(lines).encode("ascii"))


# ---- headers


def locks_text(locks):
    """What is locked."""
    names = (*LOCKS, "bit 5", "bit 6", "bit 7")
    return ", ".join(names[bit] for bit in range(8) if locks & 1 << bit) or "nothing"


def area_of_block(image, block):
    """The lowest area whose end is not passed, or Area 4."""
    return 1 + sum(all(block > 8 * end + 7 for end in image[13:place + 1:2]) for place in (13, 15, 17))


def area_blocks(image, area):
    """The blocks of an area, whatever its ends are."""
    blocks = (len(image) - HEADER_BYTES) // BLOCK_BYTES
    its = [block for block in range(blocks) if area_of_block(image, block) == area]
    return f"Area {area} has blocks {its[0]:,} to {its[-1]:,}" if its else f"Area {area} has no blocks"


def register_text(image, place, fault):
    """What a protection byte or an area end says."""
    value, area = image[place], (place - 10) // 2
    if place % 2:
        has = ", ".join(area_blocks(image, its) for its in ((3, 4) if area == 3 else (area,)))
        return f"{value}" if fault < place else f"{value}: {has}"
    if value > 0x0F:
        return f"Area {area}: {value:02X}h is above 0Fh"
    record = host.factory(None, bytearray(2048), 0).record.with_register(place - 12, value)
    return f"Area {area}: {area_text(record, 0, area).split(', ', 1)[1]}"


def header_rows(image, fault):
    """Places, bytes, name and meaning of each row."""
    size = size_of_image(len(image))
    yield 0, 1, "size mark", f"{size.blocks // 32} Kbit, {size.blocks:,} blocks of 4 bytes"
    yield 1, 9, "UID, lowest byte first", image[8:0:-1].hex().upper()
    yield 9, 10, "AFI", f"{image[9]:02X}h"
    yield 10, 11, "DSFID", f"{image[10]:02X}h"
    yield 11, 12, "lock byte", "locked: " + locks_text(image[11])
    for place, name in enumerate(REGISTERS, 12):
        yield place, place + 1, ("area end " if place % 2 else "protection byte ") + name, register_text(image, place, fault)
    for number, place in enumerate(range(19, 51, 8)):
        yield place, place + 8, f"password {number}", "of areas" if number else "of the configuration"
    cuts = [51]
    while cuts[-1] < HEADER_BYTES:
        stops = [cuts[-1] + 8, HEADER_BYTES] + [stop for stop in (fault, fault + 1) if stop > cuts[-1]]
        cuts.append(min(stops))
    for place, end in zip(cuts, cuts[1:]):
        yield place, end, "reserved bytes" if end - place > 1 else "reserved byte", "to be 00h"


def row_bytes(image, place, end):
    """The bytes of a row, but for passwords."""
    return PASSWORD_ROWS if 19 <= place < 51 else image[place:end].hex().upper()


def header(path):
    """header IMAGE"""
    image = read_image(path)
    if not size_of_image(len(image)):
        tag_of_image(path, image)
    fault = fault_place(image) if is_refused(image) else HEADER_BYTES
    lines = ["place     bytes             what it is              what it says"]
    for place, end, name, says in header_rows(image, fault):
        if place == fault:
            says = f"<-- {fault_letter(place)}: {fault_reason(image, place)}"
        places = f"{place} to {end - 1}" if end - place > 1 else str(place)
        lines.append(f"{places:10}{row_bytes(image, place, end):16}  {name:24}{says}")
    last = f"the lowest byte at fault is at place {fault}; those after it are not judged"
    answered("\n".join([*lines, "the header breaks no rule" if fault == HEADER_BYTES else last, ""]).encode("ascii"))
    tag_of_image(path, image)


# ---- sessions


def interrupt(number, _):
    """Ends by this signal, at once."""
    os.write(2, b"uistermo: interrupted; no image is written\n")
    signal.signal(number, signal.SIG_DFL)
    os.kill(os.getpid(), number)


def listen():
    """Interrupts are heard, but for those that are ignored already."""
    for number in SIGNALS:
        if not is_ignored(number):
            signal.signal(number, interrupt)


def is_ignored(number):
    """Whether a signal was ignored at the start."""
    return signal.getsignal(number) == signal.SIG_IGN


def lines_of(path, name):
    """The lines of a session, each as soon as it has come."""
    try:
        with open(0 if path == "-" else path, "rb", buffering=0) as raw:
            source = io.BufferedReader(raw)
            if source.isatty():
                print("uistermo: Ctrl-D ends the session", file=sys.stderr, flush=True)
            yield from iter(source.readline, b"")
    except OSError as error:
        raise Stop(2, f"{name}: {error.strerror}", *NO_IMAGE) from error


def answered(line, *more):
    """Writes output, whole, before more is read; where it cannot, more may be said."""
    try:
        while line:
            line = line[os.write(1, line):]
    except OSError as error:
        raise Stop(2, f"standard output: not written: {error.strerror}", *more) from error


def hold_unchanged(path, loaded):
    """An image that others changed meanwhile is theirs."""
    try:
        found = read_image(path)
    except Stop as stop:
        raise Stop(stop.status, *stop.lines, *NO_IMAGE) from stop
    if found != loaded:
        raise refuse_to_write(path, "it was changed during the session")


def lock_folder(path):
    """Others that lock the folder of this file wait until the tool ends."""
    folder = os.open(os.path.dirname(os.path.realpath(path)), os.O_RDONLY)
    fcntl.flock(folder, fcntl.LOCK_EX)


def no_form_text(name, wrong, count):
    """How many lines are of no form, and which is the first of them: `wrong` has their numbers and bytes."""
    number, line = wrong[0]
    has_cr = line.endswith(b"\r") and len(line) <= 129
    return (f"{name}: lines of no form: {len(wrong)} of {count}, the first is line {number}" +
            (", which ends in a carriage return" if has_cr else "") +
            "; a line is ON, OFF, EOF or upper-case hex, 2 to 128 digits, an even number, and ends in a newline alone")


def run(*words):
    """run IMAGE [SESSION] [--out FILE]"""
    words, out = list(words), None
    if "--out" in words:
        at = words.index("--out")
        if words.count("--out") > 1 or at + 1 == len(words):
            raise wrong("run", "--out stands once, with a file")
        out = words[at + 1]
        words[at:at + 2] = []
    if len(words) not in (1, 2):
        raise wrong("run", "an image, and at most one session")
    if words[0] in NOT_IMAGES or out in NOT_IMAGES:
        raise wrong("run", "'-' is no file to load or write")
    listen()
    follow(words[0], words[1] if len(words) == 2 else "-", words[0] if out is None else out, out is None)


def follow(path, source, out, is_back):
    """Runs the session of `source` over the image of `path`, and writes what is left."""
    session, wrong_lines, name = Session(), [], "standard input" if source == "-" else source
    session.record, session.memory, loaded = load(path)
    look_at(out)
    for line in lines_of(source, name):
        line = line[:-1] if line.endswith(b"\n") else line
        answer = session.answer(line)
        answered(answer.encode("ascii") + b"\n", *NO_IMAGE)
        wrong_lines += [(session.number, line)] if answer.endswith("?") else []
    for number in SIGNALS:
        signal.signal(number, signal.SIG_IGN)
    if is_back or os.path.exists(out) and os.path.exists(path) and os.path.samefile(out, path):
        lock_folder(path)
        hold_unchanged(path, loaded)
    save(out, session.record, session.memory)
    if wrong_lines:
        print(f"uistermo: {no_form_text(name, wrong_lines, session.number)}", file=sys.stderr)


# ---- trays


def is_image(start):
    """Whether a file that begins so is an image; else it is a text."""
    return b"\x00" in start


def numbered(lines):
    """Lines are counted from 1, empty ones too."""
    return enumerate(lines, 1)


def mistyped(text):
    """A line that is no UID, from a keyboard: it is named, and the others are taken."""
    print(f"uistermo: {text}; this line is not taken", file=sys.stderr, flush=True)


def tags_of_lines(lines, name, is_typed=False):
    """A factory tag for each line that is not empty."""
    for number, line in numbered(lines):
        text = (line[:-1] if line.endswith(b"\n") else line).decode("latin-1").strip(PASSED_OVER)
        if text and not UID.fullmatch(text):
            if not is_typed:
                raise Stop(2, f"{name}: line {number}: {NO_UID}")
            mistyped(f"{name}: line {number}: {NO_UID}")
        elif text:
            yield factory_tag(text)


def typed_lines(source):
    """Lines from a keyboard, to its first end: it could be read on after that."""
    line = b"\n"
    while line.endswith(b"\n"):
        line = source.readline()
        yield line


def typed_tags(source, name):
    """The tags of a keyboard."""
    print("uistermo: UIDs from the keyboard, one a line: Ctrl-D ends them", file=sys.stderr, flush=True)
    yield from tags_of_lines(typed_lines(source), name, True)


def tags_of_input():
    """The tags of standard input."""
    try:
        with open(0, "rb", closefd=False) as source:
            tags_of = typed_tags if source.isatty() else tags_of_lines
            yield from tags_of(source, "standard input")
    except OSError as error:
        raise Stop(2, f"standard input: {error.strerror}") from error


def tags_of_file(path):
    """The tag of an image, or those of a text."""
    try:
        with open(path, "rb") as file:
            if file.isatty():
                yield from typed_tags(file, path)
                return
            start = file.read(READ_MOST)
            if is_image(start):
                yield tag_of_image(path, start)
            else:
                yield from tags_of_lines(itertools.chain(io.BytesIO(start + file.readline()), file), path)
    except OSError as error:
        raise Stop(2, f"{path}: {error.strerror}; and {NO_UID}") from error


def in_turn(words):
    """Standard input is taken after all other words."""
    return sorted(words, key=lambda word: word == "-")


def tags_of_words(words):
    """The tags of all words."""
    for word in in_turn(words):
        if word == "-":
            yield from tags_of_input()
        elif UID.fullmatch(word):
            yield factory_tag(word)
        else:
            yield from tags_of_file(word)


def comes_again(uids):
    """The first UID that was there before."""
    return next(uid for place, uid in enumerate(uids) if uid in uids[:place])


def refuse_tray(uids):
    """Refusals 6 and 7."""
    number = search(uids, [0] * len(uids)).number
    if number:
        text = "more than 256 tags" if number == 6 else f"two UIDs are equal; {comes_again(uids):016X} is there twice"
        raise Stop(1, f"tray: refused {number}: {text}")


def mask_text(mask):
    """The digits that UIDs must end in."""
    return "".join(f"{group:X}" for group in mask[::-1]) if mask else "-"


def sign(heard):
    """What a slot heard."""
    return "." if not heard else "1" if len(heard) == 1 else "*"


def request_lines(requests, numbers, mask=(), before=""):
    """A request with its slots, and all that follow from it."""
    asked = requests[numbers[mask] - 1]
    yield (f"{before}request {numbers[mask]} {asked.frame.hex().upper()} mask {mask_text(mask)} "
           f"slots {''.join(map(sign, asked.slots))}")
    for slot, heard in enumerate(asked.slots):
        start = f"{'  ' * (len(mask) + 1)}slot {slot} "
        if len(heard) > 1:
            yield from request_lines(requests, numbers, (*mask, slot), start + "collision, ")
        elif heard:
            yield f"{start}{heard[0]:016X}"


def request_numbers(requests):
    """By mask, in the order sent."""
    return {asked.mask: number for number, asked in enumerate(requests, 1)}


def uid_lines(found):
    """The UIDs in the order found."""
    return [f"{uid:016X}" for uid in found]


def tray(*words):
    """tray [--trace] [UID | FILE | -].."""
    for word in ("--trace", "-"):
        if words.count(word) > 1:
            raise wrong("tray", f"'{word}': it is there twice")
    places = [word for word in words if word != "--trace"] or ["-"]
    tags = list(itertools.islice(tags_of_words(places), ENOUGH_TAGS))
    refuse_tray([record.uid for record, _ in tags])
    on_it = Tray()
    for record, memory in tags:
        on_it.put(record, memory)
    found, requests = on_it.search()
    lines = list(request_lines(requests, request_numbers(requests))) if "--trace" in words else []
    answered("\n".join([*lines, *uid_lines(found), f"{len(requests)} requests", ""]).encode("ascii"))


COMMANDS = {"factory": factory, "show": show, "header": header, "run": run, "tray": tray}


def do(words):
    """One command with its words."""
    if not words:
        raise Stop(2, *USAGE.values())
    command, rest = words[0], words[1:]
    if command in ("-h", "--help", "help"):
        print("\n".join(USAGE.values()))
    elif command not in COMMANDS:
        raise Stop(2, f"{command}: no command; the commands are factory, show, header, run and tray")
    elif "-h" in rest or "--help" in rest:
        print(f"usage: uistermo {USAGE[command]}\n\nExample:")
        for line in EXAMPLES[command]:
            print(f"  bin/uistermo {line}")
    else:
        for word in rest:
            if word.startswith("-") and word != "-" and (command, word) not in OPTIONS:
                raise wrong(command, f"{word}: no option of {command}")
        if command in ("show", "header") and len(rest) != 1:
            raise wrong(command, f"'{rest[1]}' is a word too many" if rest else "one image")
        if command in ("factory", "show", "header") and rest and rest[-1] in NOT_IMAGES:
            raise wrong(command, "'-' is no image")
        COMMANDS[command](*rest)


def main(words):
    """The exit status."""
    try:
        do(words)
        sys.stdout.flush()
    except Stop as stop:
        for line in stop.lines:
            print(f"uistermo: {line}", file=sys.stderr)
        return stop.status
    return 0


if __name__ == "__main__":
    sys.exit(main(sys.argv[1:]))
