"""Every branch of the model by name, and how often each was reached.

A name that is marked but not declared here raises KeyError; a name declared
but never reached is shown by the program `branches`.
"""

STATES = ("Ready", "Quiet", "Selected")
AREAS = (1, 2, 3, 4)

# The errors that each listed command can give, check 10 (03h) apart.
COMMAND_ERRORS = {
    "02": "", "20": "15", "21": "12", "22": "10 11 14", "23": "15", "24": "0F 10 12",
    "25": "", "26": "", "27": "12", "28": "11", "29": "12", "2A": "11", "2C": "",
    "30": "10 15", "31": "10 12", "32": "10 11 14", "33": "10 15", "34": "0F 10 12", "3C": "10",
    "A0": "10", "A1": "0F 10 13", "B1": "0F 10", "B3": "0F 10",
}
WITHOUT_OPTION = ("25", "26", "2C", "3C", "A0", "B3")
WITHOUT_FIELDS = ("02", "25", "26", "28", "2A")
ADDRESSED_ONLY = ("02", "25")
MODES = ("addressed.Ready", "addressed.Quiet", "addressed.Selected",
         "select.Selected", "plain.Ready", "plain.Selected")

# What a header can break, by the number that a load gives for it.
HEADER_FAULTS = {
    "5a": ("size-mark-other", "size-mark-unknown"),
    "5b": ("lock-bits",),
    "5c": ("protection-1", "protection-2", "protection-3", "protection-4"),
    "5d": ("end-1-over", "end-2-over", "end-3-over", "end-2-not-above", "end-3-not-above",
           "end-2-after-last", "end-3-after-last"),
    "5e": tuple(f"reserved-{place}" for place in range(51, 64)),
}
PASSING_FAULTS = (
    "field-value", "state-value", "session-value", "round-value", "held-value",
    "slot-without-round", "mask-without-round", "code-without-error", "error-without-code",
    "off-state", "off-session", "off-round", "off-held",
    "slot-over", "mask-over", "round-with-held", "round-in-quiet", "held-code",
)
HELD_ERRORS = ("02", "03", "0F", "10", "11", "12", "13", "14", "15")


def under(prefix, names):
    """Names with a common beginning, from a text of words or a list."""
    words = names.split() if isinstance(names, str) else names
    return [f"{prefix}.{word}" for word in words]


def frame_branches():
    """Checks 1 to 7."""
    return (
        under("frame", "field-off drops-round drops-held drops-nothing bytes-0 bytes-1 bytes-2 bytes-3"
              " crc-wrong bit-4 bit-8 inventory-flag-without-code inventory-code-without-flag"
              " manufacturer-other manufacturer-none select-and-address select-in-Ready select-in-Quiet"
              " plain-in-Quiet uid-missing uid-part uid-other")
        + under("frame.other-select", ["long", "option"] + [f"in-{state}" for state in STATES])
        + under("frame.unlisted", "standard custom above-custom"))


def command_branches():
    """Checks 8 to 10, each mode and state, and each result of each command."""
    names = []
    for code, errors in COMMAND_ERRORS.items():
        results = ["success"] + [f"error-{error}" for error in errors.split()]
        own = ["long"] + results
        own += [] if code in WITHOUT_FIELDS else ["short"]
        own += ["error-03"] if code in WITHOUT_OPTION else [f"option-{result}" for result in results]
        own += ["not-addressed"] if code in ADDRESSED_ONLY else []
        own += [mode for mode in MODES if code not in ADDRESSED_ONLY or mode.startswith("addressed")]
        names += under(f"command.{code}", own)
    return names


def rule_branches():
    """Areas, sessions, rights, blocks, states, passwords and registers."""
    return (
        under("area", [str(area) for area in AREAS])
        + under("session", "none-named none-open configuration-open another-open serves")
        + [f"rights.{area}.{access}.{bits}" for area in ("area-1", "later")
           for access in ("read", "write") for bits in ("00", "01", "10", "11")]
        + under("status", "locked not-writable open")
        + under("read", "first-outside first-hidden whole cut-at-memory-end cut-at-100h cut-at-hidden")
        + under("status-list", "first-outside whole cut")
        + under("write", "count-over-4 first-outside later-outside border locked not-writable"
                " done-1 done-2 done-3 done-4")
        + under("lock", "over-1 already-0 already-1 not-writable done-0 done-1")
        + [f"{change}.from-{state}" for change in ("select", "reset", "quiet") for state in STATES]
        + under("present", "number-over-3 wrong.none-open wrong.same-open wrong.another-open"
                " right.none-open right.same-open right.another-open")
        + under("write-password", "number-over-3 none-open another-open done-0 done-1 done-2 done-3")
        + under("read-register", "unknown 04 05 06 07 08 09 0A 0F")
        + under("write-register", "unknown session-closed locked")
        + [f"register.protection-{area}.{result}" for area in AREAS for result in ("taken", "over")]
        + under("register", "lock-cfg.taken lock-cfg.over"
                " end-1.over end-1.later-end-set end-1.taken"
                " end-2.over end-2.not-above end-2.later-end-set end-2.taken"
                " end-3.over end-3.not-above end-3.taken"))


def event_branches():
    """Inventory, field and end of frame."""
    return (
        under("inventory", "quiet other-mask one-slot no-afi no-mask-length"
              " mask-too-long.one-slot mask-too-long.16-slots mask-short mask-long closes")
        + under("inventory.afi", "none-asked zero family family-itself other-family"
                " 0Y-itself 0Y-differs XY-itself XY-differs")
        + [f"inventory.slot-{slot}.{does}" for slot in range(16) for does in ("speaks", "waits")]
        + under("on", "was-on was-off") + under("off", "was-on was-off")
        + under("eof", ["nothing", "field-off", "held-success"])
        + under("eof", [f"held-error-{error}" for error in HELD_ERRORS]))


def call_branches():
    """Host calls with each refusal by each condition."""
    names = under("event", "refusal-1.memory refusal-2.room answer silence")
    names += under("load", "refusal-4.image refusal-1.memory refusal-1.memory-does-not-fit done-1 done-2")
    for number, faults in HEADER_FAULTS.items():
        names += under(f"load.refusal-{number}", faults)
    names += under("save", "refusal-4.image refusal-1.memory refusal-1.memory-does-not-fit"
                   " done-1.field-off done-1.field-on done-2.field-off done-2.field-on")
    names += under("factory", "refusal-1.memory done-1 done-2")
    names += under("search", "refusal-6 refusal-7 refusal-18 list-full entries-after")
    names += under("search", [f"mask-{bits}" for bits in range(0, 64, 4)])
    for call in ("event", "save"):
        for faults in (*HEADER_FAULTS.values(), PASSING_FAULTS):
            names += under(f"{call}.refusal-3", faults)
    return names


def program_branches():
    """The lines of tagrun and casebook."""
    hex_faults = "no-space digit odd bytes-over"
    number_faults = "no-space number number-over"
    return (
        under("lines", "last-without-newline empty-input")
        + under("tagrun", "ON OFF EOF request question.empty question.short question.long"
                " question.odd question.digit")
        + under("casebook", "ON OFF EOF MEM ROOM REC PUT REQ LOAD SAVE FACTORY SEARCH")
        + under("casebook.question", "line.empty line.word")
        + [name for word in ("MEM", "ROOM", "SAVE") for name in under(f"casebook.question.{word}", number_faults)]
        + [name for word in ("REC", "REQ", "LOAD", "FACTORY")
           for name in under(f"casebook.question.{word}", hex_faults)]
        + under("casebook.question", "REC.record-short FACTORY.uid-short")
        + [name for word in ("PUT", "SEARCH") for name in under(
            f"casebook.question.{word}", "no-space no-second-space number number-over digit odd bytes-over")]
        + under("casebook.question", "SEARCH.uid-short"))


def all_branches():
    """The complete list of names."""
    return (frame_branches() + command_branches() + rule_branches() + event_branches()
            + call_branches() + program_branches())


COUNTS = dict.fromkeys(all_branches(), 0)


def hit(name):
    """Marks one branch as reached."""
    COUNTS[name] += 1


def reset_counts():
    """Forgets what was reached."""
    for name in COUNTS:
        COUNTS[name] = 0
