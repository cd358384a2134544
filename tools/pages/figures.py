"""The figures that stand by hand in the pages: lines, functions and edits of each crate, their sums, and where else they are said."""

import re

from .page import Fault
from .sources import ROOT

TABLE_OF = "docs/DEFINITION.md"
HEAD = ("crate", "code", "definition", "proof", "functions", "edits", "seconds")
PROVED = re.compile(r"^rt: (\w+) proved \((\d+) s\b", re.M)
CALL = re.compile(rb"(?:ON|OFF|EOF|REQ|LOAD|SAVE|FACTORY)\b")
SESSION = 6  # lines of the session that 01 prints, with which the lines of tagrun begin


def lines(crate, folder, suffix):
    """How many lines of a crate's folder are not blank."""
    texts = (path.read_text(encoding="utf-8") for path in ROOT.glob(f"crates/{crate}/{folder}/**/*{suffix}"))
    return sum(bool(line.strip()) for text in texts for line in text.split("\n"))


def counted(sources):
    """Of each crate, and of all: what the table says, but for the seconds."""
    rows = {crate: (lines(crate, "src", ".rt"), lines(crate, "specs", ".antt"), lines(crate, "proofs", ".antt"),
                    sum(function.crate == crate for function in sources.functions), sum(home == crate for home, _ in sources.edits))
            for crate in sources.crates}
    return {**rows, "all": tuple(map(sum, zip(*rows.values())))}


def said(page):
    """Of each crate, and of all: its row in the page's table, as numbers (0 where there is none), with its line."""
    return {row.cells[0]: (row.line, tuple(int(re.sub(r"\D", "", cell) or 0) for cell in row.cells[1:])) for row in page.rows if row.head == HEAD}


def sentences(sources, every):
    """How a figure is said in a page, wherever, and what it must be."""
    _, definition, _, functions, edits = every["all"]
    tagrun, casebook = ((ROOT / "crates" / program / "stdin").read_bytes().split(b"\n") for program in ("tagrun", "casebook"))
    return ((r"([\d,]+) (?:such|must-fail) edits", edits), (r"([\d,]+) functions, every one", functions), (r"([\d,]+) lines that are not blank", definition),
            (r"some ([\d,]+)\s+lines\s+more", round(len(tagrun) - SESSION - sources.session_lines, -3)),
            (r"runs it on some ([\d,]+) calls", round(sum(bool(CALL.match(line)) for line in casebook), -3)))


def faults(sources, pages, texts):
    """Figures of the pages that are not those of the sources."""
    every, rows = counted(sources), said(pages[TABLE_OF])
    for crate in dict.fromkeys([*every, *rows]):
        line, row = rows.get(crate, (0, ()))
        if crate not in every or row[:-1] != every[crate]:
            right = " | ".join(f"{number:,}" for number in every.get(crate, ())) or "no such crate"
            yield Fault(TABLE_OF, line, f"the figures of {crate} are {right}; tools/promises --figures prints the table")
    took = sum(row[-1] for crate, (_, row) in rows.items() if crate != "all")
    if "all" in rows and rows["all"][1][-1] != took:
        yield Fault(TABLE_OF, rows["all"][0], f"the sum of the seconds is {took}")
    for pattern, right in sentences(sources, every):
        found = [(path, one) for path, text in texts.items() for one in re.finditer(pattern, text)]
        yield from (Fault(path, texts[path].count("\n", 0, one.start(1)) + 1, f"'{one[0]}': it is {right:,}") for path, one in found if one[1] != f"{right:,}")
        if not found:
            yield Fault("the pages", 0, f"no page says '{pattern}', which is {right:,}")


def seconds(sources, page, log):
    """The seconds of each crate, from a log of tools/prove where there is one, or else from the page; and of all."""
    found = dict(PROVED.findall(log)) if log is not None else {**dict.fromkeys(sources.crates, 0), **{crate: row[-1] for crate, (_, row) in said(page).items()}}
    lacks = [crate for crate in sources.crates if crate not in found]
    if lacks:
        raise ValueError(f"no seconds of {', '.join(lacks)}: a log of crates proved from nothing has a line 'rt: NAME proved (N s)' for each")
    took = {crate: int(found[crate]) for crate in sources.crates}
    return {**took, "all": sum(took.values())}


def table(sources, page, log=None):
    """The lines of the table."""
    every, took = counted(sources), seconds(sources, page, log)
    yield f"| {' | '.join(HEAD)} |"
    yield "|---" * len(HEAD) + "|"
    yield from (f"| {crate} | {' | '.join(f'{number:,}' for number in row)} | {f'{took[crate]:,}' if took[crate] else '-'} |" for crate, row in every.items())
