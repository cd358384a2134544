"""docs/DECISIONS.md, docs/DEFINITION.md and README.md: every name, every file and line, every starred case."""

import re

from . import lines, trace
from .names import LANGUAGE, RUN, misplaced, unfiled
from .page import quoted

PATHS = "docs/DECISIONS.md", "docs/DEFINITION.md", "README.md"
FILES = re.compile(r"(?<![\w/])(?P<crate>[a-z]\w*)/(?:(?P<folder>proofs|specs): )?(?P<files>[A-Z]\w*(?:, [A-Z]\w*)*)")
IN_FILE = re.compile(RUN + r" in (?:(?P<crate>[a-z]\w*)/proofs/)?(?P<file>[A-Z]\w*)")


def listed(names, page):
    """Of the order of reading in docs/DEFINITION.md: files and laws that are none. Laws are of the tag where no crate is said."""
    for row in page.rows:
        if row.head[:2] != ("step", "file"):
            continue
        for found in FILES.finditer(row.cells[1]):
            yield from (page.fault(row.line, f"there is no file crates/{found['crate']}/{found['folder'] or 'specs'}/{file}.antt")
                        for file in found["files"].split(", ") if (found["crate"], found["folder"] or "specs", file) not in names.sources.files)
        for found in IN_FILE.finditer(row.cells[1]):
            yield from (page.fault(row.line, f"`{name}` is not declared in {found['crate'] or 'tag'}/{found['file']}") for name in quoted(found["run"])
                        if name not in LANGUAGE and not names.in_file(name, found["crate"] or "tag", found["file"], ("proofs",)))


def tables(names, page):
    """Of README.md: the files of the table of theorems, and the crates of the table of crates."""
    for row in page.rows:
        folder = re.search(r"`crates/(\w+)/(proofs)/`", row.section)
        if folder and row.head[0] == "file":
            yield from (page.fault(row.line, f"there is no file crates/{folder[1]}/proofs/{name}.antt") for name in quoted(row.cells[0])
                        if (*folder.groups(), name) not in names.sources.files)
    crates = {name for row in page.rows if row.head == ("crate", "holds") for name in quoted(row.cells[0])}
    yield from (page.fault(0, f"crate {name} is not in the table of crates, or is none") for name in sorted(crates ^ set(names.sources.crates)) if crates)


def faults(names, page):
    """All faults of a page, but for its figures."""
    for check in (unfiled, lines.faults, listed, tables, trace.starred, trace.unread):
        yield from check(names, page)
    for line, _, text in page.parts():
        yield from (page.fault(line, f"`{name}` does not exist") for name in quoted(text) if not names.exists(name))
        yield from misplaced(names, page, line, text)
