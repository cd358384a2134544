"""docs/TRACE.md: every name in the file that is said, every edit, every case."""

import re

from . import lines
from .names import PLACE, RUN, RUN_AT, elsewhere, misplaced, unfiled
from .page import QUOTED, quoted

PATH = "docs/TRACE.md"
TOKEN = re.compile(rf"`(?P<name>[^`]+)`|{PLACE}(?P<colon>:)?|\b(?P<own>[A-Z]\w+):|(?P<next>; )")
HEAD = re.compile(r"definition \((?P<crate>[a-z]\w*)(?:/(?P<file>\w+))?\b")
OF_CRATE = re.compile(RUN + r" of (?P<crate>[a-z]\w*)\b")
LIST = r"(?:(?:, | and )(?:\w+/\w+|\w+_\w+))*)"
EDITS = re.compile(r"\bedits? (?P<list>[a-z]\w*(?:/\w+|_\w+)" + LIST), re.compile(r"(?<![\w/`.])(?P<list>[a-z]\w*/[a-z]\w*_\w+" + LIST)
NUMBERS = r"(\d+(?:(?:, | and )\d+)*)"
STARRED, NUMBERED = re.compile(rf"\b[Ss]tarred cases? {NUMBERS}"), re.compile(rf"(?<!tarred )\bcases? {NUMBERS} of `(\w+)`")
NAME, KEBAB = r"(?=[0-9-]*[a-z])[a-z0-9]+(?:-[a-z0-9]+)*", r"[a-z0-9]+(?:-[a-z0-9]+)+"
WORKED = re.compile(rf"(?:^|; )cases? ({NAME}(?:(?:, | and ){NAME})*)(?=;|$)|(?<!tarred )\bcases? ({KEBAB}(?:(?:, | and ){KEBAB})*)")
NUMBER_IN = "number in `cases`"


def edit_names(text):
    """(crate, edit) of each edit that a text names; a name without a crate is of the one before it."""
    for found in (found for form in EDITS for found in form.finditer(text)):
        crate = ""
        for said in re.split(", | and ", found["list"]):
            crate, name = said.split("/") if "/" in said else (crate, said)
            yield crate, name


def edits(names, page):
    """Edits that do not exist, and those that the page lacks."""
    named = set()
    for line, _, text in page.parts():
        for crate, edit in dict.fromkeys(edit_names(text)):
            named.add((crate, edit))
            if (crate, edit) not in names.sources.edits:
                yield page.fault(line, f"there is no edit crates/{crate}/must-fail/{edit}.edit" if crate else f"edit {edit}: its crate is not said")
    yield from (page.fault(0, f"edit {crate}/{edit} is not named") for crate, edit in names.sources.edits if (crate, edit) not in named)


def refused(names, page):
    """Edits of which a page says that something refuses them, and their own comment says otherwise."""
    for row in page.rows:
        if row.head[-1] == "refused by":
            right = set().union(*(names.sources.refusers.get(edit, set()) for edit in edit_names(row.cells[0])))
            yield from (page.fault(row.line, f"`{law}`: only one of the row and the comments of its edits names it")
                        for law in sorted(right ^ set(quoted(row.cells[-1]))))
        for cell in row.cells:
            said = [((found[1], found[2]), {found[3]}) for found in re.finditer(r"(\w+)/(\w+) \(`([^`]+)`", cell)]
            said += [(edit, {*quoted(cell), *re.findall(r"starred case \d+", cell)}) for edit in edit_names(cell)
                     if "edit that is refused" in row.head[row.cells.index(cell)] and edit[1].startswith("error_")]
            yield from (page.fault(row.line, f"edit {'/'.join(edit)} is refused by {', '.join(sorted(names.sources.refusers[edit]))}")
                        for edit, laws in said if edit in names.sources.edits and not names.sources.refusers[edit] & laws)


def starred(names, page):
    """Numbers of starred cases, and of those of `errors`, that are none."""
    for line, _, text in page.parts():
        for said, table in [(found[1], "cases") for found in STARRED.finditer(text)] + [found.groups() for found in NUMBERED.finditer(text)]:
            many = names.sources.cases(table)
            yield from (page.fault(line, f"`{table}` has no case {number}: it has {many}, from 0 on")
                        for number in re.findall(r"\d+", said) if int(number) >= many)


def unread(_, page):
    """Lists of cases in another form than names or numbers with `, ` and ` and `."""
    for line, _, text in page.parts():
        yield from (page.fault(line, f"'{found[0]}': say each number") for found in re.finditer(rf"tarred cases? {NUMBERS}(?: to |-|–)\d+", text))
    for row in page.rows:
        pieces = row.cells[row.head.index("proved")].split("; ") if "proved" in row.head else ()
        yield from (page.fault(row.line, f"'{piece}': after `case` a list of names is read") for piece in pieces
                    if re.match("cases? ", piece) and not WORKED.fullmatch(piece))


def numbered(names, page):
    """The table of the starred cases: numbers that are none, and those that it lacks."""
    many, listed = names.sources.cases("cases"), {}
    for row in page.rows:
        if NUMBER_IN in row.head and re.fullmatch(NUMBERS, row.cells[row.head.index(NUMBER_IN)]):
            listed.update((int(number), row.line) for number in re.findall(r"\d+", row.cells[row.head.index(NUMBER_IN)]))
    yield from (page.fault(line, f"`cases` has no case {number}: it has {many}, from 0 on") for number, line in listed.items() if number >= many)
    yield from (page.fault(0, f"case {number} of `cases` is not listed under '{NUMBER_IN}'") for number in range(many) if number not in listed)


def worked(names, page):
    """Worked cases that do not exist, and those that the page lacks."""
    named = set()
    for line, _, text in page.parts():
        for name in [name for found in WORKED.finditer(text) for name in re.split(", | and ", found[1] or found[2])]:
            named.add(name)
            if name not in names.sources.worked:
                yield page.fault(line, f"there is no case {name} in second/worked/sentences")
        named.update(quoted(text))
    yield from (page.fault(0, f"case {name} of second/worked/sentences/{file} is not named")
                for name, file in names.sources.worked.items() if name not in named)


def said_files(page):
    """(line, crate, file) of each file that the page names, in its order: as crate/File, or as File: in a table of a crate."""
    found = [(line, one["crate"], one["file"]) for line, _, text in page.parts() for one in re.finditer(PLACE, text) if one["crate"]]
    for row in page.rows:
        for head in filter(None, map(HEAD.match, row.head)):
            found += [(row.line, head["crate"], file) for file in [head["file"], *re.findall(r"\b([A-Z]\w+):", " ".join(row.cells))] if file]
    return sorted(found)


def bound(cell, *forms):
    """From the place of each name to the file that stands after it, or to the crate."""
    return {found.start("run") + inner.start(): (found["crate"], found.groupdict().get("file")) for form in forms for found in form.finditer(cell)
            if found["crate"] for inner in QUOTED.finditer(found["run"])}


def definition_cell(cell, crate, default, place):
    """(name, file that it must be declared in, and in which folders) of a cell: the file said after it, or else before it."""
    after = bound(cell, OF_CRATE, RUN_AT)
    for found in TOKEN.finditer(cell):
        if found["crate"] and found["colon"]:
            place = found["crate"], found["file"]
        elif found["own"] and crate:
            place = crate, found["own"]
        elif found["next"]:
            place = default or place
        elif found["name"]:
            yield found["name"], after.get(found.start(), place), ("specs", "proofs") if found.start() in after else ("specs",)


def definitions(names, page):
    """Names of the definition columns that their file does not declare. Without a file a name is of the one in the table's head; where the head has
    none, of the one before it in the cell, or else of the one that the cell above begins with. Types may be the crate's code."""
    table, began, said = None, None, said_files(page)
    for row in page.rows:
        column = next((at for at, title in enumerate(row.head) if title.startswith("definition")), None)
        if column is None:
            continue
        head = HEAD.match(row.head[column])
        default = (head["crate"], head["file"]) if head and head["file"] else None
        began = began if table == (row.section, row.head) else None
        table, pairs = (row.section, row.head), list(definition_cell(row.cells[column], head["crate"] if head else "", default, default or began))
        began = next((place for _, place, _ in pairs if place and place[1]), began)
        for name, place, folders in pairs:
            if place and not (names.in_file(name, *place, folders) or name in names.sources.code[place[0]]):
                yield page.fault(row.line, f"`{name}` is not declared in {'/'.join(filter(None, place))}{elsewhere(names, name)}")
            elif not place and not any((crate, file) == one[1:] for crate, _, file in names.places(name) for one in said if one[0] <= row.line):
                yield page.fault(row.line, f"`{name}`: no file said declares it{elsewhere(names, name)}")


def function_of(names, name, crate, module, before):
    """The function that a name means: whole, or of the crate before it in the cell; with its module also of a crate named in the section."""
    homes = [crate, *(dict.fromkeys(before.values()) if "::" in name else ())]
    return next(filter(None, (names.function(name, home, module if home == crate else "") for home in homes)), None)


def proved_cell(names, cell, before, said):
    """What is wrong with the names of a cell that are no definition's: functions, those named in the section before, and laws of a file said."""
    crate = module = ""
    after = bound(cell, RUN_AT)
    for found in QUOTED.finditer(cell):
        name = found[1]
        function = function_of(names, name, crate, module, before)
        if function:
            crate, module = function.crate, function.module
            before[function.name] = crate
        elif "::" in name:
            yield f"there is no function `{name}`"
        elif found.start() in after or name in before or names.plain(name) or any((home, file) in said for home, _, file in names.places(name)):
            continue
        elif names.places(name):
            yield f"`{name}`: no file said before declares it{elsewhere(names, name)}"
        elif name in names.functions:
            yield f"`{name}`: no crate before it in the cell has such a function, and none of that name is named before in the section"
        elif not names.exists(name):
            yield f"`{name}` does not exist"


def proved(names, page):
    """Faults of all other columns."""
    section, before, said = None, {}, said_files(page)
    for row in page.rows:
        section, before = row.section, before if row.section == section else {}
        files_before = {place[1:] for place in said if place[0] <= row.line}
        for at, (title, cell) in enumerate(zip(row.head, row.cells)):
            if at and not title.startswith("definition"):
                yield from (page.fault(row.line, fault) for fault in proved_cell(names, cell, before, files_before))
            elif not at:
                yield from (page.fault(row.line, f"`{name}` does not exist") for name in quoted(cell) if not names.exists(name))
    for text in page.texts:
        yield from (page.fault(text.line, f"`{name}` does not exist") for name in quoted(text.said) if not names.exists(name))
    for line, _, text in page.parts():
        yield from misplaced(names, page, line, text)


def cited(names, page):
    """Functions whose promise comes to no definition of their row; `the same` is the cell above, and a function after "by" is a means."""
    section, before, above = None, {}, set()
    for row in page.rows:
        column = next((at for at, title in enumerate(row.head) if title.startswith("definition")), None)
        if column is None or "proved" not in row.head:
            continue
        before, above, section = (before, above, section) if row.section == section else ({}, set(), row.section)
        definitions = set().union(*(names.reach.called.get(name, ()) for name in quoted(row.cells[column])))
        above = definitions | (above if "the same" in row.cells[column] else set())
        crate, module, cell = "", "", row.cells[row.head.index("proved")]
        for found in QUOTED.finditer(cell):
            function = function_of(names, found[1], crate, module, before)
            if function:
                crate, module, before[function.name] = function.crate, function.module, function.crate
                if above and not cell[:found.start()].endswith("by ") and not names.reach.meets(function, above):
                    yield page.fault(row.line, f"the promise of {function.path} comes to no definition of the row")


def faults(names, page):
    """All faults of the page."""
    for check in (unfiled, lines.faults, definitions, proved, cited, edits, refused, unread, starred, numbered, worked):
        yield from check(names, page)
