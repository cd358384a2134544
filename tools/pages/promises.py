"""docs/PROMISES.md: each function's row against its contract, each edit against its file."""

import collections
import re

from . import lines
from .names import IDENTIFIER, LANGUAGE, RUN_OF, crate_of, misplaced, unfiled
from .page import QUOTED, Fault, quoted
from .sources import read, words

PATH = "docs/PROMISES.md"
LEAVES_NONE = "no choice by"
# words of a promise that only say what the code's own values are in the definition: kind and frame as an event, a vault as a view
READ_FROM_CODE = {"event_of", "view_of"}
NO_DEFINITION = {"&mut"}
RELATION = re.compile(r" (?:≡|≤|<) ")
NONE, NONE_PUBLIC, PROGRAM = "(no `requires`)", "(no `requires` on any public function)", "(a program)"


def listed(names, crate, cell):
    """What a cell of a crate's section names, in order: functions, and as text what is none. A name without a module is of the one before it."""
    module, found = "", []
    for name in quoted(cell):
        function = names.function(name, crate, module)
        own = function and function.crate == crate
        module = function.module if own else module
        found.append(function if own else name)
    return found


def stands(said, facts):
    """Whether an expression stands in a contract, one with a relation as a whole fact of it; `..` is anything."""
    pattern = "".join(r"(?:\S+ )*" if word == ".." else re.escape(word) + " " for word in words(said).split())
    whole = RELATION.search(said)
    return any(re.search((r"(?:^|[(×] )" if whole else "(?:^| )") + pattern + (r"(?:$|[)×])" if whole else ""), fact + " ") for fact in facts)


def of_repository(function, facts):
    """The definitions of this repository's specs that a contract names."""
    brought = {name for name, path in function.uses.items() if re.match(r"Rattle\.\w+\.specs\.[A-Z]", path)}
    return (brought & set(" ".join(facts).split())) - READ_FROM_CODE


def definitions(function, contract):
    """What a row must name of a contract: the definitions of this repository, and in a promise the first word of what a result is equal to."""
    facts = getattr(function, contract)
    results = re.findall(r"≡ (?:\( )*(\S+)", " ".join(facts)) if contract == "ensures" else ()
    return of_repository(function, facts) | set(results) - LANGUAGE


def compared(functions, said, contract):
    """In words, where a row and the contracts of its functions differ. As many expressions as functions go with them in order."""
    facts = [getattr(function, contract) for function in functions]
    yield from (f"`{one}` is neither a fact nor a definition of the `{contract}`" for one in said
                if not RELATION.search(one) and not any(set(words(one).split()) & definitions(function, contract) for function in functions))
    if len(said) == len(functions):
        yield from (f"`{one}` does not stand in the `{contract}` of {function.path}: {' and '.join(fact)}"
                    for one, function, fact in zip(said, functions, facts) if not stands(one, fact))
    else:
        yield from (f"`{one}` stands in the `{contract}` of none of the row's functions" for one in said if not any(stands(one, fact) for fact in facts))
        yield from (f"nothing that the row says stands in the `{contract}` of {function.path}: {' and '.join(fact)}"
                    for function, fact in zip(functions, facts) if said and not any(stands(one, fact) for one in said))


def choices(names, functions, laws):
    """In words, what is wrong with the laws by which a row leaves no choice: `one_put` for `Put`, `one_result` for equations, else of a definition."""
    facts = [" ".join(function.ensures).split() for function in functions]
    for law, by in (("one_put", ["Put" in fact for fact in facts]), ("one_result", ["≡" in fact and "Put" not in fact for fact in facts])):
        if laws and all(by) and law not in laws or law == "one_put" and law in laws and not all(by):
            yield f"such a promise leaves no choice by {', '.join(laws)}"
    named = {name for function in functions for _, _, name in names.reach.all(names.reach.cited(function))}
    for law in laws:
        heads = [source.heads[law] for place, source in names.sources.files.items() if place[1] == "proofs" and law in source.heads]
        if law not in ("one_put", "one_result") and not any(set(IDENTIFIER.findall(head)) & named for head in heads):
            yield f"`{law}` says nothing of what the promise names"


def contracts(names, page, row, crate):
    """Faults of a row of functions: of its names, and against the contracts."""
    contract, column = ("ensures", "promise") if row.head[0] == "function" else ("requires", "asks")
    every = listed(names, crate, row.cells[0])
    functions = [function for function in every if not isinstance(function, str)]
    yield from (page.fault(row.line, f"crate {crate} has no function `{name}`") for name in every if isinstance(name, str))
    yield from (page.fault(row.line, f"{function.path} has no `{contract}`") for function in functions if not getattr(function, contract))
    said = [one for one in quoted(row.cells[row.head.index(column)]) if one not in NO_DEFINITION]
    if contract == "ensures" and not said:
        yield page.fault(row.line, "the row names no definition")
    yield from (page.fault(row.line, fault) for fault in compared(functions, said, contract))
    by = row.cells[row.head.index(LEAVES_NONE)] if LEAVES_NONE in row.head else ""
    yield from (page.fault(row.line, fault) for fault in choices(names, functions, [law for law in quoted(by) if law in names.laws]))
    if "`" in by and not names.laws & set(quoted(by)):
        yield page.fault(row.line, f"no law leaves no choice: {by}")


def incomplete(names, page, first, contract, column):
    """Functions of whose contract a definition of this repository stands in none of their rows."""
    said, line = collections.defaultdict(set), {}
    for row in page.rows:
        if row.head[0] == first:
            functions = [function for function in listed(names, crate_of(row.section), row.cells[0]) if not isinstance(function, str)]
            every = [words(one).split() for one in quoted(row.cells[row.head.index(column)])]
            paired = contract == "ensures" and len(every) == len(functions)
            for function, own in zip(functions, every if paired else [sum(every, [])] * len(functions)):
                said[function.path].update(own)
                line.setdefault(function.path, row.line)
    for path, named in said.items():
        function = names.sources.by_path[path]
        lacks = sorted(definitions(function, contract) - named)
        if lacks:
            yield page.fault(line[path], f"the `{contract}` of {path} also names {', '.join(f'`{name}`' for name in lacks)}")
    for function in names.sources.functions:
        if function.path not in said and (function.public if contract == "ensures" else function.requires):
            yield page.fault(0, f"{function.path}: its `{contract}` is not listed in the section of its crate")


def of_others(names, cell):
    """From the place of each name to the crate that stands after it, as `last_byte_left` of `put`."""
    return {found.start("run") + inner.start(): found["crate"] for found in RUN_OF.finditer(cell) if found["crate"] in names.sources.crates
            for inner in QUOTED.finditer(found["run"])}


def beside(names, page, line, cell, crate):
    """Faults of the other cells: a name is of the crate that stands after it, of the one before it in the cell, or of the section's."""
    apart, before = of_others(names, cell), crate
    for found in QUOTED.finditer(cell):
        name, home = found[1], apart.get(found.start())
        if home and not names.in_crate(name, home):
            yield page.fault(line, f"crate {home} has no edit, function or definition `{name}`")
        elif not home and not names.exists(name, crate) and not names.exists(name, before):
            yield page.fault(line, f"`{name}` is no edit, function or definition of crate {crate}" + (f" or {before}" if before != crate else ""))
        before = name.split("::")[0] if "::" in name and name.split("::")[0] in names.sources.crates else before


def rows(names, page):
    """Faults of every row and paragraph of the page."""
    for row in page.rows:
        held = row.head[0] in ("function", "`requires` of")
        if held:
            yield from contracts(names, page, row, crate_of(row.section))
        for title, cell in zip(row.head, row.cells):
            if not (held and title in (row.head[0], "promise", "asks")):
                yield from beside(names, page, row.line, cell, crate_of(row.section))
    for text in page.texts:
        yield from beside(names, page, text.line, text.said, crate_of(text.section))
    for line, section, said in page.parts():
        yield from misplaced(names, page, line, said, crate_of(section))


def lacking(names, page):
    """Edits that the page lacks, and heads of sections that say otherwise than the sources."""
    heads = {crate_of(section): section.partition("` ")[2] for _, section, _ in page.parts()}
    for crate in names.sources.crates:
        asks = [function.public for function in names.sources.functions if function.crate == crate and function.requires]
        empty = not any(function.crate == crate for function in names.sources.functions)
        right = "" if any(asks) or empty else NONE_PUBLIC if asks else NONE
        if crate not in heads:
            yield page.fault(0, f"crate {crate}: no section")
        elif heads[crate] not in (right, PROGRAM):
            yield page.fault(0, f"crate {crate}: its section's head says '{heads[crate]}', and {len(asks)} functions, {sum(asks)} public, have a `requires`")
    named = {(of_others(names, text).get(found.start(), crate_of(section)), found[1]) for _, section, text in page.parts() for found in QUOTED.finditer(text)}
    yield from (page.fault(0, f"edit {edit} is not named in the section of its crate {crate}")
                for crate, edit in names.sources.edits if (crate, edit) not in named)


def refused(names, page):
    """Rows of edits whose laws, those in brackets aside, are not the ones that the edits' own comments name."""
    for row in page.rows:
        laws = set(quoted(re.sub(r"\([^)]*\)", "", row.cells[0])))
        if row.head == ("what they alter", "edits") and laws:
            crate = crate_of(row.section)
            right = set().union(*(names.sources.refusers.get((crate, edit), set()) for edit in quoted(row.cells[1])))
            yield from (page.fault(row.line, f"`{law}`: only one of the row and the comments of its edits names it")
                        for law in sorted(laws ^ right) if not law.startswith("starred "))


def edits(names):
    """Faults of the edits themselves: what one alters stands once in its file, and is altered."""
    for (crate, edit), changes in names.sources.edits.items():
        path = f"crates/{crate}/must-fail/{edit}.edit"
        if not changes:
            yield Fault(path, 0, "it alters nothing")
        for change in changes:
            times = read("crates", crate, change.file).count(change.old)
            if times != 1:
                yield Fault(path, 0, f"'{change.old.strip()}' stands {times} times in crates/{crate}/{change.file}")
            if change.old == change.new:
                yield Fault(path, 0, f"'{change.old.strip()}' is not altered")


def faults(names, page):
    """All faults of the page and of the edits that it names."""
    yield from unfiled(names, page)
    yield from lines.faults(names, page)
    yield from rows(names, page)
    yield from incomplete(names, page, "function", "ensures", "promise")
    yield from incomplete(names, page, "`requires` of", "requires", "asks")
    yield from lacking(names, page)
    yield from refused(names, page)
    yield from edits(names)
