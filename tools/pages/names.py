"""Which names exist, and in which file: for what stands in backquotes."""

import re

from .page import QUOTED, Page, quoted
from .reach import Reach
from .sources import ROOT, read, words

LANGUAGE = {"requires", "ensures", "pub", "fn", "mod", "match", "break", "use", "unfoldable", "abbrev", "unfolding", "module", "where", "record"}
OTHERS = {
    "crate/File: name", "crate::module::function",  # stand for any name
    "es",  # the list of events of the theorem of demand 3
    "axioms=3", "read", "write", "rattle_errno",  # what the gate prints, and what those axioms are of
    "003, 4.2.1:",  # how a comment names a source
    "n.", "Bool",  # of the language: what `use M as n` puts before names, and the type of tests
}
PLACE = (r"(?:(?<![\w/.`])(?P<crate>[a-z]\w*)/(?P<file>[A-Z]\w*)\b(?!/|\.\w)"
         r"|(?P<path>(?:crates/\w+/)?(?:(?:specs|proofs)/)?[A-Z]\w*\.antt))")
RUN = r"(?P<run>(?:`[^`]+`(?:,\s+and\s+|,\s+|\s+and\s+))*`[^`]+`)"
RUN_AT = re.compile(RUN + r"(?:\s+\(|,\s+|\s+of\s+)" + PLACE + r"(?!:\s+`)")
RUN_OF = re.compile(RUN + r"\s+of\s+`?(?P<crate>[a-z]\w*)\b`?")
PATH = re.compile(r"(?<![\w/`])(?:(?:crates|docs|second|tools|include|examples|speed|bin|uistermo)/[\w.*/-]*[\w*/]"
                  r"|[a-z]\w*/(?:src|specs|proofs)\b[\w./]*|(?:src|specs|proofs)/[\w./]*\w)")
SECTION = re.compile(r"Crate `(\w+)`")
BYTES = re.compile(r"[0-9A-F]{2,}( [0-9A-F]{2,})*|[-?]")
CODE = re.compile(r"[\[{&=;]")
IDENTIFIER = re.compile(r"(?<![\w'◌-])[^\W\d_][\w'◌-]*")
FIELD = re.compile(r"(?<![\w./])([A-Z]\w*)\.(\w+)")


class Names:
    """The names of the sources, of the C header, of the tool, of docs/CASEBOOK.md and of the vocabulary of docs/DEFINITION.md."""

    def __init__(self, sources):
        self.sources, self.homes, self.functions = sources, {}, {}
        for place, declared in sources.declared.items():
            for name in declared:
                self.homes.setdefault(name, []).append(place)
        for function in sources.functions:
            self.functions.setdefault(function.name, []).append(function)
        self.laws = {name for place, source in sources.files.items() if place[1] == "proofs" for name in source.heads}
        self.reach = Reach(sources)
        self.edits = {edit for _, edit in sources.edits}
        self.text = "\n".join(path.read_text(encoding="utf-8") for path in sorted(ROOT.glob("crates/*/src/*.rt")))
        casebook = {said for _, _, text in Page("", read("docs/CASEBOOK.md")).parts() for said in quoted(text)}
        symbols = [said for row in Page("", read("docs/DEFINITION.md")).rows if row.head[0] == "symbol" for said in quoted(row.cells[0])]
        tests = "".join(path.read_text(encoding="utf-8") for path in ROOT.glob("second/tests/*.py"))
        tool = "".join(path.read_text(encoding="utf-8") for path in ROOT.glob("uistermo/*.c"))
        self.commands, options = re.findall(r"\.name = \"(\w+)\"", tool), re.findall(r"\"(--\w+)\"", tool)
        self.others = set().union(
            *sources.code.values(), sources.worked, casebook, (said.split()[0] for said in casebook), symbols,
            (word for said in symbols for word in [*IDENTIFIER.findall(said), *words(said).split()]),
            (function.module for function in sources.functions), (file for _, _, file in sources.files),
            re.findall(r"\w+", re.sub(r"#.*", "", read("crates.txt"))), re.findall(r"\w+", read("include/uistermo.h")),
            re.findall(r"def (test_\w+)", tests), options)

    def places(self, name):
        """The antt files that declare a name: (crate, folder, file)."""
        return self.homes.get(name, [])

    def in_file(self, name, crate, file, folders=("specs", "proofs")):
        """Whether crates/CRATE/FOLDER/FILE.antt declares a name."""
        return any(name in self.sources.declared.get((crate, folder, file), ()) for folder in folders)

    def function(self, path, crate="", module=""):
        """The function of a path, whole or from a crate on, the module before it first."""
        whole = self.sources.by_path
        starts = [f"{crate}::{module}::", f"{crate}::", ""] if module else [f"{crate}::", ""]
        return next((whole[start + path] for start in starts if start + path in whole), None)

    def in_crate(self, name, crate):
        """Whether a crate has an edit, a function, a type or a declared name that is called so."""
        return ((crate, name) in self.sources.edits or name in self.sources.code[crate] or self.function(name, crate)
                or any(place[0] == crate for place in self.places(name)) or any(function.crate == crate for function in self.functions.get(name, ())))

    def member(self, name):
        """Whether a name is that of a record with one of its fields."""
        record, _, field = name.partition(".")
        return any(field in source.members.get(record, ()) for source in self.sources.files.values())

    def no_member(self, said):
        """Whether what is said has a declared record with a field that is none of it."""
        return any(not self.member(f"{record}.{field}") for record, field in FIELD.findall(said)
                   if any(record in source.members for source in self.sources.files.values()))

    def file(self, name):
        """Whether a name is that of a file or folder, or a command that begins with one or with rt; CRATE and FILE stand for any. After the tool's
        own name there may stand one of its commands or options."""
        first, *rest = name.split()
        if first == "rt":
            return all(word in self.sources.crates for word in rest[1:])
        if first == "bin/uistermo" and rest and rest[0] not in self.commands and rest[0] not in self.others:
            return False
        if "/" not in first or first.startswith("/"):
            return (ROOT / first).is_file()
        return any(True for _ in ROOT.glob(re.sub("CRATE|FILE", "*", first.rstrip("/"))))

    def plain(self, name):
        """Whether a name is of a kind that needs no crate or file beside it: a type, a module, a crate, a file, a word of C, of casebook .."""
        return name in self.others or self.member(name) or self.file(name)

    def known(self, name, crate=""):
        """Whether a name is one of any kind; edits and functions of a crate where it is given."""
        if self.plain(name) or self.places(name) or self.function(name, crate):
            return True
        return self.in_crate(name, crate) if crate else name in self.functions or name in self.edits

    def exists(self, said, crate=""):
        """Whether what stands in backquotes exists: a name, bytes, the beginning of an edit's name, code, or an expression of such names."""
        if said in OTHERS or said in LANGUAGE or BYTES.fullmatch(said) or self.known(said, crate):
            return True
        if self.no_member(said):
            return False
        if CODE.search(said):
            return all(piece in self.text for piece in said.split(" .. "))
        if re.fullmatch(r"[a-z]+_", said):
            return any(edit.startswith(said) for edit in self.edits)
        if "::" in said or "/" in said or re.fullmatch(r"[\w'◌-]{2,}", said):
            return False
        return all(len(name) == 1 or name in LANGUAGE or name in OTHERS or self.known(name, crate) for name in IDENTIFIER.findall(said))


def crate_of(section):
    """The crate of a section, if it is one's."""
    found = SECTION.match(section)
    return found[1] if found else ""


def elsewhere(names, name):
    """Where a name is declared instead, in words."""
    places = [f"crates/{crate}/{folder}/{file}.antt" for crate, folder, file in names.places(name)]
    return f", but in {', '.join(places)}" if places else ""


def file_of(found, crate):
    """Crate, file and folders of an antt file as a page names it: crate/File, or its path, whole or from the section's crate on."""
    if found["crate"]:
        return found["crate"], found["file"], ("specs", "proofs")
    parts = found["path"][:-5].split("/")
    if parts[0] == "crates":
        return parts[1], parts[-1], tuple(parts[2:-1])
    return crate, parts[-1], tuple(parts[:-1]) or ("specs", "proofs")


def misplaced(names, page, line, text, crate=""):
    """Names that the file named after them does not declare. Of an expression, its first name."""
    for found in RUN_AT.finditer(text):
        home, file, folders = file_of(found, crate)
        for name in (IDENTIFIER.findall(said)[0] if " " in said else said for said in quoted(found["run"])):
            if "::" not in name and not names.in_file(name, home, file, folders):
                yield page.fault(line, f"`{name}` is not declared in {found['path'] or home + '/' + file}{elsewhere(names, name)}")


def unfiled(names, page):
    """Files and folders named outside backquotes that are none, those named as crate/File, or from a crate or the section's crate on, among them."""
    for line, section, text in page.parts():
        plain = QUOTED.sub("", text)
        for found in re.finditer(PLACE, plain):
            if found["crate"] and not any((found["crate"], folder, found["file"]) in names.sources.declared for folder in ("specs", "proofs")):
                yield page.fault(line, f"there is no file {found['file']}.antt in crates/{found['crate']}/specs or proofs")
        for path in (found[0] for found in PATH.finditer(plain)):
            starts = ["", "crates/", f"crates/{crate_of(section)}/"]
            if not any(names.file(start + path + end) for start in starts for end in ("", ".antt")):
                yield page.fault(line, f"there is no file or folder {path}")
