"""What the repository declares: definitions, laws, functions with their contracts, must-fail edits, cases."""

import collections
import pathlib
import re
import sys
from typing import NamedTuple, Tuple

from declared import Antt, Code

ROOT = pathlib.Path(__file__).resolve().parents[2]
MODULE = re.compile(r"^(pub )?mod (\w+);", re.M)
CONTRACT = re.compile(r"\b(requires|ensures)(?:\s+\w+)?\s*\{(.*?)\}(?=\s*(?:requires\b|ensures\b|$))")
WORD = re.compile(r"\.\.|[()]|\.?[^\s().,;{}]+")
LOOKED_AT = (".now", ".old", ".new")
OF_FUNCTIONS = ("Invariants.antt", "Answers.antt", "Proof.antt")


class Function(NamedTuple):
    """A function of a crate; whether another crate can call it; its file with its first line and the last; its contract; what `use` lines bring of the
    repository's own."""

    crate: str
    module: str
    name: str
    public: bool
    file: str
    lines: range
    requires: Tuple[str, ...]
    ensures: Tuple[str, ...]
    uses: dict

    @property
    def path(self):
        """crate::module::function"""
        return "::".join(filter(None, (self.crate, self.module, self.name)))


class Change(NamedTuple):
    """One change of a must-fail edit: where, what, and by what."""

    file: str
    old: str
    new: str


def read(*path):
    """The text of a file of the repository."""
    return ROOT.joinpath(*path).read_text(encoding="utf-8")


def words(text):
    """The words of a fact, without what only says when a buffer is looked at, and without brackets around one word."""
    said = " ".join(word for word in WORD.findall(text) if word not in LOOKED_AT)
    while True:
        bare = re.sub(r"\( ([^\s()]+) \)", r"\1", said)
        if bare == said:
            return said
        said = bare


def crates():
    """The crates of crates.txt, bottom up, and whether each is a program."""
    names = (line.split("#")[0].split(":")[0].split() for line in read("crates.txt").split("\n"))
    return {name[0]: ROOT.joinpath("crates", name[0], "src", "main.rt").exists() for name in names if name}


def own(path):
    """Whether a path of a `use` line begins with a crate of the repository."""
    first, crate, *_ = path.split(".") + [""]
    return first == "Rattle" and ROOT.joinpath("crates", crate, "src").is_dir()


def functions(crate, program, module="", public=True):
    """The functions of a module and of those below it."""
    file = f"crates/{crate}/src/{module.replace('::', '/') or ('main' if program else 'lib')}.rt"
    text = read(file)
    code = Code(text)
    starts = code.functions
    ends = sorted(starts.values()) + [text.count("\n") + 1]
    uses = {word: path for word, path in code.uses.items() if own(path)}
    for name in sorted(code.functions, key=starts.get):
        contract = CONTRACT.findall(code.heads[name].strip())
        said = {word: tuple(words(fact) for kind, fact in contract if kind == word) for word in ("requires", "ensures")}
        seen = public and not program and bool(re.match(r"(?:#\[[^\]]*\] *)*pub\b", code.heads[name]))
        lines = range(starts[name], ends[ends.index(starts[name]) + 1])
        yield Function(crate, module, name, seen, file, lines, said["requires"], said["ensures"], uses)
    for found in MODULE.finditer(text):
        yield from functions(crate, program, "::".join(filter(None, (module, found[2]))), public and bool(found[1]))


def members(source):
    """All names that a file declares, those of fields and cases among them."""
    return set(source.heads) | {name for names in source.members.values() for name in names}


def changes(text):
    """The changes of an edit. A file stands once before all its changes."""
    said, found = {}, []
    for key, _, value in (line.partition(": ") for line in text.split("\n") if line and line[0] != "#"):
        said[key.rstrip(":")] = value
        if key.rstrip(":") == "new":
            found.append(Change(said["file"], said["old"], value))
    return found


def refusers(text):
    """What refuses an edit, by the words of its comment: names of laws, and starred cases."""
    said = re.search(r"^#.*; refused by (.*)", text, re.M)
    return set(re.findall(r"starred case \d+|[a-z]+(?:_[a-z]+)+|(?<=law )[a-z]+", re.sub("`[^`]*`", "", said[1]))) if said else set()


def worked():
    """The names of the worked cases of second/worked/sentences with the page of each, and how many lines those of the session program have."""
    sys.path.insert(0, str(ROOT / "second"))
    stored = __import__("worked")
    texts = {path.name: path.read_text(encoding="utf-8") for path in sorted(ROOT.glob("second/worked/sentences/[!_]*.py"))}
    pages = {case.name: next((file for file, text in texts.items() if f'"{case.name}"' in text), "") for case in stored.CASES + stored.SESSION_CASES}
    return pages, sum(len(case.lines) for case in stored.SESSION_CASES)


class Sources:
    """All of it, read once."""

    def __init__(self):
        self.crates = crates()
        self.functions = [function for crate, program in self.crates.items() for function in functions(crate, program)]
        self.by_path = {function.path: function for function in self.functions}
        self.files, self.code = {}, collections.defaultdict(set)
        for path in self.listed("[ps]*/**/*"):
            _, crate, folder, *below = path.relative_to(ROOT).parts
            if path.suffix == ".antt" and folder in ("specs", "proofs") and below[-1] not in OF_FUNCTIONS:
                self.files[crate, folder, "/".join(below)[:-5]] = Antt(path.read_text(encoding="utf-8"), folder == "proofs")
            elif path.suffix == ".rt" and folder == "src":
                code = Code(path.read_text(encoding="utf-8"))
                self.code[crate] |= members(code) - code.functions.keys()
        self.declared = {place: members(source) for place, source in self.files.items()}
        texts = {(path.parts[-3], path.stem): path.read_text(encoding="utf-8") for path in self.listed("must-fail/*.edit")}
        self.edits = {edit: changes(text) for edit, text in texts.items()}
        self.refusers = {edit: refusers(text) for edit, text in texts.items()}
        self.worked, self.session_lines = worked()

    def listed(self, pattern):
        """The files of such paths in the crates of crates.txt."""
        return sorted(path for crate in self.crates for path in ROOT.glob(f"crates/{crate}/{pattern}"))

    def cases(self, table):
        """How many cases a table of crates/tag/specs/Cases.antt has: a `∷` outside brackets follows each."""
        depth, found = 0, 0
        for sign in re.findall(r"[()∷]", self.files["tag", "specs", "Cases"].heads[table]):
            depth += (sign == "(") - (sign == ")")
            found += sign == "∷" and not depth
        return found
