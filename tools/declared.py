"""What a source file declares, name by name, for tools/landing and tools/promises: antt (definitions, laws, proofs) and Rattle (code)."""

import collections
import re

# comments, and what is quoted
ANTT = r'(?P<note>\{-.*?-\}(?= *\n)|(?<![^\s(){}.;,@"«»])--[^\n]*)|"(?:\\.|[^"\\])*"|«[^»]*»'
RATTLE = r"(?P<note>/\*.*?\*/|//[^\n]*)|\"(?:\\.|[^\"\\])*\"|'(?:\\[^\n']+|\\'|[^'\\\n])'"
# layout inside brackets, with a separator that only the end of a line asks for
INSIDE = {ANTT: r"[,;]?\s+(?=[)}])|(?<=[({])\s+", RATTLE: r",?\s+(?=[)}\]])|(?<=[({\[])\s+"}
WORD = re.compile(r"[(){}]|[^\s(){}.;,@]+")
MARKS = ("pub", "abbrev", "unfoldable", "axiom")
SECTION = re.compile(r".*?\b(?:where|mutual) *\n", re.S)
ITEM = re.compile(
    r"(?:#\[[^\]]*\]\s*|pub(?:\([^)]*\))?\s+|ghost\s+|extern\s+\S+\s+(?=fn\b))*"
    r"(?P<word>fn|struct|enum|const|type|use|mod|impl)\b(?:<[^>]*>)?\s*(?P<name>\w+)")
TRAIT = re.compile(r"impl(?:<[^>]*>)? (\w+(?:<[^>]*>)? for \w+)")
CONTRACT = re.compile(r"\b(?:requires|ensures|ghost)(?:\s+\w+)?\s*$")
OF_CRATE = re.compile(r"#!\[[^\]\n]*\]")  # a line that says something of the whole crate
USE = re.compile(r"(?:\S+ )*use (?P<path>[^{} ]+?)(?:\.\{(?P<items>[^{}]*)\})?(?: as (?P<name>[^\s{}]+))?;?")

# what stands for a name: what stays if the name stays, what may change under it, and where the names in these texts come from
Declared = collections.namedtuple("Declared", "head body reads")


class Source:
    """A file: for each name the text of its head and of its body, the fields or cases of a type, what `use` lines bring, and the lines that
    could not be placed."""

    def __init__(self, source, quoted):
        def blotted(ink):
            return re.sub(quoted, lambda found: re.sub(r"[^\n]", " ", found[0]) if found["note"] else ink(found[0]), source, flags=re.S)
        self.text, self.shape = blotted(str), blotted(lambda said: "q" * len(said))
        self.layout = re.compile(rf"(?P<quoted>{quoted})|(?P<inside>{INSIDE[quoted]})|\s+", re.S)
        self.heads, self.bodies = collections.defaultdict(str), collections.defaultdict(str)
        self.uses, self.faults = {}, []
        self.members = collections.defaultdict(list)

    def said(self, start, end):
        """What stands between two places, without comments and layout."""
        return self.layout.sub(lambda found: found["quoted"] or ("" if found["inside"] else " "), self.text[start:end]).strip() + "\n"

    def fault(self, at):
        """Notes a line that could not be placed."""
        self.faults.append((self.text.count("\n", 0, at) + 1, self.text[at:].split("\n")[0].strip()))

    def use(self, start, end):
        """Notes the whole path of each name that a `use` line brings."""
        found = USE.fullmatch(self.said(start, end).strip().replace("::", "."))
        if not found:
            self.fault(start)
            return
        items = [""] if found["items"] is None else ["." + item.strip() for item in found["items"].split(",")]
        for whole, _, name in ((found["path"] + item).partition(" as ") for item in items):
            self.uses[found["name"] or name or whole.split(".")[-1]] = whole

    def declared(self):
        """What stands for each name. A text reads a name that `use` brings if it has the name, or a part of it where that is an operator."""
        for name, head in self.heads.items():
            text = head + self.bodies[name]
            words = set(re.findall(r"\w+", text)) | {word.strip("◌") for word in WORD.findall(text)}
            reads = {word: path for word, path in self.uses.items() if words & set(filter(None, word.split("◌")))}
            yield name, Declared(head, self.bodies[name], reads)


class Antt(Source):
    """A file of definitions or laws. The head of a law is its signature; of a definition, a type or what others may unfold, all of it."""

    def __init__(self, source, laws):
        super().__init__(source, ANTT)
        self.laws, self.unfolds = laws, set()
        self.block(0, len(self.text), "", set())

    def items(self, start, end):
        """Where each item of a block begins and ends: at the block's column, outside brackets."""
        column, depth, starts = None, 0, []
        for line in re.compile(r"( *)(\S[^\n]*)").finditer(self.shape, start, end):
            column = len(line[1]) if column is None else column
            if depth == 0 and len(line[1]) <= column and line[2][0] not in ")}]":
                starts.append(line.start(2))
            depth += len(re.findall(r"[({]", line[2])) - len(re.findall(r"[)}]", line[2]))
        if depth:
            self.fault(starts[-1] if starts else start)
        return zip(starts, starts[1:] + [end])

    def left(self, at, stop):
        """Of an item: its marks, the words outside brackets before the first `:` or `=` there, and which it is: a signature or a clause."""
        depth, marks, words = 0, set(), []
        for found in WORD.finditer(self.shape, at, stop):
            depth += (found[0] in ("(", "{")) - (found[0] in (")", "}"))
            if depth == 0 and found[0] in (":", "="):
                return marks, words, found[0]
            if not words and found[0] in MARKS:
                marks.add(found[0])
            elif depth == 0 and found[0] not in (")", "}"):
                words.append(self.text[found.start():found.end()])
        return marks, words, None

    def block(self, start, end, context, outer):
        """The declarations of a file or a section. The context is what a section says of each of its members."""
        current = None
        for at, stop in self.items(start, end):
            (marks, words, sign), said = self.left(at, stop), self.said(at, stop)
            first, section = words[0] if words else "", SECTION.match(self.shape, at, stop)
            if first == "use":
                self.use(at, stop)
            elif first in ("module", "mutual") and section:
                self.block(section.end(), stop, context + self.said(at, section.end()), outer | marks)
            elif first in ("infix", "infixl", "infixr"):
                for name in words[2:]:
                    self.heads[name] += said
            elif first == "open" or (first == "unfolding" and current is None):
                context += said
            elif first in ("data", "record", "ruleset") and len(words) > 1 and sign:
                self.heads[words[1]] += context + said
                self.members[words[1]] += self.inside(section.end(), stop) if section else []
            elif sign == ":":
                current = words[-1]
                for name in words:
                    self.heads[name] += context + said
                self.unfolds |= set(words) if not self.laws or {"abbrev", "unfoldable"} & (outer | marks) else set()
            elif first != "mod":
                self.clause(at, said, current, words if sign else [current] if first == "unfolding" else [])

    def inside(self, start, end):
        """The names that the body of a record or of data declares."""
        return [name for at, stop in self.items(start, end) for _, words, sign in [self.left(at, stop)] if sign == ":" for name in words]

    def clause(self, at, said, current, words):
        """A clause or an `unfolding` line, of the current name, which may be an operator among its arguments, or of the first one."""
        infix = "◌" in (current or "") and set(filter(None, current.split("◌"))) <= set(WORD.findall(said.split(" = ")[0]))
        name = current if infix else words[0] if words else None
        if name in self.heads:
            (self.heads if name in self.unfolds else self.bodies)[name] += said
        else:
            self.fault(at)


class Code(Source):
    """A file of code. The head of a function is its promise; of a type or a constant, all of it."""

    def __init__(self, source):
        super().__init__(source, RATTLE)
        self.functions = {}  # and the line of each
        self.block(0, len(self.text), "", "")

    def block(self, start, end, prefix, context):
        """The items of a file, or of an `impl` or `mod` with braces."""
        while found := re.compile(r"\S[^\n]*").search(self.shape, start, end):
            if OF_CRATE.fullmatch(found[0].strip()):
                start = found.end()
                continue
            item = ITEM.match(self.shape, found.start(), end)
            body, stop = self.extent(item, end) if item else (None, None)
            if stop:
                self.item(item, body, stop, prefix, context)
            else:
                self.fault(found.start())
            start = stop or found.end()

    def extent(self, item, end):
        """Where those braces of an item begin that are no contract's (else its end), and where it ends."""
        depth, body = 0, None
        for found in re.compile(r"[(){}\[\];]").finditer(self.shape, item.end(), end):
            sign, at = found[0], found.start()
            if sign == "{" and depth == 0 and item["word"] not in ("use", "const", "type") and not CONTRACT.search(self.shape, item.end(), at):
                body = at
            depth += (sign in "({[") - (sign in ")}]")
            if depth == 0 and (sign == ";" or (sign == "}" and body)):
                return body or at + 1, at + 1
        return None, None

    def item(self, item, body, stop, prefix, context):
        """One item."""
        at, word, name = item.start(), item["word"], prefix + item["name"]
        if word == "use":
            self.use(at, stop)
        elif word == "impl" or (word == "mod" and body < stop):
            said = self.said(at, body)
            trait = TRAIT.match(said)  # of one trait and of one type there are several
            self.block(body + 1, stop - 1, (prefix + trait[1] if trait else name) + "::", context + said)
        elif word == "fn":
            self.heads[name] += context + self.said(at, body)
            self.bodies[name] += self.said(body, stop)
            self.functions[name] = self.text.count("\n", 0, re.compile(r"\bfn\b").search(self.shape, at).start()) + 1
        elif word != "mod":
            self.heads[name] += context + self.said(at, stop)
            if word in ("struct", "enum"):
                self.members[name] += re.findall(r"[{,]\s*(?:pub )?(\w+)", self.text[body:stop])
