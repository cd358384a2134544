"""A page in Markdown: its tables row by row, the text between them, and what stands in backquotes."""

import re
from typing import NamedTuple, Tuple

QUOTED = re.compile(r"`([^`]+)`")
CELL = re.compile(r"(?<!\\)\|")


class Row(NamedTuple):
    """A row of a table: its line, the page's section, the table's head, the cells."""

    line: int
    section: str
    head: Tuple[str, ...]
    cells: Tuple[str, ...]


class Text(NamedTuple):
    """A paragraph or an item of a list: its first line, the page's section, what it says."""

    line: int
    section: str
    said: str


class Fault(NamedTuple):
    """What is wrong, and where."""

    page: str
    line: int
    said: str

    def __str__(self):
        return f"{self.page}:{self.line}: {self.said}" if self.line else f"{self.page}: {self.said}"


def quoted(text):
    """What stands in backquotes."""
    return [found.replace("\\|", "|").replace("\n", " ") for found in QUOTED.findall(text)]


def cells(line):
    """The cells of a table's line."""
    return tuple(cell.strip() for cell in CELL.split(line.strip())[1:-1])


class Page:
    """A page. Blocks of code, which are indented, are no part of it."""

    def __init__(self, path, text):
        self.path, self.rows, self.texts = path, [], []
        section, head, at = "", None, 0
        lines = text.split("\n")
        while at < len(lines):
            line, stop = lines[at], at + 1
            if line.startswith("#"):
                section = line.lstrip("# ")
            if line.startswith("|"):
                if head is None:
                    head = cells(line)
                elif set(line) - set("|- :"):
                    self.rows.append(Row(at + 1, section, head, cells(line)))
            else:
                head = None
                while line.strip() and stop < len(lines) and lines[stop].strip() and lines[stop][0] not in "|#-":
                    stop += 1
                if line.strip() and not line.startswith("    "):
                    self.texts.append(Text(at + 1, section, "\n".join(lines[at:stop])))
            at = stop

    def fault(self, line, said):
        """A fault of this page."""
        return Fault(self.path, line, said)

    def parts(self):
        """Every piece of text in which names may stand, with its line and section: cells and paragraphs."""
        for row in self.rows:
            yield from ((row.line, row.section, cell) for cell in row.cells)
        yield from self.texts
