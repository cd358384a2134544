"""Lines of files that a page names, as crates/frame/src/table.rt:64."""

import re

from .names import CODE
from .page import quoted
from .sources import ROOT, read

LINE = re.compile(r"(?P<file>\b[a-z]+/[\w./-]+\.\w+):(?P<lines>\d+(?:, \d+)*)")
OTHERWISE = re.compile(r"(?<![\w/])\w+\.rt:\d+|\w+\.rt,? lines? \d+|\w+\.rt:\d+ ?(?:-|–|to) ?\d+")


def functions_in(names, text, file):
    """The functions of a file that a text names, in order."""
    crate, module, found = "", "", []
    for name in quoted(text):
        function = names.function(name, crate, module)
        if function:
            crate, module = function.crate, function.module
            found += [function] if function.file == file else []
    return found


def wrong(text, file, line, functions):
    """In words, why a line is not what the text names before it: the first of a function, or one in it with code of the text."""
    lines = read(file).split("\n")
    code = [said.split(" .. ")[0] for said in quoted(text) if CODE.search(said)]
    right = {at for function in functions for at in function.lines if at == function.lines[0] or any(piece in lines[at - 1] for piece in code)}
    if not functions:
        return f"{file}:{line}: no function of this file is named before it"
    if line not in right:
        return f"{file}:{line} is not what is named before it ({', '.join(function.path for function in functions)}): see {', '.join(map(str, sorted(right)))}"
    return ""


def faults(names, page):
    """Lines that are not there, or hold something else. As many lines as functions before them go with them in order."""
    for line, _, text in page.parts():
        yield from (page.fault(line, f"'{found[0]}': a line is said as crates/CRATE/src/FILE.rt:N") for found in OTHERWISE.finditer(text))
        start = 0
        for found in LINE.finditer(text):
            if not (ROOT / found["file"]).is_file():
                yield page.fault(line, f"there is no file {found['file']}")
                continue
            numbers = [int(number) for number in found["lines"].split(", ")]
            functions = functions_in(names, text[start:found.start()], found["file"])
            if len(numbers) < len(functions):
                yield page.fault(line, f"{found[0]}: fewer lines than functions of this file before it")
            pairs = zip(numbers, ([one] for one in functions)) if len(numbers) == len(functions) else ((number, functions) for number in numbers)
            yield from (page.fault(line, fault) for fault in (wrong(text, found["file"], *pair) for pair in pairs) if fault)
            start = found.end()
