"""What the tool's pages say: its help, the examples in it, and the worked example of README.md."""

import os
import re
import shlex
import shutil
import subprocess
import tempfile

from .tool_runs import DONE
from .tool_words import COMMANDS, named_commands

TOOL = "bin/uistermo "
EXAMPLE = re.compile(r"Examples?:")
SECTION = "## At the bench"
INDENT = "    "
PROMPT = "$ "
HELP_WORDS = {  # with the help asked for among other words, sound and wrong ones
    "factory": (["-h"], ["16", "-h"], ["--help", "17", "no UID"], ["16", "E002230401D6C8F0", "new.img", "--help"]),
    "show": (["-h"], ["none.img", "--help"], ["-h", "a", "b", "c"]),
    "header": (["-h"], ["none.img", "--help"], ["-h", "a", "b", "c"], ["--wrong", "--help"]),
    "run": (["-h"], ["tag.img", "-h"], ["--help", "--wrong"], ["none.img", "-", "--out", "new.img", "--help"]),
    "tray": (["-h"], ["none.txt", "-h"], ["--help", "--wrong"], ["--trace", "-", "-", "--help"]),
}


def place_to_work(trial, session):
    """A new folder as a reader has it: bin/uistermo starts the tool, and the repository's session lies in examples/."""
    place = tempfile.mkdtemp(prefix="place-", dir=trial.folder)
    os.mkdir(os.path.join(place, "bin"))
    os.mkdir(os.path.join(place, "examples"))
    starter = os.path.join(place, "bin", "uistermo")
    with open(starter, "w", encoding="utf-8") as file:
        file.write("#!/bin/sh\nexec " + " ".join(map(shlex.quote, trial.command)) + ' "$@"\n')
    os.chmod(starter, 0o755)
    shutil.copy(session, os.path.join(place, "examples", "session.txt"))
    return place


def shell(trial, line, place, **ways):
    """A line as a shell takes it, in a place to work."""
    return trial.run([line], command=["sh", "-c"], cwd=place, **ways)


def example_commands(page):
    """The commands below a help's last `Example:` line: what is indented and has the tool in it."""
    lines = page.split("\n")
    starts = [number for number, line in enumerate(lines) if EXAMPLE.fullmatch(line.strip())]
    return [line[2:] for line in lines[starts[-1] + 1:] if line.startswith("  ") and TOOL in line] if starts else []


def help_pages(trial, session):
    """The list, each command's page by both words and among others, and every example on them."""
    pages = [trial.run([word]) for word in ("--help", "-h", "help")]
    for word, page in zip(("-h", "help"), pages[1:]):
        trial.hold_end(word, page, output=pages[0].output)
    trial.hold_end("--help", pages[0], output=re.compile(rb"(?s).+\n"))
    trial.hold("--help: commands", named_commands(pages[0].output), list(COMMANDS))
    for command in COMMANDS:
        page = trial.expect(f"{command} --help", [command, "--help"], output=re.compile(rb"(?s).+\n")).output
        trial.hold(f"{command} --help: it is of {command}", command.encode("ascii") in page, True)
        for words in HELP_WORDS[command]:
            trial.expect(f"{command} {' '.join(words)}", [command, *words], output=page, feed=b"ON\n")
        examples(trial, command, page.decode("utf-8", "replace"), session)


def examples(trial, command, page, session):
    """The examples of one page, in their order, in a place of their own."""
    lines, place = example_commands(page), place_to_work(trial, session)
    trial.hold(f"{command} --help: it has an example", bool(lines), True)
    for line in lines:
        trial.hold_end(f"{command} --help, example {line}", shell(trial, line, place), DONE, None)


def section_of(text):
    """The lines of the section on the tool; none where there is no such section."""
    lines = text.split("\n")
    if SECTION not in lines:
        return []
    after = lines[lines.index(SECTION) + 1:]
    ends = [number for number, line in enumerate(after) if line.startswith("## ")]
    return after[:ends[0]] if ends else after


def worked_commands(text):
    """The commands of the section with what each prints, in order.

    A command is an indented line that begins with `$ `; what it prints are the indented lines after it, up to the next
    command or the end of the indented block.
    """
    found, within = [], False
    for line in section_of(text):
        if line.startswith(INDENT + PROMPT):
            found.append((line[len(INDENT + PROMPT):], ""))
            within = True
        elif line.startswith(INDENT) and within:
            found[-1] = (found[-1][0], found[-1][1] + line[len(INDENT):] + "\n")
        else:
            within = False
    return found


def worked_example(trial, text, session):
    """Every command of README.md's section, in order in one place; what it prints is what stands there."""
    commands, place = worked_commands(text), place_to_work(trial, session)
    trial.hold(f"README.md: section '{SECTION[3:]}' has commands", bool(commands), True)
    for line, expected in commands:
        found = shell(trial, line, place, stderr=subprocess.STDOUT)
        trial.hold(f"README.md, {line}", found.output, expected.encode("utf-8"))


def pages(trial, root):
    """Help and README.md."""
    session = os.path.join(root, "examples", "session.txt")
    help_pages(trial, session)
    with open(os.path.join(root, "README.md"), encoding="utf-8") as file:
        worked_example(trial, file.read(), session)
