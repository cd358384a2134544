"""Holds the stored cases to the generator, to the second model and to the documents."""

import os

from worked.examples import faults

from .bench import is_call
from .stored_cases import answers, unreached, worked_session, worked_steps

MOST_SHOWN = 5


def read(folder, program, name):
    """A stored file, or None where there is none."""
    try:
        with open(os.path.join(folder, program, name), "rb") as file:
            return file.read()
    except FileNotFoundError:
        return None


def write(folder, program, stream):
    """Makes the two files of a program anew from the lines of the generator."""
    os.makedirs(os.path.join(folder, program), exist_ok=True)
    for name, contents in (("stdin", stream), ("stdout", answers(program, stream)[0])):
        with open(os.path.join(folder, program, name), "wb") as file:
            file.write(contents)


def file_differences(name, found, expected):
    """The first lines in which a stored file is not what it should be."""
    if found == expected:
        return []
    ours, theirs = expected.split(b"\n"), found.split(b"\n")
    wrong = [n for n in range(max(len(ours), len(theirs))) if ours[n:n + 1] != theirs[n:n + 1]]
    return [f"{name} line {n + 1} is not as the second model has it" for n in wrong[:MOST_SHOWN]] + [
        f"{name}: {len(wrong)} lines differ"]


def worked_faults(stream, output):
    """Whether casebook's lines begin with the worked examples and cases, answered as the documents say."""
    lines, answered, found = stream.split(b"\n"), output.decode("ascii", "replace").split("\n"), []
    for n, step in enumerate(worked_steps()):
        if lines[n:n + 1] != [step.line] or n >= len(answered):
            found.append(f"casebook line {n + 1} is not that of the worked example or case")
        else:
            found += [f"casebook line {n + 1}, {fault}" for fault in faults(step, answered[n])]
    return found


def session_faults(stream, output):
    """Whether tagrun's lines begin with the session of 01 and its cases, answered as it prints and says."""
    lines, answered, found = stream.split(b"\n"), output.decode("ascii", "replace").split("\n"), []
    for n, (line, expected) in enumerate(worked_session()):
        if lines[n:n + 1] != [line]:
            found.append(f"tagrun line {n + 1} is not that of document 01's session or case")
        elif answered[n:n + 1] != [expected]:
            found.append(f"tagrun line {n + 1}: expected {expected[:80]}, found {''.join(answered[n:n + 1])[:80]}")
    return found


DOCUMENT_FAULTS = {"casebook": worked_faults, "tagrun": session_faults}


def check(folder, program, made):
    """All faults of a program's stored cases beside the lines that the generator made, and a line of figures."""
    stream, output = read(folder, program, "stdin"), read(folder, program, "stdout")
    if stream is None or output is None:
        return [f"{program}: stdin or stdout is absent"], f"{program}: no stored cases"
    found = file_differences(f"{program}/stdin", stream, made)
    expected, counts = answers(program, stream)
    found += file_differences(f"{program}/stdout", output, expected)
    found += DOCUMENT_FAULTS[program](stream, output)
    missed = unreached(program, counts)
    found += [f"{program}: no case reaches {name}" for name in missed]
    return found, figures(program, stream, output, len([name for name, count in counts.items() if count]))


def figures(program, stream, output, reached):
    """Calls, lines, bytes and branches in one line."""
    answered = output.decode("ascii", "replace").split("\n")[:-1]
    if program == "tagrun":
        calls = sum(not line.endswith("?") for line in answered)
    else:
        calls = sum(is_call(line) for line in answered)
    return (f"{program}: {calls:,} calls, {len(answered):,} lines, {reached} branches reached, "
            f"{len(stream):,} and {len(output):,} bytes")
