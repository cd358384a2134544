"""Lists the worked examples and cases with the stored lines that try them, and shows one case whole."""

from typing import NamedTuple, Union

from worked import CASEBOOK_PARTS, SESSION_CASES, SESSION_INPUT
from worked.examples import Case, Example, SessionCase

from .stored_cases import worked_session

MOST_SHOWN = 240


class Place(NamedTuple):
    """An example or case and where it stands: the program, and its first and last stored line."""

    part: Union[Example, Case, SessionCase]
    program: str
    first: int
    last: int


def all_places():
    """Where each example and case stands: casebook's, then tagrun's, which follow 01's session."""
    places, last = [], 0
    for part in CASEBOOK_PARTS:
        places.append(Place(part, "casebook", last + 1, last + len(part.steps)))
        last += len(part.steps)
    last = SESSION_INPUT.count(b"\n")
    for case in SESSION_CASES:
        places.append(Place(case, "tagrun", last + 1, last + len(case.lines)))
        last += len(case.lines)
    return places


def heading(place):
    """Lines, name or source, words, and what they are about."""
    part = place.part
    program = "tagrun " if place.program == "tagrun" else ""
    title, note = (part.source, part.note) if isinstance(part, Example) else (f"case {part.name}", part.otherwise)
    return f"{program}lines {place.first} to {place.last}: {title}\n    \"{part.words}\"\n    {note}"


def shown_case(name):
    """One case whole, each line with its expected answer; None where no case has this name."""
    for place in all_places():
        if not isinstance(place.part, Example) and place.part.name == name:
            return "\n".join([heading(place)] + [f"{shortened(line)}\n    {expected}"
                                                 for line, expected in lines_and_answers(place)])
    return None


def lines_and_answers(place):
    """The case's lines and what is expected of each."""
    if place.program == "tagrun":
        pairs = worked_session()[place.first - 1:place.last]
        return [(shown_line(line), shortened(expected)) for line, expected in pairs]
    return [(shown_line(step.line), expected_text(step)) for step in place.part.steps]


def shown_line(line):
    """A line as text; bytes that no terminal shows are written as escapes."""
    return line.decode("latin-1").encode("unicode_escape").decode("ascii")


def shortened(text):
    """The text, cut where it is long."""
    return text if len(text) <= MOST_SHOWN else f"{text[:MOST_SHOWN]}.. ({len(text):,} characters)"


def expected_text(step):
    """What the answer to a step must say."""
    if step.answer is None:
        return "ok"
    count = f"length {len(step.answer) // 2}" if step.requests is None else f"requests {step.requests}"
    parts = [f"number {step.number}", count, f"answer {shortened(step.answer or '-')}"]
    parts += [f"record {span}" for span in spans(step.record)]
    parts += [f"{name} {crc}" for name, crc in (("memory", step.memory), ("room", step.room)) if crc]
    return ", ".join(parts)


def spans(record):
    """Bytes of a record that lie side by side, in hex, after the place of the first."""
    found = []
    for place in sorted(record):
        if found and place == found[-1][0] + len(found[-1][1]):
            found[-1][1].append(record[place])
        else:
            found.append((place, [record[place]]))
    return [f"from byte {place}: {bytes(values).hex().upper()}" for place, values in found]
