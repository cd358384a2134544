"""Wrong names, planted one by one in copies of the pages, to see each refused."""

import re

from . import decisions, promises, trace

DECISIONS, DEFINITION, README = decisions.PATHS
# what is planted, the page, the place (the first that the pattern finds), and what stands there then
PLANTS = (
    ("a definition of a promise", promises.PATH, r"\| the CRC of any bytes: `crc_of`", "| the CRC of any bytes: `crc_bits`"),
    ("a promise that names less", promises.PATH, r"`Gives \(fed \.\.\)`", "`Gives`"),
    ("two definitions swapped", promises.PATH, r"`barred_at`, `status_at`", "`status_at`, `barred_at`"),
    ("a function of a row", promises.PATH, r"\| `is_figure` \|", "| `is_figures` |"),
    ("a `requires`", promises.PATH, r"`width ≤ length out`", "`width < length out`"),
    ("a part of a `requires`", promises.PATH, r"`width ≤ length out`", "`length out`"),
    ("a parameter of a `requires`", promises.PATH, r"`at < length s`", "`at`"),
    ("a fact cut short", promises.PATH, r"`4 \* run\.limit ≤ length mem`", "`run.limit ≤ length mem`"),
    ("a part of one `requires` of two", promises.PATH, r"`512 ≤ length out`", "`512 < length out`"),
    ("a field of a result", promises.PATH, r"\(requests_in result\) list", "(length_in result) list"),
    ("a result", promises.PATH, r"`fault_of \(result_err result\) ≡", "`fault_of (result_err image) ≡"),
    ("a parameter of a promise", promises.PATH, r"`get_or s at 0`", "`s`"),
    ("a promise of nothing", promises.PATH, r"`replicate \(length out\) value`", "`..`"),
    ("who shows a `requires`", promises.PATH, r"`step::answers::put_identity`", "`step::answers::put_identities`"),
    ("a `requires` left out", promises.PATH, r"\n\| `byte_of` \| `at < length s`[^\n]*", ""),
    ("a law that leaves no choice", promises.PATH, r"`one_event` \| every", "`one_load` | every"),
    ("a law for an equation", promises.PATH, r"(`get_or s at 0` \| )`one_result`", r"\1`one_event`"),
    ("the law that refuses an edit", promises.PATH, r"refused by `first_match_lem`", "refused by `round_came`"),
    ("an edit of a row", promises.PATH, r"`not_complemented`", "`complemented`"),
    ("an edit's crate", promises.PATH, r"`last_byte_left` of `put`", "`last_byte_left` of `image`"),
    ("a law's file", promises.PATH, r"\(proofs/Possible\.antt\)", "(proofs/Borders.antt)"),
    ("a definition", trace.PATH, r"(\b\w+/[A-Z]\w+: `\w+)`", r"\1_not`"),
    ("a definition's file", trace.PATH, r"\b\w+/[A-Z]\w+(: `)", r"crc/Crc\1"),
    ("a file", trace.PATH, r"\b(\w+/[A-Z]\w+): `", r"\1Not: `"),
    ("a law", trace.PATH, r"`([a-z]+(?:_[a-z]+)+)`( \(\w+/[A-Z])", r"`\1_not`\2"),
    ("a law's file", trace.PATH, r"(`[a-z]+(?:_[a-z]+)+` \()\w+/\w+", r"\1tag/Table"),
    ("a law without a file", trace.PATH, r"`first_readable`(?! \(\w+/)", "`first_readable_not`"),
    ("a function", trace.PATH, r"\| `(\w+::\w+::\w+)`", r"| `\1_not`"),
    ("an edit", trace.PATH, r"(\bedits? \w+/\w+)", r"\1_not"),
    ("an edit's crate", trace.PATH, r"(\bedits? )\w+/", r"\1record/"),
    ("an edit left out", trace.PATH, r"definition_loaded_in_field", "definition_read_held"),
    ("a starred case", trace.PATH, r"starred cases? \d+", "starred case 99"),
    ("a worked case", trace.PATH, r"\Z", "\nSee case no-such-case.\n"),
    ("a function of another definition", trace.PATH, r"(`check3` \| )`frame::places::Frame::flag`", r"\1`frame::checks::check2`"),
    ("a call of another definition", trace.PATH, r"(\| `least_room` \| `host::)event", r"\1load"),
    ("cases in another form", trace.PATH, r"case no-killing;", "case no-killing (and no-kil);"),
    ("a case that is none", trace.PATH, r"case no-killing;", "cases no-killing and no-kil;"),
    ("a case in words", trace.PATH, r"case no-killing;", "case killing is shown;"),
    ("the law that refuses an edit", trace.PATH, r"\| `register_unwritten`", "| `kept_act`"),
    ("the law that refuses an impostor", trace.PATH, r"every_call \(`event_number`", "every_call (`load_number`"),
    ("the case that refuses an edit", trace.PATH, r"(error_lowest_slot, starred case) 13", r"\1 12"),
    ("a name of demand 3", trace.PATH, r"`Except\.passwords`", "`Except.words`"),
    ("a field of a record", trace.PATH, r"`Except\.passwords`", "`Except.byte`"),
    ("a line", DECISIONS, r"table\.rt:\d+", "table.rt:2"),
    ("a line without a folder", DECISIONS, r"crates/frame/src/(table\.rt:\d+)", r"\1"),
    ("a line in words", DECISIONS, r"(table\.rt):(\d+)", r"\1, line \2"),
    ("a range of lines", DECISIONS, r"(table\.rt:\d+)", r"\1-99"),
    ("a line for two functions", DECISIONS, r"(commands\.rt:\d+), \d+", r"\1"),
    ("a line of code", DECISIONS, r"(commands\.rt:\d+, )\d+", r"\g<1>2"),
    ("a file of a line", DECISIONS, r"src/places\.rt:", "src/place.rt:"),
    ("a law", DECISIONS, r"`one_fault`", "`no_fault`"),
    ("a definition's file", DECISIONS, r"\(crates/tag/specs/Work\.antt\)", "(crates/tag/specs/Step.antt)"),
    ("a starred case", DECISIONS, r"Starred cases 6", "Starred cases 16"),
    ("a range of starred cases", DECISIONS, r"Starred cases 6 and 7", "Starred cases 6 to 17"),
    ("a function", DECISIONS, r"`host::factory`", "`host::factories`"),
    ("the lines of a crate", DEFINITION, r"\| put \| \d+", "| put | 1"),
    ("a sum", DEFINITION, r"\d+ functions, every", "3 functions, every"),
    ("a definition", DEFINITION, r"`DemandedIn`", "`DemandIn`"),
    ("the edits", README, r"has \d+ such edits", "has 1 such edits"),
    ("a function", README, r"`blocks::read_verdict`", "`blocks::verdict_read`"),
    ("a command of the tool", README, r"`bin/uistermo run", "`bin/uistermo runs"),
    ("an option of the tool", README, r"`--out`", "`--output`"),
)


def run(check, texts):
    """Plants each and prints the first fault that it alone causes. Gives 1 where one is not refused."""
    before, missed = set(map(str, check(texts))), 0
    for what, path, place, wrong in PLANTS:
        changed = re.sub(place, wrong, texts[path], count=1)
        found = [str(fault) for fault in check({**texts, path: changed}) if str(fault) not in before]
        said = "no place for it" if changed == texts[path] else found[0] if found else "NOT REFUSED"
        missed += not found
        print(f"{path}, {what}\n    {said}")
    print(f"planted: {len(PLANTS)}, {missed} not refused")
    return 1 if missed else 0
