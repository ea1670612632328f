#!/usr/bin/env python3
"""Feeds tests/wrong_programs.py, tests/citations.py and tests/claims.py files, citations and rows that are at fault, and wants each turned away; and good
ones, which they take. The exit status says so."""
import os
import sys

from citations import cited, faults_of
from claims import CLAIMS, TOP, broken_by, check_counts, check_program, check_programs, check_rows, rows
from verdict import tell
from wrong_programs import WrongProgram, blocks, changed_by, is_well_formed, program, trials

# A change: the file, the function whose body holds the old words (None where none does), the old words and the new ones.
BODY = ("src/lib.rt", "name", "found.from", "found.length")
MODULE = ("src/texts.rt", "texts::read", "65536", "65535")
BLANK = ("src/lib.rt", "name", "a, b", "a,  b")
SPECS = ("specs/Cells.antt", None, "ample = 131072", "ample = 131040")
PROOF = ("proofs/name/Answers.antt", None, "returns c = search rules", "returns c = search (law, rules)")
INVARIANT = ("proofs/name/Invariants.antt", None, "at_most : x ≤ 32", "at_most : x ≤ 31")
MODULE_PROOF = ("proofs/texts/read/Answers.antt", None, "returns c = search rules", "returns c = search (law, rules)")
LAW = ("proofs/Parts.antt", None, "part-name", "part-place")

# The changes of a wrong program, whether it counts as one, and the function that it is held to.
EDITS = [
    ([BODY], True, "name"),
    ([BODY, PROOF], True, "name"),
    ([BODY, INVARIANT, PROOF], True, "name"),
    ([MODULE, MODULE_PROOF], True, "texts::read"),
    ([SPECS], True, None),
    ([BODY, MODULE], True, None),
    ([PROOF], False, None),
    ([BLANK], False, "name"),
    ([BLANK, PROOF], False, "name"),
    ([INVARIANT, PROOF], False, None),
    ([BODY, INVARIANT, MODULE_PROOF], False, "name"),
    ([BODY, MODULE_PROOF], False, "name"),
    ([BODY, PROOF, LAW], False, "name"),
    ([SPECS, PROOF], False, None),
    ([BODY, MODULE, PROOF], False, None),
    ([BODY, MODULE, PROOF, MODULE_PROOF], False, None),
]

# The lines of a file of the crate sets, and whether they say wrong programs.
SHOWS = "shows: T-4: the lowest member is given for the count\n"
CHANGE = "file: src/lib.rt\nold:     u32::count_ones(s)\nnew:     u32::trailing_zeros(s)\n"
OTHER = "file: src/lib.rt\nold:     s & t != 0\nnew:     s | t != 0\n"
DEFINITION = "file: src/lib.rt\nold: pub fn size(\nnew: pub fn sizes(\n"
FILES = [
    (SHOWS + CHANGE, True),
    ("shows: the lowest member is given\nfails: size_of – by `size`\n" + CHANGE, True),
    (f"wrong: one\n{SHOWS}{CHANGE}\nwrong: other\n{SHOWS}{OTHER}", True),
    (SHOWS + "fails: size\n" + DEFINITION, True),
    (SHOWS + DEFINITION, False),
    (CHANGE, False),
    (f"wrong: one\n{SHOWS}{CHANGE}\nwrong: other\n{OTHER}", False),
    (f"wrong: one\n{SHOWS}{CHANGE}\nwrong: one\n{SHOWS}{OTHER}", False),
    (f"{SHOWS}{CHANGE}\nwrong: other\n{SHOWS}{OTHER}", False),
    (SHOWS + SHOWS + CHANGE, False),
    ("fails: size\n" + SHOWS + CHANGE, False),
    (SHOWS + "fails:\n" + CHANGE, False),
    (SHOWS + "breaks: size\n" + CHANGE, False),
    (SHOWS + CHANGE + "old:     s & t != 0\n", False),
    ("shows: T-4:\n" + CHANGE, False),
    ("shows: T4: the lowest member is given for the count\n" + CHANGE, False),
    ("shows: T-4, K-3: the lowest member is given for the count\n" + CHANGE, False),
    (SHOWS + CHANGE.replace("trailing_zeros", "count_ones"), False),
]

# What a wrong program says of itself: its crate, the function that it changes, the requirements, what fails; and whether that holds.
SAID = [
    ("reach", "search", ["S-4.5"], "mark_reached", True),
    ("reach", "search", [], "mark_reached – as `mark_in` is called", True),
    ("table", None, [], "src/faults: limit; find", True),
    ("writer", "rows::step_lines", [], "write; text: example_orders", True),
    ("table", "refusals::status_nowhere", [], "src/refusals: StatusFromRefusalU32::from, accepted", True),
    ("table", "refusals::status_nowhere", [], "src/refusals: Status::from, accepted", False),
    ("moqresam", "replies::fit_with", [], "FitReply::from, moqresam_fit", True),
    ("moqresam", "replies::RefineReplyFromResultBoolRefusal::from", [], "moqresam_refine", True),
    ("moqresam", "replies::RefineReplyFromResultBoolRefusal::from", [], "moqresam_fit", False),
    ("moqresam", "replies::fit_with", [], "RefineReply::from", False),
    ("moqresam", "replies::fit_with", [], "src/replies: from", False),
    ("moqresam", "replies::fit_with", [], "FollowReply::from", False),
    ("moqresam", "moqresam_follow_record", [], "Follower", False),
    ("reach", "search", ["S-4.99"], "mark_reached", False),
    ("reach", "search", [], "mark_searched", False),
    ("reach", "search", [], "clear", False),
    ("reach", "search", [], "mark_reached; specs/Ends: ends_in", False),
    ("reach", "search", [], "search", False),
    ("reach", "search", [], "mark_reached – as `search_65` is called", False),
    ("reach", "search", [], "src/library: mark_reached", False),
    ("table", None, [], "limit", False),
    ("writer", "rows::step_lines", [], "write; texts: example_orders", False),
]

# A line of a document, and whether what it cites is there.
LINES = [
    ("`theory/specs/Demand`: `Meets`, `exactly`; `synthesis/src/lib`: `synthesize`", True),
    ("`crates/synthesis/src/lib.rt`: `synthesize`; `crates/theory/specs/Demand.antt`", True),
    ("`theory`: `Joint`, `product-cells`; `tests/gate.sh`; `tests/cases`: `001-run`", True),
    ("the words `in` and `yes`, the file `target/bin/sequencer`", True),
    ("`theory/specs/Demand`: `Meets`, `exact`", False),
    ("`theory/specs/Demands`", False),
    ("`theory/specs`: `Joint`; `theory/proofs`: `product-cells`", True),
    ("`theory/specs`: `product-cells`", False),
    ("`theory/proofs`: `Joint`", False),
    ("`theories`: `Joint`", False),
    ("`theory`: `reflexive`", False),
    ("`crates/theory/specs/Demand.rt`", False),
    ("`tests/gates.sh`", False),
    ("`tests/cases`: `001-walk`", False),
    ("`reach`: `queue`", False),
]

# Rows, and whether they can stand together.
ROWS = [
    ("| P-1 | one | `theory/specs`: `Joint` |\n| P-2 | by P-1 and S-4 | `theory/specs`: `Meets`, as in S-4.1 |\n| S-4.1 | an end | `tests/gate.sh` |", True),
    ("| P-1 | one | `theory/specs`: `Joint` |\n| P-1 | two | `theory/specs`: `Meets` |", False),
    ("| P-1 | one | `theory/specs`: `Joint` | edit theory/free_output |", False),
    ("| P-1 | one | |", False),
    ("| P-1 | as P-3 says | `theory/specs`: `Joint` |", False),
    ("| P-1 | one | `theory/specs`: `Joint`, and so `Meets` |", False),
    ("| P-1 | one | `theory`: `Joint` |", False),
]

# Functions of a crate, of which each needs two wrong programs.
MISSED = [
    ("sets", "width"),
    ("reader", "read_alone"),
    ("moqresam", "moqresam_refine"),
    ("theory", "Rule::number"),
    ("table", "StatusFromRefusal::from"),
    ("sets", "LowestFirstIterator::next"),
    ("moqresam", "RefineReplyFromResultBoolRefusal::from"),
]


def is_taken(text):
    """Whether the lines of a file of the crate sets say wrong programs."""
    try:
        return bool([program("sets", name, lines) for name, lines in blocks(text, "label").items()])
    except ValueError:
        return False


def holds_together(text):
    """Whether the rows can stand together."""
    faults = []
    check_rows(rows(text, faults), faults)
    return not faults


def says_truly(crate, function, requirements, fails, known):
    """Whether what a wrong program says of itself holds."""
    faults = []
    check_program(crate, WrongProgram("label", function, requirements, "a reading", fails), known, faults)
    return not faults


def is_missed(crate, function, known):
    """Whether it is noticed that all wrong programs but one that break a function are gone."""
    faults, tried, left = [], [], 1
    for trial in trials():
        kept = []
        for each in trial.programs:
            breaks = trial.crate == crate and function in broken_by(crate, each)
            if not breaks or left:
                kept.append(each)
                left -= breaks
        tried.append(trial._replace(programs=kept))
    check_programs(tried, known, faults)
    return any(fault.endswith(f"break {function}") for fault in faults)


def is_counted(path):
    """Whether it is noticed that a file of wrong programs is gone."""
    faults = []
    check_counts([trial for trial in trials() if trial.path != path], open(CLAIMS, encoding="utf-8").read(), faults)
    return bool(faults)


def main():
    os.chdir(TOP)
    known = rows(open(CLAIMS, encoding="utf-8").read(), [])
    found = [(changes, (is_well_formed(changes), changed_by(changes)) == (counts, function)) for changes, counts, function in EDITS]
    found += [(text, is_taken(text) == taken) for text, taken in FILES]
    found += [(said, says_truly(*said, known) == holds) for *said, holds in SAID]
    found += [(line, all(not list(faults_of(*one)) for one in cited(line)) == holds) for line, holds in LINES]
    found += [(text, holds_together(text) == holds) for text, holds in ROWS]
    found += [(each, is_missed(*each, known)) for each in MISSED]
    found += [(path, is_counted(path)) for path in ("crates/table/must-fail/rows_left_out.edit", "crates/stars/must-fail/wrong_figure.edit")]
    faults = [f"judged wrongly: {words}" for words, right in found if not right]
    return tell(faults, len(found), f"wrong programs, citations and rows: {len(found)} tried on the scripts that look at them, {len(faults)} faults")


if __name__ == "__main__":
    sys.exit(main())
