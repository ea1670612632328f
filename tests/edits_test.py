#!/usr/bin/env python3
"""Feeds tests/edits.py what the prover says of wrong programs, and wants each judged rightly; and edits, of which it refuses those that cannot be applied.
The exit status says so."""
import sys

from edits import edited, judge
from verdict import tell
from wrong_programs import Trial, WrongProgram


def trial(*functions):
    """A file with a wrong program for each function; None stands for a change of no single function."""
    programs = [WrongProgram(f"wrong_{function}", function, [], "a reading", "") for function in functions]
    return Trial("crates/sets/must-fail/label.edit", "sets", "label", programs, None)


def error(place, words):
    return f"./{place}:5:13: error: {words}\n  expected type `a`\n"


ANSWER = error("proofs/size/Answers.antt", "`returns`: as printed, the two types differ only where one has `a` (expected)")
INVARIANT = error("proofs/size/Invariants.antt", "`at_most`: as printed, the two types differ only where one has `a` (expected)")
MODULE = error("proofs/texts/read/Answers.antt", "`returns`: `omega`: the goal does not follow")
LAW = error("proofs/SetOf.antt", "`member-of`: as printed, the two types differ only where one has `a` (expected)")
CITES = error("proofs/size/Answers.antt", "`returns`: `member-of` was not admitted")
NAME = error("proofs/size/Answers.antt", "`returns`: `c.if-a` is not in scope")
FIELD = error("proofs/size/Answers.antt", "`returns`: a record `Facts` has no field `less`")
GOAL = error("proofs/size/Answers.antt", "a module `Goals` has no `returns-then` that can be named from here")
CLAUSE = error("src/lib.rt", "`size`: `counts` is not in scope")
DEFINITION = error("specs/SetOf.antt", "expected the end of the line")
MEANING = error("specs/SetOf.antt", "`law`: as printed, the two types differ only where one has `a` (expected)")
SEARCH = "fn sets::rest: no proof: expected answers in ./proofs/rest/Answers.antt; `search` did not prove `returns`, `overflow_sub-result`\n"
SHAPE = "fn sets::rest: no proof: expected a measure in ./proofs/rest/Invariants.antt\n"
FOREIGN = "error[wrong-type]: a number is expected\n  --> src/lib.rt:5:1\n"
NOTE = "note: src/lib.rt:23:9: it is not proved that what the function ensures holds when it returns (`returns`)\n"
END = "fn sets::size: not proved\nlogic=not-proved\n"

# A file, what the prover says, and how many faults that is.
LOGS = [
    (trial("size"), ANSWER + END, 0),
    (trial("size"), INVARIANT + END, 0),
    (trial("size", "rest"), ANSWER + NOTE + SEARCH + END, 0),
    (trial("texts::read"), MODULE + END, 0),
    (trial(None), LAW + CITES + END, 0),
    (trial(None), MEANING + END, 0),
    (trial("size"), END, 1),
    (trial("size"), "", 1),
    (trial("size"), CITES + END, 1),
    (trial("size"), NAME + END, 1),
    (trial("size"), FIELD + ANSWER + END, 1),
    (trial("size"), ANSWER + FIELD + END, 0),
    (trial("size"), GOAL + END, 1),
    (trial(None), NAME + END, 1),
    (trial(None), CLAUSE + LAW + END, 1),
    (trial(None), DEFINITION + LAW + END, 1),
    (trial("size"), FOREIGN + END, 1),
    (trial("size"), ANSWER + SEARCH + END, 1),
    (trial("size"), ANSWER + LAW + END, 1),
    (trial("rest"), NOTE + SHAPE + END, 1),
    (trial("size", "rest"), ANSWER + END, 1),
    (trial("size", "rest"), NAME + SEARCH + END, 1),
    (trial("read"), MODULE + END, 2),
]

# An edit of one file, which has the text `one two`, and what that text becomes; None where the edit cannot be applied.
EDITS = [
    ("file: src/lib.rt\nold: one\nnew: three", "three two"),
    ("file: src/lib.rt\nold: one\nnew: three\nold: three\nnew:", " two"),
    ("wrong: a\nshows: b\nfile: src/lib.rt\nold: one\nnew: two\n\nwrong: c\nshows: d\nfile: src/lib.rt\nold: two t\nnew: o", "owo"),
    ("file: src/lib.rt\nold: four\nnew: five", None),
    ("file: src/lib.rt\nold: o\nnew: a", None),
]


def after(edit):
    """What the file becomes by an edit."""
    try:
        return edited(edit, {"src/lib.rt": "one two"}.__getitem__)["src/lib.rt"]
    except ValueError:
        return None


def main():
    faults = [f"{log!r} has the faults {judge(file, log)}" for file, log, count in LOGS if len(judge(file, log)) != count]
    faults += [f"{edit!r} makes {after(edit)!r}" for edit, text in EDITS if after(edit) != text]
    tried = len(LOGS) + len(EDITS)
    return tell(faults, tried, f"edits: {tried} tried on the script that looks at them, {len(faults)} faults")


if __name__ == "__main__":
    sys.exit(main())
