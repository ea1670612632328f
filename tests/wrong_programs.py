"""The wrong programs that the gate tries: what the files of crates/*/must-fail say.

A file has one wrong program, named as the file is, or several, each behind a line `wrong: NAME`. Several stand in one file only if each changes
a function of its own. A function is proved from its own code and the contracts of those that it calls, so each of them is refused, or not, as if
it stood alone, and one check of the crate tries them all.

Of each wrong program two lines come before its changes, which rt passes over:

    shows: S-4.5: states without a set are searched
    fails: mark_reached

`shows:` has the rows of docs/CLAIMS.md that it belongs to, where there are any, and the wrong reading. `fails:` names what else is false under it: laws,
and functions whose contracts fail. The function whose body it changes is not named, since a fact of it has to fail in any case (tests/edits.py); where it
changes no single function, the line has to be there. A name is one of the crate; `proofs/Entries: declaring-clash` says in which file, `text: listed` in
which other crate; `;` parts such groups, and after a dash come words of why, with names in backticks. tests/claims.py holds the two lines to the tree.

A wrong program may bring its proof along, where its code has another shape than the right one: lines of the proof files of the one function whose body
it changes. Then all that can be proved of it is, and what fails is the fact that it breaks; that the lines are as good as they can be is for the reader
to judge. One that changes a proof alone, or nothing but blanks beside it, is none."""
import glob
import os
import re
from typing import NamedTuple, Optional

import functions

# The kinds of lines, by a letter each; and their order in a file.
LETTERS = {"wrong": "W", "shows": "S", "fails": "X", "file": "F", "old": "O", "new": "N"}
# The files of a function's proof: what holds in its loops, and the answers to its goals; or a walk by hand.
PROOF_FILES = ("Invariants", "Answers", "Proof")
ONE = "SX?(?:F(?:ON)+)+"
ORDER = re.compile(f"{ONE}|(?:W{ONE})+")
# A sentence does not begin with a capital, so that a number of a requirement that is misspelt is not taken for a part of it.
SHOWS = re.compile(r"(?:((?:[A-Z]-[\d.]+ )*[A-Z]-[\d.]+): )?([^A-Z\s].*)")


class WrongProgram(NamedTuple):
    """`function` is the one whose body it changes, as `name` or `module::name`; None where it changes anything else. `fails` is empty where there is
    no such line."""

    name: str
    function: Optional[str]
    requirements: list
    reading: str
    fails: str


class Trial(NamedTuple):
    """A file: the wrong programs that one check tries, or why it is none."""

    path: str
    crate: str
    label: str
    programs: list
    fault: Optional[str]


def is_well_formed(changes):
    """Whether a wrong program changes something, and of proofs only that of the one function whose body it changes."""
    code = {function for file, function, old, new in changes if not file.startswith("proofs/") and old.split() != new.split()}
    proofs = {file for file, *_ in changes if file.startswith("proofs/")}
    own = {f"proofs/{function.replace('::', '/')}/{name}.antt" for function in code if function for name in PROOF_FILES}
    return bool(code) and (not proofs or (len(code) == 1 and proofs <= own))


def changed_by(changes):
    """The function whose body, and perhaps proof, a wrong program changes; None where it changes anything else."""
    places = {function for file, function, *_ in changes if not file.startswith("proofs/")}
    return places.pop() if len(places) == 1 else None


def blocks(text, label):
    """The lines of each wrong program of a file, each line its kind and its words; a ValueError says why the file is none."""
    lines = [(kind, words.removeprefix(" ")) for kind, _, words in (line.partition(":") for line in text.split("\n") if line)]
    if not ORDER.fullmatch("".join(LETTERS.get(kind, "?") for kind, _ in lines)):
        raise ValueError("its lines are not `shows:`, perhaps `fails:`, then `file:` with `old:` and `new:`, behind `wrong:` where there are several")
    found, name = {}, label
    for kind, words in lines:
        if kind == "wrong" and words in found:
            raise ValueError(f"{words} stands twice")
        name = words if kind == "wrong" else name
        found.setdefault(name, []).append((kind, words))
    return found


def program(crate, name, lines):
    """The wrong program that the lines say; a ValueError says why they say none."""
    said, file, old, changes = dict(lines[:3]), "", "", []
    for kind, words in lines:
        if kind == "file":
            file = words
        elif kind == "old":
            old = words
        elif kind == "new":
            changes.append((file, functions.containing(crate, file, old), old, words))
    shows, fails = SHOWS.fullmatch(said["shows"]), said.get("fails")
    if shows is None or fails == "":
        raise ValueError(f"{name}: `shows:` is no sentence that begins small, behind ids and a colon where there are any; or `fails:` is empty")
    if not is_well_formed(changes):
        raise ValueError(f"{name}: it changes nothing, or a proof that is not that of the one function whose body it changes")
    if fails is None and changed_by(changes) is None:
        raise ValueError(f"{name}: it changes no single function, and what fails is not said")
    return WrongProgram(name, changed_by(changes), (shows[1] or "").split(), shows[2], fails or "")


def trial(path):
    """What a file says."""
    crate, label = path.split("/")[1], os.path.basename(path)[: -len(".edit")]
    try:
        found = blocks(open(path, encoding="utf-8").read(), label)
        return Trial(path, crate, label, [program(crate, name, lines) for name, lines in found.items()], None)
    except ValueError as why:
        return Trial(path, crate, label, [], str(why))


def trials():
    """Every file of every crate. The working directory is the top of the tree."""
    return map(trial, sorted(glob.glob("crates/*/must-fail/*.edit")))


def unfit_together(trial):
    """Why a file's wrong programs cannot be tried, or not in one check; None where they can."""
    changed = [program.function for program in trial.programs]
    if len(changed) > 1 and (None in changed or len(set(changed)) < len(changed)):
        return "its wrong programs do not change a function each, all different"
    return trial.fault
