#!/usr/bin/env python3
"""Holds what is claimed to the tree.

    claims.py                   looks at everything; the exit status says whether all holds
    claims.py ID                prints the row of docs/CLAIMS.md, the path of each name in it, and the wrong programs that show it
    claims.py --list [CRATE]    prints the wrong programs: what each shows, and what fails under it

All holds if every place and name that the documents and the wrong programs cite is there; if no two rows have one id, and every id that a row or a wrong
program names is a row; if every wrong program can be tried, and stands under each function whose contract it says it breaks; if two or more of its crate
say so of every function of the library that another crate or C can call; if there are as many as docs/CLAIMS.md counts, so that none goes unseen; and if no
folder of crates/ is left out of crates.txt."""
import os
import re
import signal
import sys
from collections import Counter
from typing import NamedTuple

import functions
from citations import CITATION, cited, faults_of, held_by, looks_like_a_path, where
from verdict import tell
from wrong_programs import trials, unfit_together

TOP = os.path.join(os.path.dirname(os.path.abspath(__file__)), "..")
CLAIMS = "docs/CLAIMS.md"
DOCUMENTS = [CLAIMS] + [f"docs/{name}.md" for name in ("PROMISES", "GLOSSARY", "PROVING", "ARCHITECTURE", "DECISIONS", "REFERENCE")] + ["README.md"]
# The tests' own crate, which is no part of the library.
INSTRUMENTS = {"harness"}
# What a row says in place of a list that is worked out here.
EVERY = "every public function"
REQUIREMENT = re.compile(r"(?<![\w-])[A-Z]-\d+(?:\.\d+)?(?!\w)")


class Row(NamedTuple):
    """A row of docs/CLAIMS.md."""

    number: int
    id: str
    what: str
    settled: str


def rows(text, faults):
    """The rows of docs/CLAIMS.md, by their ids."""
    found = {}
    for number, line in enumerate(text.split("\n"), 1):
        if not re.match(rf"\| ?{REQUIREMENT.pattern} ?\|", line):
            continue
        parts = [part.strip() for part in line.split("|")[1:-1]]
        if len(parts) != 3 or not all(parts):
            faults.append(f"{CLAIMS}:{number}: not three columns, each with words")
        elif parts[0] in found:
            faults.append(f"{CLAIMS}:{number}: {parts[0]} is a row already")
        else:
            found[parts[0]] = Row(number, *parts)
    return found


def check_rows(found, faults):
    """Looks at the words of the rows: all in backticks that says where a row is settled is a citation, of a crate that of its definitions, laws or code;
    and the rows that it speaks of are there."""
    requests = {row.split(".")[0] for row in found if "." in row}
    for row in found.values():
        left = CITATION.sub(lambda said: "" if said[2] or looks_like_a_path(said[1]) else said[0], row.settled)
        faults.extend(f"{CLAIMS}:{row.number}: {words} is no citation" for words in re.findall(r"`[^`]*`", left))
        whole = [place for place, _ in cited(row.settled) if os.path.isdir(f"crates/{place}") and "/" not in place]
        faults.extend(f"{CLAIMS}:{row.number}: of {crate} it is not said whether specs, proofs or src is meant" for crate in whole)
        for other in REQUIREMENT.findall(row.what + row.settled):
            if other not in found and other not in requests:
                faults.append(f"{CLAIMS}:{row.number}: speaks of {other}, which is no row")


def named_by(crate, fails):
    """What a `fails:` line names before its dash, each place with its names."""
    for group in fails.partition(" – ")[0].split("; ") if fails else []:
        place, _, names = group.rpartition(": ")
        yield (f"{crate}/{place}" if place.split("/")[0] in ("src", "specs", "proofs") else place or crate), names.split(", ")


def cited_by(crate, fails):
    """All that a `fails:` line cites: what it names, and what stands in backticks in its words of why, where a bare name is one of the crate."""
    yield from named_by(crate, fails)
    for place, names in CITATION.findall(fails.partition(" – ")[2]):
        yield (place, re.findall(r"`([^`]+)`", names)) if names or looks_like_a_path(place) else (crate, [place])


def functions_called(crate, place, name):
    """The functions of the crate that a name of a `fails:` line stands for: several where it is that of methods of more than one type, and the name itself
    where the code has it for something else."""
    for path in where(place, name):
        if path.startswith(f"crates/{crate}/src/"):
            text = open(path, encoding="utf-8").read()
            yield from [function.name for function in functions.in_text(text) if function.is_called(name)] or [name]


def broken_by(crate, program):
    """The functions of the crate whose contracts fail by what a wrong program says: the one that it changes, and those that it names."""
    changed = [re.sub(r"^[a-z]\w*::", "", program.function)] if program.function else []
    named = [(place, name) for place, names in named_by(crate, program.fails) for name in names]
    return changed + [function for place, name in named for function in functions_called(crate, place, name)]


def check_program(crate, program, known, faults):
    """Looks at what a wrong program says of itself; how many citations in it hold."""
    held, name = 0, f"crates/{crate}: {program.name}"
    faults.extend(f"{name}: shows {row}, which is no row of {CLAIMS}" for row in program.requirements if row not in known)
    for place, names in cited_by(crate, program.fails):
        why = list(faults_of(place, names))
        faults.extend(f"{name}: {fault}" for fault in why)
        held += len(names) - len(why)
    for place, names in named_by(crate, program.fails):
        defined = [one for one in names if any("/specs/" in path for path in where(place, one))]
        faults.extend(f"{name}: {one} is a definition, which cannot fail" for one in defined)
        several = [one for one in names if len(set(functions_called(crate, place, one))) > 1]
        faults.extend(f"{name}: {one} is the name of several functions, and it is not said of which type" for one in several)
    if program.function:
        changed, *others = broken_by(crate, program)
        runs = functions.stands_on(crate)
        faults.extend(f"{name}: changes {changed}, on which {other} does not stand" for other in others if changed not in runs.get(other, ()))
        faults.extend(f"{name}: {changed} fails in any case, and need not be named" for other in others if other == changed)
    return held


def check_programs(tried, known, faults):
    """Looks at all wrong programs, and at how many break the contract of each public function; how many citations hold."""
    held, broken, names = 0, {}, set()
    for trial in tried:
        if unfit_together(trial):
            faults.append(f"{trial.path}: {unfit_together(trial)}")
        for program in trial.programs:
            if (trial.crate, program.name) in names:
                faults.append(f"{trial.path}: {program.name} stands in two places")
            names.add((trial.crate, program.name))
            held += 1 + check_program(trial.crate, program, known, faults)
            for function in broken_by(trial.crate, program):
                broken.setdefault((trial.crate, function), set()).add(program.name)
    for crate, function in public_functions(faults):
        if len(broken.get((crate, function), ())) < 2:
            faults.append(f"crates/{crate}: no two wrong programs of the crate say that they break {function}")
    return held


def check_counts(tried, text, faults):
    """Holds the count of wrong programs in docs/CLAIMS.md to those that are tried."""
    count = Counter(trial.crate for trial in tried for _ in trial.programs)
    words = f"{sum(count.values())} wrong programs: " + ", ".join(f"{crate} {count[crate]}" for crate in sorted(count)) + "."
    if words not in " ".join(text.split()):
        faults.append(f"{CLAIMS}: does not say: {words}")


def public_functions(faults):
    """Every function of the library that another crate or C can call, after its crate."""
    for crate in sorted(set(os.listdir("crates")) - INSTRUMENTS):
        yield from ((crate, name) for name in sorted(functions.public(crate, faults)))


def check_folders(faults):
    """Looks for crates that rt would not prove, and for files beside the wrong programs that it would not try."""
    listed = {line.split(":")[0].split()[0] for line in open("crates.txt", encoding="utf-8") if line.split("#")[0].strip()}
    for crate in sorted(os.listdir("crates")):
        if crate not in listed:
            faults.append(f"crates/{crate}: not in crates.txt")
        folder = f"crates/{crate}/must-fail"
        strays = [name for name in os.listdir(folder) if not name.endswith(".edit")] if os.path.isdir(folder) else []
        faults.extend(f"{folder}/{name}: not an edit" for name in sorted(strays))


def check():
    """Looks at everything."""
    faults = []
    held = sum(held_by(document, faults) for document in DOCUMENTS)
    text, tried = open(CLAIMS, encoding="utf-8").read(), list(trials())
    known = rows(text, faults)
    check_rows(known, faults)
    check_folders(faults)
    check_counts(tried, text, faults)
    held += len(known) + check_programs(tried, known, faults)
    return tell(faults, held, f"{', '.join(DOCUMENTS)} and the wrong programs: {held} citations hold, {len(faults)} faults")


def listed(wanted):
    """Prints the wrong programs that are wanted."""
    for trial in trials():
        for program in (program for program in trial.programs if wanted(trial.crate, program)):
            fails = ", ".join(filter(None, [program.function, program.fails]))
            print(f"{trial.crate}/{program.name}  {' '.join(program.requirements)}\n    shows: {program.reading}\n    fails: {fails}")
    return 0


def show(row):
    """Prints a row with the paths of what it cites, and the wrong programs that show it."""
    print(f"{row.id}: {row.what}\n")
    for place, names in cited(row.settled):
        print("\n".join(f"{path}: {name}" for name in names for path in where(place, name)) or place)
    if EVERY in row.settled:
        print("\n".join(f"{crate}: {name}" for crate, name in public_functions([])))
    print()
    return listed(lambda crate, program: row.id in program.requirements)


def main(words):
    os.chdir(TOP)
    if not words:
        return check()
    # Ends quietly where the reader of a list has seen enough.
    signal.signal(signal.SIGPIPE, signal.SIG_DFL)
    found = rows(open(CLAIMS, encoding="utf-8").read(), [])
    if words[0] == "--list" and all(os.path.isdir(f"crates/{crate}") for crate in words[1:]):
        return listed(lambda crate, program: crate in words[1:] or not words[1:])
    if len(words) == 1 and words[0] in found:
        return show(found[words[0]])
    print(f"no row of {CLAIMS}, and no crate: {' '.join(words)}", file=sys.stderr)
    return 1


if __name__ == "__main__":
    sys.exit(main(sys.argv[1:]))
