#!/usr/bin/env python3
"""Prints where the gate's time went.

    times.py STAGES EDITS    STAGES has a line for each stage: seconds, a tab, its name; EDITS is what edits.py printed

A crate's line has the seconds of all checks of its wrong programs, and how many these were; edits.py runs as many checks at a time as there are processors,
so that their sum is more than the stage took. `rt ci` does not say how long it took for a crate. The exit status is 1 if no seconds are found."""
import re
import sys

EDITS = re.compile(r"(?m)^edits: (\w+): \d+ files, (\d+) tried \((\d+) s\)$")


def read(path):
    with open(path, encoding="utf-8", errors="replace") as file:
        return file.read()


def row(*fields):
    first, *others = fields
    return f"  {first:<34}" + "".join(f"{field:>9}" for field in others)


def main():
    stages = [line.split("\t", 1) for line in read(sys.argv[1]).splitlines()]
    edits = [(crate, int(checks), int(seconds)) for crate, checks, seconds in EDITS.findall(read(sys.argv[2]))]
    print(row("stage", "seconds"))
    print("\n".join(row(name, seconds) for seconds, name in stages))
    print(row("sum", sum(int(seconds) for seconds, _ in stages)))
    print(row("wrong programs of", "checks", "seconds"))
    print("\n".join(row(*each) for each in sorted(edits, key=lambda each: -each[2])))
    print(row("sum", *(sum(column) for column in list(zip(*edits))[1:])))
    return 0 if stages and edits else 1


if __name__ == "__main__":
    sys.exit(main())
