#!/usr/bin/env python3
"""Runs the programs on folders and compares what they print with files of expected output, byte for byte. A folder has module.tab and plan.tab,
or lacks one that cannot be read, and a note of what it tries.

    tests/cases    stdout is what the program `sequencer` prints
    tests/clash    stdout is what the lister `clashes` prints, and main what the program prints

A program runs in a copy of the folder that has no expected output. For a new case, expected.sh works out what has to be printed.

    cases.py [WORD ..]    the words stand before a program's path, as `valgrind -q --error-exitcode=9`

The last line is 'N passed, M failed', and the exit status says the same."""
import concurrent.futures
import functools
import os
import shutil
import subprocess
import sys
import tempfile

TOP = os.path.join(os.path.dirname(os.path.abspath(__file__)), "..")
# The folder of cases, the file of expected output, the program.
TRIED = (
    (os.path.join("tests", "cases"), "stdout", "sequencer"),
    (os.path.join("tests", "clash"), "stdout", "clashes"),
    (os.path.join("tests", "clash"), "main", "sequencer"),
)


def command(program):
    return sys.argv[1:] + [os.path.abspath(os.path.join(TOP, "target", "bin", program))]


def fault(case, output, program):
    """What is wrong with a case, or None."""
    with open(os.path.join(case, output), "rb") as file:
        expected = file.read()
    with tempfile.TemporaryDirectory() as folder:
        copy = os.path.join(folder, "case")
        shutil.copytree(case, copy, ignore=shutil.ignore_patterns("stdout", "main"))
        try:
            run = subprocess.run(command(program), cwd=copy, stdin=subprocess.DEVNULL, capture_output=True, timeout=60)
        except OSError as error:
            return f"the program cannot be run: {error}"
        except subprocess.TimeoutExpired:
            return "the program does not end"
    if run.returncode != 0:
        return f"exit status {run.returncode}: {run.stderr[:400]!r}"
    if run.stderr:
        return "the program wrote to standard error"
    if run.stdout != expected:
        return f"printed {run.stdout[:200]!r}, expected {expected[:200]!r}"
    return None


def unwritten(folder, program):
    """What is wrong where the program cannot write what it prints for the folder: it has to say so on standard error. None if nothing is."""
    with open("/dev/full", "wb") as full:
        try:
            run = subprocess.run(command(program), cwd=os.path.join(TOP, folder), stdin=subprocess.DEVNULL, stdout=full, stderr=subprocess.PIPE)
        except OSError as error:
            return f"the program cannot be run: {error}"
    return None if b"could not be written" in run.stderr else "output that cannot be written is not told of"


def trials():
    """What is tried, each with a name and a call that gives what is wrong or None."""
    for folder, output, program in TRIED:
        names = sorted(os.listdir(os.path.join(TOP, folder)))
        if not names:
            yield folder, lambda: "no case"
        for name in names:
            yield f"{program} {name}", functools.partial(fault, os.path.join(TOP, folder, name), output, program)
    yield "sequencer, no room for the report", functools.partial(unwritten, os.path.join("examples", "ref"), "sequencer")
    yield "clashes, no room for the list", functools.partial(unwritten, os.path.join("tests", "clash", "003-within-plan"), "clashes")
    yield "clashes, no room for a refusal", functools.partial(unwritten, os.path.join("tests", "clash", "021-no-module"), "clashes")


def main():
    passed, failed = 0, 0
    tried = list(trials())
    with concurrent.futures.ThreadPoolExecutor(os.cpu_count()) as pool:
        faults = list(pool.map(lambda trial: trial[1](), tried))
    for (name, _), wrong in zip(tried, faults):
        if wrong is None:
            passed += 1
        else:
            failed += 1
            print(f"{name}: {wrong}")
    print(f"{passed} passed, {failed} failed")
    return 0 if failed == 0 and passed > 0 else 1


sys.exit(main())
