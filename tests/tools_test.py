#!/usr/bin/env python3
"""Tries tools/prove.py, tests/archives.sh and tests/times.py with a stand-in for rt, in a folder of their own: what they say, show and build again.
The exit status says so."""
import os
import re
import shutil
import signal
import subprocess
import sys
import tempfile
import time

from verdict import tell

TOP = os.path.join(os.path.dirname(os.path.abspath(__file__)), "..")
# Stands in for rt in a crate's folder: makes what the verb has to leave, fails where the source has the word `wrong`, and never ends where it has `endless`.
RT = """#!/bin/sh
if [ "$1" = version ]; then echo "kit of the test"; exit; fi
crate=${PWD##*/}
echo "$1 $crate" >>../../calls
echo "fn $crate::call: said"
if grep -q endless src/*.rt; then sleep 600 & echo $! >../../sleeper; wait; fi
if grep -q wrong src/*.rt; then echo "logic=not-proved"; exit 1; fi
mkdir -p out
case $1 in
    run) cp src/main.rt "out/$crate" ;;
    lib) cp src/lib.rt "out/lib$crate.a" ;;
esac
"""
CRATES = {"theory": "", "files": "theory", "moqresam staticlib": "theory", "harness staticlib": "files theory", "sequencer": "files"}
PRINTED = """edits: theory: 2 files, 2 tried (9 s)
edits: moqresam: 3 files, 1 tried (6 s)
crates/theory/must-fail/one.edit: no fact fails
wrong programs: 9 tried, 1 faults
"""
ROWS = [["layout", "2"], ["proofs", "40"], ["sum", "42"], ["theory", "2", "9"], ["moqresam", "1", "6"], ["sum", "3", "15"]]


def source(crate):
    """The path of the one source of a crate."""
    return f"crates/{crate}/src/{'main' if crate == 'sequencer' else 'lib'}.rt"


def prepare():
    """Fills the working directory: a repository of five crates, and the stand-ins in bin/."""
    for folder in ("bin", "tools", "tests"):
        os.mkdir(folder)
    for file in ("tools/prove.py", "tests/archives.sh", "tests/times.py"):
        shutil.copy(os.path.join(TOP, file), file)
    for name, text in (("bin/rt", RT), ("bin/objcopy", "#!/bin/sh\n")):
        write(name, text)
        os.chmod(name, 0o755)
    write("crates.txt", "# What each crate uses.\n" + "".join(f"{crate}: {needs}\n" for crate, needs in CRATES.items()))
    for crate in CRATES:
        name = crate.split()[0]
        os.makedirs(f"crates/{name}/src")
        write(source(name), name)
    os.environ["PATH"] = os.path.abspath("bin") + os.pathsep + os.environ["PATH"]


def write(path, text):
    with open(path, "w", encoding="utf-8") as file:
        file.write(text)


def run(*words):
    """The exit status, standard output, and standard error without the seconds at the start of its lines."""
    ended = subprocess.run(words, stdin=subprocess.DEVNULL, capture_output=True, text=True)
    return ended.returncode, ended.stdout, re.sub(r"(?m)^ +\d+ s  ", "", ended.stderr)


def calls():
    """The calls of rt since the last look."""
    text = open("calls", encoding="ascii").read() if os.path.exists("calls") else ""
    write("calls", "")
    return text.splitlines()


def proofs():
    """Pairs of what prove.py gave and what it must give."""
    prove = (sys.executable, "tools/prove.py")
    lines = [f"proving {nth} of 3: {crate}\n" for nth, crate in enumerate(("theory", "files", "harness"), 1)]
    yield run(*prove, "harness"), (0, "", "".join(lines) + "3 of 3 proved\n")
    yield calls(), ["lib theory", "lib files", "check harness"]
    yield run(*prove, "harness"), (0, "", "")
    yield run(*prove), (0, "", "proving 3 of 5: moqresam\nproving 5 of 5: sequencer\n5 of 5 proved\n")
    yield calls(), ["check moqresam", "run sequencer"]
    yield open("target/bin/sequencer", encoding="ascii").read(), "sequencer"
    write("target/bin/sequencer", "other bytes")
    yield run(*prove, "sequencer"), (0, "", "proving 3 of 3: sequencer\n3 of 3 proved\n")
    write(source("files"), "changed")
    yield run(*prove), (0, "", "".join(f"proving {nth} of 5: {crate}\n" for nth, crate in ((2, "files"), (4, "harness"), (5, "sequencer"))) + "5 of 5 proved\n")
    write(source("theory"), "changed")
    write(source("files"), "wrong")
    yield run(*prove, "harness"), (1, "", lines[0] + lines[1] + "fn files::call: said\nlogic=not-proved\nfiles is not proved\n")
    yield open("target/log/files.say", encoding="ascii").read(), "fn files::call: said\nlogic=not-proved\n"
    yield run(*prove, "file"), (2, "", "crates.txt does not list file\n")
    write(source("files"), "endless")
    yield stopped(prove), (130, "gone")
    write(source("files"), "files")


def stopped(prove):
    """The exit status of a proof that is stopped, and whether what rt started is gone."""
    process = subprocess.Popen(prove, stderr=subprocess.DEVNULL)
    wait_for(lambda: os.path.exists("sleeper") and os.path.getsize("sleeper"))
    process.send_signal(signal.SIGTERM)
    sleeper = int(open("sleeper", encoding="ascii").read())
    if wait_for(lambda: not is_running(sleeper)):
        return process.wait(), "gone"
    os.kill(sleeper, signal.SIGKILL)
    return process.wait(), "running"


def is_running(number):
    try:
        return open(f"/proc/{number}/stat", encoding="ascii").read().split()[2] not in "ZX"
    except FileNotFoundError:
        return False


def wait_for(condition):
    """Whether the condition comes true within ten seconds."""
    end = time.monotonic() + 10
    while not condition() and time.monotonic() < end:
        time.sleep(0.05)
    return condition()


def archives():
    """Pairs of the archives that were built and those that had to be."""

    def built():
        return re.findall(r"(?m)^building target/staticlib/lib(\w+)\.a", run("bash", "tests/archives.sh")[2])

    yield built(), ["moqresam", "harness"]
    yield built(), []
    write(source("harness"), "changed")
    yield built(), ["harness"]
    write("target/staticlib/libmoqresam.a", "other bytes")
    yield built(), ["moqresam"]
    os.remove("target/staticlib/libmoqresam.a")
    yield built(), ["moqresam"]
    write("tests/archives.sh", open("tests/archives.sh", encoding="utf-8").read() + "# changed\n")
    yield built(), ["moqresam", "harness"]
    write(source("moqresam"), "wrong")
    yield run("bash", "tests/archives.sh")[0], 1


def times():
    """Pairs of what times.py gave and what it must give."""
    write("stages", "2\tlayout\n40\tproofs\n")
    write("printed", PRINTED)
    status, printed, _ = run(sys.executable, "tests/times.py", "stages", "printed")
    yield (status, [line.split() for line in printed.splitlines() if not re.search("stage|wrong", line)]), (0, ROWS)
    write("printed", "0 passed, 1 failed\n")
    yield run(sys.executable, "tests/times.py", "stages", "printed")[0], 1


def main():
    with tempfile.TemporaryDirectory() as folder:
        os.chdir(folder)
        prepare()
        tried = [pair for trials in (proofs, archives, times) for pair in trials()]
        os.chdir(TOP)
    faults = [f"gave {given}, and not {wanted}" for given, wanted in tried if given != wanted]
    return tell(faults, len(tried), f"tools: {len(tried)} tried, {len(faults)} faults")


if __name__ == "__main__":
    sys.exit(main())
