#!/usr/bin/env python3
"""Proves crates with `rt`, and says on standard error what is being proved.

    prove.py [NAME ..]    the crates named and those that they need; without a name, all of crates.txt

Each is proved in its own folder, those that it needs before it: by `rt lib` if others need it, by `rt run` if it is a program, else by `rt check`. `rt run`
builds the program and runs it there, where there is nothing to read; the program is then copied to target/bin/NAME. What the prover said of a crate when
it was last proved is in target/log/NAME.say, and target/stamp/NAME has a hash of all that the proof stands on.

A line has the seconds so far and which crate of how many it is. A crate that has not changed since its proof is counted and gets no line: where
nothing has changed, nothing is said. If a proof fails, what the prover said of that crate is shown. The exit status is rt's."""
import hashlib
import os
import shutil
import signal
import subprocess
import sys
import time

TOP = os.path.join(os.path.dirname(os.path.abspath(__file__)), "..")


def listed():
    """The crates of crates.txt, each with those that it needs; kit libraries are not listed there. A word behind a name says what is built of it."""
    with open("crates.txt", encoding="utf-8") as file:
        lines = [line.partition("#")[0].partition(":") for line in file]
    return {name.split()[0]: needs.split() for name, colon, needs in lines if colon}


def in_order(names, crates, found=()):
    """The crates named and those that they need, each behind those that it needs; before them those that are found already."""
    found = list(found)
    for name in names:
        if name in crates and name not in found:
            found = [*in_order(crates[name], crates, found), name]
    return found


def program_of(crate):
    """Where the program of the crate is put; None where it is a library."""
    return f"target/bin/{crate}" if os.path.exists(f"crates/{crate}/src/main.rt") else None


def verb_for(crate, crates):
    """rt's word for proving the crate, and for building what the crates above it, or the people who run it, need."""
    if program_of(crate):
        return "run"
    return "lib" if any(crate in needs for needs in crates.values()) else "check"


def sum_of_file(path):
    """A hash of the file; none where there is no such file."""
    try:
        with open(path, "rb") as file:
            return hashlib.sha256(file.read()).hexdigest()
    except FileNotFoundError:
        return "none"


class Stamps:
    """What a proof of each crate stands on, by a hash: the kit, the crate's files, and all that it needs."""

    def __init__(self, crates):
        self.crates, self.made = crates, {}
        self.kit = subprocess.run(["rt", "version"], stdin=subprocess.DEVNULL, capture_output=True, text=True, check=True).stdout

    def of(self, crate):
        if crate not in self.made:
            needs = self.crates.get(crate, [])
            parts = [self.kit, crate, needs, *(self.of(need) for need in needs if need in self.crates)]
            for part in ("src", "specs", "proofs"):
                for folder, folders, names in os.walk(f"crates/{crate}/{part}"):
                    folders.sort()
                    parts += [(f"{folder}/{name}", sum_of_file(f"{folder}/{name}")) for name in sorted(names)]
            self.made[crate] = hashlib.sha256(repr(parts).encode()).hexdigest()
        return self.made[crate]

    def text(self, crate):
        """What the stamp has to be: behind the hash stands that of the program, where the crate is one."""
        program = program_of(crate)
        return f"{self.of(crate)}\n" + (f"{sum_of_file(program)}\n" if program else "")

    def is_proved(self, crate):
        """Whether nothing has changed since the crate was proved."""
        try:
            with open(f"target/stamp/{crate}", encoding="utf-8") as file:
                return file.read() == self.text(crate)
        except FileNotFoundError:
            return False

    def note(self, crate):
        with open(f"target/stamp/{crate}", "w", encoding="utf-8") as file:
            file.write(self.text(crate))


def stop(process):
    """Ends rt and all that it started. It has a group of its own: what a shell starts in the background does not hear Ctrl-C."""
    try:
        os.killpg(process.pid, signal.SIGTERM)
    except ProcessLookupError:
        pass
    process.wait()


def interrupted(number, frame):
    raise KeyboardInterrupt


def prove(crate, verb):
    """Proves the crate, and gives rt's exit status."""
    with open(f"target/log/{crate}.say", "wb") as file:
        how = {"stdin": subprocess.DEVNULL, "stdout": file, "stderr": file, "start_new_session": True}
        process = subprocess.Popen(["rt", verb], cwd=f"crates/{crate}", **how)
        try:
            status = process.wait()
        except BaseException:
            stop(process)
            raise
    if status == 0 and program_of(crate):
        shutil.copy(f"crates/{crate}/out/{crate}", program_of(crate))
    return status


def run(names):
    """Proves the crates, and gives the exit status of rt where it failed, else 0."""
    start, crates = time.monotonic(), listed()
    for name in names:
        if name not in crates:
            print(f"crates.txt does not list {name}", file=sys.stderr)
            return 2
    wanted, stamps, has_begun = in_order(names or crates, crates), Stamps(crates), False

    def say(words):
        print(f"{time.monotonic() - start:5.0f} s  {words}", file=sys.stderr, flush=True)

    for folder in ("bin", "log", "stamp"):
        os.makedirs(f"target/{folder}", exist_ok=True)
    for number, crate in enumerate(wanted, 1):
        if stamps.is_proved(crate):
            continue
        say(f"proving {number} of {len(wanted)}: {crate}")
        has_begun, before = True, stamps.of(crate)
        status = prove(crate, verb_for(crate, crates))
        if status != 0:
            with open(f"target/log/{crate}.say", encoding="utf-8", errors="replace") as file:
                sys.stderr.write(file.read())
            say(f"{crate} is not proved")
            return status
        # What was changed during the proof is proved the next time.
        if Stamps(crates).of(crate) == before:
            stamps.note(crate)
    if has_begun:
        say(f"{len(wanted)} of {len(wanted)} proved")
    return 0


def main():
    os.chdir(TOP)
    for number in (signal.SIGTERM, signal.SIGHUP):
        signal.signal(number, interrupted)
    try:
        return run(sys.argv[1:])
    except KeyboardInterrupt:
        print("stopped; what is proved by now will not be proved again", file=sys.stderr)
        return 130
    except FileNotFoundError as missing:
        print(f"{missing.filename} is not there; rt is the command of the Rattle kit", file=sys.stderr)
        return 2


if __name__ == "__main__":
    sys.exit(main())
