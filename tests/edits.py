#!/usr/bin/env python3
"""Tries the wrong programs of crates/*/must-fail, and looks at what the prover says of each: one shows something only if it is refused because a fact
fails, and not because the text no longer fits. One that changes a function has to fail at a fact of that very function; and where a check tries
such ones alone, no fact may fail of anything else: then what fails is each one's own.

    edits.py [--jobs N] [CRATE ..]    the wrong programs of these crates; without a name, of all

`rt ci` tries them too, but says one line of a file, which does not tell the functions at fault. So each file is tried here by a check of its own, on a
copy of the crates outside the tree, over what a check of the crate as it stands has kept. N checks run side by side, or as many as there are processors and
memory for. What a check said is kept in target/must-fail/CRATE/LABEL.log, with a hash of all that it stands on: a file of which nothing has changed is
judged by it, and not tried again.

Standard error says what was tried. In the end a line for each crate says how many checks it took, and their seconds; then come the faults. The exit status
says whether there are any."""
import concurrent.futures
import functools
import hashlib
import os
import re
import shutil
import signal
import subprocess
import sys
import tempfile
import threading
import time
from collections import Counter

from verdict import tell
from wrong_programs import PROOF_FILES, trials, unfit_together

TOP = os.path.join(os.path.dirname(os.path.abspath(__file__)), "..")
# What an error says where a text no longer fits, and where a check that goes by other errors does not count.
UNFIT = ("is not in scope", "that can be named", "no constructor", "has no field", "is no name", "no clause covers", "operand is missing", "expected the end")
FOLLOWS = ("was not admitted", "which is not proved", "which are not proved")
# What an error says goes on in lines that are set in.
FAILED = re.compile(r"(?m)^(?:\./)?((?:proofs|specs|src)/.*)\.(?:antt|rt):\d+:\d+: error: (.*(?:\n  .*)*)$")
UNPROVED = re.compile(r"(?m)^fn \w+::(\S+): no proof: .*; `search` did not prove (.*)$")
# An error on what a declaration says begins with its name; one without is of a text that cannot be read.
OF_A_DECLARATION = re.compile(r"`[^`]*`: ")
# The source is not Rattle any more: no fact was tried.
NOT_COMPILED = re.compile(r"(?m)^error\[.*$")
# A check that takes longer is ended.
LIMIT = 900
# What a check takes of memory, at most, where several run side by side.
MEMORY = 3 << 30


def findings(log):
    """What the prover says of facts, but for what follows from other errors: the function whose proof fails, or None where it is a law, a definition or
    the source, and the words. Errors in files come first, in the order of the log; then the goals of functions that have no proof of them."""
    said = []
    for file, words in FAILED.findall(log):
        proof = re.fullmatch(rf"proofs/(.*)/(?:{'|'.join(PROOF_FILES)})", file)
        said.append((proof and proof[1].replace("/", "::"), words))
    for function, goals in UNPROVED.findall(log):
        said.extend((function, f"`{goal}`: `search` did not prove it") for goal in re.findall(r"`([^`]+)`", goals))
    return [(function, words) for function, words in said if not any(follows in words for follows in FOLLOWS)]


def fault(program, found):
    """Why a wrong program counts for nothing; None where it counts."""
    own = [words for function, words in found if program.function in (None, function)]
    if not own:
        return "no fact fails"
    if any(words in own[0] for words in UNFIT) or not OF_A_DECLARATION.match(own[0]):
        return f"refused because the text does not fit: {own[0][:160]}"
    return None


def strange(trial, found):
    """What fails although no wrong program of the file changes it."""
    changed = {program.function for program in trial.programs}
    return set() if None in changed else {str(function) for function, _ in found if function not in changed}


def unread(log):
    """The errors of a source or of a definition that could not be read: where there are any, no fact of it was tried."""
    for file, words in FAILED.findall(log):
        if not file.startswith("proofs/") and (not OF_A_DECLARATION.match(words) or any(unfit in words for unfit in UNFIT)):
            yield f"{file} cannot be read: {words[:160]}"
    yield from (words[:160] for words in NOT_COMPILED.findall(log))


def judge(trial, log):
    """The faults of a file's wrong programs, each with its name."""
    faults = list(unread(log))
    if faults:
        return faults
    found = findings(log)
    faults = [f"{function} fails, and is not changed" for function in sorted(strange(trial, found))]
    return faults + [f"{program.name}: {fault(program, found)}" for program in trial.programs if fault(program, found)]


def edited(text, read):
    """The texts of the files that an edit changes, by their paths. `read` gives a file's text; a ValueError says why the edit cannot be applied."""
    path, old, texts = "", None, {}
    for line in text.split("\n"):
        kind, _, words = line.partition(":")
        if kind == "file":
            path = words.strip()
        elif kind == "old":
            old = words.removeprefix(" ")
        elif kind == "new":
            before = texts.setdefault(path, read(path))
            if before.count(old) != 1:
                raise ValueError(f"{path} has the line {old.strip()!r} {before.count(old)} times, and not once")
            texts[path] = before.replace(old, words.removeprefix(" "))
    return texts


def needs():
    """What crates.txt says of each crate: those that it uses."""
    found = {}
    for line in open("crates.txt", encoding="utf-8"):
        name, colon, used = line.partition("#")[0].partition(":")
        if colon:
            found[name.split()[0]] = used.split()
    return found


def with_below(crate, used):
    """The crate and those that it stands on."""
    found = [crate]
    for name in found:
        found.extend(below for below in used.get(name, []) if below in used and below not in found)
    return found


def sources(crate):
    """The paths of all that a proof of the crate reads of it."""
    for part in ("src", "specs", "proofs"):
        for folder, folders, names in os.walk(f"crates/{crate}/{part}"):
            folders.sort()
            yield from (f"{folder}/{name}" for name in sorted(names))


@functools.lru_cache(maxsize=None)
def sum_of_crate(crate):
    """A hash of all that a proof of the crate reads of it."""
    made = hashlib.sha256(crate.encode())
    for path in sources(crate):
        made.update(repr((path, open(path, "rb").read())).encode())
    return made.hexdigest()


@functools.lru_cache(maxsize=None)
def kit():
    """The line by which rt names itself."""
    return subprocess.run(["rt", "version"], stdin=subprocess.DEVNULL, capture_output=True, text=True, check=True).stdout


def sum_of(trial, used):
    """A hash of all that a try of the file stands on."""
    below = [(crate, used.get(crate), sum_of_crate(crate)) for crate in with_below(trial.crate, used)]
    return hashlib.sha256(repr((kit(), below, open(trial.path, encoding="utf-8").read())).encode()).hexdigest()


def kept_in(trial):
    return f"target/must-fail/{trial.crate}/{trial.label}.log"


def kept(trial, made_of):
    """What a check said of the file when it stood on the same; None where there is no such check."""
    try:
        first, _, log = open(kept_in(trial), encoding="utf-8").read().partition("\n")
    except OSError:
        return None
    return log if first == made_of else None


def keep(trial, made_of, log):
    os.makedirs(os.path.dirname(kept_in(trial)), exist_ok=True)
    with open(kept_in(trial) + ".new", "w", encoding="utf-8") as file:
        file.write(f"{made_of}\n{log}")
    os.replace(kept_in(trial) + ".new", kept_in(trial))


class Checks:
    """The runs of rt that go on, so that they can be ended."""

    def __init__(self):
        self.running, self.lock, self.ended = set(), threading.Lock(), False

    def run(self, folder):
        """Checks the crate in the folder; its exit status, and what it said. A check that is ended early has the status None."""
        with tempfile.TemporaryFile("w+", encoding="utf-8", errors="replace") as said:
            with self.lock:
                if self.ended:
                    return None, ""
                words = ["rt", "check", "--jobs", "1"]
                process = subprocess.Popen(words, cwd=folder, stdin=subprocess.DEVNULL, stdout=said, stderr=subprocess.STDOUT)
                self.running.add(process)
            try:
                status = process.wait(LIMIT)
            except subprocess.TimeoutExpired:
                process.kill()
                process.wait()
                status = None
            finally:
                with self.lock:
                    self.running.discard(process)
            said.seek(0)
            return status, said.read()

    def end(self):
        """Ends all that run: rt ends what it started itself."""
        with self.lock:
            self.ended = True
            for process in self.running:
                process.terminate()


class Copy:
    """A copy of the crates, in which one file after the other is tried. rt keeps its work in the crates' folders there; a crate's folder is put back
    to what it was after the check of the crate as it stands, texts and kept work alike, before each file."""

    def __init__(self, folder, crates, checks):
        self.folder, self.checks, self.crate, self.wrong = folder, checks, None, None
        for path in ["crates.txt", *(path for crate in crates for path in sources(crate))]:
            os.makedirs(os.path.dirname(f"{folder}/{path}"), exist_ok=True)
            shutil.copy(path, f"{folder}/{path}")

    def prepare(self, crate):
        """Checks the crate as it stands, and remembers why it is not proved, if it is not."""
        if self.crate and not self.wrong:
            self.put_back()
        self.crate = crate
        status, said = self.checks.run(f"{self.folder}/crates/{crate}")
        self.wrong = None if status == 0 else f"{crate} is not proved as it stands: {last_line(said)}"
        shutil.rmtree(f"{self.folder}/proved", ignore_errors=True)
        if status == 0:
            shutil.copytree(f"{self.folder}/crates/{crate}", f"{self.folder}/proved")

    def put_back(self):
        shutil.rmtree(f"{self.folder}/crates/{self.crate}")
        shutil.copytree(f"{self.folder}/proved", f"{self.folder}/crates/{self.crate}")

    def try_out(self, trial):
        """What a check says of the file, or None, and why there is no such check."""
        if self.crate != trial.crate:
            self.prepare(trial.crate)
        if self.wrong:
            return None, self.wrong
        self.put_back()
        folder = f"{self.folder}/crates/{trial.crate}"
        try:
            texts = edited(open(trial.path, encoding="utf-8").read(), lambda path: open(f"{folder}/{path}", encoding="utf-8").read())
        except ValueError as why:
            return None, f"it cannot be applied: {why}"
        except FileNotFoundError as missing:
            return None, f"it cannot be applied: there is no file {os.path.relpath(missing.filename, folder)}"
        for path, text in texts.items():
            with open(f"{folder}/{path}", "w", encoding="utf-8") as file:
                file.write(text)
        status, said = self.checks.run(folder)
        if status == 0:
            return said, None
        if status == 1 and "\nlogic=not-proved\n" in said:
            return said, None
        return None, f"its check tells nothing, with status {status}: {next(unread(said), last_line(said))}"


def last_line(said):
    return (said.strip().split("\n") or [""])[-1][:160]


class Queue:
    """The files that are to be tried, and what came of them."""

    def __init__(self, left):
        self.left, self.count, self.results, self.lock, self.start = {}, len(left), {}, threading.Lock(), time.monotonic()
        for trial in left:
            self.left.setdefault(trial.crate, []).append(trial)

    def next(self, crate):
        """A file of the crate that whoever asks is at, if there is one left; else one of the crate with most left."""
        with self.lock:
            if not self.left:
                return None
            crate = crate if crate in self.left else max(self.left, key=lambda name: len(self.left[name]))
            trial = self.left[crate].pop()
            if not self.left[crate]:
                del self.left[crate]
            return trial

    def done(self, trial, log, why, seconds):
        """Takes what a check said of the file, or why there is no such check, and how long it took."""
        with self.lock:
            self.results[trial.path] = log, why, seconds
            words = f"tried {len(self.results)} of {self.count}: {trial.crate}/{trial.label} ({seconds:.0f} s)"
            print(f"{time.monotonic() - self.start:5.0f} s  {words}", file=sys.stderr, flush=True)


def at_once():
    """How many checks are run side by side: one for each processor, as far as there is memory."""
    free = re.search(r"(?m)^MemAvailable: +(\d+) kB$", open("/proc/meminfo", encoding="ascii").read())
    return max(1, min(len(os.sched_getaffinity(0)), int(free[1]) * 1024 // MEMORY))


def work(folder, sums, used, checks, queue):
    """Tries files until none is left, and keeps what was said of each."""
    copy = None
    while True:
        trial = queue.next(copy and copy.crate)
        if trial is None or checks.ended:
            return
        began = time.monotonic()
        copy = copy or Copy(folder, used, checks)
        log, why = copy.try_out(trial)
        if checks.ended:
            return
        # What was changed meanwhile is tried again the next time.
        sum_of_crate.cache_clear()
        if why is None and sum_of(trial, used) == sums[trial.path]:
            keep(trial, sums[trial.path], log)
        queue.done(trial, log, why, time.monotonic() - began)


def try_all(left, sums, used, jobs):
    """Tries the files, so many at once; gives for each what its check said or why there is none, and the seconds."""
    checks, queue, many = Checks(), Queue(left), max(1, min(jobs, len(left)))
    with tempfile.TemporaryDirectory(prefix="edits-") as room:
        with concurrent.futures.ThreadPoolExecutor(many) as pool:
            try:
                for done in [pool.submit(work, f"{room}/{number}", sums, used, checks, queue) for number in range(many)]:
                    done.result()
            finally:
                checks.end()
    return queue.results


def interrupted(number, frame):
    raise KeyboardInterrupt


def looked_at(tried, jobs):
    """The faults of the files; prints a line for each crate."""
    used, faults, seconds, checked = needs(), [], Counter(), Counter()
    sums = {trial.path: sum_of(trial, used) for trial in tried if trial.crate in used and not unfit_together(trial)}
    logs = {path: kept(trial, sums[path]) for trial in tried for path in [trial.path] if path in sums}
    results = try_all([trial for trial in tried if trial.path in sums and logs[trial.path] is None], sums, used, jobs)
    for trial in tried:
        why = unfit_together(trial) or ("its crate is not in crates.txt" if trial.path not in sums else None)
        if trial.path in results:
            logs[trial.path], why, took = results[trial.path]
            seconds[trial.crate] += took
            checked[trial.crate] += 1
        faults.extend(f"{trial.path}: {fault}" for fault in ([why] if why else judge(trial, logs[trial.path])))
    for crate in dict.fromkeys(trial.crate for trial in tried):
        files = sum(trial.crate == crate for trial in tried)
        print(f"edits: {crate}: {files} files, {checked[crate]} tried ({seconds[crate]:.0f} s)")
    return faults


def main(names):
    os.chdir(TOP)
    jobs = at_once()
    if len(names) > 1 and names[0] == "--jobs" and re.fullmatch("[1-9][0-9]?", names[1]):
        jobs, names = int(names[1]), names[2:]
    for number in (signal.SIGTERM, signal.SIGHUP):
        signal.signal(number, interrupted)
    tried = [trial for trial in trials() if trial.crate in names or not names]
    lacking = sorted(set(names) - {trial.crate for trial in tried})
    try:
        faults = [f"crates/{name}: no wrong programs" for name in lacking] + looked_at(tried, jobs)
    except KeyboardInterrupt:
        print("edits: stopped", file=sys.stderr)
        return 130
    programs = sum(len(trial.programs) for trial in tried)
    return tell(faults, programs, f"wrong programs: {programs} tried, {len(faults)} faults")


if __name__ == "__main__":
    sys.exit(main(sys.argv[1:]))
