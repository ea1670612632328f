#!/usr/bin/env python3
"""Compares the speed of two commits, row by row: bench/compare.py BEFORE AFTER [PART OF A TITLE].

Each is a folder with the tree of a commit, its archives built, and is measured by its own bench: a reply may have other fields in the other.
Five runs of each in turn, on a quiet machine. What counts is the ratio of the archive to the faster baseline of the same run, in the median of the
five; a row is slower, or faster, if the medians differ by more than a tenth and by more than the spread of BEFORE's five. Each of the five runs puts
the archive's code at another place: a loop that stands 16 bytes further can take 1.4 times as long, and a change moves what stands behind it."""
import os
import re
import statistics
import subprocess
import sys

SHIFTS = (0, 16, 32, 48, 64)
ROW = re.compile(r"\| (\w+) \| ([^|]*) \| (\d+ [a-z]+) \| [\d.]+ \| [\d.]+ \| [\d.]+ \| ([\d.]+) \|")


def run(tree, shift, part):
    """The ratio of every row."""
    environment = dict(os.environ, SHIFT=str(shift))
    script = os.path.join(tree, "bench", "run.sh")
    printed = subprocess.run(["bash", script] + part, env=environment, check=True, capture_output=True, text=True).stdout
    return {(call, family, size): float(ratio) for call, family, size, ratio in ROW.findall(printed)}


def differs(before, after):
    """Whether a row's ratios are of another speed."""
    apart = abs(statistics.median(after) - statistics.median(before))
    return apart > 0.1 * statistics.median(before) and apart > max(before) - min(before)


def main():
    trees, part = sys.argv[1:3], sys.argv[3:]
    runs = [[run(tree, shift, part) for tree in trees] for shift in SHIFTS]
    found = {"slower": 0, "faster": 0}
    rows = [row for row in runs[0][0] if row in runs[0][1]]
    for row in rows:
        before, after = ([ratios[k][row] for ratios in runs] for k in (0, 1))
        if differs(before, after):
            word = "slower" if statistics.median(after) > statistics.median(before) else "faster"
            found[word] += 1
            print(f"{word}: {', '.join(row)}: {statistics.median(before):.2f} before, {statistics.median(after):.2f} after")
    print(f"{len(rows)} rows, {found['slower']} slower, {found['faster']} faster")


if __name__ == "__main__":
    main()
