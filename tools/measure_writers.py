#!/usr/bin/env python3
"""Measures `fstch run` with writers on threads beside a run without: python3 tools/measure_writers.py PROGRAM [--runs N] [--count COUNT]

The lines of the patterns small and mixed of `measure_scripts.py`, without their syncs, are given to one, two, four and eight writers
in turn. For each the table has the replies per second: the lines by the median time of a run on a new file, from the start of the
process to its end, reading and writing of the file among it. Writes are those of the file, and holdings how often the lock is held: once
for each line, and to begin and to end each write; looks that find nothing to begin aren't among them. Threads run as they
like, so the writes differ from run to run: the fewest and the most are shown. It needs `strace`, to count them.
"""

import argparse
import json
import os
import statistics
import subprocess
import sys
import tempfile
import time

sys.dont_write_bytecode = True

from measure_scripts import DISKS, OF_RUN

PATTERNS = ("small", "mixed")
WRITERS = (1, 2, 4, 8)
FILE = "disk"


def script_of(pattern, count, writers):
    """The text of the lines, each with its writer where there are several."""
    lines = [line for line in OF_RUN[pattern](count) if line["op"] != "sync"]
    named = [{**line, "writer": at % writers} if writers else line for at, line in enumerate(lines)]
    return "".join(json.dumps(line, separators=(",", ":")) + "\n" for line in named).encode()


def words_of(writers):
    return ["run", FILE, "--writers", str(writers)] if writers else ["run", FILE]


def new_file(program, folder, pattern):
    index, extents = DISKS[pattern]
    if os.path.exists(f"{folder}/{FILE}"):
        os.remove(f"{folder}/{FILE}")
    words = [program, "make", FILE, "--index", str(index), "--extents", str(extents)]
    subprocess.run(words, cwd=folder, check=True, stdout=subprocess.DEVNULL)


def seconds(program, folder, pattern, script, writers):
    """How long a run takes on a new file."""
    new_file(program, folder, pattern)
    begun = time.perf_counter()
    subprocess.run([program, *words_of(writers)], cwd=folder, check=True, input=script, stdout=subprocess.DEVNULL)
    return time.perf_counter() - begun


def writes(program, folder, pattern, script, writers):
    """How many blocks a run writes to a new file."""
    new_file(program, folder, pattern)
    words = ["strace", "-f", "-e", "trace=pwrite64", "-P", FILE, "-o", "log", program, *words_of(writers)]
    subprocess.run(words, cwd=folder, check=True, input=script, stdout=subprocess.DEVNULL, stderr=subprocess.DEVNULL)
    with open(f"{folder}/log", encoding="utf-8", errors="replace") as log:
        return sum("pwrite64(" in line for line in log)


def between(least, most):
    return f"{least:,}" if least == most else f"{least:,} to {most:,}"


def row(program, pattern, count, writers, runs):
    script = script_of(pattern, count, writers)
    lines = script.count(b"\n")
    with tempfile.TemporaryDirectory() as folder:
        median = statistics.median(seconds(program, folder, pattern, script, writers) for _ in range(runs))
        counts = [writes(program, folder, pattern, script, writers) for _ in range(min(runs, 5))]
    held = [lines + 2 * it for it in counts]
    holdings = between(min(held), max(held)) if writers else "none"
    cells = (pattern, writers or "no thread", f"{lines / median:,.0f}", between(min(counts), max(counts)), holdings)
    return f"| {' | '.join(map(str, cells))} |"


def main():
    words = argparse.ArgumentParser(description=__doc__, formatter_class=argparse.RawDescriptionHelpFormatter)
    words.add_argument("program", metavar="PROGRAM", help="the built fstch")
    words.add_argument("--runs", type=int, default=15, help="how many runs of each (default 15)")
    words.add_argument("--count", type=int, default=0, help="how many lines (default 1,000 of small and 10,000 of mixed)")
    asked = words.parse_args()
    program = os.path.abspath(asked.program)
    print("| Script | Writers | Replies per second | Writes | Holdings of the lock |\n| --- | --- | --- | --- | --- |")
    for pattern in PATTERNS:
        count = asked.count or {"small": 1000, "mixed": 10000}[pattern]
        for writers in (0, *WRITERS):
            print(row(program, pattern, count, writers, asked.runs), flush=True)


if __name__ == "__main__":
    main()
