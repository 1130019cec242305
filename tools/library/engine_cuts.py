"""Cuts the power of engines on the patch cache, at each of their writes, and opens what is left.

    python3 tools/library/engine_cuts.py ENGINE ...      # --cases N, --seed S change how many lists of records, and which

ENGINE is a program as `examples/log_engine.c` makes one: called with a file, it says which records that has, one in a line, and appends those of
its input; behind each empty line, and at the end, it says `synced`. Several have to read one another's files.

Each engine is run under `strace`, which tells each write to the file and each sync of it. Behind each of these the program is killed: the file
has all writes so far. And the power is cut: the file has all writes in front of the last sync that had ended, and any of those since. Each file
that may be left is opened by an engine: it has to have the first so many records, each of them whole, and all those that were synced; and
it has to take another one. The last line tells how many files were opened; the status is 1 if anything was wrong.
"""

import argparse
import hashlib
import os
import pathlib
import random
import shutil
import subprocess
import sys
import tempfile
from dataclasses import dataclass

sys.dont_write_bytecode = True
sys.path.insert(0, str(pathlib.Path(__file__).resolve().parents[1]))

import cuts
from comparing import FILE, Wrong

LONGEST = 9000  # bytes of a record: over three blocks
MORE = "one more"
# (where a program is traced, it can't look for leaks)
ENVIRONMENT = {**os.environ, "ASAN_OPTIONS": "detect_leaks=0"}


@dataclass(frozen=True)
class Run:
    """The engine is given these lines: records, and empty ones that sync them."""

    lines: tuple

    def perform(self, engine, folder, under=(), output=subprocess.PIPE):
        text = "".join(f"{line}\n" for line in self.lines).encode()
        words = [*under, engine, FILE]
        ended = subprocess.run(words, cwd=folder, input=text, stdout=output, stderr=subprocess.PIPE, env=ENVIRONMENT)
        if ended.returncode:
            raise Wrong(f"{engine} ends with {ended.returncode}: {ended.stderr.decode()}")
        return ended.returncode, (ended.stdout or b"").decode()

    def synced(self):
        """How many records there are behind each sync: at first, behind each empty line, and at the end."""
        places = [place for place, line in enumerate((*self.lines, "")) if not line]
        return [0, *(sum(map(bool, self.lines[:place])) for place in places)]


def lines_of(chance):
    """Records, no two of them alike, and syncs between some."""
    lines = []
    for number in range(chance.randrange(3, 12)):
        length = chance.randrange(1, chance.choice((20, 20, 300, LONGEST)))
        lines.append((f"{number} " + chance.choice("abcdefgh") * length)[:length] or "x")
        lines += [""] if chance.random() < 0.2 else []
    return tuple(lines)


class Opening:
    """Opens what is left, each file once, and with the engines in turn."""

    def __init__(self, engines, folder):
        self.engines, self.folder, self.seen, self.count = engines, folder, set(), 0

    def look(self, content, records, synced):
        """What is left has the first so many of these records, and so many at least as were synced."""
        key = hashlib.sha256(content).digest(), synced
        if key in self.seen:
            return
        self.seen.add(key)
        cuts.write(os.path.join(self.folder, FILE), content)
        engine = self.engines[self.count % len(self.engines)]
        self.count += 1
        found = said_by(engine, self.folder, (MORE,))
        if not synced <= len(found) <= len(records) or found != records[: len(found)]:
            raise Wrong(f"{engine} finds {shown(found)} of {shown(records)}, of which {synced} were synced")
        again = said_by(engine, self.folder, ())
        if again != [*found, MORE]:
            raise Wrong(f"{engine} finds {shown(again)} behind {shown(found)} and one more")


def said_by(engine, folder, lines):
    """The records that the engine finds in the file; it appends these."""
    *found, synced = Run(lines).perform(engine, folder)[1].splitlines()
    if synced != "synced":
        raise Wrong(f"{engine} ends without a sync")
    return found


def shown(records):
    return [record[:12] for record in records]


def run_case(engine, engines, chance):
    """Looks at all that may be left of one run, and tells how many files that were."""
    run = Run(lines_of(chance))
    records = [line for line in run.lines if line]
    with tempfile.TemporaryDirectory() as folder, tempfile.TemporaryDirectory() as other:
        said_by(engine, folder, ())  # (makes the file)
        _, moments = cuts.traced(engine, run, folder)
        opening, synced = Opening(engines, other), run.synced()
        for moment in moments:
            opening.look(moment.content, records, synced[moment.synced])
            for _, left in cuts.cuts_of(moment, chance) if moment.loose else ():
                opening.look(left, records, synced[moment.synced])
        if moments[-1].synced != len(synced) - 1:
            raise Wrong(f"{engine} says that it has synced {moments[-1].synced} times, and not {len(synced) - 1}")
    return opening.count


def can_trace():
    return shutil.which("strace") and subprocess.run(["strace", "-o", os.devnull, "true"], stderr=subprocess.DEVNULL).returncode == 0


def main():
    parser = argparse.ArgumentParser(description=__doc__, formatter_class=argparse.RawDescriptionHelpFormatter)
    parser.add_argument("engines", nargs="+", metavar="ENGINE", help="an engine")
    parser.add_argument("--cases", type=int, default=20, help="how many lists of records (default 20)")
    parser.add_argument("--seed", type=int, default=1, help="which (default 1)")
    words = parser.parse_args()
    if not can_trace():
        print("skipped: there is no strace, or it may not trace")
        return 0
    engines, count = [os.path.abspath(engine) for engine in words.engines], 0
    for case in range(words.cases):
        chance = random.Random(f"{words.seed} {case}")
        try:
            count += run_case(engines[case % len(engines)], engines, chance)
        except Wrong as wrong:
            print(f"seed {words.seed}, case {case}: {wrong}")
            return 1
    print(f"{count} files opened, by {len(engines)} {'engine' if len(engines) == 1 else 'engines'}")
    return 0


if __name__ == "__main__":
    sys.exit(main())
