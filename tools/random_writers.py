#!/usr/bin/env python3
"""Compares `fstch run --writers N` with a plain model on random scripts of several writers.

Each script is run on a new file. Its answers are right if one writer who gave all lines in some order would have had them, each
writer's lines in their order: the model looks for such an order. What the keys have then is read by a second run, and has to be what
they have at the end of such an order; and the file has to pass `fstch check`. Scripts are the same for the same seed, but what the
threads make of them isn't. The last line is 'N passed, M failed', and the status is 1 where any failed.
"""

import argparse
import functools
import os
import random
import sys
import tempfile

sys.dont_write_bytecode = True

from comparing import FILE, Call, texts_of, try_all

KEYS = ("a", "b", "c")
EXTENTS = 8
FAILURES_SHOWN = 5
MOST_PLACES = 20000


class Script:
    """The lines of some writers, each list in the order in which that writer gives them."""

    def __init__(self, seed):
        self.random = random.Random(seed)
        self.writers = self.random.choice((1, 2, 2, 2, 3, 3, 4, 5, 8))
        longest = max(it for it in range(1, 13) if (it + 1) ** self.writers <= MOST_PLACES)
        self.values = 0
        self.jobs = [self.job(self.random.randint(0, longest)) for _ in range(self.writers)]

    def job(self, length):
        return [self.command() for _ in range(length)]

    def command(self):
        op = self.random.choices(("put", "get", "delete", "group", "reclaim"), (8, 8, 4, 1, 1))[0]
        if op == "group":
            return {"op": op}
        if op == "reclaim":
            return {"op": op, "extent": EXTENTS + self.random.randrange(3)}
        key = self.random.choice(KEYS) if self.random.random() < 0.96 else "k" * self.random.choice((0, 33))
        if op != "put":
            return {"op": op, "key": key}
        self.values += 1
        return {"op": op, "key": key, "hex": f"{self.values:04x}", "times": self.random.choice((1, 1, 1, 700, 3000))}

    def lines(self):
        """All lines, mixed, each with its writer."""
        left = [list(job) for job in self.jobs]
        mixed = []
        while any(left):
            writer = self.random.choice([it for it, job in enumerate(left) if job])
            mixed.append({**left[writer].pop(0), "writer": writer})
        return mixed


def answer(command, values, groups):
    """The answer to a command where the keys have these values and there are so many groups, and what is so then."""
    op, key = command["op"], command.get("key")
    if op == "group":
        return f"group {groups}", values, groups + 1
    if op == "reclaim":
        return "refused NoSuchExtent", values, groups
    if not 0 < len(key) <= 32:
        return "refused KeyLength", values, groups
    held = dict(values)
    if op == "get":
        return f"value {held[key]}" if key in held else "none", values, groups
    if op == "delete":
        if key not in held:
            return "refused NoKey", values, groups
        del held[key]
    else:
        held[key] = command["hex"] * command["times"]
    return "ok", frozenset(held.items()), groups


def ends(jobs, answers):
    """What the keys can have at the end of an order of all lines in which each has this answer."""
    places = {((0,) * len(jobs), frozenset(), 0)}
    for _ in range(sum(map(len, jobs))):
        further = set()
        for at, values, groups in places:
            for writer, job in enumerate(jobs):
                if at[writer] < len(job):
                    said, values_now, groups_now = answer(job[at[writer]], values, groups)
                    if said == answers[writer][at[writer]]:
                        further.add(((*at[:writer], at[writer] + 1, *at[writer + 1 :]), values_now, groups_now))
        places = further
    return {values for _, values, _ in places}


def split(text, jobs):
    """The answers of each writer, or None where there aren't as many as lines."""
    lines = text.splitlines()
    if len(lines) != sum(map(len, jobs)):
        return None
    parts, start = [], 0
    for job in jobs:
        parts.append(lines[start : start + len(job)])
        start += len(job)
    return parts


def call(program, folder, words, lines=()):
    return Call(words, tuple(lines), 0, ()).perform(program, folder)


def what_is_wrong(program, folder, jobs, lines):
    """What is wrong with a run of these lines, or None."""
    make = call(program, folder, ("make", FILE, "--index", "1", "--extents", str(EXTENTS)))
    status, text = call(program, folder, ("run", FILE, "--writers", str(len(jobs))), lines)
    answers = split(text, jobs)
    if make[0] or status or answers is None:
        return f"it ends with {status}, and answers:\n{text}"
    found = ends(jobs, answers)
    if not found:
        return f"no order of the lines has these answers:\n{text}"
    _, read = call(program, folder, ("run", FILE), [{"op": "get", "key": key} for key in KEYS])
    held = {key: line.removeprefix("value ") for key, line in zip(KEYS, read.splitlines()) if line != "none"}
    if len(read.splitlines()) != len(KEYS) or frozenset(held.items()) not in found:
        return f"the keys have no such values at the end of an order with its answers:\n{text}{read}"
    status, report = call(program, folder, ("check", FILE))
    if status or not report.endswith("clean\n"):
        return f"the file doesn't pass a check:\n{report}"
    return None


def try_script(program, seed, number):
    script = Script(f"{seed} {number}")
    lines = script.lines()
    with tempfile.TemporaryDirectory() as folder:
        wrong = what_is_wrong(program, folder, script.jobs, lines)
    return wrong and "\n".join([f"with --writers {len(script.jobs)}", *texts_of(lines), wrong])


def arguments():
    parser = argparse.ArgumentParser(description=__doc__, formatter_class=argparse.RawDescriptionHelpFormatter)
    parser.add_argument("program", metavar="PROGRAM", help="the built fstch")
    parser.add_argument("--scripts", type=int, default=1000, help="how many scripts (default 1000)")
    parser.add_argument("--seed", type=int, default=1, help="which scripts (default 1)")
    parser.add_argument("--jobs", type=int, default=1, help="how many processes run and compare (default 1)")
    words = parser.parse_args()
    if not os.access(words.program, os.X_OK):
        parser.error(f"{words.program} can't be run")
    return words


def main():
    words = arguments()
    work = functools.partial(try_script, os.path.abspath(words.program), words.seed)
    failed = 0
    for wrong in try_all(work, words.scripts, words.jobs):
        failed += wrong is not None
        if wrong and failed <= FAILURES_SHOWN:
            print(wrong, flush=True)
    print(f"{words.scripts - failed} passed, {failed} failed")
    return 1 if failed else 0


if __name__ == "__main__":
    sys.exit(main())
