#!/usr/bin/env python3
"""Stops `fstch run` and `fstch upgrade` behind each write to the file, cuts the power there, and opens what the file holds then.

A case is a random script of puts, deletes, reclaims, groups and syncs on a file of its own, in one run or more, with an
upgrade between some. PROGRAM is run under `strace`, which tells each block that is written, and each sync of the file, in
order. These are done one by one on a copy of the file as it was before.

Where the program is stopped, the copy has all writes so far. Where the power is cut, it has all writes before the last sync
of the file that had ended, and any of those since: of a few, all choices are tried, of many some. `fstch check` has to find
each copy clean, and each key has to have a value that it had at the last sync line that was answered (or at the opening), or
was given since. Groups keep their order, too: where the copy has a change of one group, it has all changes of the groups
before it. No sync line is answered before all up to it lasts.

The plain model says which values these are. What the program answers is compared with the model as well. Cases are by chance
and of some kinds in turn: one command a sync, 100 puts and a sync, puts and reclaims round three extents, chains of groups,
deletes of keys of several index blocks, values over many blocks, and upgrades.
"""

import argparse
import functools
import hashlib
import os
import random
import shutil
import sys
import tempfile
import time
from dataclasses import dataclass

sys.dont_write_bytecode = True

import crash_scripts
import drivers
import store_scripts
from comparing import FILE, Call, Wrong, shrunk, texts_of, try_all
from cuts import cuts_of, read, traced, write
from drivers import Runs
from plain_store import checked
from stretches import Lost, Reached, merged, stretch_of_writers, stretches_of, values_in

FAILURES_SHOWN = 5
SECONDS_OF_SHRINKING = 120
KEYS_LOOKED_AT = 16  # of a copy that lines are run on
RUN_SHARE = 16  # of so many disks of cuts, lines are run on one


# Opening copies.


def open_copy(way, folder, content, lines=()):
    """The values of a copy that holds this. What the program answers on it, and leaves, is what the model says."""
    write(os.path.join(folder, FILE), content)
    file_steps = store_scripts.FileSteps(content)
    file_steps.look()
    if lines and checked(content)[0] == 0:
        file_steps.run(lines)
    for step in file_steps.steps:
        step = way.runs.call(step) if isinstance(step, Call) else step
        seen = step.perform(way.program, folder)
        if seen != step.wanted:
            raise Wrong("\n".join(["a copy is answered otherwise than by the model", *step.shown(seen, True)]))
    return values_in(content)


def lines_on_copies(script):
    """Gets, and then changes: a copy is a store like any other."""
    keys = sorted({line["key"] for line in script.lines if "key" in line})
    gets = [{"op": "get", "key": key} for key in keys[:: len(keys) // KEYS_LOOKED_AT + 1]]
    reclaims = [{"op": "reclaim", "extent": extent} for extent in range(script.geometry.extents)]
    puts = [{"op": "put", "key": "a key of its own", "hex": "c0"}]
    deletes = [{"op": "delete", "key": key} for key in keys[:1]]
    return [*gets, *reclaims, *puts, *deletes, *gets]


# Cases.


@dataclass
class Counts:
    """How many copies were opened, how many disks that cuts leave, and how many of these are bad."""

    copies: int = 0
    disks: int = 0
    bad: int = 0

    def add(self, other):
        self.copies += other.copies
        self.disks += other.disks
        self.bad += other.bad


class Case:
    """A script with its file, stopped and cut behind each write of each of its calls."""

    def __init__(self, way, folder, script):
        self.way, self.folder, self.script = way, folder, script
        self.path = os.path.join(folder, FILE)
        self.lines = lines_on_copies(script)
        self.counts = Counts()

    def run(self):
        """Raises what is wrong."""
        calls = [step for step in self.script.steps() if isinstance(step, Call) and step.words[0] != "check"]
        made, *others = calls
        if made.perform(self.way.program, self.folder) != made.wanted or not os.path.exists(self.path):
            raise Wrong("the file isn't made")
        for number, call in enumerate(others, 1):
            try:
                self.try_call(call)
            except Wrong as wrong:
                raise Wrong(f"{' '.join(call.words)}, call {number} behind make: {wrong}") from None

    def try_call(self, call):
        made = self.way.runs.call(call)
        seen, moments = traced(self.way.program, made, self.folder)
        before, after = moments[0].content, read(self.path)
        if crash_scripts.WRITERS in call.words:
            stretches = [stretch_of_writers(made, crash_scripts.jobs_of(call), seen, before, after)]
        elif seen != made.wanted:
            raise Wrong("\n".join(["not what the model answers", *made.shown(seen, True)]))
        else:
            stretches = stretches_of(call, before, after)
        if moments[-1].content != after:
            raise Wrong("the file holds something else than what was seen being written")
        is_safe = self.way.runs.has_barriers or call.words[0] != store_scripts.RUN
        Looks(self, stretches, is_safe).look(moments)
        write(self.path, after)


class Looks:
    """Looks at the moments of a call, while its stretches are written one after another. Where it isn't safe, cuts may leave bad disks."""

    def __init__(self, case, stretches, is_safe):
        self.case, self.counts, self.is_safe = case, case.counts, is_safe
        self.stretches, self.written, self.lasting = stretches, Reached(stretches), Reached(stretches)
        self.chance, self.disks = random.Random(len(stretches)), set()
        self.content = self.values = None

    def look(self, moments):
        for number, moment in enumerate(moments):
            try:
                self.look_at(moment)
            except Wrong as wrong:
                raise Wrong(f"behind {number} of {len(moments) - 1} writes and syncs: {wrong}") from None
        if self.written.number + 1 < len(self.stretches) or moments[-1].content != self.stretches[-1].content:
            raise Wrong("behind all writes, the file doesn't hold what the model says")
        if moments[-1].loose:
            raise Wrong("at the end, some writes aren't synced")

    def look_at(self, moment):
        self.written.go_on(moment.content)
        self.lasting.go_on(moment.lasting)
        self.stop(moment.content)
        if self.lasting.number < moment.synced:
            raise Wrong(f"sync {moment.synced} is answered before all up to it lasts")
        if moment.loose:
            self.cut(moment)

    def stop(self, content):
        """Opens what the file holds where the program is stopped."""
        if content != self.content:
            self.counts.copies += 1
            self.content, self.values = content, open_copy(self.case.way, self.case.folder, content, self.case.lines)
        self.written.stretch.check(self.values)

    def cut(self, moment):
        """Opens each new disk that a cut leaves."""
        stretch = self.stretch_of_cuts()
        for writes, content in cuts_of(moment, self.chance):
            if not self.is_new(content):
                continue
            try:
                stretch.check(self.values if content == self.content else self.open_disk(content))
            except Lost as lost:
                self.counts.bad += 1
                if self.is_safe:
                    raise Wrong(f"{cut_said(moment, writes)}: {lost}") from None
            except Wrong as wrong:
                raise Wrong(f"{cut_said(moment, writes)}: {wrong}") from None

    def stretch_of_cuts(self):
        if self.is_safe:
            return self.lasting.stretch
        return merged(self.stretches[self.lasting.number : self.written.number + 1])

    def is_new(self, content):
        disk = self.lasting.number, hashlib.sha256(content).digest()
        is_new = disk not in self.disks
        self.disks.add(disk)
        self.counts.disks += is_new
        return is_new

    def open_disk(self, content):
        lines = self.case.lines if self.counts.disks % RUN_SHARE == 0 else ()
        return open_copy(self.case.way, self.case.folder, content, lines)


def cut_said(moment, writes):
    blocks = ", ".join(str(write.block) for write in writes)
    return f"of {len(moment.loose)} writes since the last sync of the file a cut leaves those of the blocks {blocks}"


# All cases.


@dataclass(frozen=True)
class Way:
    """How cases are made and done."""

    program: str
    seed: int
    has_writers: bool
    runs: Runs

    def script(self, number):
        if self.has_writers:
            return crash_scripts.script_of_writers(self.seed, number)
        return self.runs.script(crash_scripts.script_of(self.seed, number))


@dataclass(frozen=True)
class Outcome:
    """What was opened of a script, and what was wrong, if anything was."""

    counts: Counts
    wrong: str = ""


def outcome(way, script):
    with tempfile.TemporaryDirectory() as folder:
        case = Case(way, folder, script)
        try:
            case.run()
        except Wrong as wrong:
            return Outcome(case.counts, str(wrong))
        return Outcome(case.counts)


def try_case(way, number):
    return outcome(way, way.script(number))


def failure(way, number, wrong):
    """A short script that fails as the case of this number does, and how. Shrinking ends where it takes too long."""
    end = time.monotonic() + SECONDS_OF_SHRINKING
    failures = [wrong]

    def fails(shorter):
        failed = time.monotonic() < end and outcome(way, shorter).wrong
        failures.extend([failed] if failed else [])
        return failed

    script = shrunk(way.script(number), fails)
    lines = " ".join(store_scripts.words_of_make(script.geometry)), *texts_of(script.lines)
    return "\n".join([f"case {number}: {failures[-1]}", *(f"    {line}" for line in lines)])


def try_cases(way, cases, jobs):
    """Shows what fails, and tells how many did."""
    counts, failed = Counts(), 0
    for number, tried in enumerate(try_all(functools.partial(try_case, way), cases, jobs)):
        counts.add(tried.counts)
        failed += bool(tried.wrong)
        if tried.wrong and failed <= FAILURES_SHOWN:
            print(failure(way, number, tried.wrong), end="\n\n", flush=True)
    print(f"{counts.copies} copies opened")
    print(f"{counts.disks} disks of cuts")
    if not way.runs.has_barriers:
        print(f"{counts.bad} of them bad")
    print(f"{cases - failed} passed, {failed} failed")
    return 1 if failed or (not way.runs.has_barriers and counts.bad == 0) else 0


def arguments():
    parser = argparse.ArgumentParser(description=__doc__, formatter_class=argparse.RawDescriptionHelpFormatter)
    parser.add_argument("program", metavar="PROGRAM", help="the built fstch")
    parser.add_argument("--cases", type=int, default=200, help="how many scripts (default 200)")
    parser.add_argument("--seed", type=int, default=1, help="which scripts (default 1)")
    parser.add_argument("--jobs", type=int, default=1, help="how many processes run and open (default 1)")
    parser.add_argument("--no-barriers", action="store_true", help="runs don't sync the file between waves: cuts have to leave bad disks")
    runs = parser.add_mutually_exclusive_group()
    runs.add_argument("--writers", action="store_true", help="the last run is one of several writers")
    runs.add_argument("--library", metavar="FOLDER", help="runs are done by the C library that is built in the folder")
    runs.add_argument("--python", metavar="FOLDER", help="runs are done by the Python module over that library")
    words = parser.parse_args()
    if not os.access(words.program, os.X_OK):
        parser.error(f"{words.program} can't be run")
    if shutil.which("strace") is None:
        parser.error("there is no command strace")
    for folder, name in (words.library, "libfstch.a"), (words.python, "libfstch.so"):
        if folder and not os.path.exists(os.path.join(folder, name)):
            parser.error(f"{folder} has no {name}")
    return words


def runs_of(words, folder):
    driver = ()
    if words.library:
        driver = drivers.library_driver(os.path.abspath(words.library), folder)
    if words.python:
        driver = drivers.module_driver(os.path.abspath(words.python))
    return Runs(driver, not words.python, not words.no_barriers)


def main():
    words = arguments()
    with tempfile.TemporaryDirectory() as folder:
        way = Way(os.path.abspath(words.program), words.seed, words.writers, runs_of(words, folder))
        return try_cases(way, words.cases, words.jobs)


if __name__ == "__main__":
    sys.exit(main())
