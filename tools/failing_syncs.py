#!/usr/bin/env python3
"""Lets each sync of a file fail in turn, and looks at how `fstch` ends, what it says, and that it writes nothing behind it.

PROGRAM is run under `strace`, which has the N-th `fsync` of a call fail, for each N until none is left to fail, and then so each `fdatasync`: of
`make`, of `run` with barriers and without, of writers on threads, of `upgrade` and of `check`. Each ends with `fault Disk` and the
status 4, standard error says that a sync failed, and behind the sync that failed no block is written. What is left of a new file that
isn't made is nothing; what is left of any other opens.
"""

import argparse
import os
import shutil
import subprocess
import sys
import tempfile
from dataclasses import dataclass

FILE = "disk"
MAKE = ("make", FILE, "--index", "1", "--extents", "4")
TRACED = "trace=pwrite64,fsync,fdatasync"
SAID = b"fstch: a sync of the file failed"
SYNCS = ("fsync", "fdatasync")
MOST = 50  # syncs of a call

CHANGES = b"""{"op":"group"}
{"op":"put","key":"apple","hex":"01"}
{"op":"sync","group":0}
{"op":"put","key":"apple","hex":"02","times":9000}
{"op":"delete","key":"pear"}
"""
OF_WRITERS = b"""{"op":"put","key":"apple","hex":"03","times":9000}
{"op":"put","key":"pear","hex":"04","writer":1}
"""


@dataclass(frozen=True)
class Call:
    """The program is called with these words, and reads these lines. The file is there before, unless it makes it."""

    words: tuple
    lines: bytes = b""

    @property
    def makes(self):
        return self.words[0] == "make"


CALLS = (
    Call(MAKE),
    Call(("run", FILE), CHANGES),
    Call(("run", FILE, "--no-barriers"), CHANGES),
    Call(("run", FILE, "--writers", "2"), OF_WRITERS),
    Call(("run", FILE, "--writers", "2", "--no-barriers"), OF_WRITERS),
    Call(("upgrade", FILE)),
    Call(("check", FILE)),
)


class Wrong(Exception):
    """What is wrong."""


def require(holds, text):
    if not holds:
        raise Wrong(text)


def run(program, folder, words, lines=b"", under=()):
    return subprocess.run([*under, program, *words], cwd=folder, input=lines, capture_output=True, timeout=120)


def prepare(program, folder):
    """A file with two keys."""
    require(run(program, folder, MAKE).returncode == 0, "the file isn't made")
    lines = b'{"op":"put","key":"pear","hex":"09"}\n{"op":"put","key":"apple","hex":"08"}\n'
    require(run(program, folder, ("run", FILE), lines).returncode == 0, "the file isn't filled")


def failing(sync, number):
    """Has the sync of this name and number fail."""
    return ("strace", "-f", "-o", "log", "-e", TRACED, "-e", f"inject={sync}:error=EIO:when={number}")


def check_ended(ended, log, call, folder, program):
    require(ended.returncode == 4, f"the status is {ended.returncode}")
    require(ended.stdout.endswith(b"fault Disk\n"), f"the last line is {ended.stdout.splitlines()[-1:]}")
    require(SAID in ended.stderr, f"standard error says {ended.stderr}")
    behind = log[log.index("INJECTED") :]
    require("pwrite64(" not in behind, "a block is written behind the sync that failed")
    if call.makes:
        require(not os.path.exists(os.path.join(folder, FILE)), "a file that isn't made is there")
        return
    opened = run(program, folder, ("check", FILE))
    require(opened.returncode == 0, f"what is left doesn't open: {opened.stdout}")


def try_sync(program, call, sync, number):
    """Whether there is a sync of this name and number, which fails."""
    with tempfile.TemporaryDirectory() as folder:
        if not call.makes:
            prepare(program, folder)
        ended = run(program, folder, call.words, call.lines, failing(sync, number))
        with open(os.path.join(folder, "log"), encoding="ascii") as file:
            log = file.read()
        if "INJECTED" not in log:
            require(ended.returncode == 0, f"no sync fails, and the status is {ended.returncode}")
            return False
        check_ended(ended, log, call, folder, program)
        return True


def try_syncs(program, call, sync):
    """How many syncs of this name the call has: each has failed, in a run of its own."""
    for number in range(1, MOST):
        try:
            if not try_sync(program, call, sync, number):
                return number - 1
        except Wrong as wrong:
            raise Wrong(f"{sync} {number}: {wrong}") from None
    raise Wrong(f"there are {MOST} of {sync}")


def main():
    parser = argparse.ArgumentParser(description=__doc__, formatter_class=argparse.RawDescriptionHelpFormatter)
    parser.add_argument("program", metavar="PROGRAM", help="the built fstch")
    program = os.path.abspath(parser.parse_args().program)
    if shutil.which("strace") is None:
        parser.error("there is no command strace")
    failed = 0
    for call in CALLS:
        try:
            count = sum(try_syncs(program, call, sync) for sync in SYNCS)
            print(f"{' '.join(call.words)}: {count} syncs fail in turn")
        except Wrong as wrong:
            failed += 1
            print(f"{' '.join(call.words)}: {wrong}")
    print(f"{len(CALLS) - failed} passed, {failed} failed")
    return 1 if failed else 0


if __name__ == "__main__":
    sys.exit(main())
