"""Runs of a file by a program of the library's, of C or of Python, in the place of `fstch run`: a driver.

A driver reads the words of `tools/library/lines.c`, one command a line, and answers as `fstch run` does, but for refusals, of which it
tells no more than that. `Runs` says by what a run is done, and what is given to it.
"""

import os
import subprocess
import sys
from dataclasses import dataclass, replace

from comparing import FILE, Call
from plain_model import writer_of
from plain_store import value_of
from store_scripts import RUN

HERE = os.path.dirname(os.path.abspath(__file__))
LAST_WRITER = 6  # of the library
NO_BARRIERS = "no-barriers"
OF_GROUPS = ("group", "engage", "disengage", "depend", "close", "pending")

# What stands behind the name of each command.
PARTS = {
    "put": ("writer", "key", "value"),
    "get": ("key",),
    "delete": ("writer", "key"),
    "reclaim": ("extent",),
    "group": (),
    "engage": ("group", "writer"),
    "disengage": ("group", "writer"),
    "depend": ("group", "on"),
    "close": ("group",),
    "pending": ("group",),
    "sync": (),
}


@dataclass(frozen=True)
class DrivenCall(Call):
    """A run by a driver, with the driver's words as its lines."""

    driver: tuple

    @property
    def texts(self):
        return self.lines

    def command(self, program):
        return [*self.driver, *self.words]


@dataclass(frozen=True)
class Runs:
    """Runs are done by the program where there is no driver; with barriers or without."""

    driver: tuple = ()
    has_groups: bool = True
    has_barriers: bool = True

    def call(self, call):
        """The call as it is made."""
        if call.words[0] != RUN:
            return call
        if self.driver:
            return self.driven(call)
        return call if self.has_barriers else replace(call, words=(*call.words, f"--{NO_BARRIERS}"))

    def driven(self, call):
        given = [pair for pair in zip(call.lines, call.answers) if self.is_given(*pair)]
        lines = tuple(words_of(line, writer_of(line) if self.has_groups else "-") for line, _ in given)
        answers = tuple("refused" if answer.startswith("refused") else answer for _, answer in given)
        flags = () if self.has_barriers else (NO_BARRIERS,)
        return DrivenCall((FILE, *flags), lines, call.status, answers, self.driver)

    def is_given(self, line, answer):
        """A sync of the library is one of no group."""
        if line["op"] == "sync":
            return answer == "synced"
        return self.has_groups or line["op"] not in OF_GROUPS

    def script(self, script):
        """One that is like this one, and that the driver can be given."""
        if not self.driver:
            return script
        lines = map(with_writer, script.lines) if self.has_groups else without_groups(script.lines)
        return replace(script, lines=tuple(lines))


def words_of(line, writer):
    """The line in the driver's words."""
    parts = {**line, "writer": writer}
    if "key" in line:
        parts["key"] = spelled(line["key"].encode())
    if line["op"] == "put":
        parts["value"] = spelled(value_of(line))
    return " ".join([line["op"], *(str(parts[name]) for name in PARTS[line["op"]])])


def spelled(content):
    return content.hex() or "-"


def with_writer(line):
    return {**line, "writer": min(line["writer"], LAST_WRITER)} if "writer" in line else line


def without_groups(lines):
    """The lines with one group in each run, which the syncs name."""
    for line in lines:
        if line["op"] == RUN:
            yield from (line, {"op": "group"})
        elif line["op"] == "sync":
            yield {"op": "sync", "group": 0}
        elif line["op"] not in OF_GROUPS:
            yield {name: value for name, value in line.items() if name != "writer"}


# Drivers.


def library_driver(library, folder):
    """The command of the driver in C, which is compiled into the folder."""
    program = os.path.join(folder, "lines")
    sources = [os.path.join(HERE, "library", "lines.c"), os.path.join(library, "libfstch.a")]
    subprocess.run([os.environ.get("CC", "cc"), "-O2", f"-I{library}", *sources, "-o", program], check=True)
    return (program,)


def module_driver(library):
    """The command of the driver in Python, whose module finds the library by these variables."""
    os.environ["FSTCH_LIBRARY"] = os.path.join(library, "libfstch.so")
    os.environ["PYTHONPATH"] = os.path.join(os.path.dirname(HERE), "python")
    return (sys.executable, "-B", os.path.join(HERE, "library", "lines.py"))
