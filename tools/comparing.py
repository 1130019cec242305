"""Runs a script through the program step by step, and compares what is seen with what the model says of each step.

A script has `lines`, `steps()`, which the model works out, and `dropping(index)`, the script without one of its lines.
"""

import itertools
import json
import multiprocessing
import os
import re
import subprocess
import tempfile
from dataclasses import dataclass

FILE = "disk"  # the name of the file that the commands of a script work on, in a folder of the script's own
SECONDS = 120
LONG = 1000  # lines of a script that isn't made shorter


class Wrong(Exception):
    """What is wrong."""


@dataclass(frozen=True)
class Call:
    """The program is called with these words, and reads these lines. It ends with this status, and answers this."""

    words: tuple
    lines: tuple
    status: int
    answers: tuple

    @property
    def wanted(self):
        return self.status, as_text(self.answers)

    @property
    def texts(self):
        """The lines as they are read."""
        return texts_of(self.lines)

    def command(self, program):
        return [program, *self.words]

    def perform(self, program, folder, under=(), output=subprocess.PIPE):
        """The exit status and the text that the program gives. Under another one, its output may go to a file."""
        try:
            ended = subprocess.run(
                [*under, *self.command(program)],
                cwd=folder,
                input=as_text(self.texts).encode(),
                stdout=output,
                stderr=subprocess.DEVNULL,
                timeout=SECONDS,
            )
        except subprocess.TimeoutExpired:
            return f"no status within {SECONDS} seconds", ""
        return ended.returncode, (ended.stdout or b"").decode("utf-8", "replace")

    def shown(self, seen, is_long):
        """The lines of which the two say different things; if it isn't long, the others too."""
        status, text = seen
        parts = [f"{' '.join(self.command('fstch'))} ends with {status}, by the model with {self.status}"]
        rows = itertools.zip_longest(self.texts, self.answers, text.splitlines(), fillvalue="nothing")
        for number, (line, wanted, got) in enumerate(rows, 1):
            said = [wanted] if wanted == got else [f"model    {wanted}", f"program  {got}"]
            if wanted != got or not is_long:
                parts += shown_line(f"line {number}: {line}" if self.lines else "", *said)
        return parts


@dataclass(frozen=True)
class Edit:
    """Bytes of the file are changed from outside, or, where there are none, it is cut off at that place."""

    place: int
    written: bytes
    wanted = None

    def perform(self, program, folder):
        if not os.path.exists(os.path.join(folder, FILE)):
            return
        with open(os.path.join(folder, FILE), "r+b") as file:
            file.seek(self.place)
            file.write(self.written)
            if not self.written:
                file.truncate()

    def shown(self, seen, is_long):
        return [f"the file is changed at {self.place}: {self.written.hex() or 'cut off'}"]


@dataclass(frozen=True)
class Holds:
    """The file has these bytes."""

    wanted: bytes

    def perform(self, program, folder):
        """Its bytes; none where there is no file."""
        if not os.path.exists(os.path.join(folder, FILE)):
            return b""
        with open(os.path.join(folder, FILE), "rb") as file:
            return file.read()

    def shown(self, seen, is_long):
        if seen == self.wanted:
            return []
        pairs = itertools.zip_longest(self.wanted, seen)
        place = next(place for place, (wanted, got) in enumerate(pairs) if wanted != got)
        span = slice(place, place + 16)
        said = f"model    {self.wanted[span].hex()}", f"program  {seen[span].hex()}"
        return shown_line(f"the file has {len(seen)} bytes, and others from byte {place} on", *said)


def texts_of(lines):
    return [json.dumps(line, separators=(",", ":")) for line in lines]


def as_text(answers):
    return "".join(f"{answer}\n" for answer in answers)


def try_all(work, count, jobs):
    """The outcome of each of so many scripts, in order."""
    if jobs == 1:
        yield from map(work, range(count))
    else:
        with multiprocessing.Pool(jobs) as pool:
            yield from pool.imap(work, range(count), chunksize=4)


def differs(program, steps):
    """Whether anything else is seen than what the model says."""
    with tempfile.TemporaryDirectory() as folder:
        return any(step.perform(program, folder) != step.wanted for step in steps)


def is_stuck(program, steps):
    """Whether a call doesn't end."""
    with tempfile.TemporaryDirectory() as folder:
        seen = [step.perform(program, folder) for step in steps if isinstance(step, Call)]
    return any(not isinstance(status, int) for status, _ in seen)


def shrunk(script, fails):
    """The script without each line that isn't needed for its failure, tried one by one until none can go."""
    index = len(script.lines) - 1
    while index >= 0:
        shorter = script.dropping(index)
        if fails(shorter):
            script, index = shorter, len(shorter.lines)
        index -= 1
    return script


def difference(program, script):
    """A short script that shows it, with what the two say where they differ; of a long one, those lines alone."""
    is_long = len(script.lines) > LONG
    if not is_long and not is_stuck(program, script.steps()):
        script = shrunk(script, lambda shorter: differs(program, shorter.steps()))
    with tempfile.TemporaryDirectory() as folder:
        parts = [step.shown(step.perform(program, folder), is_long) for step in script.steps()]
    return "\n".join(itertools.chain.from_iterable(parts))


def shown_line(line, *answers):
    return [shortened(line)] * bool(line) + [f"    {shortened(answer)}" for answer in answers]


def shortened(text):
    """The text with a count in the place of many equal bytes, and of the rest of a long text."""
    text = re.sub(r"(..)\1{16,}", lambda same: f"<{len(same[0]) // 2} times {same[1]}>", text)
    return text if len(text) <= 400 else f"{text[:300]}<{len(text) - 300} characters more>"
