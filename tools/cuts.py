"""What is written to a file and synced, moment by moment, and what a cut of the power may leave of it.

`traced` does a call under `strace`, and gives its moments: the start, and behind each write and each sync of the file. What was
written before a sync that succeeded lasts. Of the writes since, which are loose, a cut of the power leaves any. `cuts_of` gives such
disks.
"""

import itertools
import os
import re
from dataclasses import dataclass

from comparing import FILE, Wrong
from plain_model import BLOCK

OUTPUT = "output"  # the name of the file that standard output goes to

# Tells all writes to the two files, with all of their bytes as '\xHH', and their syncs.
CALLS = "trace=pwrite64,write,fsync,fdatasync"
TRACER = ("strace", "-f", "-xx", "-s", "999999", "-e", CALLS, "-P", FILE, "-P", OUTPUT, "-o", "log")

# A line of the log: a call as it ends, the beginning of one that ends in a later line, or that end.
LINE = re.compile(r"(?:(?P<thread>\d+) +)?(?P<said>.*)")
BEGUN = re.compile(r"(?P<begun>.*?) *<unfinished \.\.\.>")
RESUMED = re.compile(r"<\.\.\. \w+ resumed>(?P<rest>.*)")
CALL = re.compile(
    r'(?P<name>pwrite64|write|fsync|fdatasync)\(\d+(?:, "(?P<hex>[^"]*)", \d+(?:, (?P<place>\d+))?)?\s*\) += (?P<answer>\d+).*'
)
AT_FILE = ("pwrite64(", "fsync(", "fdatasync(")

MOST = 64  # of the cuts of a moment, where all are tried
BY_CHANCE = 16  # so many where not all are


@dataclass(frozen=True)
class Write:
    """Bytes that go to a place of the file."""

    place: int
    written: bytes

    @property
    def end(self):
        return self.place + len(self.written)

    @property
    def block(self):
        return self.place // BLOCK


def laid(content, writes):
    """The content with these writes done on it, one after another."""
    held = bytearray(content)
    for write in writes:
        held[write.place : write.end] = write.written
    return bytes(held)


@dataclass(frozen=True)
class Moment:
    """What the file holds, what lasts of it, and the loose writes; and how many syncs are answered before anything else is done."""

    content: bytes
    lasting: bytes
    loose: tuple
    synced: int


# Tracing.


def traced(program, call, folder):
    """What the call gives, and its moments."""
    before = read(os.path.join(folder, FILE))
    with open(os.path.join(folder, OUTPUT), "wb") as output:
        status, _ = call.perform(program, folder, TRACER, output)
    with open(os.path.join(folder, "log"), encoding="ascii") as log:
        moments = list(moments_in(log, before))
    return (status, read(os.path.join(folder, OUTPUT)).decode("utf-8", "replace")), moments


def moments_in(log, content):
    lasting, loose, printed = content, (), b""
    for call in calls_in(log):
        written = bytes.fromhex((call["hex"] or "").replace("\\x", ""))[: int(call["answer"])]
        if call["name"] == "write":
            printed += written
            continue
        yield Moment(content, lasting, loose, printed.count(b"synced\n"))
        if call["name"] == "pwrite64":
            newest = Write(int(call["place"]), written)
            if newest.end > BLOCK * (newest.block + 1):
                raise Wrong("a write goes over the end of its block")
            content, loose = laid(content, [newest]), (*loose, newest)
        else:
            lasting, loose = content, ()
    yield Moment(content, lasting, loose, printed.count(b"synced\n"))


def calls_in(log):
    """The calls that succeeded, in the order in which they ended."""
    begun = {}
    for line in log:
        thread, said = LINE.match(line).groups()
        begins, resumes = BEGUN.fullmatch(said), RESUMED.fullmatch(said)
        if resumes:
            said = begun.pop(thread, "") + resumes["rest"]
        elif said.startswith(AT_FILE) and any(other.startswith(AT_FILE) for other in begun.values()):
            raise Wrong("two threads are at the file at one time")
        if begins:
            begun[thread] = begins["begun"]
            continue
        call = CALL.fullmatch(said)
        if call:
            yield call


# Cuts.


def cuts_of(moment, chance):
    """Disks that a cut may leave, each behind the loose writes that it has, with the newest one among them: those without it are disks
    of an earlier moment."""
    for chosen in choices(moment.loose, chance):
        writes = [moment.loose[number] for number in chosen]
        yield writes, laid(moment.lasting, writes)


def choices(loose, chance):
    """Numbers of loose writes, with the last one among them. Of many choices these: it alone, all, all but each one, those that are there
    where blocks are written in rising order, and some by chance."""
    *others, last = range(len(loose))
    if 2 ** len(others) <= MOST:
        for count in range(len(loose)):
            yield from ((*some, last) for some in itertools.combinations(others, count))
        return
    yield (last,)
    yield (*others, last)
    yield from ((*(number for number in others if number != left), last) for left in others)
    rising = sorted(range(len(loose)), key=lambda number: loose[number].place)
    for end in range(rising.index(last) + 1, len(rising)):
        yield tuple(sorted(rising[:end]))
    for _ in range(BY_CHANCE):
        share = chance.random()
        yield (*(number for number in others if chance.random() < share), last)


# Files.


def read(path):
    with open(path, "rb") as file:
        return file.read()


def write(path, content):
    with open(path, "wb") as file:
        file.write(content)
