"""Runs scripts through the program, and compares what it answers with what a story says."""

import os
import subprocess
import tempfile
from dataclasses import dataclass

from comparing import FILE, as_text, texts_of
from explorer.stores import line_of_call
from plain_store import checked
from store_scripts import words_of_make

LONGEST_REPLAY = 16_777_216  # bytes
MOST_LINES = 100_000
SHOWN = 200  # of an answer


class NoPage(Exception):
    """Why no page is made."""


def call(program, words, text=b"", folder=None):
    """The lines that the program writes; that it ends otherwise than with status 0 is a reason for no page."""
    ended = subprocess.run([program, *words], cwd=folder, input=text, capture_output=True, check=False)
    answers = ended.stdout.decode("utf-8", "replace").splitlines()
    if ended.returncode:
        said = ended.stderr.decode("utf-8", "replace").strip() or (answers or ["nothing is said of it"])[-1]
        raise NoPage(f"fstch {words[0]} ends with status {ended.returncode}: {said}")
    return answers


def compare(told, wanted, answered):
    """The model's answers and the program's are the same, or there is no page."""
    for name, one, other in zip(told, wanted, answered):
        if one != other:
            raise NoPage(f"{name}: the program answers {shortened(other)}, and the model {shortened(one)}")
    if len(wanted) != len(answered):
        raise NoPage(f"the program gives {len(answered)} answers, and the model {len(wanted)}")


def shortened(text):
    return text if len(text) <= SHOWN else f"{text[:SHOWN]}… ({len(text):,} characters)"


def replayed(program, text, blocks):
    """What the program answers to a script of patches."""
    return call(program, ("replay", "--blocks", str(blocks)), text)


@dataclass(frozen=True)
class Stored:
    """What the program answers to a script of a store, what it then says of the file, and what the file holds."""

    answers: list
    report: list
    content: bytes


def stored(program, text, geometry):
    """What comes of a script on a file that is made for it."""
    with tempfile.TemporaryDirectory() as folder:
        call(program, words_of_make(geometry), folder=folder)
        answers = call(program, ("run", FILE), text, folder)
        report = call(program, ("check", FILE), folder=folder)
        with open(os.path.join(folder, FILE), "rb") as file:
            return Stored(answers, report, file.read())


def compare_lines(lines, answers):
    """The program answers as the lines say."""
    compare([f"line {line.number}" for line in lines], [line.answer for line in lines], answers)


def compare_store(program, store, lines, found):
    """So it does in a script of a store, and leaves the file as the model says."""
    compare_lines(lines[:-1], found.answers)
    compare_disks(store, found)
    compare_calls(program, store)


def compare_disks(store, found):
    if bytes(store.disk.content) != found.content or b"".join(store.cache.state.disk) != found.content:
        raise NoPage("behind the script, the file doesn't hold what the model says")
    wanted = checked(found.content)[1]
    compare([f"line {n} of the check" for n in range(1, len(wanted) + 1)], wanted, found.report)


def compare_calls(program, store):
    """The cache takes the store's patches as the model does: they are replayed, where a script may be so long."""
    lines = [line_of_call(step) for step, _ in store.calls]
    text = as_text(texts_of(lines)).encode()
    if len(text) > LONGEST_REPLAY or len(lines) > MOST_LINES:
        return
    answered = replayed(program, text, store.geometry.blocks)
    told = [f"step {number} of the store's patches" for number in range(len(lines))]
    compare(told, [said for _, said in store.calls], answered)
