"""What a page tells of a script: each line with its answer and why, and the moments through which it goes.

A moment is what a step to the right leads to: what was done since the moment before it, and what may be sent of each
block of which something else may be sent than before. Most lines have one; a sync has one for each write that it begins
or ends, so that one can look at the crashes between them.
"""

from dataclasses import dataclass, field

from explorer.quick_model import QuickModel
from plain_model import Complete, Create, Merge, Send, flying, numbers_of


@dataclass
class Moment:
    """What is done in one go, in the form `[what, *numbers]`, and the numbers that may be sent of some blocks."""

    done: list = field(default_factory=list)
    ready: dict = field(default_factory=dict)
    words: str = ""


@dataclass
class Line:
    """A line of the script by its number, its answer, what these say in words, and its moments; what it is for."""

    number: int
    text: str
    answer: str = ""
    words: str = ""
    moments: list = field(default_factory=list)
    look: dict = field(default_factory=dict)
    note: str = ""


@dataclass
class Made:
    """What the page says of a patch beside the patch: its line, its groups, what it is for, and what it is called."""

    line: int
    groups: tuple = ()
    role: tuple = ()
    name: str = ""


class WatchedModel(QuickModel):
    """A quick model that tells what is done, moment by moment."""

    def __init__(self, blocks, first=None):
        super().__init__(blocks, first)
        self.moment, self.moments = Moment(), []
        self.changed, self.able = set(), {}

    def accept(self, step):
        self.tell(*self.told(step))
        self.changed |= super().accept(step)

    def told(self, step):
        if isinstance(step, Create):
            return "patch", len(self.entries)
        if isinstance(step, Merge):
            return "merge", step.a, step.b
        if isinstance(step, Send):
            return "send", step.block, numbers_of(self.ready(step.block))
        assert isinstance(step, Complete)
        return "land", step.block, numbers_of(flying(self.entries, step.block))

    def tell(self, what, *numbers):
        self.moment.done.append([what, *numbers])

    def end_moment(self, words=""):
        """What was done since the last one is a moment."""
        able = {block: numbers_of(self.ready(block)) for block in sorted(self.changed)}
        self.moment.ready = {block: numbers for block, numbers in able.items() if numbers != self.able.get(block, [])}
        self.able.update(able)
        self.moment.words = words
        self.moments.append(self.moment)
        self.moment, self.changed = Moment(), set()

    def take_moments(self):
        """The moments of a line, of which there is at least one."""
        if self.moment.done or not self.moments:
            self.end_moment()
        moments, self.moments = self.moments, []
        return moments


def told_of_groups(line, answer):
    """What an accepted line does to groups, where it does."""
    op, writer = line["op"], line.get("writer", 0)
    if answer.startswith("refused"):
        return None
    if op == "group":
        return ["group", int(answer.split()[1])]
    if op in ("engage", "disengage"):
        return [op, line["group"], writer]
    if op == "depend":
        return [op, line["group"], line["on"]]
    return ["close", line["group"]] if op == "close" else None
