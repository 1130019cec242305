"""Random scripts for `fstch replay`.

Each script has some 5 to 100 lines on 1 to 4 blocks. Its patches lie in a small window, so that they overlap, and name
each other across blocks; half of the scripts have groups. What is asked for is chosen with an eye on the model, so that
much is accepted and some is refused. The first two scripts are long: one has as many live patches as there may be, one
as many groups.

NumbersSpent isn't among the answers that are reached: it takes 16,777,216 patches, and a script has 100,000 lines at
most.
"""

import collections
from dataclasses import dataclass

import plain_model
from authors import MOST, REACHED_OF_GROUPS, USUAL_OF_GROUPS, WRITERS, GroupAuthor, is_accepted, kind, renumbered
from comparing import Call, as_text, texts_of
from plain_model import BLOCK, Mark, Model

# How often each op is asked for, one beside the other: in every script, and beside these in one with groups.
USUAL = {"patch": 42, "merge": 12, "send": 8, "complete": 7, "view": 20, "show": 3, "disk": 3}

# The answers of each op that scripts must have reached, the accepted one first.
REACHED = {
    "patch": "patch NoSuchBlock EmptyPatch OutOfBlock UnknownDependency TooManyLive",
    "merge": "merged Unknown NotInMemory Same OtherBlock Hard Apart WouldCycle",
    "send": "sent NoSuchBlock AlreadyInFlight NothingReady",
    "complete": "durable Stranger",
    "view": "without NoSuchBlock OutOfBlock Unknown Durable InFlight Hard AlreadyTaken DependentApplied NotTaken"
    " DependencyTaken",
    "show": "shown NoSuchBlock OutOfBlock",
    "disk": "disk NoSuchBlock OutOfBlock",
    **REACHED_OF_GROUPS,
}

USUAL_COUNT = 10_000  # of scripts

# The names of a line whose values are numbers of what such an answer numbers.
NUMBERED = {"patch": ("after", "take", "back", "a", "b"), "group": ("group", "on")}


@dataclass(frozen=True)
class Script:
    """Lines for so many blocks."""

    blocks: int
    lines: tuple

    def text(self):
        return as_text(texts_of(self.lines))

    def steps(self):
        return self.steps_with(self.answers())

    def steps_with(self, answers):
        """The steps where these answers are right."""
        return [Call(("replay", "--blocks", str(self.blocks)), self.lines, 0, tuple(answers))]

    def answers(self):
        """What the model answers."""
        model = Model(self.blocks)
        return [model.answer(line) for line in self.lines]

    def dropping(self, index):
        """The script without this line. Where it made a patch or a group, those behind it have one number less."""
        answer, rest = self.answers()[index], self.lines[index + 1 :]
        if kind(answer) in NUMBERED:
            names, gone = NUMBERED[kind(answer)], int(answer.split()[1])
            rest = tuple(renumbered(line, names, gone) for line in rest)
        return Script(self.blocks, self.lines[:index] + rest)


# Writing scripts.


class Author(GroupAuthor):
    """Writes one script, line by line, and looks at the model before each line."""

    groups_share = 0.5  # how many of its scripts have groups

    def __init__(self, seed):
        super().__init__(seed)
        self.model = Model(self.random.randint(1, 4))
        self.window = self.random.choice((0, 0, 17, 2000, BLOCK - 12))
        self.drop_share = self.random.choice((0, 0.3, 0.8))
        self.named_share = self.random.choice((0.1, 0.4, 0.7))
        self.has_groups = self.chance(self.groups_share)
        self.writers = self.random.choice((1, 1, 2, WRITERS))
        self.weights = self.some_weights()

    def some_weights(self):
        """How often each op is asked for: other scripts, other habits."""
        usual = {**USUAL, **USUAL_OF_GROUPS} if self.has_groups else USUAL
        return {op: weight * self.random.choice((0.2, 1, 1, 2)) for op, weight in usual.items()}

    def write(self):
        self.ask_some(self.random.randint(5, 52))
        if self.chance(0.5):
            self.send_all()
        if self.chance(0.5):
            self.look_at_all()
        return self.script()

    def script(self):
        """What was written, and its steps."""
        script = Script(self.model.blocks, tuple(self.lines))
        return script, script.steps_with(self.answers)

    def line(self):
        """A line of some op: first a few patches and groups, and few completions where nothing is in flight."""
        weights = dict(self.weights)
        if len(self.model.entries) < 4:
            weights["patch"] *= 6
        if not self.model.state.flights:
            weights["complete"] /= 6
        return self.drawn(weights)

    def send_all(self):
        """A write of each block, so that what has to wait shows."""
        for block in self.shuffled(range(self.model.blocks)):
            self.ask({"op": "send", "block": block})

    def look_at_all(self):
        """The whole of each block, in the cache and on the disk, and what each group waits for."""
        for block in range(self.model.blocks):
            for op in ("show", "disk"):
                self.ask({"op": op, "block": block, "start": 0, "len": BLOCK})
        for group in range(self.model.groups.count):
            self.ask({"op": "pending", "group": group})

    # Parts of lines.

    def block(self):
        blocks = self.model.blocks
        return self.no_number(blocks) if self.chance(0.03) else self.random.randrange(blocks)

    def number(self):
        """A number of a patch, mostly a late one, now and then one that wasn't made."""
        made = len(self.model.entries)
        if made == 0 or self.chance(0.03):
            return self.no_number(made)
        return self.random.choice(self.numbers(made))

    def remembered(self, entries):
        """The number of one of these patches that is in memory, if one is."""
        numbers = [entry.patch.number for entry in entries if entry.mark is Mark.MEMORY]
        return self.random.choice(numbers) if numbers else self.number()

    def span(self):
        """Some bytes to be shown, around the window or of the whole block, now and then past the block's end."""
        if self.chance(0.04):
            return self.random.choice(({"start": BLOCK - 1, "len": 2}, {"start": MOST, "len": MOST}))
        if self.chance(0.05):
            return {"start": 0, "len": BLOCK}
        start = self.window + self.random.randrange(4)
        return {"start": start, "len": self.random.randint(1, min(16, BLOCK - start))}

    # Lines.

    def patch(self):
        start, size = self.patch_place()
        line = {"block": self.block(), "start": start, "hex": self.random.randbytes(size).hex()}
        if self.chance(self.named_share):
            line["after"] = [self.number_made() for _ in range(self.random.choice((0, 1, 1, 2)))]
        if self.drop_share:
            line["drop"] = self.chance(self.drop_share)
        if self.has_groups or self.chance(0.05):
            line.update(self.writer())
        return self.spoiled(line) if self.chance(0.08) else line

    def patch_place(self):
        """Where a patch begins and how long it is."""
        if self.chance(0.02):
            return 0, BLOCK
        size = self.random.randint(1, 5)
        if self.chance(0.05):
            return BLOCK - size, size
        return min(self.window + self.random.randrange(10), BLOCK - size), size

    def groups_with_patches(self):
        return sorted(self.model.groups.patches)

    def patching_line(self, by):
        return {"op": "patch", **self.patch(), **by}

    def number_made(self):
        return min(self.number(), max(0, len(self.model.entries) - 1))

    def spoiled(self, line):
        """The patch with some of its causes to be refused, so that their order shows too."""
        faults = (
            {"block": self.random.choice((self.model.blocks, MOST))},
            {"hex": ""},
            {"start": self.random.choice((BLOCK, BLOCK + 1, MOST))},
            {"after": [self.number(), len(self.model.entries)]},
        )
        for fault in self.random.sample(faults, self.random.choice((1, 1, 2, 3))):
            line.update(fault)
        return line

    def merge(self):
        a = self.number() if self.chance(0.2) else self.remembered(self.model.entries)
        if a >= len(self.model.entries) or self.chance(0.1):
            return {"a": a, "b": self.number()}
        one = self.model.entries[a]
        here = plain_model.of_block(self.model.entries, one.patch.block)
        others = [entry for entry in here if entry.name != one.name or self.chance(0.1)]
        if self.chance(0.4):
            others = [entry for entry in others if plain_model.touch(here, one.name, entry.name)]
        near = self.shuffled(plain_model.numbers_of(others))
        if near and self.chance(0.4):
            return {"a": a, "b": next((n for n in near if self.may_merge(a, n)), near[0])}
        return {"a": a, "b": self.remembered(others)}

    def may_merge(self, a, b):
        return is_accepted(plain_model.check_merge, self.model.entries, a, b)

    def send(self):
        blocks = self.shuffled(range(self.model.blocks))
        sendable = [block for block in blocks if self.may_send(block)]
        return {"block": sendable[0] if sendable and self.chance(0.7) else self.block()}

    def may_send(self, block):
        return is_accepted(plain_model.check_send, self.model.blocks, self.model.state, block)

    def complete(self):
        sent = self.shuffled(self.model.state.flights)
        return {"block": sent[0] if sent and self.chance(0.85) else self.block()}

    def show(self):
        return {"block": self.block(), **self.span()}

    def disk(self):
        return self.show()

    def view(self):
        block = self.block_to_view()
        takes, taken = self.takes(block)
        line = {"block": block, "take": takes, **self.span()}
        if self.chance(0.6 if taken else 0.1):
            line["back"] = self.backs(taken)
        return line

    def block_to_view(self):
        """Mostly one that has patches."""
        entries = self.model.entries
        return entries[self.number_made()].patch.block if entries and self.chance(0.6) else self.block()

    def takes(self, block):
        """Numbers to be taken, and the names that are taken by those of them that may be."""
        takes, taken = [], frozenset()
        for _ in range(self.random.randint(0, 7)):
            number = self.number_to_take(block, taken)
            if number is None:
                break
            takes.append(number)
            if is_accepted(plain_model.check_take, self.model.entries, block, taken, number):
                taken = plain_model.take(self.model.entries, block, taken, number)
        return takes, taken

    def number_to_take(self, block, taken):
        """Mostly one that may be taken, where there is one."""
        entries = self.model.entries
        if self.chance(0.05):
            return self.number()
        if taken and self.chance(0.02):
            return self.random.choice(sorted(taken))
        here = self.shuffled(plain_model.numbers_of(plain_model.of_block(entries, block)))
        if here and self.chance(0.05):
            return here[0]
        return next((n for n in here if is_accepted(plain_model.check_take, entries, block, taken, n)), None)

    def backs(self, taken):
        backs = []
        for _ in range(self.random.randint(0, 4)):
            number = self.number_to_put_back(taken)
            backs.append(number)
            if is_accepted(plain_model.check_back, self.model.entries, taken, number):
                taken = plain_model.put_back(self.model.entries, taken, number)
        return backs

    def number_to_put_back(self, taken):
        entries = self.model.entries
        members = self.shuffled(entry.patch.number for entry in entries if entry.name in taken)
        if not members or self.chance(0.08):
            return self.number()
        if self.chance(0.3):
            return members[0]
        return next(n for n in members if is_accepted(plain_model.check_back, entries, taken, n))


    # Lines of groups.


class CrowdAuthor(Author):
    """Writes a script with as many live patches as there may be, all but a few of them on blocks that are never sent.

    The last block has the few. Every line before and behind the crowd asks for that block, so the model, which goes
    through all patches of a block and of its classes, has little to go through. Nothing is synced, which would write
    the other blocks too.
    """

    groups_share = 1

    def __init__(self, seed):
        super().__init__(seed)
        self.model = Model(self.random.randint(8, 24))
        self.weights["merge"] = self.weights["sync"] = self.drop_share = 0
        self.writers = WRITERS

    def write(self):
        self.ask_some(8)
        group = self.model.groups.count
        self.ask({"op": "group"})
        self.ask({"op": "engage", "group": group, **self.writer()})
        while not plain_model.is_full(self.model.entries):
            self.ask({"op": "patch", **self.crowded_patch()})
        self.ask_behind(group)
        self.ask_some(60)
        self.look_at_all()
        return self.script()

    def ask_behind(self, group):
        """Some patches after all of this group's, once a write of the last block has made room."""
        self.ask_order(group)
        for op in ("send", "complete"):
            self.ask({"op": op, "block": self.last})
        for writer in self.engagers(self.model.groups.count - 1):
            for _ in range(4):
                self.ask({"op": "patch", **self.patch(), "writer": writer})

    def crowded_patch(self):
        block, size = self.random.randrange(self.model.blocks - 1), self.random.randint(1, 5)
        start = self.random.randrange(BLOCK - size + 1)
        return {"block": block, "start": start, "hex": self.random.randbytes(size).hex(), **self.writer()}

    def block(self):
        block = super().block()
        return self.last if block < self.last else block

    @property
    def last(self):
        return self.model.blocks - 1

    def block_to_view(self):
        return self.block()

    def send(self):
        return {"block": self.block()}


class ManyGroupsAuthor(Author):
    """Writes a script with as many groups as there may be, in one chain, a few of them with patches."""

    groups_share = 1

    def write(self):
        self.ask_many_groups()
        self.ask_some(60)
        self.look_at_all()
        return self.script()


# The authors of the first scripts, which are long.
FIRST_AUTHORS = (CrowdAuthor, ManyGroupsAuthor)


def author_of(number):
    """Who writes the script of this number."""
    return FIRST_AUTHORS[number] if number < len(FIRST_AUTHORS) else Author


def kinds(steps):
    """How often each kind of answer is given to each op."""
    (call,) = steps
    return collections.Counter((line["op"], kind(answer)) for line, answer in zip(call.lines, call.answers))
