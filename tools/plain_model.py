"""What `fstch replay` answers to the lines of a script, computed from the definitions alone.

Nothing here is clever or quick. A model works out after each accepted step what has become of every patch, and answers
from that. There are no saved bytes, no forgotten patches and no counters: a block without some of its patches is the
pile of the others over its first bytes, and what may be sent is found by striking out what may not. It is there to be
compared with the cache, and shares nothing with it.

`Model(blocks).answer(line)` answers a line that `json.loads` has read, of any op. The line is well formed; the reader
of scripts isn't modelled.
"""

from dataclasses import dataclass, field, replace
from enum import Enum

BLOCK = 4096
MAX_PATCHES = 16_777_216
MAX_LIVE = 65_536
MAX_GROUPS = 1_024


class Refused(Exception):
    """Why a line did nothing, and the number that goes with it, if one does."""

    def __init__(self, name, number=None):
        super().__init__(name if number is None else f"{name} {number}")


# Patches.


@dataclass(frozen=True)
class Patch:
    """A change of one block: the bytes that it puts there from start on, and the numbers that it names."""

    number: int
    block: int
    start: int
    content: bytes
    after: frozenset
    may_drop: bool

    @property
    def end(self):
        """The place behind the last byte that it changes."""
        return self.start + len(self.content)


def pile(first, patches):
    """The block with the patches laid on it one after another: each replaces the bytes of its span and no others."""
    block = first
    for patch in patches:
        block = block[: patch.start] + patch.content + block[patch.end :]
    return block


def shares_byte(p, q):
    """The two change a common byte of one block."""
    return p.block == q.block and max(p.start, q.start) < min(p.end, q.end)


def depends_directly(p, q):
    """p names q, or q is earlier and shares a byte with it."""
    return q.number in p.after or (q.number < p.number and shares_byte(p, q))


# What becomes of patches.


class Mark(Enum):
    MEMORY = "in memory"
    FLIGHT = "in flight"
    DURABLE = "durable"


@dataclass(frozen=True)
class Entry:
    """A patch with the name of its class, its mark, and whether it is hard."""

    patch: Patch
    name: int
    mark: Mark
    hard: bool

    @property
    def is_live(self):
        return self.mark is not Mark.DURABLE


def of_block(entries, block):
    return [entry for entry in entries if entry.patch.block == block]


def members(entries, name):
    return [entry for entry in entries if entry.name == name]


def numbers_of(entries):
    return [entry.patch.number for entry in entries]


def dependencies(entries, patch):
    """The patches on which this one depends directly, with what has become of them."""
    return [entry for entry in entries if depends_directly(patch, entry.patch)]


def is_made_hard(entries, patch):
    """Its maker lets its undo bytes drop, and all that it depends on is durable or a hard patch of its block."""
    return patch.may_drop and all(
        entry.mark is Mark.DURABLE or (entry.hard and entry.patch.block == patch.block)
        for entry in dependencies(entries, patch)
    )


# Classes.


def class_depends(entries, a, b):
    """A member of the class a depends directly on a member of b, which is another class."""
    return a != b and any(
        depends_directly(one.patch, other.patch) for one in members(entries, a) for other in members(entries, b)
    )


def live_names(entries):
    """The names of the classes that have a live patch."""
    return {entry.name for entry in entries if entry.is_live}


def reached_from(entries, name):
    """The names of the classes to which a path leads from this one, found by walking on from each in turn."""
    names = {entry.name for entry in entries}
    reached, ends = set(), {name}
    while ends:
        ends = {n for n in names if any(class_depends(entries, end, n) for end in ends)} - reached
        reached |= ends
    return reached


def names_between(entries, a, b):
    """The names of the third live classes that lie on a path from a to b, or from b to a."""
    from_a, from_b = reached_from(entries, a), reached_from(entries, b)
    between = {c for c in from_a if b in reached_from(entries, c)} | {c for c in from_b if a in reached_from(entries, c)}
    return (between & live_names(entries)) - {a, b}


def touch(entries, a, b):
    """The spans of the two classes overlap, or one begins where the other ends."""
    return any(
        one.patch.start <= other.patch.end and other.patch.start <= one.patch.end
        for one in members(entries, a)
        for other in members(entries, b)
    )


# What a send takes.


def may_stay(entries, numbers, entry):
    """All of its class is among these numbers, and all that it depends on directly is durable or among them."""
    is_whole = all(number in numbers for number in numbers_of(members(entries, entry.name)))
    return is_whole and all(
        other.mark is Mark.DURABLE or other.patch.number in numbers for other in dependencies(entries, entry.patch)
    )


def ready(entries, block):
    """The largest set of whole in-memory classes of the block whose direct dependencies are durable or in the set.

    From all that is in memory, what may not stay is struck out until nothing more has to go. No such set ever loses a
    patch by this, so what is left is the largest.
    """
    rest = [entry for entry in of_block(entries, block) if entry.mark is Mark.MEMORY]
    while True:
        numbers = set(numbers_of(rest))
        staying = [entry for entry in rest if may_stay(entries, numbers, entry)]
        if staying == rest:
            return rest
        rest = staying


# Blocks.


def pile_of(first, entries, block, keeps):
    """The pile, over the block's first bytes, of its patches that pass, in order of making."""
    return pile(first[block], [entry.patch for entry in of_block(entries, block) if keeps(entry)])


def without(first, entries, block, names):
    """The block without the classes of these names; with no names, the cached block."""
    return pile_of(first, entries, block, lambda entry: entry.name not in names)


def image(first, entries, block):
    """The block with those of its patches that are in flight or durable."""
    return pile_of(first, entries, block, lambda entry: entry.mark is not Mark.MEMORY)


# Steps.


@dataclass(frozen=True)
class State:
    """What has become of the patches, the image of each block in flight, and the blocks of the disk."""

    entries: tuple
    flights: dict
    disk: tuple


@dataclass(frozen=True)
class Create:
    """A patch is made."""

    block: int
    start: int
    content: bytes
    after: frozenset
    may_drop: bool

    def follow(self, first, state):
        number = len(state.entries)
        patch = Patch(number, self.block, self.start, self.content, self.after, self.may_drop)
        made = Entry(patch, number, Mark.MEMORY, is_made_hard(state.entries, patch))
        return replace(state, entries=state.entries + (made,))


@dataclass(frozen=True)
class Merge:
    """Two classes become one, under the smaller name."""

    a: int
    b: int

    def follow(self, first, state):
        names = {state.entries[self.a].name, state.entries[self.b].name}
        joined = (replace(e, name=min(names)) if e.name in names else e for e in state.entries)
        return replace(state, entries=tuple(joined))


@dataclass(frozen=True)
class Send:
    """A write of a block begins: what is ready is in flight, and the image is kept."""

    block: int

    def follow(self, first, state):
        return self.follow_with(first, state, ready(state.entries, self.block))

    def follow_with(self, first, state, taken):
        """What comes of it, where this is what is ready."""
        sent = set(numbers_of(taken))
        entries = tuple(replace(e, mark=Mark.FLIGHT) if e.patch.number in sent else e for e in state.entries)
        flights = {**state.flights, self.block: image(first, entries, self.block)}
        return replace(state, entries=entries, flights=flights)


@dataclass(frozen=True)
class Complete:
    """The write of a block ends: its image is on the disk, and what was in flight is durable."""

    block: int

    def follow(self, first, state):
        landed = set(numbers_of(flying(state.entries, self.block)))
        entries = tuple(replace(e, mark=Mark.DURABLE) if e.patch.number in landed else e for e in state.entries)
        flights = {block: bytes_sent for block, bytes_sent in state.flights.items() if block != self.block}
        disk = tuple(state.flights[n] if n == self.block else held for n, held in enumerate(state.disk))
        return State(entries, flights, disk)


def flying(entries, block):
    """What is in flight of the block."""
    return [entry for entry in of_block(entries, block) if entry.mark is Mark.FLIGHT]


def is_full(entries):
    """As many patches are live as may be, for which as many have to be there."""
    return len(entries) >= MAX_LIVE and sum(entry.is_live for entry in entries) >= MAX_LIVE


def next_ready(blocks, state):
    """The least block that has no flight and something ready."""
    return next(n for n in range(blocks) if n not in state.flights and ready(state.entries, n))


# Groups.


@dataclass(frozen=True)
class Groups:
    """What was accepted of groups, which are numbered from 0, and nothing that follows from it.

    `engaged` has a pair (writer, group) for each group that a writer has engaged now, and `started` all groups that
    were ever engaged. `orders` has a pair (group, on) for each group that was made to depend on another. `patches` has
    the numbers of each group's patches, in order of making, where it has any.
    """

    count: int = 0
    engaged: frozenset = frozenset()
    started: frozenset = frozenset()
    closed: frozenset = frozenset()
    orders: frozenset = frozenset()
    patches: dict = field(default_factory=dict)


def is_open(groups, group):
    """The group was made, and wasn't closed."""
    return group < groups.count and group not in groups.closed


def is_engaged(groups, group):
    """Some writer has the group engaged."""
    return any(engaged == group for _, engaged in groups.engaged)


def is_sealed(groups, group):
    """Another group depends on it."""
    return any(on == group for _, on in groups.orders)


def engaged_by(groups, writer):
    return {group for other, group in groups.engaged if other == writer}


def groups_before(groups, group):
    """The groups to which a chain of orders leads from this one, found by walking on from each in turn."""
    reached, ends = set(), {group}
    while ends:
        ends = {on for later, on in groups.orders if later in ends} - reached
        reached |= ends
    return reached


def patches_of(groups, group):
    return groups.patches.get(group, ())


def after_of(groups, writer):
    """The patches of all groups before those that the writer has engaged, durable ones too."""
    before = {other for group in engaged_by(groups, writer) for other in groups_before(groups, group)}
    return {number for group in before for number in patches_of(groups, group)}


def pending(entries, groups, group):
    """The patches of the group that aren't durable."""
    numbers = set(patches_of(groups, group))
    return [entry for entry in entries if entry.is_live and entry.patch.number in numbers]


# Refusals: each list in the order of its tests, so that the first cause is told.


def check_create(blocks, entries, step):
    if step.block >= blocks:
        raise Refused("NoSuchBlock")
    if not step.content:
        raise Refused("EmptyPatch")
    if step.start + len(step.content) > BLOCK:
        raise Refused("OutOfBlock")
    if any(number >= len(entries) for number in step.after):
        raise Refused("UnknownDependency")
    if len(entries) >= MAX_PATCHES:
        raise Refused("NumbersSpent")
    if is_full(entries):
        raise Refused("TooManyLive")


def check_pair(entries, a, b):
    """All causes against a merge but a cycle."""
    if a >= len(entries) or b >= len(entries):
        raise Refused("Unknown")
    one, other = entries[a], entries[b]
    for entry in (one, other):
        if entry.mark is not Mark.MEMORY:
            raise Refused("NotInMemory", entry.patch.number)
    if one.name == other.name:
        raise Refused("Same")
    if one.patch.block != other.patch.block:
        raise Refused("OtherBlock")
    for entry in (one, other):
        if entry.hard:
            raise Refused("Hard", entry.patch.number)
    if not touch(entries, one.name, other.name):
        raise Refused("Apart")


def check_merge(entries, a, b):
    check_pair(entries, a, b)
    between = names_between(entries, entries[a].name, entries[b].name)
    if between:
        raise Refused("WouldCycle", min(between))


def check_idle(blocks, state, block):
    """The block is there, and no write of it is under way."""
    if block >= blocks:
        raise Refused("NoSuchBlock")
    if block in state.flights:
        raise Refused("AlreadyInFlight")


def check_send(blocks, state, block):
    check_idle(blocks, state, block)
    if not ready(state.entries, block):
        raise Refused("NothingReady")


def check_complete(state, block):
    if block not in state.flights:
        raise Refused("Stranger")


def check_span(blocks, block, start, length):
    if block >= blocks:
        raise Refused("NoSuchBlock")
    if start + length > BLOCK:
        raise Refused("OutOfBlock")


def check_take(entries, block, taken, number):
    if number >= len(entries):
        raise Refused("Unknown")
    entry = entries[number]
    if entry.mark is Mark.DURABLE:
        raise Refused("Durable")
    if entry.patch.block != block:
        raise Refused("Unknown")
    if entry.mark is Mark.FLIGHT:
        raise Refused("InFlight")
    if entry.hard:
        raise Refused("Hard")
    if entry.name in taken:
        raise Refused("AlreadyTaken")
    names = live_names(of_block(entries, block)) - taken
    applied = [name for name in names if class_depends(entries, name, entry.name)]
    if applied:
        raise Refused("DependentApplied", min(applied))


def check_back(entries, taken, number):
    if number >= len(entries) or entries[number].name not in taken:
        raise Refused("NotTaken")
    needed = [name for name in taken if class_depends(entries, entries[number].name, name)]
    if needed:
        raise Refused("DependencyTaken", min(needed))


def check_group(groups):
    if groups.count >= MAX_GROUPS:
        raise Refused("TooManyGroups")


def check_open(groups, *numbers):
    if not all(is_open(groups, number) for number in numbers):
        raise Refused("NoSuchGroup")


def check_engage(groups, writer, group):
    check_open(groups, group)
    if is_sealed(groups, group):
        raise Refused("Sealed")
    if (writer, group) in groups.engaged:
        raise Refused("Engaged")


def check_disengage(groups, writer, group):
    check_open(groups, group)
    if (writer, group) not in groups.engaged:
        raise Refused("NotEngaged")


def check_depend(groups, group, on):
    check_open(groups, group, on)
    if group == on:
        raise Refused("SameGroup")
    if is_sealed(groups, group):
        raise Refused("Sealed")
    if group in groups.started:
        raise Refused("Started")
    if is_engaged(groups, on):
        raise Refused("Engaged")


def check_close(groups, group):
    check_open(groups, group)
    if is_engaged(groups, group):
        raise Refused("Engaged")


def take(entries, block, taken, number):
    """The names that are taken of the block once the class of this number is taken too."""
    check_take(entries, block, taken, number)
    return taken | {entries[number].name}


def put_back(entries, taken, number):
    """The names that are still taken once the class of this number is put back."""
    check_back(entries, taken, number)
    return taken - {entries[number].name}


# Lines.


def listed(numbers):
    return ",".join(str(number) for number in numbers)


def writer_of(line):
    return line.get("writer", 0)


class LineModel:
    """Answers each line by the method of its op. It keeps groups, which are the same in every kind of script."""

    ops = ("group", "engage", "disengage", "depend", "close")

    def __init__(self):
        self.groups = Groups()

    def answer(self, line):
        """The text that a line is answered, without its line feed."""
        if line["op"] not in self.ops:
            raise ValueError(f"no line of this kind of script: {line}")
        try:
            return getattr(self, line["op"])(line)
        except Refused as refusal:
            return f"refused {refusal}"

    def regroup(self, **changed):
        self.groups = replace(self.groups, **changed)

    def group(self, line):
        check_group(self.groups)
        number = self.groups.count
        self.regroup(count=number + 1)
        return f"group {number}"

    def engage(self, line):
        writer, group = writer_of(line), line["group"]
        check_engage(self.groups, writer, group)
        self.regroup(engaged=self.groups.engaged | {(writer, group)}, started=self.groups.started | {group})
        return "ok"

    def disengage(self, line):
        writer, group = writer_of(line), line["group"]
        check_disengage(self.groups, writer, group)
        self.regroup(engaged=self.groups.engaged - {(writer, group)})
        return "ok"

    def depend(self, line):
        group, on = line["group"], line["on"]
        check_depend(self.groups, group, on)
        self.regroup(orders=self.groups.orders | {(group, on)})
        return "ok"

    def close(self, line):
        check_close(self.groups, line["group"])
        self.regroup(closed=self.groups.closed | {line["group"]})
        return "ok"


class Model(LineModel):
    """Blocks of zeros with their patches, and groups of these, over a disk that is a plain list of blocks."""

    ops = LineModel.ops + ("patch", "merge", "send", "complete", "view", "show", "disk", "pending", "sync")

    def __init__(self, blocks):
        super().__init__()
        self.first = (bytes(BLOCK),) * blocks
        self.state = State((), {}, self.first)

    @property
    def blocks(self):
        return len(self.first)

    @property
    def entries(self):
        return self.state.entries

    def accept(self, step):
        self.state = step.follow(self.first, self.state)

    def patch(self, line):
        """Beside what the line names, the patch names all that its writer's groups come after."""
        after = frozenset(line.get("after", ())) | after_of(self.groups, writer_of(line))
        step = Create(line["block"], line["start"], bytes.fromhex(line["hex"]), after, line.get("drop", False))
        check_create(self.blocks, self.entries, step)
        number = len(self.entries)
        self.accept(step)
        joined = {g: patches_of(self.groups, g) + (number,) for g in engaged_by(self.groups, writer_of(line))}
        self.regroup(patches={**self.groups.patches, **joined})
        return f"patch {number}"

    def merge(self, line):
        check_merge(self.entries, line["a"], line["b"])
        self.accept(Merge(line["a"], line["b"]))
        return f"merged {self.entries[line['a']].name}"

    def send(self, line):
        block = line["block"]
        check_send(self.blocks, self.state, block)
        numbers = numbers_of(ready(self.entries, block))
        self.accept(Send(block))
        return f"sent {block} {listed(numbers)}"

    def complete(self, line):
        block = line["block"]
        check_complete(self.state, block)
        numbers = numbers_of(flying(self.entries, block))
        self.accept(Complete(block))
        return f"durable {block} {listed(numbers)}"

    def view(self, line):
        span, taken = self.span(line), frozenset()
        for number in line["take"]:
            taken = take(self.entries, line["block"], taken, number)
        for number in line.get("back", ()):
            taken = put_back(self.entries, taken, number)
        left, cached = self.without(line["block"], taken), self.without(line["block"], frozenset())
        return f"without {left[span].hex()} cached {cached[span].hex()}"

    def show(self, line):
        span = self.span(line)
        return f"shown {self.without(line['block'], frozenset())[span].hex()}"

    def disk(self, line):
        span = self.span(line)
        return f"disk {self.state.disk[line['block']][span].hex()}"

    # Lines of groups.

    def pending(self, line):
        check_open(self.groups, line["group"])
        return f"pending {len(pending(self.entries, self.groups, line['group']))}"

    def sync(self, line):
        """Each write that was begun ends; then least blocks are written, until all of the group is durable."""
        check_open(self.groups, line["group"])
        for block in self.state.flights:
            self.accept(Complete(block))
        while pending(self.entries, self.groups, line["group"]):
            block = next_ready(self.blocks, self.state)
            self.accept(Send(block))
            self.accept(Complete(block))
        return "synced"

    # Parts of lines.

    def span(self, line):
        """The places of a line's bytes in its block."""
        check_span(self.blocks, line["block"], line["start"], line["len"])
        return slice(line["start"], line["start"] + line["len"])

    def without(self, block, names):
        return without(self.first, self.entries, block, names)
