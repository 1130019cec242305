"""What the calls of `fstch_cache.h` answer, computed from the definitions alone.

Nothing here is clever or quick. A cache is the blocks that the disk had when numbers began, and a list of patches, each with its bytes, what
it depends on, its class and where it is; every answer is found anew from these. It is there to be compared with the library, and
shares nothing with it.

A method has the name of its call, takes what that is given, and gives the number of the answer with what the call sets: None of what stays.
"""

from dataclasses import dataclass, field
from typing import Optional

BLOCK = 4096
MAX_BLOCKS = 16_777_216
MAX_LIVE = 65_536
MAX_GROUPS = 1_024
WRITERS = 7
NO_WRITER = 2**32 - 1
MAY_DROP = 1
MEMORY, FLIGHT, DURABLE = range(3)

DONE = 0
ANSWERS = {
    "NoSuchBlock": 2,
    "FileSize": 5,
    "Unknown": 6,
    "Durable": 7,
    "InFlight": 8,
    "Hard": 9,
    "AlreadyTaken": 10,
    "DependentApplied": 11,
    "EmptyPatch": 14,
    "OutOfBlock": 15,
    "UnknownDependency": 16,
    "TooManyLive": 18,
    "NotInMemory": 19,
    "Same": 20,
    "OtherBlock": 21,
    "Apart": 22,
    "WouldCycle": 23,
    "AlreadyInFlight": 24,
    "NothingReady": 25,
    "Stranger": 26,
    "NoSuchGroup": 27,
    "SameGroup": 28,
    "Started": 29,
    "Sealed": 30,
    "Engaged": 31,
    "NotEngaged": 32,
    "TooManyGroups": 33,
    "Live": 62,
    "NotResident": 63,
    "NotOpen": -1,
    "IsOpen": -2,
    "BufferTooSmall": -4,
    "BadWriter": -8,
    "IsResident": -20,
}


class Refused(Exception):
    """Why a call did nothing, and what it sets all the same."""

    def __init__(self, name, *told):
        super().__init__(name)
        self.answer, self.told = ANSWERS[name], told


def refuse_if(is_so, name, *told):
    if is_so:
        raise Refused(name, *told)


def answering(count, told=None):
    """Gives a call its answer with so many values. Where it is refused they stay, but for one that it tells at this place."""

    def taking(call):
        def called(self, *given):
            try:
                refuse_if(not self.is_open, "NotOpen")
                values = call(self, *given)
                return (DONE, *(() if values is None else values))
            except Refused as refusal:
                values = [None] * count
                if refusal.told:
                    values[told] = refusal.told[0]
                return (refusal.answer, *values)

        return called

    return taking


@dataclass
class Patch:
    """A change of one block: the bytes that it puts there from start on, the numbers of the patches that it depends on directly, the name of its
    class, where it is, and whether it is hard."""

    block: int
    start: int
    content: bytes
    on: set
    name: int
    hard: bool = False
    mark: int = MEMORY

    @property
    def end(self):
        return self.start + len(self.content)


def pile(first, patches):
    """The block with the patches laid on it one after another: each replaces the bytes of its span and no others."""
    block = bytearray(first)
    for patch in patches:
        block[patch.start : patch.end] = patch.content
    return bytes(block)


def shares_byte(p, q):
    return p.block == q.block and max(p.start, q.start) < min(p.end, q.end)


def touches(p, q):
    """The spans overlap, or one begins where the other ends."""
    return p.start <= q.end and q.start <= p.end


@dataclass
class Flight:
    """A write that is under way."""

    number: int
    image: bytes
    patches: list


@dataclass
class Group:
    """What was accepted of a group: who has it engaged, whether anybody ever had, whether it was closed, which groups it goes after, and its
    patches."""

    engaged: set = field(default_factory=set)
    started: bool = False
    closed: bool = False
    after: set = field(default_factory=set)
    patches: list = field(default_factory=list)


class PlainCache:
    """A cache of so many blocks, over a disk that tells what it has of each when numbers begin."""

    def __init__(self, blocks, first):
        self.is_open = True
        self.blocks, self.first = blocks, first
        self.resident = set()
        self.begin()

    def begin(self):
        self.patches, self.flights, self.groups, self.sends = [], {}, [], 0

    # What follows from the list of patches.

    def of_block(self, block):
        return [patch for patch in self.patches if patch.block == block]

    def live(self):
        return [patch for patch in self.patches if patch.mark != DURABLE]

    def members(self, name):
        return [number for number, patch in enumerate(self.patches) if patch.name == name]

    def bytes_of(self, block, keeps=lambda patch: True):
        """The pile, over what the disk had of it, of the block's patches that pass."""
        return pile(self.first(block), filter(keeps, self.of_block(block)))

    def class_dependencies(self):
        """Pairs of names of two classes: a patch of the one depends directly on a patch of the other."""
        pairs = {(patch.name, self.patches[number].name) for patch in self.patches for number in patch.on}
        return {(one, other) for one, other in pairs if one != other}

    def between(self, a, b):
        """The names of the third live classes on a path from a to b, or from b to a."""
        pairs = self.class_dependencies()
        names = {patch.name for patch in self.live()} - {a, b}
        return {c for c in names for x, y in ((a, b), (b, a)) if c in reached(pairs, x) and y in reached(pairs, c)}

    def ready(self, block):
        """The largest set of whole classes of the block in memory whose direct dependencies are durable or in the set: what may not stay is
        struck out until nothing more has to go."""
        rest = {number for number, patch in enumerate(self.patches) if patch.block == block and patch.mark == MEMORY}
        while True:
            staying = {number for number in rest if self.may_stay(number, rest)}
            if staying == rest:
                return sorted(rest)
            rest = staying

    def may_stay(self, number, rest):
        patch = self.patches[number]
        is_met = all(on in rest or self.patches[on].mark == DURABLE for on in patch.on)
        return is_met and all(other in rest for other in self.members(patch.name))

    def groups_before(self, group):
        found, ends = set(), {group}
        while ends:
            ends = {earlier for end in ends for earlier in self.groups[end].after} - found
            found |= ends
        return found

    def engaged_by(self, writer):
        return [group for group, it in enumerate(self.groups) if writer in it.engaged]

    # Tests that several calls make.

    def want_block(self, block):
        refuse_if(block >= self.blocks, "NoSuchBlock")
        refuse_if(block not in self.resident, "NotResident")

    def want_group(self, *groups):
        refuse_if(any(it >= len(self.groups) or self.groups[it].closed for it in groups), "NoSuchGroup")

    def want_flight(self, block, number):
        flight = self.flights.get(block)
        refuse_if(flight is None or flight.number != number, "Stranger")
        return flight

    def is_sealed(self, group):
        return any(group in it.after for it in self.groups)

    # The calls.

    @answering(0)
    def close(self):
        self.is_open = False

    @answering(0)
    def admit(self, block, content):
        refuse_if(block >= self.blocks, "NoSuchBlock")
        refuse_if(block in self.resident, "IsResident")
        self.resident.add(block)

    @answering(0)
    def evict(self, block):
        self.want_block(block)
        refuse_if(any(patch.block == block for patch in self.live()), "Live")
        self.resident.remove(block)

    @answering(0)
    def renew(self):
        """Behind it the disk has other first bytes: what it has then."""
        refuse_if(self.live(), "Live")
        refuse_if(any(it.started and not it.closed for it in self.groups), "Live")
        self.begin()

    @answering(4)
    def counts(self):
        """The last is any number below which all are durable; so the most is told here."""
        waiting = [number for number, patch in enumerate(self.patches) if patch.mark != DURABLE]
        return self.blocks, len(self.patches), len(waiting), min(waiting, default=len(self.patches))

    @answering(1)
    def patch(self, writer, block, start, content, after, flags):
        refuse_if(writer >= WRITERS and writer != NO_WRITER, "BadWriter")
        self.want_block(block)
        refuse_if(not content, "EmptyPatch")
        refuse_if(start + len(content) > BLOCK, "OutOfBlock")
        number = len(self.patches)
        refuse_if(any(it >= number for it in after), "UnknownDependency")
        refuse_if(len(self.live()) >= MAX_LIVE, "TooManyLive")
        made = Patch(block, start, content, set(after), number)
        made.on |= {earlier for earlier, it in enumerate(self.patches) if shares_byte(it, made)}
        joined = self.engaged_by(writer)
        made.on |= {it for group in joined for earlier in self.groups_before(group) for it in self.groups[earlier].patches}
        below = [self.patches[it] for it in made.on]
        made.hard = flags == MAY_DROP and all(it.mark == DURABLE or (it.hard and it.block == block) for it in below)
        self.patches.append(made)
        for group in joined:
            self.groups[group].patches.append(number)
        return (number,)

    @answering(2, told=1)
    def merge(self, a, b):
        refuse_if(max(a, b) >= len(self.patches), "Unknown")
        one, other = self.patches[a], self.patches[b]
        for number in (a, b):
            refuse_if(self.patches[number].mark != MEMORY, "NotInMemory", number)
        refuse_if(one.name == other.name, "Same")
        refuse_if(one.block != other.block, "OtherBlock")
        for number in (a, b):
            refuse_if(self.patches[number].hard, "Hard", number)
        pairs = ((self.patches[x], self.patches[y]) for x in self.members(one.name) for y in self.members(other.name))
        refuse_if(not any(touches(p, q) for p, q in pairs), "Apart")
        between = self.between(one.name, other.name)
        refuse_if(between, "WouldCycle", min(between, default=None))
        names = {one.name, other.name}
        for patch in self.patches:
            patch.name = min(names) if patch.name in names else patch.name
        return min(names), None

    @answering(1)
    def mark(self, patch):
        refuse_if(patch >= len(self.patches), "Unknown")
        return (self.patches[patch].mark,)

    @answering(1)
    def read(self, block, start, length):
        self.want_block(block)
        refuse_if(start + length > BLOCK, "OutOfBlock")
        return (self.bytes_of(block)[start : start + length],)

    @answering(2, told=1)
    def without(self, block, patches, start, length):
        self.want_block(block)
        refuse_if(start + length > BLOCK, "OutOfBlock")
        taken = set()
        for number in patches:
            taken.add(self.taken(block, number, taken))
        return self.bytes_of(block, lambda patch: patch.name not in taken)[start : start + length], None

    def taken(self, block, number, taken):
        """The name of a patch that can be left out behind these."""
        refuse_if(number >= len(self.patches), "Unknown")
        patch = self.patches[number]
        refuse_if(patch.mark == DURABLE, "Durable")
        refuse_if(patch.block != block, "Unknown")
        refuse_if(patch.mark == FLIGHT, "InFlight")
        refuse_if(patch.hard, "Hard")
        refuse_if(patch.name in taken, "AlreadyTaken")
        names = {it.name for it in self.live() if it.block == block} - taken
        above = [one for one, other in self.class_dependencies() if other == patch.name and one in names]
        refuse_if(above, "DependentApplied", min(above, default=None))
        return patch.name

    @answering(1)
    def next(self):
        idle = {patch.block for patch in self.live()} - set(self.flights)
        open_ones = [block for block in idle if self.ready(block)]
        refuse_if(not open_ones, "NothingReady")
        return (min(open_ones),)

    @answering(2)
    def send(self, block, room):
        refuse_if(room < BLOCK, "BufferTooSmall")
        self.want_block(block)
        refuse_if(block in self.flights, "AlreadyInFlight")
        ready = self.ready(block)
        refuse_if(not ready, "NothingReady")
        for number in ready:
            self.patches[number].mark = FLIGHT
        image = self.bytes_of(block, lambda patch: patch.mark != MEMORY)
        self.flights[block] = Flight(self.sends, image, ready)
        self.sends += 1
        return self.flights[block].number, image

    @answering(1)
    def image(self, block, number, room):
        flight = self.want_flight(block, number)
        refuse_if(room < BLOCK, "BufferTooSmall")
        return (flight.image,)

    @answering(2, told=1)
    def flight(self, block, number, room):
        flight = self.want_flight(block, number)
        refuse_if(room < len(flight.patches), "BufferTooSmall", len(flight.patches))
        return flight.patches, len(flight.patches)

    @answering(0)
    def complete(self, block, number):
        for patch in self.want_flight(block, number).patches:
            self.patches[patch].mark = DURABLE
        del self.flights[block]

    @answering(1)
    def group(self):
        refuse_if(len(self.groups) >= MAX_GROUPS, "TooManyGroups")
        self.groups.append(Group())
        return (len(self.groups) - 1,)

    @answering(0)
    def group_engage(self, group, writer):
        refuse_if(writer >= WRITERS, "BadWriter")
        self.want_group(group)
        refuse_if(self.is_sealed(group), "Sealed")
        refuse_if(writer in self.groups[group].engaged, "Engaged")
        self.groups[group].engaged.add(writer)
        self.groups[group].started = True

    @answering(0)
    def group_disengage(self, group, writer):
        refuse_if(writer >= WRITERS, "BadWriter")
        self.want_group(group)
        refuse_if(writer not in self.groups[group].engaged, "NotEngaged")
        self.groups[group].engaged.remove(writer)

    @answering(0)
    def group_depend(self, later, earlier):
        self.want_group(later, earlier)
        refuse_if(later == earlier, "SameGroup")
        refuse_if(self.is_sealed(later), "Sealed")
        refuse_if(self.groups[later].started, "Started")
        refuse_if(self.groups[earlier].engaged, "Engaged")
        self.groups[later].after.add(earlier)

    @answering(0)
    def group_close(self, group):
        self.want_group(group)
        refuse_if(self.groups[group].engaged, "Engaged")
        self.groups[group].closed = True

    @answering(1)
    def group_pending(self, group):
        self.want_group(group)
        return (sum(self.patches[number].mark != DURABLE for number in self.groups[group].patches),)


def reached(pairs, name):
    """The names to which a path of such pairs leads from this one."""
    found, ends = set(), {name}
    while ends:
        ends = {other for one, other in pairs if one in ends} - found
        found |= ends
    return found


def why_not_left(cache, there, content_of) -> Optional[str]:
    """Why a crash may not leave a disk that has these patches, or None: with each patch there is all of its class, and all that it depends
    on; all durable ones are there; and each block has what they make of it."""
    for number, patch in enumerate(cache.patches):
        if number in there:
            missing = ({*patch.on, *cache.members(patch.name)} - there) or None
            if missing:
                return f"patch {number} is there, and not {sorted(missing)}"
        elif patch.mark == DURABLE:
            return f"patch {number} is durable, and not there"
    for block in {patch.block for patch in cache.patches}:
        laid = [patch for number, patch in enumerate(cache.patches) if patch.block == block and number in there]
        if pile(cache.first(block), laid) != content_of(block):
            return f"block {block} isn't what its patches make of it"
    return None
