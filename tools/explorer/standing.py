"""How the patches of a story stand while it goes on: followed moment by moment, and asked in between."""

import collections
from dataclasses import dataclass, field

from plain_model import shares_byte

MEMORY, FLIGHT, DURABLE = "memory", "flight", "durable"
WAITS, TAKEN = "waits", "taken"


def directs(patches):
    """For each patch those on which it depends directly: what it names, and the earlier ones under it."""
    found, of_block = [], collections.defaultdict(list)
    for patch in patches:
        under = [other.number for other in of_block[patch.block] if shares_byte(patch, other)]
        found.append(sorted({*patch.after, *under}))
        of_block[patch.block].append(patch)
    return found


def leading(direct):
    """Of these, those to which none of the others leads as well. Sets of numbers are bits here, which is quick."""
    masks = [sum(1 << other for other in others) for others in direct]
    found = []
    for others in direct:
        met = 0
        for other in others:
            met |= masks[other]
        found.append([other for other in others if not met >> other & 1])
    return found


@dataclass
class Group:
    """What a page says of a group."""

    writers: list = field(default_factory=list)
    before: list = field(default_factory=list)
    is_closed: bool = False
    is_sealed: bool = False


class Standing:
    """The marks and names of the patches made so far, the writes under way, the groups, and the bytes.

    `flights` has for each block whose write is under way how many patches were made before it began. `changed` has the
    patches that the last moment made or changed, `touched` the blocks where something may look otherwise since, and
    `altered` the patches that do. `states` has for each patch how it looks, and whether it waits.
    """

    def __init__(self, patches, direct, first):
        self.patches, self.direct = patches, direct
        self.needing = collections.defaultdict(list)
        self.cached, self.disk = [bytearray(block) for block in first], list(first)
        self.first = first
        self.marks, self.names, self.members, self.needed = [], [], {}, {}
        self.of_block = collections.defaultdict(list)
        self.flights, self.groups, self.able = {}, [], {}
        self.changed, self.touched, self.altered, self.states = set(), set(), set(), []
        self.over, self.known_parts = [], {}

    @property
    def count(self):
        return len(self.marks)

    # What moments do.

    def follow(self, moment):
        self.changed, self.touched = set(), set(moment.ready)
        for what, *numbers in moment.done:
            getattr(self, f"do_{what}")(*numbers)
        self.able.update((block, frozenset(numbers)) for block, numbers in moment.ready.items())
        self.touched |= {self.patches[number].block for number in self.changed}
        self.altered = set(self.changed)
        for block in self.touched:
            self.known_parts.pop(block, None)
            self.altered.update(self.renewed(block))

    def do_patch(self, number):
        patch = self.patches[number]
        self.marks.append(MEMORY)
        self.states.append(None)
        self.names.append(number)
        self.members[number], self.needed[number] = [number], set(self.direct[number])
        self.of_block[patch.block].append(number)
        for other in self.direct[number]:
            self.needing[other].append(number)
        block = self.cached[patch.block]
        self.over.append(bytes(block[patch.start : patch.end]))
        block[patch.start : patch.end] = patch.content
        self.changed.add(number)

    def do_merge(self, a, b):
        kept, gone = sorted((self.names[a], self.names[b]))
        for number in self.members[gone]:
            self.names[number] = kept
        self.members[kept] += self.members.pop(gone)
        self.needed[kept] |= self.needed.pop(gone)
        self.changed |= {a, b}

    def do_send(self, block, numbers):
        self.flights[block] = self.count
        self.touched.add(block)
        self.mark(numbers, FLIGHT)

    def do_land(self, block, numbers):
        del self.flights[block]
        self.touched.add(block)
        self.mark(numbers, DURABLE)
        self.disk[block] = self.pile(block, (DURABLE,))

    def mark(self, numbers, mark):
        for number in numbers:
            self.marks[number] = mark
        self.changed |= set(numbers)

    def do_group(self, group):
        self.groups.append(Group())

    def do_engage(self, group, writer):
        self.groups[group].writers.append(writer)

    def do_disengage(self, group, writer):
        self.groups[group].writers.remove(writer)

    def do_depend(self, group, on):
        self.groups[group].before.append(on)
        self.groups[on].is_sealed = True

    def do_close(self, group):
        self.groups[group].is_closed = True

    def renewed(self, block):
        """The patches of a block that look otherwise than before, or wait otherwise; their states are written anew."""
        able, begin = self.able.get(block, ()), self.flights.get(block, 0)
        for number in self.of_block[block]:
            look, waits = self.marks[number], False
            if look == MEMORY:
                waits = number not in able
                look = TAKEN if number < begin else WAITS if waits else MEMORY
            if self.states[number] != (look, waits):
                self.states[number] = look, waits
                yield number

    # What holds now.

    def pile(self, block, marks):
        """The block with those of its patches that have one of these marks."""
        content = bytearray(self.first[block])
        for number in self.of_block[block]:
            if self.marks[number] in marks:
                patch = self.patches[number]
                content[patch.start : patch.end] = patch.content
        return bytes(content)

    def is_live(self, number):
        return self.marks[number] != DURABLE

    def look(self, number):
        """Its mark; or of one in memory that it waits, or is taken back in the write that is under way."""
        return self.states[number][0]

    def waits(self, number):
        """It is in memory, and a write of its block that began now wouldn't take it."""
        return self.states[number][1]

    def live_blocks(self):
        """Those that have a patch which isn't durable."""
        return [block for block in sorted(self.of_block) if any(map(self.is_live, self.of_block[block]))]

    def having(self, block, *looks):
        """The patches of a block that look so."""
        return [number for number in self.of_block[block] if self.states[number][0] in looks]

    def parts(self, block):
        """What goes with the write of a block, what is taken back, and what was made since it began."""
        if block not in self.known_parts:
            looks = ((FLIGHT,), (TAKEN,), (MEMORY, WAITS)) if block in self.flights else ((MEMORY,), (WAITS,), ())
            self.known_parts[block] = [self.having(block, *some) for some in looks]
        return self.known_parts[block]

    def keeper(self, number):
        """The patch that keeps this one back: one of another block or in flight, or one that waits itself."""
        name, block = self.names[number], self.patches[number].block
        others = {other for other in self.needed[name] if self.is_live(other) and self.names[other] != name}
        self.needed[name] = others
        far = [other for other in others if self.marks[other] == FLIGHT or self.patches[other].block != block]
        return min(far or filter(self.waits, others))

    def chain(self, number):
        """The patches from one that waits to the one that lets nothing go: it is in flight, or could be sent now."""
        chain = [number]
        while self.waits(chain[-1]):
            chain.append(self.keeper(chain[-1]))
        return chain
