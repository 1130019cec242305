"""The plain model with its searches made quick enough for scripts of a thousand lines.

`QuickModel` answers what `plain_model.Model` answers. It keeps, for each live patch, the live patches that it needs,
and so finds what may be sent, and what lies between two classes, without going through all pairs of patches. Of the
earlier patches under a byte only the last is kept: what lies below that one is needed by it in turn.
"""

import collections

import plain_model
from plain_model import BLOCK, Complete, Create, Entry, Mark, Merge, Patch, Refused, Send, State, listed, numbers_of


class Links:
    """Which live patches need which others, and which classes have which patches."""

    def __init__(self):
        self.needs = {}
        self.needed_by = collections.defaultdict(set)
        self.members = {}
        self.last_writers = {}
        self.in_memory = collections.defaultdict(dict)

    def make(self, patch, is_durable):
        """A patch is made; the live patches that it needs."""
        number = patch.number
        needed = {n for n in {*patch.after, *self.lay(patch)} if not is_durable(n)}
        self.needs[number] = needed
        for other in needed:
            self.needed_by[other].add(number)
        self.members[number] = [number]
        self.in_memory[patch.block][number] = None
        return needed

    def lay(self, patch):
        """The patches that wrote these bytes last."""
        writers = self.last_writers.setdefault(patch.block, [None] * BLOCK)
        span = slice(patch.start, patch.end)
        found = set(writers[span]) - {None}
        writers[span] = [patch.number] * len(patch.content)
        return found

    def join(self, one, other):
        """Two classes become one, under the smaller name."""
        kept, gone = sorted((one, other))
        self.members[kept] += self.members.pop(gone)

    def send(self, block, numbers):
        for number in numbers:
            del self.in_memory[block][number]

    def land(self, numbers):
        """These patches are durable: the blocks whose patches needed one of them."""
        freed = set()
        for number in numbers:
            for other in self.needed_by.pop(number, ()):
                self.needs[other].discard(number)
                freed.add(other)
            self.needs.pop(number)
        return freed


class QuickModel(plain_model.Model):
    """Answers as `plain_model.Model` does."""

    def __init__(self, blocks, first=None):
        super().__init__(blocks)
        if first is not None:
            self.first, self.state = first, State((), {}, first)
        self.links = Links()

    # Steps.

    def accept(self, step):
        """Follows the step; the blocks of which something else may be sent behind it."""
        if isinstance(step, Create):
            return self.follow_create(step)
        if isinstance(step, Merge):
            return self.follow_merge(step)
        if isinstance(step, Send):
            return self.follow_send(step)
        return self.follow_complete(step)

    def follow_create(self, step):
        patch = Patch(len(self.entries), step.block, step.start, step.content, step.after, step.may_drop)
        needed = self.links.make(patch, self.is_durable)
        is_hard = step.may_drop and all(self.is_hard(number, step.block) for number in needed)
        made = Entry(patch, patch.number, Mark.MEMORY, is_hard)
        self.state = State(self.entries + (made,), self.state.flights, self.state.disk)
        return {step.block}

    def follow_merge(self, step):
        self.links.join(self.entries[step.a].name, self.entries[step.b].name)
        self.state = step.follow(self.first, self.state)
        return {self.entries[step.a].patch.block}

    def follow_send(self, step):
        taken = self.ready(step.block)
        self.links.send(step.block, numbers_of(taken))
        self.state = step.follow_with(self.first, self.state, taken)
        return {step.block}

    def follow_complete(self, step):
        landed = numbers_of(plain_model.flying(self.entries, step.block))
        self.state = step.follow(self.first, self.state)
        freed = self.links.land(landed)
        return {step.block, *(self.entries[n].patch.block for n in freed)}

    def is_durable(self, number):
        return self.entries[number].mark is Mark.DURABLE

    def is_hard(self, number, block):
        """The patch is hard, and of the block."""
        entry = self.entries[number]
        return entry.hard and entry.patch.block == block

    # Searches.

    def ready(self, block):
        """What a send of the block takes: what is in memory, without what waits and what needs something that waits."""
        links, waiting = self.links, set()
        found = [n for n in links.in_memory[block] if any(self.keeps(other, block) for other in links.needs[n])]
        while found:
            name = self.entries[found.pop()].name
            if name not in waiting:
                waiting.add(name)
                needing = (n for member in links.members[name] for n in links.needed_by[member])
                found += [n for n in needing if self.is_in_memory(n, block)]
        return [self.entries[n] for n in sorted(links.in_memory[block]) if self.entries[n].name not in waiting]

    def keeps(self, number, block):
        """A live patch keeps those that need it from a write of the block, whatever else the write takes."""
        return not self.is_in_memory(number, block)

    def is_in_memory(self, number, block):
        return number in self.links.in_memory[block]

    def between(self, a, b):
        """The third classes on a path from one class to the other."""
        return (self.on_the_way(a, b) | self.on_the_way(b, a)) - {a, b}

    def on_the_way(self, a, b):
        """The classes on a path from a to b. The search begins where there is less to go through."""
        members = self.links.members
        if len(members[a]) <= len(members[b]):
            return self.passed(a, self.needed_of, b, self.needing)
        return self.passed(b, self.needing, a, self.needed_of)

    def passed(self, begin, on, end, back):
        """The classes between two, itself and the other among them, where steps on lead from one to the other."""
        reached = self.reached(begin, end, on, lambda name: True)
        return self.reached(end, begin, back, reached.__contains__) if end in reached else set()

    def reached(self, begin, end, on, may_pass):
        """The classes to which steps lead from the first, itself too; nothing is searched behind the end."""
        found, names = {begin}, [begin]
        while names:
            name = names.pop()
            for other in on(name) if name != end else ():
                if other not in found and may_pass(other):
                    found.add(other)
                    names.append(other)
        return found

    def needed_of(self, name):
        return {self.entries[n].name for member in self.links.members[name] for n in self.links.needs[member]}

    def needing(self, name):
        return {self.entries[n].name for member in self.links.members[name] for n in self.links.needed_by[member]}

    # Lines.

    def check_merge(self, a, b):
        plain_model.check_pair(self.entries, a, b)
        between = self.between(self.entries[a].name, self.entries[b].name)
        if between:
            raise Refused("WouldCycle", min(between))

    def merge(self, line):
        self.check_merge(line["a"], line["b"])
        self.accept(Merge(line["a"], line["b"]))
        return f"merged {self.entries[line['a']].name}"

    def send(self, line):
        block = line["block"]
        plain_model.check_idle(self.blocks, self.state, block)
        numbers = numbers_of(self.ready(block))
        if not numbers:
            raise Refused("NothingReady")
        self.accept(Send(block))
        return f"sent {block} {listed(numbers)}"

    def sync(self, line):
        plain_model.check_open(self.groups, line["group"])
        for block in self.state.flights:
            self.accept(Complete(block))
        while plain_model.pending(self.entries, self.groups, line["group"]):
            self.write(self.next_ready())
        return "synced"

    def write(self, block):
        self.accept(Send(block))
        self.accept(Complete(block))

    def next_ready(self):
        """The least block of which something may be sent."""
        return next(block for block in self.waiting_blocks() if block not in self.state.flights and self.ready(block))

    def waiting_blocks(self):
        """The blocks that have patches in memory, rising."""
        return sorted(block for block, numbers in self.links.in_memory.items() if numbers)
