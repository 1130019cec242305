"""Random calls of `fstch_cache.h`, beside a plain model, over a disk in memory whose power is cut.

    python3 tools/library/random_cache.py                # 100,000 calls; --calls N, --seed S change that

Each call of the library goes by ctypes, and is answered by `plain_cache.py` too: the answers, and all that a call sets or leaves, have to be
the same. Blocks come and go, patches are made, merged and left out, groups put them in an order, and writes are begun, done on the disk,
lost, done again, synced and completed. Numbers begin anew from time to time.

Behind some calls the power is cut: of the writes since the last sync of the disk any may be there. Of each such disk that is looked at,
what is there has to be closed under dependencies, with whole classes and with all that is durable, and each block has to hold what the
patches that are there make of it. On one of them all goes on, with a new cache. The calls are the same for the same seed. The last line
tells how many there were; the status is 1 if anything was wrong, or if an answer was never seen.
"""

import argparse
import collections
import ctypes
import itertools
import random
import sys
from ctypes import byref, c_size_t, c_uint32

import plain_cache
from fstch.library import Handle, calls
from plain_cache import ANSWERS, BLOCK, DONE, DURABLE, MAX_BLOCKS, MAY_DROP, MEMORY, NO_WRITER, WRITERS, PlainCache

LEFT = 4_000_000_000  # what stands where a call is to set a number: no call sets such a one
MARK = 0xA5  # and in buffers
USED = 6  # how many blocks a trial has patches of
MOST_BYTES = 12  # of most patches
MOST_LOOSE = 5  # writes of which all choices are tried
BY_CHANCE = 12  # choices of more
PATCHES = (8, 20, 45)  # after so many, or fewer, numbers begin anew
# What is done, and how often.
DEEDS = {
    "patch": 30, "merge": 9, "read": 3, "without": 9, "mark": 2, "counts": 2, "next": 2, "send": 10, "image": 2, "flight": 3,
    "write": 8, "lose": 1, "again": 2, "sync": 2, "complete": 6, "stranger": 2, "admit": 3, "evict": 3, "renew": 1, "flush": 1,
    "order": 3, "group": 2, "engage": 3, "disengage": 2, "depend": 2, "close_group": 1, "pending": 2, "cut": 1,
}  # fmt: skip
# Answers that these calls don't give: of 16,777,216 patches, and of 65,536 that are live.
UNSEEN = {"FileSize", "TooManyLive", "IsOpen"}


class Wrong(Exception):
    """What is wrong."""


class RealCache:
    """The library's calls, in the terms of the plain ones. None of them is given what another may keep."""

    def __init__(self, blocks):
        self.handle = Handle()
        self.at = ctypes.addressof(self.handle)
        if calls.fstch_cache_open(self.at, blocks) != DONE:
            raise Wrong("it isn't opened")
        if calls.fstch_cache_open(self.at, blocks) != ANSWERS["IsOpen"]:
            raise Wrong("it is opened twice")

    def __getattr__(self, name):
        """A call that takes numbers and sets none."""
        return lambda *given: (getattr(calls, f"fstch_cache_{name}")(self.at, *given),)

    def setting(self, name, count, *given):
        """The same of one that sets so many numbers, which stay LEFT where it doesn't."""
        numbers = [c_uint32(LEFT) for _ in range(count)]
        answer = getattr(calls, f"fstch_cache_{name}")(self.at, *given, *map(byref, numbers))
        return (answer, *(None if it.value == LEFT else it.value for it in numbers))

    def counts(self):
        return self.setting("counts", 4)

    def patch(self, writer, block, start, content, after, flags):
        return self.setting("patch", 1, writer, block, start, content, len(content), listed(after), len(after), flags)

    def merge(self, a, b):
        return self.setting("merge", 2, a, b)

    def mark(self, patch):
        return self.setting("mark", 1, patch)

    def read(self, block, start, length):
        into = marked(length)
        answer = calls.fstch_cache_read(self.at, block, start, length, into)
        return answer, taken_out(answer, into, length)

    def without(self, block, patches, start, length):
        into = marked(length)
        answer, which = self.setting("without", 1, block, listed(patches), len(patches), start, length, into)
        return answer, taken_out(answer, into, length), which

    def next(self):
        return self.setting("next", 1)

    def send(self, block, room):
        image, number = marked(room), c_uint32(LEFT)
        answer = calls.fstch_cache_send(self.at, block, byref(number), image, room)
        return answer, None if number.value == LEFT else number.value, taken_out(answer, image, BLOCK)

    def image(self, block, number, room):
        image = marked(room)
        answer = calls.fstch_cache_image(self.at, block, number, image, room)
        return answer, taken_out(answer, image, BLOCK)

    def flight(self, block, number, room):
        patches, count = listed([LEFT] * room), c_size_t(LEFT)
        answer = calls.fstch_cache_flight(self.at, block, number, patches, room, byref(count))
        seen = list(patches[: count.value if answer == DONE else room])
        return answer, seen if answer == DONE else None if set(seen) <= {LEFT} else seen, None if count.value == LEFT else count.value

    def group(self):
        return self.setting("group", 1)

    def group_pending(self, group):
        return self.setting("group_pending", 1, group)


def listed(numbers):
    return (c_uint32 * (len(numbers) + 1))(*numbers)


def marked(length):
    """A buffer of so many bytes, with some behind it that nobody may write to."""
    return ctypes.create_string_buffer(bytes([MARK]) * (length + 8), length + 8)


def taken_out(answer, into, length):
    """What a call has set of a buffer; None where it was refused, and has set nothing."""
    if set(into.raw[length if answer == DONE else 0 :]) - {MARK}:
        raise Wrong("a call writes where it may not")
    return into.raw[:length] if answer == DONE else None


class Disk:
    """Blocks that last, and the writes since, of which a cut leaves any: each is a block, its bytes, and the flight that they are of."""

    def __init__(self):
        self.lasting, self.loose = {}, []

    def of(self, block):
        return self.lasting.get(block, bytes(BLOCK))

    def sync(self):
        self.lasting.update({block: image for block, image, _ in self.loose})
        self.loose = []

    def choices(self, chance):
        if len(self.loose) <= MOST_LOOSE:
            return list(itertools.chain(*(itertools.combinations(self.loose, count) for count in range(len(self.loose) + 1))))
        return [[it for it in self.loose if chance.random() < share] for share in (chance.random() for _ in range(BY_CHANCE))]


class Trial:
    """A cache of the library and a plain one, over a disk."""

    def __init__(self, seed):
        self.chance = random.Random(seed)
        self.disk = Disk()
        self.seen = collections.Counter()
        self.calls = self.cuts = self.disks = 0
        self.open()

    def open(self):
        self.blocks = self.chance.choice((1, 3, USED, 1000, MAX_BLOCKS))
        used = [self.blocks - 1, 0, *(self.chance.randrange(self.blocks) for _ in range(USED))]
        self.used = sorted(set(used))[:USED]
        # (as a disk that was there before)
        self.disk.lasting = {block: self.disk.lasting.get(block) or self.chance.randbytes(BLOCK) for block in self.used}
        self.real = RealCache(self.blocks)
        self.plain = PlainCache(self.blocks, dict(self.disk.lasting).get)
        self.begin()
        for block in self.used:
            if self.chance.random() < 0.7:
                self.call("admit", block, self.disk.of(block))

    def begin(self):
        self.plain.first = dict(self.disk.lasting).get
        self.most = self.chance.choice(PATCHES)
        # what is to be written of each flight that is out, and whether the disk has it
        self.synced = set()

    def call(self, name, *given):
        """What both answer to a call, which has to be the same. A number of durable patches may be less."""
        wanted, seen = getattr(self.plain, name)(*given), getattr(self.real, name)(*given)
        if name == "counts" and seen[0] == DONE and wanted[:4] == seen[:4] and seen[4] <= wanted[4]:
            seen = wanted
        self.calls += 1
        self.seen[seen[0]] += 1
        if tuple(wanted) != tuple(seen):
            raise Wrong(f"{name}{shown(given)} comes to {shown(seen)} and not to {shown(wanted)}")
        return wanted

    def step(self):
        if len(self.plain.patches) >= self.most:
            self.flush()
        getattr(self, self.chance.choices(list(DEEDS), list(DEEDS.values()))[0])()

    # Numbers by chance.

    def some_block(self):
        return self.chance.choice((*self.used, *self.used, *self.plain.resident, self.blocks, NO_WRITER)) if self.rarely() else self.a_block()

    def a_block(self):
        return self.chance.choice(sorted(self.plain.resident) or self.used)

    def some_patch(self):
        return self.chance.choice((len(self.plain.patches), NO_WRITER)) if self.rarely() else self.a_patch()

    def a_patch(self):
        count = len(self.plain.patches)
        return max(self.chance.randrange(count), self.chance.randrange(count)) if count else 0

    def some_group(self):
        groups = [number for number, it in enumerate(self.plain.groups) if not it.closed]
        return self.chance.choice(groups) if groups and not self.rarely() else self.chance.randrange(len(self.plain.groups) + 1)

    def some_writer(self):
        return self.chance.choice((0, 1, 2, 0, 1, 2, 3, WRITERS - 1, NO_WRITER) if not self.rarely() else (WRITERS, NO_WRITER - 1))

    def some_flight(self):
        """A flight that is out, or the two numbers of none."""
        if self.plain.flights and not self.rarely():
            block = self.chance.choice(sorted(self.plain.flights))
            return block, self.plain.flights[block].number
        return self.no_flight()

    def no_flight(self):
        block, number = self.some_block(), self.chance.choice((0, self.plain.sends, self.chance.randrange(self.plain.sends + 1), NO_WRITER))
        flight = self.plain.flights.get(block)
        return (block, number + 1 if number < NO_WRITER else 0) if flight and flight.number == number else (block, number)

    def rarely(self):
        return self.chance.random() < 0.08

    # Patches.

    def span(self):
        """A start and a length: mostly few bytes at the front, so that many overlap or touch."""
        start = self.chance.randrange(40) if self.chance.random() < 0.8 else self.chance.randrange(BLOCK + 2)
        return start, self.chance.randrange(0 if self.rarely() else 1, BLOCK + 2 if self.rarely() else MOST_BYTES)

    def patch(self):
        start, length = self.span()
        after = [self.some_patch() for _ in range(self.chance.choice((0, 0, 0, 1, 1, 2, 5)))] if self.plain.patches else []
        content = self.chance.randbytes(length)
        flags = MAY_DROP if self.chance.random() < 0.3 else 0
        self.call("patch", self.some_writer(), self.some_block(), start, content, after, flags)

    def order(self):
        """Patches of some groups, each behind the one before, by a writer that has engaged nothing else. One in between may have none."""
        writer, earlier = self.chance.randrange(3, 6), None
        for place in range(self.chance.randrange(2, 5)):
            group = self.call("group")[1]
            if group is None or not self.plain.resident:
                return
            if earlier is not None:
                self.call("group_depend", group, earlier)
            if place == 0 or self.chance.random() < 0.7:
                self.in_group(group, writer)
            earlier = group

    def in_group(self, group, writer):
        self.call("group_engage", group, writer)
        for _ in range(self.chance.randrange(1, 3)):
            start, _ = self.span()
            self.call("patch", writer, self.a_block(), start, self.chance.randbytes(3), [], 0)
        self.call("group_disengage", group, writer)

    def merge(self):
        a, b = self.some_patch(), self.some_patch()
        near = [it for it, patch in enumerate(self.plain.patches) if a < len(self.plain.patches) and patch.block == self.plain.patches[a].block]
        self.call("merge", a, self.chance.choice(near) if near and not self.rarely() else b)

    def mark(self):
        self.call("mark", self.some_patch())

    def counts(self):
        self.call("counts")

    def read(self):
        self.call("read", self.some_block(), *self.span())

    def without(self):
        """Some patches of a block, mostly each behind those that depend on it."""
        block = self.some_block()
        wanted = {self.some_patch() for _ in range(self.chance.randrange(4))}
        if self.chance.random() < 0.8:
            wanted = {it for it in wanted if it < len(self.plain.patches) and self.plain.patches[it].block == block}
            wanted = self.with_dependents(block, wanted)
        ordered = sorted(wanted, reverse=True)
        if self.rarely():
            ordered += ordered[:1]
            self.chance.shuffle(ordered)
        self.call("without", block, ordered, *self.span())

    def with_dependents(self, block, wanted):
        """One patch of each class of the block that can be taken, and of each that depends on it."""
        pairs = self.plain.class_dependencies()
        names = {patch.name for patch in self.plain.of_block(block) if patch.mark == MEMORY}
        found = {self.plain.patches[it].name for it in wanted} & names
        while True:
            more = {one for one, other in pairs if other in found and one in names} - found
            if not more:
                return {max(self.plain.members(name)) for name in found}
            found |= more

    # Writes.

    def next(self):
        self.call("next")

    def send(self):
        answer, block = self.call("next") if self.chance.random() < 0.7 else (DONE, self.some_block())
        if answer == DONE:
            self.call("send", block, BLOCK - 1 if self.rarely() else BLOCK)

    def image(self):
        self.call("image", *self.some_flight(), BLOCK - 1 if self.rarely() else BLOCK)

    def flight(self):
        self.call("flight", *self.some_flight(), self.chance.choice((0, 1, 100)))

    def write(self):
        """An image goes to the disk, for the first time or once more."""
        if self.plain.flights:
            block = self.chance.choice(sorted(self.plain.flights))
            number = self.plain.flights[block].number
            self.disk.loose.append((block, self.call("image", block, number, BLOCK)[1], number))

    def lose(self):
        """A write since the last sync wasn't done after all."""
        if self.disk.loose:
            self.disk.loose.pop(self.chance.randrange(len(self.disk.loose)))

    def again(self):
        for block, flight in sorted(self.plain.flights.items()):
            self.disk.loose.append((block, self.call("image", block, flight.number, BLOCK)[1], flight.number))

    def sync(self):
        self.synced |= {(block, number) for block, _, number in self.disk.loose}
        self.disk.sync()

    def complete(self):
        """Where the disk has all that was written of it."""
        loose = {(block, number) for block, _, number in self.disk.loose}
        landed = [(block, flight.number) for block, flight in sorted(self.plain.flights.items())]
        landed = [it for it in landed if it in self.synced and it not in loose]
        if landed:
            self.call("complete", *self.chance.choice(landed))

    def stranger(self):
        self.call("complete", *self.no_flight())

    def flush(self):
        """All is written in waves, groups are closed, and numbers begin anew, once more where they did already."""
        self.again()
        while True:
            self.sync()
            for block, flight in sorted(self.plain.flights.items()):
                self.call("complete", block, flight.number)
            block = self.call("next")[1]
            while block is not None:
                number, image = self.call("send", block, BLOCK)[1:]
                self.disk.loose.append((block, image, number))
                block = self.call("next")[1]
            if not self.disk.loose:
                break
        self.call("group_pending", self.some_group())
        self.renew()  # (refused where a group is in use)
        for group, it in enumerate(self.plain.groups):
            for writer in sorted(it.engaged):
                self.call("group_disengage", group, writer)
            if not it.closed:
                self.call("group_close", group)
        self.renew()

    # Blocks.

    def admit(self):
        """A block that has patches comes as the disk has it: with all of them, which are durable."""
        absent = [block for block in self.used if block not in self.plain.resident]
        block = self.chance.choice(absent) if absent and not self.rarely() else self.some_block()
        self.call("admit", block, self.disk.of(block))

    def evict(self):
        self.call("evict", self.some_block())

    def renew(self):
        if self.call("renew")[0] == DONE:
            self.begin()

    # Groups.

    def group(self):
        self.call("group")

    def engage(self):
        self.call("group_engage", self.some_group(), self.some_writer())

    def disengage(self):
        self.call("group_disengage", self.some_group(), self.some_writer())

    def depend(self):
        self.call("group_depend", self.some_group(), self.some_group())

    def close_group(self):
        self.call("group_close", self.some_group())

    def pending(self):
        self.call("group_pending", self.some_group())

    # Ends.

    def cut(self):
        """Begins some writes more, looks at disks that a cut may leave then, and goes on with one."""
        for _ in range(self.chance.randrange(USED)):
            self.send()
        if self.chance.random() < 0.7:
            self.again()
        durable = {number for number, patch in enumerate(self.plain.patches) if patch.mark == DURABLE}
        # a flight that was synced is there, completed or not
        kept = {block: flight for block, flight in self.plain.flights.items() if (block, flight.number) in self.synced}
        choices = self.disk.choices(self.chance)
        for choice in choices:
            left = {**self.disk.lasting, **{block: image for block, image, _ in choice}}
            landed = [self.plain.flights[block] for block in {*kept, *(block for block, _, _ in choice)}]
            there = durable.union(*(flight.patches for flight in landed))
            why = plain_cache.why_not_left(self.plain, there, left.get)
            if why:
                raise Wrong(f"of {len(self.disk.loose)} writes {len(choice)} are there: {why}")
        self.cuts += 1
        self.disks += len(choices)
        self.end({**self.disk.lasting, **{block: image for block, image, _ in self.chance.choice(choices)}})

    def end(self, left):
        self.call("close")
        self.closed_is_refused()
        self.disk.lasting, self.disk.loose = left, []
        self.open()

    def closed_is_refused(self):
        for name, given in (("close", ()), ("renew", ()), ("next", ()), ("patch", (WRITERS, 0, 0, b"", [], 0)), ("send", (0, 0)), ("counts", ())):
            self.call(name, *given)

    def finish(self):
        """The most groups, and the end."""
        self.flush()
        while self.call("group")[0] == DONE:
            pass
        self.call("close")


def shown(values):
    return "(" + ", ".join(text if len(text) < 60 else f"{text[:60]}.." for text in map(repr, values)) + ")"


def main():
    parser = argparse.ArgumentParser(description=__doc__, formatter_class=argparse.RawDescriptionHelpFormatter)
    parser.add_argument("--calls", type=int, default=100_000, help="how many calls at least (default 100,000)")
    parser.add_argument("--seed", type=int, default=1, help="which calls (default 1)")
    words = parser.parse_args()
    trial = Trial(words.seed)
    try:
        while trial.calls < words.calls:
            trial.step()
        trial.finish()
    except Wrong as wrong:
        print(f"seed {words.seed}, call {trial.calls}: {wrong}")
        return 1
    unseen = [name for name, answer in ANSWERS.items() if name not in UNSEEN and not trial.seen[answer]]
    told = f"{trial.calls} calls, {trial.cuts} cuts that left {trial.disks} disks: all as in the plain model"
    print(f"{told}, but never: {', '.join(unseen)}" if unseen else told)
    return bool(unseen)


if __name__ == "__main__":
    sys.exit(main())
