"""Random scripts for `crashes.py`: of each kind in turn, or with a last run of several writers."""

from dataclasses import dataclass, replace

import store_scripts
from authors import is_accepted
from comparing import FILE, Call
from plain_disk import FRAME, Geometry
from plain_model import BLOCK
from store_scripts import RUN, UPGRADE, Script

USUAL = {"put": 40, "delete": 10, "reclaim": 16, "sync": 8}
USUAL_OF_WRITERS = {"put": 16, "get": 4, "delete": 4, "reclaim": 1}
PIECE = 4  # bytes that a value repeats
WRITERS = "--writers"


class Author(store_scripts.Author):
    """Writes scripts by chance that change much, on disks that open; nearly each value is another."""

    unreadable_share = 0

    def some_geometry(self):
        extents = self.random.choice((2, 2, 3, 4))
        return Geometry(1, extents, self.random.choice((16, 17)) if self.chance(0.2) else None)

    def some_weights(self):
        self.large_share = self.random.choice((0, 0.1, 0.4))
        usual = {**store_scripts.USUAL_OF_GROUPS, **USUAL} if self.has_groups else USUAL
        return {op: weight * self.random.choice((0.5, 1, 1, 2)) for op, weight in usual.items()}

    def write_run(self):
        self.begin_run()
        self.ask_some(self.random.randint(5, 30))
        self.end_run()

    def change_file(self):
        if self.chance(0.3):
            self.upgrade()
        return True

    def upgrade(self):
        self.marked.append({"op": UPGRADE})
        self.file_steps.upgrade()

    def value(self, key):
        return self.value_of_size(self.size_of_value(key))

    def value_of_size(self, size):
        if size < 2 * PIECE:
            return {"hex": self.random.randbytes(size).hex()}
        return {"hex": self.random.randbytes(PIECE).hex(), "times": size // PIECE}


# The other kinds.


class KindAuthor(Author):
    """Writes scripts of one kind. Each run begins with a group that the syncs name."""

    runs = 1

    def write(self):
        for number in range(self.runs):
            if number > 0:
                self.change_file()
            self.begin_run()
            self.write_lines(number)
            self.end_run()
        return self.script()

    def change_file(self):
        """Nothing is done between two runs."""

    def begin_run(self):
        super().begin_run()
        if not self.lines:
            self.ask({"op": "group"})

    def some_keys(self, count):
        return [f"key {number}" for number in self.random.sample(range(1000), count)]

    def ask_sync(self):
        self.ask({"op": "sync", "group": 0})

    def ask_put(self, key, size, **by):
        """A put, where there is no room behind a reclaim."""
        if not is_accepted(self.model.extent_for_put, FRAME + len(key.encode()) + size):
            self.ask_reclaim()
        self.ask({"op": "put", "key": key, **self.value_of_size(size), **by})

    def ask_delete(self, key, **by):
        self.ask({"op": "delete", "key": key, **by})

    def ask_reclaim(self):
        """Of the extent with the least live bytes, where one can be won back."""
        able = [extent for extent in range(self.disk.geometry.extents) if self.can_reclaim(extent)]
        if able:
            self.ask({"op": "reclaim", "extent": min(able, key=self.live_bytes)})

    def can_reclaim(self, extent):
        return self.may_reclaim(extent) and is_accepted(self.model.moves, extent)

    def live_bytes(self, extent):
        return sum(entry.length for _, entry in self.disk.live(extent))

    def has_key(self, key):
        return self.disk.slot_of(key.encode()) is not None


class OneByOneAuthor(KindAuthor):
    """One command a sync."""

    def some_geometry(self):
        return Geometry(1, self.random.choice((2, 3)))

    def write_lines(self, number):
        keys = self.some_keys(self.random.randint(2, 5))
        for _ in range(self.random.randint(6, 14)):
            key = self.random.choice(keys)
            if self.has_key(key) and self.chance(0.3):
                self.ask_delete(key)
            elif self.chance(0.15):
                self.ask_reclaim()
            else:
                self.ask_put(key, self.random.choice((0, 20, 5000, 20000, 30000)))
            self.ask_sync()


class HundredAuthor(KindAuthor):
    """100 puts and a sync."""

    def some_geometry(self):
        return Geometry(2, 3)

    def write_lines(self, number):
        keys = self.some_keys(self.random.randint(40, 110))
        largest = self.random.choice((10, 100, 400))
        for _ in range(self.random.choice((1, 2))):
            for _ in range(100):
                self.ask_put(self.random.choice(keys), self.random.randint(0, largest))
            self.ask_sync()


class RoundAuthor(KindAuthor):
    """Puts over puts, and reclaims, round three extents."""

    def some_geometry(self):
        return Geometry(1, 3)

    def write_lines(self, number):
        keys = self.some_keys(self.random.randint(2, 4))
        largest, syncs = self.random.choice((9000, 14000)), self.random.choice((0.05, 0.2, 0.4))
        while min(pointer.generation for pointer in self.disk.pointers) == 0 and len(self.lines) < 60:
            self.ask_put(self.random.choice(keys), self.random.randint(largest // 2, largest))
            if self.chance(syncs):
                self.ask_sync()


class ChainsAuthor(KindAuthor):
    """Chains of groups, of one writer or two, with keys of two index blocks, and changes of a third writer between them."""

    runs = 2

    def some_geometry(self):
        return Geometry(2, 3)

    def write_lines(self, number):
        if number == 0:
            self.all_keys = self.some_keys(self.random.randint(80, 110))
            for key in self.all_keys:
                self.ask_put(key, self.random.randint(0, 30))
            return
        for _ in range(self.random.choice((1, 2))):
            self.write_chains(self.random.sample(self.all_keys, self.random.choice((4, 8, 40))))

    def write_chains(self, keys):
        lasts = {}
        for _ in range(self.random.randint(3, 8)):
            writer = self.random.randrange(2)
            lasts[writer] = self.ask_link(writer, lasts.get(writer), keys)
            if self.chance(0.5):
                self.ask_change(self.random.choice(keys), 2)
        self.ask({"op": "sync", "group": self.random.choice(list(lasts.values()))})

    def ask_link(self, writer, before, keys):
        """A group with some changes of the writer, behind the one before. Its number is given."""
        group = self.model.groups.count
        self.ask({"op": "group"})
        if before is not None:
            self.ask({"op": "depend", "group": group, "on": before})
        self.ask({"op": "engage", "group": group, "writer": writer})
        for _ in range(self.random.randint(1, 3)):
            self.ask_change(self.random.choice(keys), writer)
        self.ask({"op": "disengage", "group": group, "writer": writer})
        return group

    def ask_change(self, key, writer):
        if self.has_key(key) and self.chance(0.5):
            self.ask_delete(key, writer=writer)
        else:
            self.ask_put(key, self.random.choice((0, 40, 3000)), writer=writer)


class DeletesAuthor(KindAuthor):
    """Deletes of keys of several index blocks."""

    def some_geometry(self):
        return Geometry(self.random.choice((2, 3)), 3)

    def write_lines(self, number):
        keys = self.some_keys(self.random.randint(70, self.geometry.slots - 10))
        for key in keys:
            self.ask_put(key, self.random.randint(0, 30))
        self.ask_sync()
        for _ in range(self.random.choice((1, 2))):
            self.write_deletes(self.random.sample(keys, self.random.randint(10, 40)))
            self.ask_sync()

    def write_deletes(self, keys):
        for key in keys:
            if self.has_key(key):
                self.ask_delete(key)
            if self.chance(0.2):
                self.ask_put(self.random.choice(keys), self.random.randint(0, 300))
        if self.chance(0.3):
            self.ask_reclaim()


class BlocksAuthor(KindAuthor):
    """Values over many blocks."""

    def some_geometry(self):
        return Geometry(1, 5, self.random.choice((None, 24)))

    def write_lines(self, number):
        keys = self.some_keys(3)
        most = self.geometry.max_value
        for _ in range(self.random.randint(2, 3)):
            for _ in range(self.random.randint(1, 2)):
                key = self.random.choice(keys)
                if self.has_key(key) and self.chance(0.2):
                    self.ask_delete(key)
                else:
                    self.ask_put(key, self.random.choice((most, self.random.randint(most // 2, most))))
            self.ask_sync()


class UpgradesAuthor(KindAuthor):
    """An upgrade, and longer values behind it."""

    runs = 2

    def some_geometry(self):
        return Geometry(1, 5)

    def write_lines(self, number):
        if number == 0:
            for key in self.keys:
                self.ask_put(key, self.random.choice((3, 300, 3000)))
            return
        shorter = self.geometry.max_value
        for _ in range(self.random.randint(1, 3)):
            self.ask_put(self.random.choice(self.keys), self.random.randint(shorter + 1, self.disk.geometry.max_value))
            if self.chance(0.6):
                self.ask_sync()

    def change_file(self):
        self.upgrade()


KINDS = (
    Author,
    OneByOneAuthor,
    HundredAuthor,
    RoundAuthor,
    ChainsAuthor,
    DeletesAuthor,
    BlocksAuthor,
    UpgradesAuthor,
)


def script_of(seed, number):
    """The script of this number: each kind has its turn."""
    return KINDS[number % len(KINDS)](f"{seed} {number}").write()[0]


# Several writers.


@dataclass(frozen=True)
class WritersScript:
    """A script, and behind it one run more, of so many writers."""

    before: Script
    writers: int
    last: tuple  # lines

    @property
    def geometry(self):
        return self.before.geometry

    @property
    def lines(self):
        return (*self.before.lines, {"op": RUN, "writers": self.writers}, *self.last)

    def dropping(self, index):
        """The script without this line; without the mark of the last run, it has none."""
        index -= len(self.before.lines) + 1
        if index == -1:
            return self.before
        if index < 0:
            return replace(self, before=self.before.dropping(index + len(self.before.lines) + 1))
        return replace(self, last=self.last[:index] + self.last[index + 1 :])

    def steps(self):
        words = (RUN, FILE, WRITERS, str(self.writers))
        return [*self.before.steps(), Call(words, self.last, 0, ())]


class WritersAuthor(Author):
    """Writes a run by chance, and behind it one of two to four writers, who have some keys in common."""

    def some_geometry(self):
        return Geometry(1, self.random.randint(4, 6))

    def write(self):
        if self.chance(0.7):
            self.write_run()
        count = self.random.randint(2, 4)
        jobs = [self.job(writer) for writer in range(count)]
        return WritersScript(self.script()[0], count, tuple(self.mixed(jobs)))

    def job(self, writer):
        """The lines of one writer."""
        largest = self.random.choice((40, 40, 2 * BLOCK))
        own = [f"of {writer}", f"too of {writer}"]
        return [self.line_of(writer, own, largest) for _ in range(self.random.randint(3, 24))]

    def line_of(self, writer, own, largest):
        op = self.random.choices(list(USUAL_OF_WRITERS), list(USUAL_OF_WRITERS.values()))[0]
        if op == "reclaim":
            return {"op": op, "extent": self.random.randrange(self.geometry.extents), "writer": writer}
        key = self.random.choice((*own, *self.keys[:3]))
        value = self.value_of_size(self.random.randint(0, largest)) if op == "put" else {}
        return {"op": op, "key": key, **value, "writer": writer}

    def mixed(self, jobs):
        while any(jobs):
            yield self.random.choice([job for job in jobs if job]).pop(0)


def script_of_writers(seed, number):
    return WritersAuthor(f"{seed} {number}").write()


def jobs_of(call):
    """The lines of each writer of a call."""
    count = int(call.words[call.words.index(WRITERS) + 1])
    return [[line for line in call.lines if line["writer"] == writer] for writer in range(count)]
