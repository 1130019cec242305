"""Random scripts for a store on a file: `fstch make`, and then `run`, `upgrade` and `check`.

Each file is run a few times, with some 5 to 40 lines each, and checked behind each run. Extents are few, and values
often large, so that space runs out and is won back. Between two runs the disk may be upgraded, or its bytes changed
from outside: to a disk that scripts make only in a long time, or that a crash leaves, or to one that can't be opened.
The first scripts are long: one has as many live patches as there may be, one as many groups, and one more keys than
slots.

NumbersSpent isn't among the answers that are reached: it takes 16,777,216 patches.
"""

import collections
from dataclasses import dataclass, replace

from authors import MOST, REACHED_OF_GROUPS, USUAL_OF_GROUPS, WRITERS, GroupAuthor, is_accepted, kind, renumbered
from comparing import FILE, Call, Edit, Holds
from damages import DAMAGES
from plain_disk import FRAME, MAX_GENERATION, MAX_KEY, SLOTS_OF_BLOCK, Disk, Geometry, Pointer
from plain_model import BLOCK, MAX_LIVE
from plain_store import Store, checked, made, ran, upgraded

USUAL_COUNT = 5_000  # of scripts

# How often each op is asked for, one beside the other.
USUAL = {"put": 40, "get": 8, "delete": 10, "reclaim": 16}

# The answers of each op and of each command that scripts must have reached, the accepted one first.
REACHED = {
    "put": "ok KeyLength ValueLength IndexFull NoSpace TooManyLive",
    "get": "value none KeyLength",
    "delete": "ok KeyLength NoKey TooManyLive",
    "reclaim": "ok NoSuchExtent EmptyExtent OpenExtent GenerationSpent NoSpace TooManyLive",
    **REACHED_OF_GROUPS,
    "make": "made Geometry",
    "upgrade": "upgraded AlreadyVersion2",
    "run": "bad",
    "check": "clean BadSuper FileSize BadPointer BadSlot BadFrame DuplicateKey",
}

# What stands between the lines of two runs: the next run begins, or something else is done to the file.
RUN, UPGRADE, EDIT = "run", "upgrade", "edit"
MARKS = (RUN, UPGRADE, EDIT)


# Values that are unreadable under most names, and values of lines around the largest that a line may have.
STRANGE = (None, True, -1, 0, 8, 1.5, 1.0, 2**32, 2**64, "", "abc", "fg", "AB", "4", [1], {"op": "get"}, "patch")
LARGE = (
    {"hex": "00", "times": 1_048_576},
    {"hex": "00", "times": 1_048_577},
    {"hex": "0001", "times": 524_289},
    {"hex": "00" * 16, "times": MOST},
    {"hex": "00" * 16, "times": 2**28},
    {"hex": "", "times": MOST},
)


@dataclass(frozen=True)
class Script:
    """Lines of runs on a file that is made so, with marks between the runs."""

    geometry: Geometry
    lines: tuple

    def steps(self):
        file_steps = FileSteps().make(self.geometry)
        for mark, lines in runs_of(self.lines):
            if mark["op"] == RUN:
                file_steps.run(lines)
            elif mark["op"] == UPGRADE:
                file_steps.upgrade()
            else:
                file_steps.edit(mark)
        return file_steps.steps

    def dropping(self, index):
        """The script without this line. Where it made a group, those behind it in its run have one number less."""
        before, rest = self.lines[:index], self.lines[index + 1 :]
        if self.lines[index].get("op") == "group":
            rest = without_group(before, rest)
        return replace(self, lines=before + rest)


def runs_of(lines):
    """Each mark with the lines behind it. What else is done to the file ends a run, too."""
    runs = []
    for line in lines:
        if line.get("op") in MARKS:
            runs.append((line, []))
            continue
        if not runs or runs[-1][0]["op"] != RUN:
            runs.append(({"op": RUN}, []))
        runs[-1][1].append(line)
    return runs


def without_group(before, rest):
    """The rest, where the group that was made behind the lines before it isn't made."""
    begun = max((n + 1 for n, line in enumerate(before) if line.get("op") in MARKS), default=0)
    gone = sum(line.get("op") == "group" for line in before[begun:])
    ended = next((n for n, line in enumerate(rest) if line.get("op") in MARKS), len(rest))
    return tuple(renumbered(line, ("group", "on"), gone) for line in rest[:ended]) + rest[ended:]


def words_of_make(geometry):
    words = ("make", FILE, "--index", str(geometry.index), "--extents", str(geometry.extents))
    return words + ("--length", str(geometry.length)) if geometry.is_wide else words


class FileSteps:
    """The bytes of a file, and the steps so far of what is done to it."""

    def __init__(self, content=None):
        self.content, self.steps = content, []

    def make(self, geometry):
        self.call(words_of_make(geometry), (), made(geometry))
        return self

    def call(self, words, lines, outcome):
        status, answers, self.content = outcome
        self.steps.append(Call(words, tuple(lines), status, tuple(answers)))

    def run(self, lines):
        self.call((RUN, FILE), lines, ran(self.content, lines))
        self.look()

    def end_run(self, lines, answers, store):
        """The same, for a run that a store has answered already."""
        self.call((RUN, FILE), lines, (0, answers, bytes(store.disk.content)))
        self.look()

    def upgrade(self):
        self.call((UPGRADE, FILE), (), upgraded(self.content))
        self.look()

    def edit(self, mark):
        place, written = mark["place"], bytes.fromhex(mark["hex"])
        end = place + len(written) if written else len(self.content)
        self.content = self.content[:place] + written + self.content[end:]
        self.steps.append(Edit(place, written))
        self.call((RUN, FILE), (), ran(self.content, ()))
        self.look()

    def look(self):
        self.call(("check", FILE), (), checked(self.content))
        self.steps.append(Holds(self.content))


def kinds(steps):
    """How often each kind of answer is given to each op, and to each command."""
    counts = collections.Counter()
    for call in steps:
        if isinstance(call, Call) and call.lines and call.status == 0:
            counts.update((line["op"], kind(answer)) for line, answer in zip(call.lines, call.answers))
        elif isinstance(call, Call) and call.answers:
            counts[call.words[0], kind(call.answers[-1])] += 1
    return counts


# Writing scripts.


class Author(GroupAuthor):
    """Writes one script, run by run, and looks at the model before each line."""

    unreadable_share = 0.1  # how many runs have one beside them with an unreadable line
    orders_share = 0.07

    def __init__(self, seed):
        super().__init__(seed)
        self.geometry = self.some_geometry()
        self.file_steps = FileSteps().make(self.geometry)
        self.keys = [self.some_key() for _ in range(self.random.randint(2, 8))]
        self.large_share = self.random.choice((0.1, 0.5, 0.8))
        self.has_groups = self.chance(0.5)
        self.writers = self.random.choice((1, 1, 2, WRITERS))
        self.weights = self.some_weights()
        self.model, self.marked = None, []

    def some_geometry(self):
        index, extents = self.random.choice((1, 1, 1, 1, 2, 16)), self.random.choice((2, 2, 3, 3, 4, 5))
        if self.chance(0.01):
            return Geometry(index, 254, self.random.randint(17, 64))
        length = self.random.choice((16, 16, 17, 19, 32, 64))
        return Geometry(index, extents, length if self.chance(0.3) else None)

    def some_key(self):
        letters = self.random.choice(("ab", "xyz0123456789", "k\u00e9\u043a"))
        size = self.random.choice((1, 2, 3, 16 if letters[0] == "k" else MAX_KEY))
        return "".join(self.random.choices(letters, k=size))

    def some_weights(self):
        """How often each op is asked for: other scripts, other habits."""
        usual = {**USUAL, **USUAL_OF_GROUPS} if self.has_groups else {**USUAL, "group": 1, "sync": 2}
        return {op: weight * self.random.choice((0.2, 1, 1, 2)) for op, weight in usual.items()}

    def write(self):
        if self.file_steps.content is None:
            return self.script()
        for _ in range(self.random.choice((1, 1, 2, 2, 3, 4))):
            self.write_run()
            if self.chance(self.unreadable_share):
                self.write_unreadable_run()
            if not self.change_file():
                break
        return self.script()

    def script(self):
        return Script(self.geometry, tuple(self.marked)), self.file_steps.steps

    def write_run(self):
        self.begin_run()
        self.ask_some(self.random.randint(5, 40))
        if self.chance(0.4):
            self.look_at_all()
        self.end_run()

    def write_unreadable_run(self):
        """Some lines of the last run, and one that is unreadable or was made from one that isn't."""
        lines = self.lines[: self.random.randint(1, 5)]
        lines.insert(self.random.randint(0, len(lines)), self.spoiled(self.random.choice(self.lines)))
        self.marked += [{"op": RUN}, *lines]
        self.file_steps.run(lines)

    def begin_run(self):
        self.lines, self.answers = [], []
        self.model = Store(Disk.read(self.file_steps.content))
        if self.chance(0.8):
            self.ask({"op": "group"})

    def end_run(self):
        self.marked += [{"op": RUN}, *self.lines]
        self.file_steps.end_run(self.lines, self.answers, self.model)

    def change_file(self):
        """What may be done to the file between two runs; whether it can be opened then."""
        if self.chance(0.25):
            self.marked.append({"op": UPGRADE})
            self.file_steps.upgrade()
        if self.chance(0.15):
            self.edit(self.random.choice((self.spent_generation, self.no_empty_extent))())
        if self.chance(0.1):
            self.edit(self.random.choice(DAMAGES)(self.random, self.file_steps.content))
        return checked(self.file_steps.content)[0] == 0

    def edit(self, mark):
        if mark is not None:
            self.marked.append({"op": EDIT, **mark})
            self.file_steps.edit(mark)

    def line(self):
        weights = dict(self.weights)
        if not any(self.may_reclaim(extent) for extent in range(self.disk.geometry.extents)):
            weights["reclaim"] /= 6
        return self.drawn(weights)

    def look_at_all(self):
        for key in sorted(set(self.keys)):
            self.ask({"op": "get", "key": key})
        for group in range(self.model.groups.count):
            self.ask({"op": "pending", "group": group})

    # Parts of lines.

    @property
    def disk(self):
        return self.model.disk

    def groups_with_patches(self):
        return sorted(self.model.waiting)

    def patching_line(self, by):
        return {"op": "put", **self.put(), **by}

    def key(self):
        """Mostly one of a few keys; now and then one that is too short or too long."""
        if self.chance(0.03):
            return self.random.choice(("", "q" * (MAX_KEY + 1), "\u00e9" * (MAX_KEY // 2) + "q"))
        return self.random.choice(self.keys)

    def used_key(self):
        """Mostly a key that has a value."""
        used = [entry.key.decode() for _, entry in self.disk.used_slots()]
        return self.random.choice(used) if used and self.chance(0.7) else self.key()

    def value(self, key):
        """A value, spelled as it is or as a piece that is repeated."""
        size = self.size_of_value(key)
        if size <= 40 and self.chance(0.9):
            return {"hex": self.random.randbytes(size).hex()}
        piece = self.random.choice([n for n in (1, 2, 3, 4, 7) if size % n == 0])
        return {"hex": self.random.randbytes(piece).hex(), "times": size // piece}

    def size_of_value(self, key):
        most = self.disk.geometry.max_value
        if self.chance(0.05):
            return self.random.choice((most, most + 1, 1_048_576))
        if self.chance(0.1):
            return self.size_that_fits(key)
        if self.chance(self.large_share):
            return self.random.randint(most // 6, most)
        return self.random.choice((0, self.random.randint(1, 40), self.random.randint(3900, 4200)))

    def size_that_fits(self, key):
        """So many bytes that the frame ends with its block or with the current extent, or up to one byte beside."""
        filled = self.disk.pointers[self.model.current].filled if self.model.current is not None else 0
        end = self.random.choice((BLOCK * (filled // BLOCK + 1), self.disk.geometry.extent_bytes))
        size = end - filled - FRAME - len(key.encode()) + self.random.choice((-1, 0, 0, 1))
        return min(max(size, 0), self.disk.geometry.max_value)

    # Lines.

    def put(self):
        key = self.key()
        return {"key": key, **self.value(key), **self.writer()}

    def get(self):
        return {"key": self.used_key(), **self.writer()}

    def delete(self):
        return {"key": self.used_key(), **self.writer()}

    def reclaim(self):
        """Mostly of an extent that can be won back."""
        extents = self.disk.geometry.extents
        if self.chance(0.03):
            return {"extent": self.no_number(extents)}
        some = self.shuffled(range(extents))
        if self.chance(0.15):
            return {"extent": some[0]}
        return {"extent": next((e for e in some if self.may_reclaim(e)), some[0])}

    def may_reclaim(self, extent):
        return is_accepted(self.model.check_reclaim, extent)

    def spoiled(self, line):
        """The line without a name, or with another value under it; most of these are unreadable."""
        line = dict(line)
        name = self.random.choice([*line, "writer", "times"])
        line[name] = self.random.choice(STRANGE)
        if name in ("hex", "times") and self.chance(0.5):
            line.update({"op": "put", "key": "k"}, **self.random.choice(LARGE))
        elif self.chance(0.3):
            del line[name]
        return line

    # Changes of the file, to a disk that opens.

    def spent_generation(self):
        """An extent without live frames was emptied as often as it can be."""
        disk = Disk.read(self.file_steps.content)
        extents = [e for e in range(disk.geometry.extents) if not disk.live(e)]
        return record_edit(disk, self.random.choice(extents), MAX_GENERATION) if extents else None

    def no_empty_extent(self):
        """The lowest empty extent is filled with what no slot names."""
        disk = Disk.read(self.file_steps.content)
        empty = disk.empty_extents()
        filled = self.random.choice((1, BLOCK, disk.geometry.extent_bytes))
        return record_edit(disk, empty[0], disk.pointers[empty[0]].generation, filled) if empty else None


def record_edit(disk, extent, generation, filled=None):
    pointer = Pointer(generation, disk.pointers[extent].filled if filled is None else filled)
    return {"place": disk.geometry.place_of_record(extent), "hex": pointer.record().hex()}


# Long scripts.


class CrowdAuthor(Author):
    """Has as many live patches as there may be: many keys, which are put again and again."""

    def some_geometry(self):
        return Geometry(16, self.random.randint(10, 12))

    def write(self):
        self.keys = [f"key{number}" for number in range(SLOTS_OF_BLOCK * self.geometry.index)]
        self.begin_run()
        for key in self.keys:
            self.ask({"op": "put", "key": key, "hex": self.random.randbytes(2).hex(), **self.writer()})
        while self.model.live < MAX_LIVE:
            self.ask(self.crowding_line())
        for op in ("put", "reclaim", "delete"):
            self.ask({"op": op, **getattr(self, op)()})
        self.ask_some(60)
        self.look_at_all()
        self.end_run()
        return self.script()

    def crowding_line(self):
        """A line that makes patches, and not more than there may be."""
        if MAX_LIVE - self.model.live > 4:
            return {"op": "put", "key": self.random.choice(self.keys), "hex": "5b"}
        return {"op": "delete", "key": self.disk.used_slots()[0][1].key.decode()}

    def sync(self):
        return {"group": MOST}


class ManyGroupsAuthor(Author):
    """Has as many groups as there may be, in one chain, a few of them with patches."""

    def write(self):
        self.begin_run()
        self.ask_many_groups()
        self.ask_some(60)
        self.look_at_all()
        self.end_run()
        return self.script()


class ManyKeysAuthor(Author):
    """Has more keys than there are slots."""

    def some_geometry(self):
        return Geometry(1, self.random.randint(2, 4))

    def write(self):
        self.keys = [f"key{number}" for number in range(self.geometry.slots + 8)]
        self.large_share = 0
        self.begin_run()
        for key in self.keys:
            self.ask({"op": "put", "key": key, "hex": "", **self.writer()})
        self.ask_some(2 * len(self.keys))
        self.end_run()
        self.write_run()
        return self.script()


# The authors of the first scripts, which are long.
FIRST_AUTHORS = (CrowdAuthor, ManyGroupsAuthor, ManyKeysAuthor)


def author_of(number):
    """Who writes the script of this number."""
    return FIRST_AUTHORS[number] if number < len(FIRST_AUTHORS) else Author
