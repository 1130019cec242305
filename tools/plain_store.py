"""What `fstch run` answers to the lines of a script, and what the other commands on a file do, from the rules alone.

A model keeps a disk, and which extent puts append to. What is cached of the store is the disk as it will be when all
patches have reached it; patches are only counted, as far as limits and groups ask for that. Each search begins at the
first slot or extent. It is there to be compared with the store, and shares nothing with it.

`Store(disk).answer(line)` answers a readable line that `json.loads` has read. `made`, `ran`, `upgraded` and `checked`
are what the commands answer and end with, and what they leave. Of the reader of scripts, what makes an object
unreadable is modelled, and no more.
"""

import collections
import re
from dataclasses import dataclass

import plain_model
from plain_disk import MAX_GENERATION, MAX_KEY, SHORTEST, Disk, Entry, Fault, Pointer, frame, frame_length
from plain_model import BLOCK, MAX_LIVE, MAX_PATCHES, LineModel, Refused, writer_of


@dataclass(frozen=True)
class Move:
    """A live frame with its slot, and where it goes."""

    slot: int
    entry: Entry
    extent: int
    offset: int

    @property
    def patches(self):
        return patches_of_frame(self.offset, self.entry.length)


def patches_of_frame(offset, length):
    """How many patches bring a frame to its place: one in each block, one of the pointer, and one of the slot."""
    blocks = (offset + length - 1) // BLOCK - offset // BLOCK + 1
    return blocks + 2


# Lines.

# The names that a line of each op has to have.
NEEDED = {
    "put": ("key", "hex"),
    "get": ("key",),
    "delete": ("key",),
    "reclaim": ("extent",),
    "group": (),
    "engage": ("group",),
    "disengage": ("group",),
    "depend": ("group", "on"),
    "close": ("group",),
    "pending": ("group",),
    "sync": (),
}
# Those that it may have beside a writer.
OPTIONAL = {"put": ("times",), "sync": ("group",)}
MAX_VALUE_OF_LINE = 1_048_576
MAX_WRITER = 7
HEX = re.compile("(?:[0-9a-fA-F]{2})*")


def is_readable(line):
    """A line of this op has these names, and each has a value of its kind. Other names may have any."""
    if not isinstance(line.get("op"), str) or line["op"] not in NEEDED:
        return False
    needed, may_have = NEEDED[line["op"]], {"writer", *OPTIONAL.get(line["op"], ())}
    if not all(name in line for name in needed):
        return False
    if not all(is_of_kind(name, line[name]) for name in line if name in may_have.union(needed)):
        return False
    return line["op"] != "put" or len(line["hex"]) // 2 * line.get("times", 1) <= MAX_VALUE_OF_LINE


def is_of_kind(name, value):
    if name == "key":
        return isinstance(value, str)
    if name == "hex":
        return isinstance(value, str) and HEX.fullmatch(value) is not None
    most = MAX_WRITER if name == "writer" else 2**32 - 1
    return type(value) is int and 0 <= value <= most


def key_of(line):
    key = line["key"].encode()
    if not 1 <= len(key) <= MAX_KEY:
        raise Refused("KeyLength")
    return key


def value_of(line):
    return bytes.fromhex(line["hex"]) * line.get("times", 1)


class Store(LineModel):
    """A store on a disk, with the counts of its patches: those made, those live, and the live ones of each group."""

    ops = LineModel.ops + ("put", "get", "delete", "reclaim", "pending", "sync")

    def __init__(self, disk):
        super().__init__()
        self.disk = disk
        self.current = next((e for e, pointer in enumerate(disk.pointers) if self.may_be_current(pointer)), None)
        self.made = 0
        self.live = 0
        self.waiting = collections.Counter()

    @property
    def geometry(self):
        return self.disk.geometry

    def may_be_current(self, pointer):
        """At an opening: there is something in the extent, and room for the shortest frame."""
        return 1 <= pointer.filled <= self.geometry.extent_bytes - SHORTEST

    # Lines.

    def put(self, line):
        key, value = key_of(line), value_of(line)
        self.check_value(value)
        slot = self.slot_for(key)
        extent = self.extent_for_put(frame_length(key, value))
        self.count(patches_of_frame(self.disk.pointers[extent].filled, frame_length(key, value)), writer_of(line))
        self.append(slot, key, value, extent)
        return "ok"

    def get(self, line):
        slot = self.disk.slot_of(key_of(line))
        if slot is None:
            return "none"
        return f"value {self.disk.slots[slot].value.hex()}".rstrip()

    def delete(self, line):
        slot = self.disk.slot_of(key_of(line))
        if slot is None:
            raise Refused("NoKey")
        self.count(1, writer_of(line))
        self.disk.clear(slot)
        return "ok"

    def reclaim(self, line):
        """All live frames of the extent move, and then it is empty. The patches of this are no writer's."""
        extent = line["extent"]
        self.check_reclaim(extent)
        moves = self.moves(extent)
        self.count(sum(move.patches for move in moves) + 1)
        for move in moves:
            self.append(move.slot, move.entry.key, move.entry.value, move.extent)
        self.disk.point(extent, Pointer(self.disk.pointers[extent].generation + 1))
        if self.current == extent:
            self.current = None
        return "ok"

    def pending(self, line):
        plain_model.check_open(self.groups, line["group"])
        return f"pending {self.waiting[line['group']]}"

    def sync(self, line):
        if "group" in line:
            plain_model.check_open(self.groups, line["group"])
        self.flush()
        return "synced"

    def flush(self):
        """All patches reach the disk."""
        self.live = 0
        self.waiting.clear()

    # Patches.

    def check_count(self, count):
        if self.made + count > MAX_PATCHES:
            raise Refused("NumbersSpent")
        if self.live + count > MAX_LIVE:
            raise Refused("TooManyLive")

    def count(self, count, writer=None):
        """So many more patches, which belong to all groups that their writer has engaged."""
        self.check_count(count)
        self.made += count
        self.live += count
        for group in plain_model.engaged_by(self.groups, writer):
            self.waiting[group] += count

    # Slots and extents.

    def check_value(self, value):
        if len(value) > self.geometry.max_value:
            raise Refused("ValueLength")

    def slot_for(self, key):
        """The key's own slot, or the lowest empty one."""
        slot = self.disk.slot_of(key)
        if slot is None:
            slot = self.disk.empty_slot()
        if slot is None:
            raise Refused("IndexFull")
        return slot

    def has_room(self, filled, length):
        return filled + length <= self.geometry.extent_bytes

    def extent_for_put(self, length):
        """The current extent, or the lowest empty one where another empty one is left."""
        if self.current is not None and self.has_room(self.disk.pointers[self.current].filled, length):
            return self.current
        empty = self.disk.empty_extents()
        if len(empty) < 2:
            raise Refused("NoSpace")
        return empty[0]

    def append(self, slot, key, value, extent):
        """A frame goes to the end of the extent, which is current then, and the slot names it."""
        pointer = self.disk.pointers[extent]
        self.disk.lay_in(extent, pointer.filled, frame(key, value))
        self.disk.point(extent, Pointer(pointer.generation, pointer.filled + frame_length(key, value)))
        self.disk.fill(slot, Entry(key, value, extent, pointer.generation, pointer.filled))
        self.current = extent

    def check_reclaim(self, extent):
        if extent >= self.geometry.extents:
            raise Refused("NoSuchExtent")
        if self.disk.pointers[extent].filled == 0:
            raise Refused("EmptyExtent")
        if extent == self.current and self.disk.live(extent):
            raise Refused("OpenExtent")
        if self.disk.pointers[extent].generation == MAX_GENERATION:
            raise Refused("GenerationSpent")

    def moves(self, extent):
        """Where each live frame of the extent goes: the current extent, or the lowest empty one, even the last."""
        filled = [pointer.filled for pointer in self.disk.pointers]
        current, moves = self.current, []
        for slot, entry in self.disk.live(extent):
            if current is None or not self.has_room(filled[current], entry.length):
                current = next((e for e, used in enumerate(filled) if used == 0), None)
            if current is None:
                raise Refused("NoSpace")
            moves.append(Move(slot, entry, current, filled[current]))
            filled[current] += entry.length
        return moves


# Commands: each gives its exit status, what it prints, and what the file has behind it.


def made(geometry):
    try:
        disk = Disk.made(geometry)
    except Fault as fault:
        return fault.status, [str(fault)], None
    return 0, [f"made {geometry.blocks}"], bytes(disk.content)


def on_disk(content, work):
    """What comes of some work on what the file holds, which gives the lines that are printed."""
    try:
        disk = Disk.read(content)
        lines = work(disk)
    except Fault as fault:
        return fault.status, [str(fault)], content
    return 0, lines, bytes(disk.content)


def ran(content, lines):
    """Nothing is done where a line is unreadable."""
    for number, line in enumerate(lines, 1):
        if not is_readable(line):
            return 3, [f"bad line {number}"], content

    def answers(disk):
        store = Store(disk)
        return [store.answer(line) for line in lines]

    return on_disk(content, answers)


def upgraded(content):
    def upgrade(disk):
        disk.upgrade()
        return ["upgraded"]

    return on_disk(content, upgrade)


def checked(content):
    return on_disk(content, Disk.report)
