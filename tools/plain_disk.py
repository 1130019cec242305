"""The disks of the store, computed from their format alone: what their bytes say, and how that is spelled.

`Disk.made(geometry)` is a disk as `fstch make` makes it, and `Disk.read(content)` is what the bytes of a file say, or
the first test that they fail, as a `Fault`. What is changed of a disk is spelled at once in its `content`.
"""

from dataclasses import dataclass, replace
from typing import Optional

from plain_model import BLOCK

MAGIC = b"FSTCHUNK"
FRAME_BEGINS = b"FCH1"
FRAME_ENDS = b"1HCF"
SLOT = 64
SLOTS_OF_BLOCK = 64
RECORD = 8  # bytes of a pointer record
FRAME = 16  # bytes of a frame beside key and value
SHORTEST = FRAME + 1
MAX_KEY = 32
MAX_GENERATION = 2**32 - 1
MAX_BLOCKS = 4096
INDEXES = range(1, 17)
EXTENTS = range(2, 255)
LENGTHS = range(16, 65)
DISK_FAULT = 4  # the exit status


class Fault(Exception):
    """Why a program did nothing, and its exit status."""

    def __init__(self, name, status=DISK_FAULT):
        super().__init__(f"fault {name}")
        self.status = status


def spelled(number, size):
    return number.to_bytes(size, "big")


def part(content, place, size):
    return content[place : place + size]


def number_in(content, start, end):
    return int.from_bytes(content[start:end], "big")


@dataclass(frozen=True)
class Geometry:
    """How many blocks of slots and how many extents a disk has; on one of version 2, also the blocks of an extent."""

    index: int
    extents: int
    length: Optional[int] = None

    @property
    def is_wide(self):
        """It is of version 2."""
        return self.length is not None

    @property
    def extent_blocks(self):
        return self.length if self.is_wide else 16

    @property
    def extent_bytes(self):
        return BLOCK * self.extent_blocks

    @property
    def max_value(self):
        """How many bytes a value may have."""
        return min(131_072, self.extent_bytes - FRAME - MAX_KEY) if self.is_wide else 32_768

    @property
    def max_frame_in_slot(self):
        return (131_072 if self.is_wide else 32_768) + FRAME + MAX_KEY

    @property
    def slots(self):
        return SLOTS_OF_BLOCK * self.index

    @property
    def blocks(self):
        return 2 + self.index + self.extent_blocks * self.extents

    def superblock(self):
        numbers = (2, self.index, self.extents, self.length) if self.is_wide else (1, self.index, self.extents)
        return (MAGIC + b"".join(spelled(number, 4) for number in numbers)).ljust(BLOCK, b"\0")

    def place_of_slot(self, slot):
        return BLOCK + SLOT * slot

    def place_of_record(self, extent):
        return BLOCK * (1 + self.index) + RECORD * extent

    def place_of_extent(self, extent):
        return BLOCK * (2 + self.index) + self.extent_bytes * extent


@dataclass(frozen=True)
class Pointer:
    """How often an extent was emptied, and how many of its bytes are filled."""

    generation: int = 0
    filled: int = 0

    def record(self):
        return spelled(self.generation, 4) + spelled(self.filled, 4)


@dataclass(frozen=True)
class Entry:
    """What a used slot says, and the value in the frame that it names."""

    key: bytes
    value: bytes
    extent: int
    generation: int
    offset: int

    @property
    def length(self):
        """That of the frame."""
        return frame_length(self.key, self.value)

    def slot(self):
        numbers = (self.generation, self.offset, self.length)
        said = b"\1" + spelled(len(self.key), 1) + spelled(self.extent, 2) + b"".join(spelled(n, 4) for n in numbers)
        return (said + self.key).ljust(SLOT, b"\0")


def frame(key, value):
    sizes = spelled(len(key), 1) + bytes(3) + spelled(len(value), 4)
    return FRAME_BEGINS + sizes + key + value + FRAME_ENDS


def frame_length(key, value):
    return FRAME + len(key) + len(value)


class Disk:
    """What the slots and pointer records of a disk say, and all of its bytes."""

    def __init__(self, geometry, content, pointers, slots):
        self.geometry = geometry
        self.content = bytearray(content)
        self.pointers = pointers
        self.slots = slots

    @classmethod
    def made(cls, geometry):
        if geometry.blocks > MAX_BLOCKS:
            raise Fault("Geometry", 2)
        content = geometry.superblock().ljust(BLOCK * geometry.blocks, b"\0")
        return cls(geometry, content, [Pointer()] * geometry.extents, [None] * geometry.slots)

    @classmethod
    def read(cls, content):
        geometry = geometry_in(content)
        pointers = pointers_in(geometry, content)
        return cls(geometry, content, pointers, slots_in(geometry, content, pointers))

    # Changes.

    def lay(self, place, written):
        self.content[place : place + len(written)] = written

    def lay_in(self, extent, offset, written):
        self.lay(self.geometry.place_of_extent(extent) + offset, written)

    def point(self, extent, pointer):
        self.pointers[extent] = pointer
        self.lay(self.geometry.place_of_record(extent), pointer.record())

    def fill(self, slot, entry):
        self.slots[slot] = entry
        self.lay(self.geometry.place_of_slot(slot), entry.slot())

    def clear(self, slot):
        self.slots[slot] = None
        self.lay(self.geometry.place_of_slot(slot), bytes(SLOT))

    def upgrade(self):
        """It is of version 2 from now on, and its extents stay as long as they are."""
        if self.geometry.is_wide:
            raise Fault("AlreadyVersion2")
        self.geometry = replace(self.geometry, length=self.geometry.extent_blocks)
        self.lay(0, self.geometry.superblock())

    # What it says.

    def used_slots(self):
        """Their numbers, with what they say."""
        return [(slot, entry) for slot, entry in enumerate(self.slots) if entry is not None]

    def slot_of(self, key):
        return next((slot for slot, entry in self.used_slots() if entry.key == key), None)

    def empty_slot(self):
        """The lowest one."""
        return next((slot for slot, entry in enumerate(self.slots) if entry is None), None)

    def live(self, extent):
        """The slots that name the extent, with what they say, in order of offset."""
        here = [(slot, entry) for slot, entry in self.used_slots() if entry.extent == extent]
        return sorted(here, key=lambda named: named[1].offset)

    def empty_extents(self):
        return [extent for extent, pointer in enumerate(self.pointers) if pointer.filled == 0]

    def report(self):
        """The lines of a check."""
        entries = sorted((entry for _, entry in self.used_slots()), key=lambda entry: entry.key)
        lines = [f"entry {entry.key.hex()} {len(entry.value)}" for entry in entries]
        for extent, pointer in enumerate(self.pointers):
            live = sum(entry.length for _, entry in self.live(extent))
            lines.append(f"extent {extent} {pointer.generation} {pointer.filled} {live}")
        return lines + ["clean"]


# Reading.


def geometry_in(content):
    if len(content) % BLOCK or not 1 <= len(content) // BLOCK <= MAX_BLOCKS:
        raise Fault("FileSize")
    version = number_in(content, 8, 12)
    if content[:8] != MAGIC or version not in (1, 2):
        raise Fault("BadSuper")
    length = number_in(content, 20, 24) if version == 2 else None
    geometry = Geometry(number_in(content, 12, 16), number_in(content, 16, 20), length)
    if not is_in_range(geometry) or content[:BLOCK] != geometry.superblock():
        raise Fault("BadSuper")
    if len(content) != BLOCK * geometry.blocks:
        raise Fault("FileSize")
    return geometry


def is_in_range(geometry):
    has_length = not geometry.is_wide or geometry.length in LENGTHS
    return geometry.index in INDEXES and geometry.extents in EXTENTS and has_length and geometry.blocks <= MAX_BLOCKS


def pointers_in(geometry, content):
    block = part(content, geometry.place_of_record(0), BLOCK)
    records = [part(block, RECORD * extent, RECORD) for extent in range(geometry.extents)]
    pointers = [Pointer(number_in(record, 0, 4), number_in(record, 4, 8)) for record in records]
    if any(pointer.filled > geometry.extent_bytes for pointer in pointers) or any(block[RECORD * len(records) :]):
        raise Fault("BadPointer")
    return pointers


def slots_in(geometry, content, pointers):
    slots, keys = [], set()
    for number in range(geometry.slots):
        entry = entry_in(geometry, content, pointers, number)
        if entry and entry.key in keys:
            raise Fault(f"DuplicateKey {number}")
        keys.update([entry.key] if entry else [])
        slots.append(entry)
    return slots


def entry_in(geometry, content, pointers, number):
    """What the slot of this number says, or None where it is empty."""
    slot = part(content, geometry.place_of_slot(number), SLOT)
    if not any(slot):
        return None
    key, extent, generation = slot[16 : 16 + slot[1]], number_in(slot, 2, 4), number_in(slot, 4, 8)
    offset, length = number_in(slot, 8, 12), number_in(slot, 12, 16)
    is_slot = slot[0] == 1 and 1 <= slot[1] <= MAX_KEY and not any(slot[16 + slot[1] :])
    if not is_slot or not SHORTEST <= length <= geometry.max_frame_in_slot or extent >= geometry.extents:
        raise Fault(f"BadSlot {number}")
    named = part(content, geometry.place_of_extent(extent) + offset, length)
    entry = Entry(bytes(key), bytes(named[12 + len(key) : -4]), extent, generation, offset)
    is_filled = generation == pointers[extent].generation and offset + length <= pointers[extent].filled
    if not is_filled or len(entry.value) > geometry.max_value or named != frame(entry.key, entry.value):
        raise Fault(f"BadFrame {number}")
    return entry
