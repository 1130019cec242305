"""The patch cache itself, for a program that has its own layout of blocks and does its own reads and writes."""

from __future__ import annotations

import ctypes
import enum
from collections.abc import Iterable
from ctypes import byref, c_size_t, c_uint32
from types import TracebackType
from typing import Any, Callable, NamedTuple, Optional, Type, Union

from . import errors, forking
from .library import bytes_of, calls, number_of, refusal, require_done
from .opened import WRITER, AnyGroup, Opened, SharedCalls

__all__ = ["BLOCK", "MAX_BLOCKS", "MAX_LIVE", "Cache", "CacheCounts", "CacheGroup", "Flight", "Mark"]

BLOCK = 4096
"""The bytes of a block."""

MAX_BLOCKS = 16777216
"""The most blocks of a cache."""

MAX_LIVE = 65536
"""The most patches that are in memory or in flight."""

# The flag of a patch that the cache may forget the bytes below of.
MAY_DROP = 1
# No patch has this number.
NO_PATCH = 2**32 - 1


class Mark(enum.IntEnum):
    """Where a patch is: it waits in memory, its write is under way, or the disk has it."""

    MEMORY = 0
    FLIGHT = 1
    DURABLE = 2


class CacheCounts(NamedTuple):
    """How many blocks there are, how many patches were made since the cache was opened or renewed, how many of them are in memory or in
    flight, and a number below which all of them are durable."""

    blocks: int
    made: int
    live: int
    durable_below: int


class Flight(NamedTuple):
    """A write that was begun: its block, its number, and the bytes that go to the block. The two numbers are all that names it."""

    block: int
    number: int
    image: bytes


class Cache(Opened):
    """A cache for blocks of 4,096 bytes, in which patches say which bytes change, and what has to be on the disk before.

        with fstch.Cache(blocks) as cache:
            cache.admit(0, bytes_of_block_0)
            cache.admit(1, bytes_of_block_1)
            data = cache.patch(0, 0, b"data")
            cache.patch(1, 0, b"name", after=[data])  # reaches the disk after the data
            while cache.counts().live:
                wave = []
                while (block := cache.next()) is not None:
                    wave.append(cache.send(block))
                    write(block, wave[-1].image)
                sync()  # once for each wave, and before any of it is completed
                for flight in wave:
                    cache.complete(flight.block, flight.number)

    It does no I/O of its own. Whenever the program ends or the power is cut, the disk has what it had when the cache was opened, with some of
    the patches laid on it, in each block in the order of their making; and with each patch that it has all that this depends on. It has
    all that are durable. That is so as long as the program keeps to this, which nothing tests:

    - `complete` is called when no later write can reach the disk before this one's image: behind an fsync or fdatasync that succeeded,
      where a system or a disk may put off writes or change their order.
    - A write of a block is done whole or not at all, whenever the power is cut.
    - What is admitted is what the disk has, and lasts there. Nobody else writes to a block.
    - An image goes to its own block. Where the write failed, the same image is written again (`image`), or the cache is closed. Behind a
      sync that failed it is closed, and the blocks are read anew.
    - `renew` begins to count patches, writes and groups from 0 again: no number from before it is used behind it.

    Any thread may use a cache: one waits while another is in a call. A cache can't be copied or pickled, and a child that is forked has it
    closed. A `with` closes it at its end: what is in memory or in flight then is lost.

    Raises `FileSize`, where it is to have no blocks or more than `MAX_BLOCKS`, and `OutOfMemory`.
    """

    _word = "cache"
    _calls = SharedCalls.of("fstch_cache_")

    def __init__(self, blocks: int) -> None:
        super().__init__()
        require_done(calls.fstch_cache_open(self._at, number_of(blocks)), blocks)
        forking.hold_for_forks(self)

    @property
    def is_open(self) -> bool:
        """Whether the cache is open."""
        return bool(self._handle.is_open)

    def close(self) -> None:
        """Closes the cache, whatever is in memory or in flight: the disk has what a crash may leave. Closing a closed cache does nothing."""
        super().close()

    def counts(self) -> CacheCounts:
        """Counts blocks and patches."""
        numbers = [c_uint32() for _ in range(4)]
        self._require(calls.fstch_cache_counts, *map(byref, numbers))
        return CacheCounts(*(it.value for it in numbers))

    # Blocks.

    def admit(self, block: int, content: bytes) -> None:
        """Makes a block resident: `content` are its 4,096 bytes, as the disk has them now. Blocks are numbered from 0.

        Raises `NoSuchBlock`, `IsResident` and `OutOfMemory`.
        """
        held = bytes_of(content, "a block has")
        if len(held) != BLOCK:
            raise ValueError(f"a block has {BLOCK} bytes, and not {len(held)}")
        self._require(calls.fstch_cache_admit, number_of(block), held, about=block)

    def evict(self, block: int) -> None:
        """Lets a block go, and its memory, of which no patch is in memory or in flight.

        Raises `NoSuchBlock`, `NotResident` and `Live`.
        """
        self._require(calls.fstch_cache_evict, number_of(block), about=block)

    def is_resident(self, block: int) -> bool:
        """Whether the block is resident. Raises `NoSuchBlock`."""
        try:
            self.read(block, 0, 0)
        except errors.NotResident:
            return False
        return True

    def renew(self) -> None:
        """Begins anew, where no patch is in memory or in flight and each group that was ever entered is closed. The next patch, write and
        group have the number 0, and there are no others. Blocks stay as they are.

        Raises `Live`.
        """
        self._require(calls.fstch_cache_renew)

    # Patches.

    def patch(self, block: int, start: int, content: bytes, after: Iterable[int] = (), *, may_drop: bool = False) -> int:
        """Makes a patch, which puts 1 to 4,096 bytes into a block, and gives its number, the next one.

        It depends on the patches that `after` names, on each earlier patch of its block that shares a byte with it, and on all patches of all
        groups before those that are entered. It belongs to these. With `may_drop` the cache may forget the bytes that it overwrites, where
        all that it depends on is durable, or hard and of its block. Such a patch is hard: it isn't merged, and can't be left out.

        Raises `NoSuchBlock`, `NotResident`, `EmptyPatch`, `OutOfBlock`, `UnknownDependency`, `NumbersSpent`, `TooManyLive` and `OutOfMemory`.
        """
        held, (names, count), patch = bytes_of(content, "a patch has"), _list(after), c_uint32()
        given = (number_of(block), number_of(start), held, len(held), names, count, MAY_DROP if may_drop else 0, byref(patch))
        self._require(calls.fstch_cache_patch, WRITER, *given, about=block)
        return patch.value

    def merge(self, a: int, b: int) -> int:
        """Makes one class of the classes of two patches of a block, which go to the disk together from then on. Gives its name, its least
        number. A patch that is never merged is a class of its own.

        Raises `Unknown`, `NotInMemory`, `Same`, `OtherBlock`, `Hard`, `Apart`, `WouldCycle` and `OutOfMemory`.
        """
        name, which = c_uint32(), c_uint32(NO_PATCH)
        self._require_telling(which, calls.fstch_cache_merge, number_of(a), number_of(b), byref(name), byref(which), about=(a, b))
        return name.value

    def mark(self, patch: int) -> Mark:
        """Where a patch is. Raises `Unknown`."""
        mark = c_uint32()
        self._require(calls.fstch_cache_mark, number_of(patch), byref(mark), about=patch)
        return Mark(mark.value)

    # Bytes.

    def read(self, block: int, start: int = 0, length: Optional[int] = None) -> bytes:
        """So many bytes of a block with all its patches, or all from `start` on. Raises `NoSuchBlock`, `NotResident` and `OutOfBlock`."""
        count = _length(start, length)
        into = ctypes.create_string_buffer(count)
        self._require(calls.fstch_cache_read, number_of(block), number_of(start), count, into, about=block)
        return into.raw

    def without(self, block: int, patches: Iterable[int], start: int = 0, length: Optional[int] = None) -> bytes:
        """The same without the classes of these patches, which are left out one after another: each behind those of its block that depend
        on it.

        Raises `NoSuchBlock`, `NotResident`, `OutOfBlock` and `OutOfMemory`; and of the first patch that can't be left out `Unknown`, `Durable`,
        `InFlight`, `Hard`, `AlreadyTaken` and `DependentApplied`.
        """
        count, (names, how_many), which = _length(start, length), _list(patches), c_uint32(NO_PATCH)
        into = ctypes.create_string_buffer(count)
        given = (number_of(block), names, how_many, number_of(start), count, into, byref(which))
        self._require_telling(which, calls.fstch_cache_without, *given, about=block)
        return into.raw

    # Writes.

    def next(self) -> Optional[int]:
        """The least block of which a write can begin now, or None."""
        block = c_uint32()
        with self._lock:
            answer = calls.fstch_cache_next(self._at, byref(block))
        if answer == errors.NothingReady.number:
            return None
        require_done(answer)
        return block.value

    def send(self, block: int) -> Flight:
        """Begins a write of a block, of all its classes that may go to the disk now. Its image has them, what is durable, and nothing else.

        Raises `NoSuchBlock`, `NotResident`, `AlreadyInFlight`, `NothingReady` and `OutOfMemory`.
        """
        number, image = c_uint32(), ctypes.create_string_buffer(BLOCK)
        self._require(calls.fstch_cache_send, number_of(block), byref(number), image, BLOCK, about=block)
        return Flight(block, number.value, image.raw)

    def image(self, block: int, number: int) -> bytes:
        """The image of a write that is under way once more, byte for byte, to be written again. Raises `Stranger`."""
        image = ctypes.create_string_buffer(BLOCK)
        self._require(calls.fstch_cache_image, number_of(block), number_of(number), image, BLOCK, about=(block, number))
        return image.raw

    def flight(self, block: int, number: int) -> tuple[int, ...]:
        """The patches that a write makes durable, rising. Raises `Stranger`."""
        numbers, room, count = number_of(block), 0, c_size_t()
        with self._lock:
            while True:
                patches = (c_uint32 * (room + 1))()
                answer = calls.fstch_cache_flight(self._at, numbers, number_of(number), patches, room, byref(count))
                if answer != errors.BufferTooSmall.number:
                    break
                room = count.value
        require_done(answer, (block, number))
        return tuple(patches[: count.value])

    def complete(self, block: int, number: int) -> None:
        """Ends a write that the disk has: its patches are durable. What is owed before it is told of the class. Raises `Stranger`."""
        self._require(calls.fstch_cache_complete, number_of(block), number_of(number), about=(block, number))

    # Groups.

    def group(self, after: Union[None, CacheGroup, Iterable[CacheGroup]] = None) -> CacheGroup:
        """A new group, which goes to the disk after one or some others.

        `with cache.group() as first:` puts all patches that are made inside into the group.

        Raises `TooManyGroups`, `OutOfMemory`, and what `CacheGroup.depend` raises.
        """
        return self._new_group(CacheGroup, after)

    # Calls of the library, one at a time.

    def _require_telling(self, which: ctypes.c_uint32, call: Callable[..., int], *given: object, about: object) -> None:
        """The same of a call that tells a patch where it is refused."""
        with self._lock:
            answer = call(self._at, *given)
        if answer:
            error = refusal(answer, about)
            error.patch = None if which.value == NO_PATCH else which.value
            raise error

    # Opening and closing.

    def __exit__(
        self,
        kind: Optional[Type[BaseException]],
        error: Optional[BaseException],
        trace: Optional[TracebackType],
    ) -> None:
        """Closes the cache. A forked child has it closed."""
        self.close()

    def __repr__(self) -> str:
        return f"<fstch.Cache{'' if self._handle.is_open else ', closed'}>"


class CacheGroup(AnyGroup):
    """Patches that go to the disk in an order: whatever a crash leaves, where the disk has a patch of a group, it has all patches of the
    groups before it.

    Each patch belongs to all groups that are entered as it is made; `with` enters a group and leaves it. A group may be entered again until
    another goes after it.
    """

    def __init__(self, cache: Cache, number: int) -> None:
        super().__init__(cache, number)

    def depend(self, earlier: CacheGroup) -> None:
        """Lets this group go to the disk after an earlier one. This one was not entered yet, and the other one isn't now.

        Raises `NoSuchGroup`, `SameGroup`, `Sealed`, `Started`, `Engaged` and `OutOfMemory`.
        """
        self._depend(earlier)

    @property
    def pending(self) -> int:
        """How many patches of the group aren't durable: 0 where the disk has all of it. Raises `NoSuchGroup`."""
        return self._pending()

    def close(self) -> None:
        """Ends the use of the group. Its patches stay, in their order. Raises `NoSuchGroup` and `Engaged`."""
        self._close()

    def __exit__(self, *raised: object) -> None:
        """Leaves the group. Where the cache was closed inside, there is nothing to leave."""
        self._leave()

    def __repr__(self) -> str:
        return f"<fstch.CacheGroup {self.number} of {self._owner!r}>"


def _list(numbers: Iterable[int]) -> tuple[Any, int]:
    """Numbers as the library takes them, and how many there are. (An array of none would have no place.)"""
    listed = [number_of(it) for it in numbers]
    return (c_uint32 * (len(listed) + 1))(*listed), len(listed)


def _length(start: int, length: Optional[int]) -> int:
    """How many bytes are asked for, of which no more than a block's have room; one too many is refused like the whole."""
    whole = max(BLOCK - start, 0) if length is None else length
    return min(number_of(whole), BLOCK + 1)
