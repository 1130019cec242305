"""A store as a mapping, and groups of its changes."""

from __future__ import annotations

import contextlib
import os
import weakref
from collections.abc import ItemsView, Iterable, Iterator, KeysView, Mapping, MutableMapping
from ctypes import byref, c_size_t, c_uint32
from types import TracebackType
from typing import Any, Callable, NamedTuple, NoReturn, Optional, Type, Union

from . import errors, forking, library
from .library import MAX_KEY, bytes_of, calls, number_of, refusal, require_done
from .opened import WRITER, AnyGroup, Opened, SharedCalls

__all__ = ["MAX_KEY", "MAX_VALUE", "Counts", "Extent", "Group", "Statistics", "Store", "make", "open"]

Path = Union[str, bytes, "os.PathLike[str]", "os.PathLike[bytes]"]

MAX_VALUE = 131072
"""The most bytes of a value of any store. One whose extents have 16 blocks has the lower limits of `make`."""

# The flags of a store whose syncs are one sync of the file each, of one that is to be read alone, and of one whose puts win no room back.
NO_BARRIERS = 1
READ_ONLY = 2
MANUAL = 4
# No slot of an index has this number.
NO_SLOT = 2**32 - 1
# How a file is divided that an open makes: the largest one.
GEOMETRY = {"index_blocks": 16, "extents": 63, "extent_blocks": 64}


def make(path: Path, *, index_blocks: int, extents: int, extent_blocks: int = 0) -> None:
    """Makes a file that holds an empty store, and lets it last. What has the name already is left alone.

    The store has 64 keys for each of 1 to 16 `index_blocks`, and 2 to 254 `extents`, to which values are appended. Without
    `extent_blocks` an extent has 16 blocks of 4,096 bytes, and a value at most 32,768 bytes; with 16 to 64 it has so many, and a value
    at most as many bytes as an extent less 48, and never more than 131,072. The file has 4,096 blocks at most.

    Raises `Geometry`, `OutOfMemory` and `Disk`.
    """
    numbers = (number_of(it) for it in (index_blocks, extents, extent_blocks))
    require_done(calls.fstch_make(_name(path), *numbers), path)


def open(path: Path, flag: str = "w", *, barriers: bool = True, manual: bool = False, **geometry: int) -> Store:
    """Opens the store of a file, and locks the file until the store is closed.

    The flag is as of the modules for dbm: "w" opens a file that there is; "c" makes one first where there is none, divided as `make` is
    told by `index_blocks`, `extents` and `extent_blocks`, or without these as large as one can be, 16 MiB; "n" makes a new one in any
    case, and takes away what has the name but for a store that is open and a file that may not be written; "r" opens one that there is,
    whoever may write it, and each change is refused with `ReadOnly`. Several stores may have a file open with "r" at once, while none has it
    open without.

    Without `barriers` a sync of the store is one sync of the file, behind all writes. Then the file opens again whenever the program ends
    and the system goes on; if the power is cut, or the system stops, during a sync, it may not.

    With `manual` extents are won back by `reclaim` alone, which the program calls where a put is refused with `NoSpace`. Without it a put
    does so by itself.

    Raises `Disk`, `InUse`, `FileSize`, `OutOfMemory`, `BadSuper`, `BadPointer`, `BadSlot`, `BadFrame` and `DuplicateKey`, and, where it
    makes a file, what `make` does.
    """
    if flag not in {"r", "w", "c", "n"}:
        raise ValueError(f"a flag is 'r', 'w', 'c' or 'n', and not {flag!r}")
    if geometry and flag not in {"c", "n"}:
        raise ValueError(f"with the flag {flag!r} no file is made")
    if flag == "n":
        _take_away(path)
    if flag == "n" or flag == "c" and not os.path.lexists(path):
        with contextlib.suppress(errors.DiskTaken):
            make(path, **(geometry or GEOMETRY))
    return Store(path, barriers=barriers, read_only=flag == "r", manual=manual)


def _take_away(path: Path) -> None:
    """Removes a file, whatever it holds, but not one that another store has open, or of which that can't be told."""
    try:
        Store(path).close()
    except (errors.InUse, errors.DiskForbidden):
        raise
    except errors.Error:
        pass
    with contextlib.suppress(FileNotFoundError):
        os.remove(path)


class Counts(NamedTuple):
    """How much a store holds: how many keys have a value, and how many extents there are."""

    entries: int
    extents: int


class Extent(NamedTuple):
    """How full an extent is: how many of its bytes hold a key with the value that it has, and how many were appended to it since it was made
    or won back. A reclaim copies the live ones, and frees the others."""

    live: int
    filled: int


class Statistics(NamedTuple):
    """What a store holds: how many keys have a value, how many pieces of changes haven't reached the file, how many bytes keys and values
    take in the extents, with 16 more each, how many bytes the file has, how many extents there are, and how many have nothing in them.
    And what its syncs have done: how many there were since the store was opened, and how many waves they wrote."""

    keys: int
    unsynced: int
    live_bytes: int
    file_bytes: int
    extents: int
    empty_extents: int
    syncs: int
    waves: int


class Store(Opened, MutableMapping[bytes, bytes]):
    """The keys and values of a file, a mapping of bytes to bytes. Going over it is in the order of its keys, which is that of bytes.

    What is put or deleted stands in memory alone until `sync`, which brings it to the file and lets it last there. `close` doesn't
    sync: what was not synced is lost. A `with` syncs and closes at its end; where an exception ends it, it only closes, and the file
    has what the last sync left.

    Whenever the program ends or the power is cut, the file opens again. It then has, of each key, what it had after the last sync or
    after one of the later puts and deletes; where a write had reached the file, all that it depends on had too. What was answered
    before a sync that succeeded is there. One premise is left to the system and its disk: what was written to the file before an fsync
    or fdatasync that succeeded is there, and of what was written since, each block of 4,096 bytes is old or new.

    Keys have 1 to 32 bytes. Keys and values may be given as anything that holds bytes. Any thread may use a store: one waits while another
    is in a call. A store can't be copied or pickled, and a child that is forked has it closed.
    """

    _word = "store"
    _calls = SharedCalls.of("fstch_")

    def __init__(self, path: Path, *, barriers: bool = True, read_only: bool = False, manual: bool = False) -> None:
        super().__init__()
        self._is_read_only = read_only
        # (those who go over the keys, by their ids)
        self._walks: weakref.WeakValueDictionary[int, _Walk] = weakref.WeakValueDictionary()
        self._path = path
        slot = c_uint32(NO_SLOT)
        flags = (0 if barriers else NO_BARRIERS) | (READ_ONLY if read_only else 0) | (MANUAL if manual else 0)
        answer = calls.fstch_open_with(self._at, _name(path), flags, byref(slot))
        if answer:
            error = refusal(answer, path)
            error.slot = None if slot.value == NO_SLOT else slot.value
            raise error
        forking.hold_for_forks(self)  # (it would write to the same file)

    @property
    def is_open(self) -> bool:
        """Whether the store is open."""
        return bool(self._handle.is_open)

    def close(self) -> None:
        """Closes the store, and lets go of the file's lock. It doesn't sync. Closing a closed store does nothing."""
        super().close()

    def sync(self) -> None:
        """Brings all changes to the file, and waits until the system lets them last. Nothing is written before what it rests on lasts.

        Where it is refused, some changes may have reached the file, in their order, and each later sync is refused with `NoSync`:
        close the store and open it again. The open reads what the disk has, and not what the system still shows of a sync that failed.
        With "r" there is nothing to be brought.

        Behind a sync the store begins anew where more than 1,048,576 patches or 512 groups were made since it was opened or last did, and
        each group is closed or was never entered. So it is never spent. No group from before is used behind that: its number may come again.

        Raises `OutOfMemory`, `DeviceGaveUp` and `NoSync`.
        """
        with self._lock:
            answer = calls.fstch_sync(self._at)
        if answer != errors.ReadOnly.number:
            require_done(answer)

    @property
    def unsynced(self) -> int:
        """How many pieces of changes haven't reached the file: 0 where a sync has nothing to do. A put has several pieces."""
        count = c_uint32()
        self._require(calls.fstch_unsynced, byref(count))
        return count.value

    def check(self) -> Counts:
        """Counts what the store holds. Raises `OutOfMemory`."""
        entries, extents = c_uint32(), c_uint32()
        self._require(calls.fstch_check, byref(entries), byref(extents))
        return Counts(entries.value, extents.value)

    def statistics(self) -> Statistics:
        """Tells what the store holds, and what its syncs have done."""
        told = library.Statistics()
        self._require(calls.fstch_stats, byref(told))
        return Statistics(*(getattr(told, name) for name in Statistics._fields))

    def extent(self, number: int) -> Extent:
        """How full an extent is. Extents are numbered from 0. Raises `NoSuchExtent`."""
        live, filled = c_uint32(), c_uint32()
        self._require(calls.fstch_extent, number_of(number), byref(live), byref(filled), about=number)
        return Extent(live.value, filled.value)

    def reclaim(self, extent: int) -> None:
        """Moves what is live in an extent elsewhere, and empties it. Extents are numbered from 0.

        Raises `NoSuchExtent`, `EmptyExtent`, `OpenExtent`, `GenerationSpent`, `NoSpace`, `NumbersSpent`, `TooManyLive` and
        `OutOfMemory`.
        """
        self._change(calls.fstch_reclaim, number_of(extent), about=extent)

    def group(self, after: Union[None, Group, Iterable[Group]] = None) -> Group:
        """A new group, which goes to the file after one or some others.

        `with store.group() as first:` puts all changes that are made inside into the group.

        Raises `TooManyGroups`, `OutOfMemory`, and what `Group.depend` raises.
        """
        return self._new_group(Group, after)

    # The mapping.

    def __getitem__(self, key: bytes) -> bytes:
        """The value of a key. Raises `Absent`, which is a KeyError, and `KeyLength` and `OutOfMemory`."""
        name = _bytes(key)
        with self._lock:
            found = library.get(self._at, name)
        if isinstance(found, bytes):
            return found
        raise refusal(found, name)

    def __setitem__(self, key: bytes, value: bytes) -> None:
        """Puts a value under a key, in place of the one that it had.

        Where of 16 extents or more one at most is empty, or of 48 or more two, values of the one with the fewest live bytes may move
        elsewhere behind the put, ahead of the need for its room: eight at most, while the extent that is written to has room for all of
        them. Of 48 extents or more they move where an eighth of that one is dead, and all at once, where the extent that is written to is
        soon full, or has no room for them and two are empty. Where no extent has room for the put, that one is won back whole first, and
        where none was empty a second one. So a put may take as long as a reclaim. Neither is so in a store that was opened with `manual`.
        Where an extent was empty one is so behind the put, unless there was no memory, and then `NoSpace` comes of a full store alone:
        where `statistics` tells more live bytes than (extents - 2) * (bytes of an extent - bytes of the value, its key and 16 more), or
        an extent can't be won back any more. With `NoSpace`, `NumbersSpent`, `TooManyLive` and `OutOfMemory` extents may have been won
        back; each key has the value that it had.

        Raises `KeyLength`, `ValueLength`, `IndexFull`, `NoSpace`, `NumbersSpent`, `TooManyLive` and `OutOfMemory`.
        """
        name, content = _bytes(key), _bytes(value)
        answer = self._answer_changing(library.put, WRITER, name, content)
        require_done(answer, content if answer == errors.ValueLength.number else name)

    def __delitem__(self, key: bytes) -> None:
        """Takes a key and its value away. A put that needs the room wins it back, or `reclaim`.

        Raises `NoKey`, which is a KeyError, and `KeyLength`, `NumbersSpent`, `TooManyLive` and `OutOfMemory`.
        """
        name = _bytes(key)
        self._change(library.delete, WRITER, name, about=name)

    def __contains__(self, key: object) -> bool:
        """Whether a key has a value. No key of a wrong length or type has one."""
        try:
            name = _bytes(key)
        except TypeError:
            name = b""
        length = c_size_t()
        with self._lock:
            answer = calls.fstch_get(self._at, name, len(name), None, 0, byref(length))
        if answer in (errors.Absent.number, errors.KeyLength.number):
            return False
        if answer != errors.BufferTooSmall.number:
            require_done(answer, key)
        return True

    def __len__(self) -> int:
        """How many keys have a value."""
        return self.check().entries

    def __iter__(self) -> Iterator[bytes]:
        """The keys in order, as they are now: what is put or deleted meanwhile doesn't change what is left of them."""
        return _Rising(self, _ALL)

    def __reversed__(self) -> Iterator[bytes]:
        """The same keys from the last one on."""
        return _Falling(self, _ALL)

    def keys(self, start: Optional[bytes] = None, stop: Optional[bytes] = None, *, prefix: Optional[bytes] = None) -> KeyRange:
        """A view of all keys, in order; or of those from `start` on, below `stop`, and that begin with `prefix`, as far as these are given.

        It is as a dict's: it has what the store has, and may be gone over from the last key on by `reversed`. Who goes over it goes over
        the keys as they are then.
        """
        return KeyRange(self, _range(start, stop, prefix))

    def items(self, start: Optional[bytes] = None, stop: Optional[bytes] = None, *, prefix: Optional[bytes] = None) -> ItemRange:
        """The same view of keys with their values, which are got one by one. Where the key was taken away meanwhile, `Absent` is raised."""
        return ItemRange(self, _range(start, stop, prefix))

    def next_key(self, start: bytes) -> Optional[bytes]:
        """The least key from `start` on, which may be itself; or None. `start` may have any length: with no byte it comes before all keys."""
        return _key(self._entry(library.next_entry, _bytes(start)))

    def previous_key(self, before: bytes) -> Optional[bytes]:
        """The greatest key that comes before this one, which may have any length; or None."""
        return _key(self._entry(library.previous_entry, _bytes(before)))

    def last_key(self) -> Optional[bytes]:
        """The greatest key of all, or None."""
        return _key(self._entry(library.last_entry))

    def __or__(self, other: Mapping[Any, Any]) -> dict[Any, Any]:
        """A dict of the keys and values of both; of a key that both have, with the other's value."""
        return {**dict(self), **other} if isinstance(other, Mapping) else NotImplemented

    def __ror__(self, other: Mapping[Any, Any]) -> dict[Any, Any]:
        return {**other, **dict(self)} if isinstance(other, Mapping) else NotImplemented

    def __ior__(self, other: Union[Mapping[bytes, bytes], Iterable[tuple[bytes, bytes]]]) -> Store:
        self.update(other)
        return self

    def lengths(self) -> dict[bytes, int]:
        """The keys in order, each with the length of its value."""
        lengths: dict[bytes, int] = {}
        start = b""
        with self._lock:
            while (entry := self._entry(library.next_entry, start)) is not None:
                lengths[entry[0]], start = entry[1], entry[0] + b"\0"
        return lengths

    def clear(self) -> None:
        """Takes all keys away."""
        for key in self:
            del self[key]

    def _entry(self, call: Callable[..., library.Entry], *given: object) -> Optional[tuple[bytes, int]]:
        """The key that a call finds, with the length of its value."""
        with self._lock:
            found = call(self._at, *given)
        if isinstance(found, tuple):
            return found
        if found != errors.Absent.number:
            raise refusal(found)
        return None

    # Calls of the library, one at a time.

    def _change(self, call: Callable[..., int], *given: object, about: object = None) -> None:
        require_done(self._answer_changing(call, *given), about)

    def _answer_changing(self, call: Callable[..., int], *given: object) -> int:
        """The answer of a call that changes keys: who goes over them has them all first."""
        if self._is_read_only:
            raise errors.ReadOnly(f"{self!r} was opened to be read")
        with self._lock:
            if self._walks:
                # (a list that is there at once: other threads may begin to go over the keys meanwhile)
                for walk in (it() for it in self._walks.valuerefs()):
                    if walk is not None:
                        walk.finish()
            return call(self._at, *given)

    # Opening and closing.

    def __exit__(
        self,
        kind: Optional[Type[BaseException]],
        error: Optional[BaseException],
        trace: Optional[TracebackType],
    ) -> None:
        """Closes the store; where nothing was raised, after a sync. A forked child has it closed."""
        try:
            if kind is None and self._handle.is_open:
                self.sync()
        finally:
            self.close()

    def __copy__(self) -> NoReturn:
        raise TypeError("a store can't be copied: its file has one")

    def __repr__(self) -> str:
        return f"<fstch.Store {self._path!r}{'' if self._handle.is_open else ', closed'}>"


class _Range(NamedTuple):
    """Where keys begin, and what all of them come before, or None."""

    start: bytes
    stop: Optional[bytes]

    def has(self, key: bytes) -> bool:
        return self.start <= key and (self.stop is None or key < self.stop)


_ALL = _Range(b"", None)


def _range(start: Optional[bytes], stop: Optional[bytes], prefix: Optional[bytes]) -> _Range:
    """The keys from one on, below one, and that begin alike, each where it is given."""
    begin = b"" if start is None else _bytes(start)
    head = b"" if prefix is None else _bytes(prefix)
    ends = (None if stop is None else _bytes(stop), _end_of(head))
    return _Range(max(begin, head), min((it for it in ends if it is not None), default=None))


def _end_of(head: bytes) -> Optional[bytes]:
    """The least bytes that come behind all which begin so, or None where there are none."""
    cut = head.rstrip(b"\xff")
    return cut[:-1] + bytes([cut[-1] + 1]) if cut else None


class KeyRange(KeysView[bytes]):
    """A view of the keys of a store in a range, in order."""

    def __init__(self, store: Store, bounds: _Range) -> None:
        super().__init__(store)
        self._store = store
        self._bounds = bounds

    def __len__(self) -> int:
        return len(self._store) if self._bounds == _ALL else sum(1 for _ in _Rising(self._store, self._bounds))

    def __contains__(self, key: object) -> bool:
        return key in self._store and self._bounds.has(_bytes(key))

    def __iter__(self) -> Iterator[bytes]:
        return _Rising(self._store, self._bounds)

    def __reversed__(self) -> Iterator[bytes]:
        return _Falling(self._store, self._bounds)


class ItemRange(ItemsView[bytes, bytes]):
    """A view of keys of a store in a range with their values, in order."""

    def __init__(self, store: Store, bounds: _Range) -> None:
        super().__init__(store)
        self._store = store
        self._keys = KeyRange(store, bounds)

    def __len__(self) -> int:
        return len(self._keys)

    def __contains__(self, item: object) -> bool:
        key, value = item  # type: ignore[misc]
        return key in self._keys and self._store[key] == value

    def __iter__(self) -> Iterator[tuple[bytes, bytes]]:
        return self._with_values(iter(self._keys))

    def __reversed__(self) -> Iterator[tuple[bytes, bytes]]:
        return self._with_values(reversed(self._keys))

    def _with_values(self, keys: Iterator[bytes]) -> Iterator[tuple[bytes, bytes]]:
        return ((key, self._store[key]) for key in keys)


class _Walk(Iterator[bytes]):
    """The keys of a store in a range, one after another. Before keys change, those that are left are read at once."""

    def __init__(self, store: Store, bounds: _Range) -> None:
        self._store = store
        self._bounds = bounds
        self._last: Optional[bytes] = None
        self._rest: Optional[Iterator[bytes]] = None
        store._walks[id(self)] = self

    def __next__(self) -> bytes:
        with self._store._lock:
            key = self._behind(self._last) if self._rest is None else None
            # (the handler of a signal may have changed keys meanwhile)
            if self._rest is not None:
                return next(self._rest)
            if key is None:
                self._rest = iter(())
                raise StopIteration
            self._last = key
            return key

    def finish(self) -> None:
        if self._rest is None:
            self._rest = iter(list(self._left()))

    def _left(self) -> Iterator[bytes]:
        key = self._behind(self._last)
        while key is not None:
            yield key
            key = self._behind(key)

    def _behind(self, key: Optional[bytes]) -> Optional[bytes]:
        """The key behind this one, or the first."""
        raise NotImplementedError


class _Rising(_Walk):
    """From the least key on."""

    def _behind(self, key: Optional[bytes]) -> Optional[bytes]:
        start, stop = self._bounds
        found = self._store._entry(library.next_entry, start if key is None else key + b"\0")
        return found[0] if found is not None and (stop is None or found[0] < stop) else None


class _Falling(_Walk):
    """From the greatest key on."""

    def _behind(self, key: Optional[bytes]) -> Optional[bytes]:
        start, stop = self._bounds
        before = stop if key is None else key
        found = self._store._entry(library.last_entry) if before is None else self._store._entry(library.previous_entry, before)
        return found[0] if found is not None and start <= found[0] else None


class Group(AnyGroup):
    """Changes that go to the file in an order: whatever a crash leaves, where it has a change of a group, it has all changes of the
    groups before it. The order costs what its syncs of the file cost, which one `sync` of the store makes for all groups together.

    Each change belongs to all groups that are entered as it is made; `with` enters a group and leaves it. A group may be entered
    again until another goes after it. Where an exception ends the `with`, the changes stay as they are.
    """

    def __init__(self, store: Store, number: int) -> None:
        super().__init__(store, number)

    def depend(self, earlier: Group) -> None:
        """Lets this group go to the file after an earlier one. This one was not entered yet, and the other one isn't now.

        Raises `NoSuchGroup`, `SameGroup`, `Sealed`, `Started`, `Engaged` and `OutOfMemory`.
        """
        self._depend(earlier)

    @property
    def pending(self) -> int:
        """How many pieces of the group's changes haven't reached the file; a put has several. Raises `NoSuchGroup`."""
        return self._pending()

    def close(self) -> None:
        """Ends the use of the group. Its changes stay, in their order. Raises `NoSuchGroup` and `Engaged`."""
        self._close()

    def __exit__(self, *raised: object) -> None:
        """Leaves the group. Where the store was closed inside, there is nothing to leave."""
        self._leave()

    def __repr__(self) -> str:
        return f"<fstch.Group {self.number} of {self._owner!r}>"


def _name(path: Path) -> bytes:
    """A path as the library takes it: it would end at a 0 byte."""
    name = os.fsencode(path)
    if b"\0" in name:
        raise ValueError("a path has no 0 byte")
    return name


def _key(entry: Optional[tuple[bytes, int]]) -> Optional[bytes]:
    return None if entry is None else entry[0]


def _bytes(value: object) -> bytes:
    """A key or value."""
    return bytes_of(value, "keys and values are")
