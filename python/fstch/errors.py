"""Why a store or a cache refuses a call: an exception for each answer of the library, under the one base `Error`."""

from __future__ import annotations

import errno
import os
from typing import Optional

__all__ = [
    "Error",
    "Absent",
    "AlreadyInFlight",
    "AlreadyTaken",
    "Apart",
    "BadFrame",
    "BadPointer",
    "BadSlot",
    "BadSuper",
    "BadWriter",
    "BufferTooSmall",
    "DependentApplied",
    "DeviceGaveUp",
    "Disk",
    "DiskForbidden",
    "DiskMissing",
    "DiskTaken",
    "DuplicateKey",
    "Durable",
    "EmptyExtent",
    "EmptyPatch",
    "Engaged",
    "FileSize",
    "GenerationSpent",
    "Geometry",
    "Hard",
    "InFlight",
    "InUse",
    "IndexFull",
    "IsOpen",
    "IsResident",
    "KeyLength",
    "Live",
    "NoKey",
    "NoSpace",
    "NoSuchBlock",
    "NoSuchExtent",
    "NoSuchGroup",
    "NoSync",
    "NotEngaged",
    "NotInMemory",
    "NotOpen",
    "NotResident",
    "NothingReady",
    "NumbersSpent",
    "OpenExtent",
    "OtherBlock",
    "OutOfBlock",
    "OutOfMemory",
    "ReadOnly",
    "Same",
    "SameGroup",
    "Sealed",
    "Started",
    "Stranger",
    "TooManyGroups",
    "TooManyLive",
    "Unknown",
    "UnknownDependency",
    "ValueLength",
    "WouldCycle",
]


class Error(Exception):
    """A call was refused. But where the exception says so, it has changed nothing."""

    number: Optional[int] = None
    """The number that the library answered."""

    slot: Optional[int] = None
    """The first slot of the index that is wrong, where the exception has one."""

    patch: Optional[int] = None
    """The number of the patch that the exception is about, where a cache tells one."""

    def __str__(self) -> str:
        # (as it is, also of a KeyError, which would quote it)
        return str(self.args[0]) if self.args else type(self).__name__


# The store's own refusals, from 1 on; some of them are also a cache's.


class OutOfMemory(Error, MemoryError):
    """There was no memory. Each key of a store has the value that it had."""

    number = 1


class Disk(Error, OSError):
    """The file can't be opened, made, read or written; or there is one already where one is to be made. `errno` and `filename` say why,
    and of which file; where that has an exception of its own, it is that one too."""

    number = 4


class DiskMissing(Disk, FileNotFoundError):
    """There is no such file, or no such folder."""


class DiskTaken(Disk, FileExistsError):
    """There is something of this name already."""


class DiskForbidden(Disk, PermissionError):
    """There is no right to do it."""


class FileSize(Error):
    """The file's length isn't that of a store; or a cache is to have no blocks, or too many."""

    number = 5


class NumbersSpent(Error):
    """16,777,216 patches were made since the store was opened or began anew: close its groups and sync. A cache is renewed."""

    number = 17


class TooManyLive(Error):
    """65,536 patches are in memory: a sync makes room. Of a cache, or in flight: writes have to be completed."""

    number = 18


class NoSuchGroup(Error):
    """The group was closed."""

    number = 27


class SameGroup(Error):
    """A group can't go after itself."""

    number = 28


class Started(Error):
    """The group was entered before, so it goes after no more groups."""

    number = 29


class Sealed(Error):
    """A group goes after it, so it is entered no more, and goes after no more groups."""

    number = 30


class Engaged(Error):
    """The group is entered already; or one that has to be free is."""

    number = 31


class NotEngaged(Error):
    """The group isn't entered."""

    number = 32


class TooManyGroups(Error):
    """1,024 groups were made since the store was opened or began anew, closed ones counted: close all and sync. A cache is renewed."""

    number = 33


class NoSuchExtent(Error):
    """The store has no extent of this number."""

    number = 34


class GenerationSpent(Error):
    """The extent was won back as often as can be counted."""

    number = 38


class KeyLength(Error, ValueError):
    """The key has no byte, or more than 32."""

    number = 39


class ValueLength(Error, ValueError):
    """The value is longer than the store allows."""

    number = 40


class NoKey(Error, KeyError):
    """The key that is to be deleted has no value."""

    number = 41


class IndexFull(Error):
    """The key is new, and the store has as many keys as it can."""

    number = 42


class NoSpace(Error):
    """No extent has room: delete, and in a store that was opened with `manual` reclaim."""

    number = 43


class OpenExtent(Error):
    """Puts append to the extent, and values in it are live."""

    number = 44


class EmptyExtent(Error):
    """Nothing was appended to the extent since it was won back."""

    number = 45


class Geometry(Error, ValueError):
    """No store is divided like this."""

    number = 46


class BadSuper(Error):
    """The file holds no store: its first block doesn't say what it must."""

    number = 47


class BadPointer(Error):
    """The file holds no store: the record of an extent's pointer doesn't say what it must."""

    number = 48


class BadSlot(Error):
    """The file holds no store: `slot` of the index doesn't say what it must."""

    number = 49


class BadFrame(Error):
    """The file holds no store: `slot` of the index doesn't name the value of its key."""

    number = 50


class DuplicateKey(Error):
    """The file holds no store: `slot` of the index has the key of a lower one."""

    number = 51


class DeviceGaveUp(Error, OSError):
    """The file refused the write of a block, each time that it was tried, last for the cause in `errno`. Close the store and open it again."""

    number = 57


# A cache's refusals.


class NoSuchBlock(Error, IndexError):
    """The cache has no block of this number."""

    number = 2


class Unknown(Error):
    """No patch has the number; or, where it is to be left out, one that isn't durable, of another block."""

    number = 6


class Durable(Error):
    """The patch is on the disk, so it can't be left out."""

    number = 7


class InFlight(Error):
    """The patch's write is under way, so it can't be left out."""

    number = 8


class Hard(Error):
    """The patch is hard, so it is neither merged nor left out. Of a merge, `patch` is which one."""

    number = 9


class AlreadyTaken(Error):
    """The class of the patch is left out already."""

    number = 10


class DependentApplied(Error):
    """Another class of the block, whose name is `patch`, depends on the patch's, and isn't left out."""

    number = 11


class EmptyPatch(Error, ValueError):
    """The patch is to have no bytes."""

    number = 14


class OutOfBlock(Error, ValueError):
    """The bytes pass the end of the block."""

    number = 15


class UnknownDependency(Error):
    """The patch names a number that no patch has."""

    number = 16


class NotInMemory(Error):
    """`patch` isn't in memory any more."""

    number = 19


class Same(Error):
    """The two patches are of one class already."""

    number = 20


class OtherBlock(Error):
    """The two patches are of two blocks."""

    number = 21


class Apart(Error):
    """The bytes of the two classes neither overlap nor touch."""

    number = 22


class WouldCycle(Error):
    """A third class, whose name is `patch`, goes after one of the two and before the other."""

    number = 23


class AlreadyInFlight(Error):
    """A write of the block is under way."""

    number = 24


class NothingReady(Error):
    """Nothing of the block may go to the disk now."""

    number = 25


class Stranger(Error):
    """No such write is under way: it was completed, or never begun."""

    number = 26


class Live(Error):
    """A patch is in memory or in flight, or a group is in use."""

    number = 62


class NotResident(Error):
    """The block isn't resident: it wasn't admitted, or it was let go."""

    number = 63


class IsResident(Error):
    """The block is resident already."""

    number = -20


# The library's own, below 0.


class NotOpen(Error, ValueError):
    """The store or the cache is closed."""

    number = -1


class IsOpen(Error):
    """The store or the cache is open already."""

    number = -2


class BufferTooSmall(Error):
    """What was asked for is longer than the buffer. This module asks again, so its callers don't see it."""

    number = -4


class Absent(Error, KeyError):
    """The key has no value."""

    number = -5


class InUse(Error, OSError):
    """Another store, of this program or another, has the file open, and one of the two may change it."""

    number = -6


class NoSync(Error, OSError):
    """The system didn't let last what was written, and nothing was written behind that; or an earlier sync was refused. What the system
    shows of the file then may be lost with the power. Close the store and open it again: the open reads what the disk has."""

    number = -7


class BadWriter(Error, ValueError):
    """There is no writer of this number."""

    number = -8


class ReadOnly(Error, OSError):
    """The store was opened to be read."""

    number = -9


_BY_NUMBER = {kind.number: kind for kind in Error.__subclasses__() if kind.number is not None}


_BY_SYSTEM = {errno.ENOENT: DiskMissing, errno.EEXIST: DiskTaken, errno.EACCES: DiskForbidden, errno.EPERM: DiskForbidden}


def of(number: int, text: str) -> Error:
    """The exception for an answer of the library, with its text."""
    error = _BY_NUMBER.get(number, Error)(text)
    error.number = number
    return error


def of_system(number: int, text: str, why: int, filename: object) -> Error:
    """The exception for an answer behind which the system has refused a call: why, and of which file."""
    error = _BY_SYSTEM.get(why, Disk)(text) if number == Disk.number else of(number, text)
    if isinstance(error, OSError):
        error.errno, error.strerror, error.filename = why, os.strerror(why), filename
    return error
