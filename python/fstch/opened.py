"""What a store and a cache have in common: a handle of the library that is open or closed, and groups."""

from __future__ import annotations

import ctypes
import threading
import warnings
from collections.abc import Iterable
from ctypes import byref, c_uint32
from typing import Callable, ClassVar, NamedTuple, NoReturn, Type, TypeVar, Union

from . import errors, forking
from .library import Handle, calls, require_done

__all__ = ["WRITER", "AnyGroup", "Opened", "SharedCalls"]

# The writer of all that is put, deleted or patched: it belongs to the groups that are entered.
WRITER = 0

AnyOpened = TypeVar("AnyOpened", bound="Opened")
OneGroup = TypeVar("OneGroup", bound="AnyGroup")


class SharedCalls(NamedTuple):
    """The calls of the library that a store has as well as a cache."""

    close: Callable[..., int]
    group: Callable[..., int]
    group_engage: Callable[..., int]
    group_disengage: Callable[..., int]
    group_depend: Callable[..., int]
    group_close: Callable[..., int]
    group_pending: Callable[..., int]

    @classmethod
    def of(cls, beginning: str) -> SharedCalls:
        """Those whose names begin so, which the fields' names follow."""
        return cls(*(getattr(calls, beginning + name) for name in cls._fields))


class Opened:
    """A store or a cache: a handle of the library, and calls with it, one at a time."""

    _word: ClassVar[str]
    _calls: ClassVar[SharedCalls]

    def __init__(self) -> None:
        if hasattr(self, "_handle"):
            raise TypeError(f"a {self._word} is opened once")
        self._handle = Handle()
        # (a signal's handler may make a call in the midst of a call)
        self._lock = threading.RLock()
        self._at = ctypes.addressof(self._handle)

    def close(self) -> None:
        with self._lock:
            if self._handle.is_open:
                require_done(self._calls.close(self._at))
                forking.forget(self)

    def _require(self, call: Callable[..., int], *given: object, about: object = None) -> None:
        with self._lock:
            answer = call(self._at, *given)
        require_done(answer, about)

    def _new_group(self, kind: Type[OneGroup], after: Union[None, OneGroup, Iterable[OneGroup]]) -> OneGroup:
        number = c_uint32()
        self._require(self._calls.group, byref(number))
        made = kind(self, number.value)
        try:
            for earlier in (after,) if isinstance(after, AnyGroup) else after or ():
                made._depend(earlier)
        except BaseException:
            made._close()
            raise
        return made

    def __enter__(self: AnyOpened) -> AnyOpened:
        if not self._handle.is_open:
            require_done(errors.NotOpen.number or 0)
        return self

    def __del__(self) -> None:
        # (there is no handle where it was given arguments that it doesn't take)
        handle = getattr(self, "_handle", None)
        if handle is not None and handle.is_open:
            warnings.warn(f"{self!r} was never closed", ResourceWarning, source=self)
            self.close()

    def __copy__(self) -> NoReturn:
        raise TypeError(f"a {self._word} can't be copied")

    def __deepcopy__(self, memo: object) -> NoReturn:
        self.__copy__()

    def __reduce__(self) -> NoReturn:
        self.__copy__()


class AnyGroup:
    """A group of a store or of a cache, by its number."""

    def __init__(self, owner: Opened, number: int) -> None:
        self._owner = owner
        self.number = number

    def _depend(self, earlier: AnyGroup) -> None:
        if earlier._owner is not self._owner:
            raise ValueError(f"a group goes after groups of its own {self._owner._word}")
        self._owner._require(self._owner._calls.group_depend, self.number, earlier.number, about=earlier)

    def _pending(self) -> int:
        count = c_uint32()
        self._owner._require(self._owner._calls.group_pending, self.number, byref(count), about=self)
        return count.value

    def _close(self) -> None:
        self._owner._require(self._owner._calls.group_close, self.number, about=self)

    def __enter__(self: OneGroup) -> OneGroup:
        """Enters the group. Raises `NoSuchGroup`, `Sealed`, `Engaged` and `OutOfMemory`."""
        self._owner._require(self._owner._calls.group_engage, self.number, WRITER, about=self)
        return self

    def _leave(self) -> None:
        if self._owner._handle.is_open:
            self._owner._require(self._owner._calls.group_disengage, self.number, WRITER, about=self)
