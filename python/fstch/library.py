"""The calls of the C library, as its headers `fstch.h` and `fstch_cache.h` declare them."""

from __future__ import annotations

import ctypes
import ctypes.util
import os
from ctypes import POINTER, byref, c_bool, c_char_p, c_int32, c_size_t, c_uint32, c_uint64, c_void_p
from typing import Any, Callable, Iterator, Optional, Union

from . import errors

__all__ = [
    "MAX_KEY",
    "VERSION",
    "Entry",
    "Handle",
    "Statistics",
    "bytes_of",
    "calls",
    "delete",
    "get",
    "last_entry",
    "next_entry",
    "number_of",
    "previous_entry",
    "put",
    "refusal",
    "require_done",
    "text_of",
]

VERSION = 400
"""The version of the interface that this module is written for: of its major and minor number the library has to be."""

MAX_KEY = 32
"""The most bytes of a key, which has one at least."""

NAME = "libfstch.so"
VARIABLE = "FSTCH_LIBRARY"
# How many bytes of a key an exception shows at most: of a longer one its length.
SHOWN = 64
# How much room a value is given at first.
ROOM = 4096


class Handle(ctypes.Structure):
    """A store or a cache that is open, or none: zeros."""

    _fields_ = [("is_open", c_bool), ("at", c_void_p)]


class Statistics(ctypes.Structure):
    """What a store holds, and what its syncs have done."""

    _fields_ = [
        ("keys", c_uint32),
        ("unsynced", c_uint32),
        ("live_bytes", c_uint64),
        ("file_bytes", c_uint64),
        ("extents", c_uint32),
        ("empty_extents", c_uint32),
        ("syncs", c_uint64),
        ("waves", c_uint64),
    ]


# (a store or a cache goes by its handle's address)
_STORE, _NUMBER, _SIZE = c_void_p, POINTER(c_uint32), POINTER(c_size_t)
_BYTES = (c_char_p, c_size_t)
# A buffer that is written to.
_ROOM = (c_void_p, c_size_t)

_ANSWERING = {
    "make": (c_char_p, c_uint32, c_uint32, c_uint32),
    "open": (_STORE, c_char_p, _NUMBER),
    "open_with": (_STORE, c_char_p, c_uint32, _NUMBER),
    "close": (_STORE,),
    "sync": (_STORE,),
    "put": (_STORE, c_uint32, *_BYTES, *_BYTES),
    "get": (_STORE, *_BYTES, *_ROOM, _SIZE),
    "delete": (_STORE, c_uint32, *_BYTES),
    "reclaim": (_STORE, c_uint32),
    "check": (_STORE, _NUMBER, _NUMBER),
    "entry": (_STORE, c_uint32, *_ROOM, _SIZE, _SIZE),
    "next": (_STORE, *_BYTES, *_ROOM, _SIZE, _SIZE),
    "previous": (_STORE, *_BYTES, *_ROOM, _SIZE, _SIZE),
    "last": (_STORE, *_ROOM, _SIZE, _SIZE),
    "extent": (_STORE, c_uint32, _NUMBER, _NUMBER),
    "unsynced": (_STORE, _NUMBER),
    "stats": (_STORE, POINTER(Statistics)),
    "group": (_STORE, _NUMBER),
    "group_engage": (_STORE, c_uint32, c_uint32),
    "group_disengage": (_STORE, c_uint32, c_uint32),
    "group_depend": (_STORE, c_uint32, c_uint32),
    "group_close": (_STORE, c_uint32),
    "group_pending": (_STORE, c_uint32, _NUMBER),
    "cache_open": (_STORE, c_uint32),
    "cache_admit": (_STORE, c_uint32, c_char_p),
    "cache_evict": (_STORE, c_uint32),
    "cache_renew": (_STORE,),
    "cache_close": (_STORE,),
    "cache_counts": (_STORE, _NUMBER, _NUMBER, _NUMBER, _NUMBER),
    "cache_patch": (_STORE, c_uint32, c_uint32, c_size_t, *_BYTES, _NUMBER, c_size_t, c_uint32, _NUMBER),
    "cache_merge": (_STORE, c_uint32, c_uint32, _NUMBER, _NUMBER),
    "cache_mark": (_STORE, c_uint32, _NUMBER),
    "cache_read": (_STORE, c_uint32, c_size_t, c_size_t, c_void_p),
    "cache_without": (_STORE, c_uint32, _NUMBER, c_size_t, c_size_t, c_size_t, c_void_p, _NUMBER),
    "cache_next": (_STORE, _NUMBER),
    "cache_send": (_STORE, c_uint32, _NUMBER, *_ROOM),
    "cache_image": (_STORE, c_uint32, c_uint32, *_ROOM),
    "cache_flight": (_STORE, c_uint32, c_uint32, _NUMBER, c_size_t, _SIZE),
    "cache_complete": (_STORE, c_uint32, c_uint32),
    "cache_group": (_STORE, _NUMBER),
    "cache_group_engage": (_STORE, c_uint32, c_uint32),
    "cache_group_disengage": (_STORE, c_uint32, c_uint32),
    "cache_group_depend": (_STORE, c_uint32, c_uint32),
    "cache_group_close": (_STORE, c_uint32),
    "cache_group_pending": (_STORE, c_uint32, _NUMBER),
}
_OTHERS = {
    "is_open": (c_bool, _STORE),
    "error_text": (c_size_t, c_int32, c_char_p, c_size_t),
    "version": (c_uint32,),
}


def _names() -> Iterator[str]:
    """Where the library may be: what the variable names alone, or beside this module, or where the system looks."""
    named = os.environ.get(VARIABLE)
    if named:
        yield named
        return
    beside = os.path.join(os.path.dirname(os.path.abspath(__file__)), NAME)
    if os.path.exists(beside):
        yield beside
    installed = ctypes.util.find_library("fstch")
    if installed:
        yield installed


def _load() -> ctypes.CDLL:
    why: Optional[OSError] = None
    for name in _names():
        try:
            return _declared(ctypes.CDLL(name, use_errno=True))
        except OSError as error:
            why = why or error
    raise ImportError(why or f"there is no {NAME} beside the module: './build-library' makes it, and {VARIABLE} may name one elsewhere")


def _declared(library: ctypes.CDLL) -> ctypes.CDLL:
    """The library, with what each of its calls takes and answers."""
    whole = {**{name: (c_int32, *taken) for name, taken in _ANSWERING.items()}, **_OTHERS}
    for name, (answered, *taken) in whole.items():
        try:
            call = getattr(library, f"fstch_{name}")
        except AttributeError:
            raise ImportError(f"{library._name} has no fstch_{name}") from None
        call.restype, call.argtypes = answered, taken
    version = library.fstch_version()
    if version // 100 != VERSION // 100:
        raise ImportError(f"{library._name} has version {version} of the interface, and this module is for {VERSION}")
    return library


calls = _load()


# The calls that are made most often. What they copy values to is taken out of a list while a call has it: so a read in between, as of a
# signal's handler or another thread, takes one of its own.

_rooms: list[ctypes.Array[ctypes.c_char]] = []


def _get(at: int, key: bytes) -> Union[bytes, int]:
    try:
        room = _rooms.pop()
    except IndexError:
        room = ctypes.create_string_buffer(ROOM)
    length = c_size_t()
    answer = calls.fstch_get(at, key, len(key), room, len(room), byref(length))
    while answer == errors.BufferTooSmall.number:
        room = ctypes.create_string_buffer(length.value)
        answer = calls.fstch_get(at, key, len(key), room, len(room), byref(length))
    value = ctypes.string_at(room, length.value)
    if len(room) == ROOM:
        _rooms.append(room)
    return answer or value


def _put(at: int, writer: int, key: bytes, value: bytes) -> int:
    return calls.fstch_put(at, writer, key, len(key), value, len(value))


def _delete(at: int, writer: int, key: bytes) -> int:
    return calls.fstch_delete(at, writer, key, len(key))


Entry = Union[tuple[bytes, int], int]
"""A key with the length of its value, or the number of why there is none."""


def _entry(call: Callable[..., int], *given: object) -> Entry:
    key, key_length, value_length = ctypes.create_string_buffer(MAX_KEY), c_size_t(), c_size_t()
    answer = call(*given, key, MAX_KEY, byref(key_length), byref(value_length))
    return answer or (key.raw[: key_length.value], value_length.value)


def _next_entry(at: int, start: bytes) -> Entry:
    return _entry(calls.fstch_next, at, start, len(start))


def _previous_entry(at: int, before: bytes) -> Entry:
    return _entry(calls.fstch_previous, at, before, len(before))


def _direct() -> Any:
    """The module in C that makes these calls without the time that ctypes takes, where it is built; or None."""
    try:
        from . import _direct as made
    except ImportError:
        return None
    if made.VERSION // 100 != VERSION // 100:
        return None
    bound = (calls.fstch_get, calls.fstch_put, calls.fstch_delete, calls.fstch_next, calls.fstch_previous)
    made.bind(*(ctypes.cast(it, c_void_p).value for it in bound))
    return made


get, put, delete, next_entry, previous_entry = _get, _put, _delete, _next_entry, _previous_entry
_made = _direct()
if _made is not None:
    get, put, delete, next_entry, previous_entry = _made.get, _made.put, _made.delete, _made.next_entry, _made.previous_entry


def last_entry(at: int) -> Entry:
    """The greatest key of all."""
    return _entry(calls.fstch_last, at)


def number_of(value: int) -> int:
    """A number as the library takes it: ctypes would cut off what is too much."""
    if not 0 <= value < 2**32:
        raise ValueError(f"{value} is no number from 0 to {2**32 - 1}")
    return value


def bytes_of(value: object, what: str) -> bytes:
    """Bytes, of anything that holds some."""
    if isinstance(value, bytes):
        return value
    try:
        return memoryview(value).tobytes()  # type: ignore[arg-type]
    except TypeError:
        raise TypeError(f"{what} bytes, and no {type(value).__name__}") from None


def text_of(answer: int) -> str:
    """The library's text of an answer."""
    into = ctypes.create_string_buffer(64)
    calls.fstch_error_text(answer, into, len(into))
    return into.value.decode()


def require_done(answer: int, about: object = None) -> None:
    """Raises the exception of an answer, if it is a refusal. What it is about is told behind the library's text."""
    if answer:
        raise refusal(answer, about)


def refusal(answer: int, about: object = None) -> errors.Error:
    """The exception of an answer."""
    why = ctypes.get_errno()
    text = text_of(answer)
    if about is not None:
        text += f": {len(about)} bytes" if isinstance(about, bytes) and len(about) > SHOWN else f": {about!r}"
    if answer in (errors.Disk.number, errors.DeviceGaveUp.number):
        return errors.of_system(answer, f"{text}: {os.strerror(why)}", why, about)
    return errors.of(answer, text)
