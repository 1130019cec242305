"""A database as those of the package `dbm`, in the file of a store.

    import fstch.dbm

    with fstch.dbm.open("demo.disk", "c") as database:
        database["key"] = "value"
        print(database[b"key"])

Keys and values are bytes, or texts, which are encoded in UTF-8. A close saves what was changed, and so does the end of a `with`.
`shelve.Shelf(fstch.dbm.open(..))` is a shelf.
"""

from __future__ import annotations

import contextlib
from collections.abc import Iterator, MutableMapping
from types import TracebackType
from typing import Optional, Type, Union

from . import errors
from . import store as stores

__all__ = ["error", "open"]

Text = Union[str, bytes]


class error(OSError):
    """A call was refused; its cause is the store's own exception. A key that isn't there is a KeyError."""


@contextlib.contextmanager
def _told() -> Iterator[None]:
    """What the store refuses inside is an error of this module, but for a key that isn't there, which is a KeyError already."""
    try:
        yield
    except (errors.Absent, errors.NoKey):
        raise
    except errors.Error as why:
        raise error(str(why)) from why


def open(file: stores.Path, flag: str = "r", mode: int = 0o666) -> Database:
    """Opens a database: with the flag "r" to be read alone, by several at once; with "w" to be changed too; with "c" it is made where there is
    none, and with "n" in any case. A new file's rights are those that the process gives new files: `mode` is taken, and says nothing."""
    try:
        return Database(stores.open(file, flag))
    except (errors.Error, ValueError) as why:
        raise error(str(why)) from why


class Database(MutableMapping[Text, bytes]):
    """The keys and values of a store, with what the modules for dbm promise."""

    def __init__(self, store: stores.Store) -> None:
        self._store = store

    def __getitem__(self, key: Text) -> bytes:
        with _told():
            return self._store[_bytes(key)]

    def __setitem__(self, key: Text, value: Text) -> None:
        name, content = _bytes(key), _bytes(value)
        with _told():
            try:
                self._store[name] = content
            except errors.TooManyLive:
                self._store.sync()
                self._store[name] = content

    def __delitem__(self, key: Text) -> None:
        with _told():
            del self._store[_bytes(key)]

    def __contains__(self, key: object) -> bool:
        with _told():
            return (key.encode() if isinstance(key, str) else key) in self._store

    def __iter__(self) -> Iterator[bytes]:
        return iter(self.keys())

    def __len__(self) -> int:
        with _told():
            return len(self._store)

    def keys(self) -> list[bytes]:  # type: ignore[override]
        """All keys, in a list."""
        with _told():
            return list(self._store)

    def sync(self) -> None:
        """Saves what was changed."""
        with _told():
            self._store.sync()

    def close(self) -> None:
        """Saves what was changed, and closes the file. Closing a closed database does nothing."""
        if self._store.is_open:
            try:
                self.sync()
            finally:
                self._store.close()

    def __enter__(self) -> Database:
        return self

    def __exit__(
        self,
        kind: Optional[Type[BaseException]],
        raised: Optional[BaseException],
        trace: Optional[TracebackType],
    ) -> None:
        self.close()


def _bytes(it: Text) -> bytes:
    return it.encode() if isinstance(it, str) else it
