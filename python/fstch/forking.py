"""Stores and caches that are open, in a process that is forked: the child closes them, and the parent keeps its own."""

from __future__ import annotations

import os
import weakref
from typing import TYPE_CHECKING

if TYPE_CHECKING:
    from .opened import Opened

__all__ = ["forget", "hold_for_forks"]


# (they go as soon as nobody else has them)
_opened: weakref.WeakValueDictionary[int, Opened] = weakref.WeakValueDictionary()
_held: list[Opened] = []


def hold_for_forks(it: Opened) -> None:
    """From now on a child that is forked closes it, while no call is under way."""
    _opened[id(it)] = it


def forget(it: Opened) -> None:
    """It is closed."""
    _opened.pop(id(it), None)


def _hold() -> None:
    for it in list(_opened.values()):
        it._lock.acquire()
        _held.append(it)


def _let_go() -> None:
    while _held:
        _held.pop()._lock.release()


def _close() -> None:
    for it in _held:
        it.close()
    _let_go()


if hasattr(os, "register_at_fork"):
    os.register_at_fork(before=_hold, after_in_parent=_let_go, after_in_child=_close)
