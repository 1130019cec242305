"""Keys and values in one file that opens after every crash.

    import fstch

    fstch.make("demo.disk", index_blocks=1, extents=4)
    with fstch.open("demo.disk") as store:
        store[b"key"] = b"value"
        store.sync()

A `Store` is a mapping of bytes to bytes, in order of its keys. What is put or deleted lasts from a `sync` on, and a `with` that no
exception ends syncs at its end.

Whenever the program ends or the power is cut, the file opens again. It then has, of each key, what it had after the last sync or after
one of the later puts and deletes; where a write had reached the file, all that it depends on had too. What was answered before a sync
that succeeded is there. One premise is left to the system and its disk: what was written to the file before an fsync or fdatasync that
succeeded is there, and of what was written since, each block of 4,096 bytes is old or new.

Groups bring changes to the file in an order, by one `sync` for all of them:

    with store.group() as data:
        store[b"data"] = b"..."
    with store.group(after=data):
        store[b"name"] = b"data"

A `Cache` is the cache below the store, for a program that has its own layout of blocks and does its own reads and writes.

A refused call raises an exception of `Error`, with the library's text and its number.
"""

from .cache import BLOCK, MAX_BLOCKS, MAX_LIVE, Cache, CacheCounts, CacheGroup, Flight, Mark
from .errors import *
from .errors import __all__ as _errors
from .library import VERSION
from .store import MAX_KEY, MAX_VALUE, Counts, Extent, Group, Statistics, Store, make, open

__version__ = f"{VERSION // 10000}.{VERSION // 100 % 100}.{VERSION % 100}"

# (without `open`, which is a name of Python's own)
_cache = ["BLOCK", "MAX_BLOCKS", "MAX_LIVE", "Cache", "CacheCounts", "CacheGroup", "Flight", "Mark"]
_store = ["MAX_KEY", "MAX_VALUE", "Counts", "Extent", "Group", "Statistics", "Store", "make"]
__all__ = ["VERSION", "__version__", *_store, *_cache, *_errors]
