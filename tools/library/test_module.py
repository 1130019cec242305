"""Tests the module `fstch`: run where it is found, in a folder of its own."""

import array
import collections
import collections.abc
import contextlib
import copy
import ctypes
import errno
import fcntl
import gc
import os
import pickle
import signal
import subprocess
import sys
import threading
import unittest
import warnings
from pathlib import Path
from unittest import mock

import fstch

FILE = "test.disk"
# A user that has no right but those that all have.
NOBODY = 65534


def new_store(index_blocks=1, extents=4, **how):
    Path(FILE).unlink(missing_ok=True)
    fstch.make(FILE, index_blocks=index_blocks, extents=extents)
    return fstch.open(FILE, **how)


def in_python(lines):
    """What another process answers that runs these lines."""
    return subprocess.run([sys.executable, "-c", lines], stdout=subprocess.PIPE, text=True, check=True).stdout


def accesses():
    """How this process has the file open: the access mode of each of its descriptors."""
    modes = []
    for number in range(64):
        with contextlib.suppress(OSError):
            if os.path.samestat(os.fstat(number), os.stat(FILE)):
                modes.append(fcntl.fcntl(number, fcntl.F_GETFL) & (os.O_RDONLY | os.O_WRONLY | os.O_RDWR))
    return modes


def status_of_child(call):
    """What a call answers that a forked child makes, or 255."""
    child = os.fork()
    if child == 0:
        status = 255
        try:
            status = call()
        finally:
            os._exit(status)
    return os.waitpid(child, 0)[1] >> 8


class Mapping(unittest.TestCase):
    def test_is_a_dict_of_bytes(self):
        with new_store() as store:
            self.assertEqual(len(store), 0)
            store[b"key"] = b"value"
            store[b"empty"] = b""
            store[bytearray(b"key")] = memoryview(b"other")
            self.assertEqual(store[b"key"], b"other")
            self.assertEqual(store, {b"key": b"other", b"empty": b""})
            self.assertEqual(list(store), [b"empty", b"key"])
            self.assertEqual(list(store.lengths().items()), [(b"empty", 0), (b"key", 5)])
            self.assertIn(b"empty", store)
            self.assertNotIn(b"absent", store)
            self.assertEqual(store.get(b"absent"), None)
            self.assertEqual(store.setdefault(b"new", b"1"), b"1")
            self.assertEqual(store.pop(b"new"), b"1")
            store.update({b"a": b"1", b"b": b"2"})
            del store[b"a"]
            self.assertEqual(store.check(), fstch.Counts(entries=3, extents=4))
            store.clear()
            self.assertEqual(dict(store), {})

    def test_long_values(self):
        with new_store() as store:
            store[b"k" * 32] = bytes(range(256)) * 128
            self.assertEqual(store[b"k" * 32], bytes(range(256)) * 128)
            self.assertIn(b"k" * 32, store)

    def test_a_read_in_between_changes_no_other(self):
        with new_store() as store:
            store.update({b"a": b"1" * 100, b"b": b"2" * 100, b"long": b"3" * 5000})
            copied, inside = ctypes.string_at, []

            def read_first(*given):
                if not inside:
                    inside.append(True)
                    self.assertEqual((store[b"b"], store[b"long"], b"a" in store), (b"2" * 100, b"3" * 5000, True))
                    inside.clear()
                return copied(*given)

            with mock.patch("ctypes.string_at", read_first):
                for _ in range(3):
                    self.assertEqual(store[b"a"], b"1" * 100)
                    self.assertEqual(store[b"long"], b"3" * 5000)

    def test_a_handler_of_a_signal_may_read(self):
        with new_store() as store:
            store.update({b"a": b"1" * 100, b"b": b"2" * 100})
            seen = []
            before = signal.signal(signal.SIGALRM, lambda *_: seen.append(store[b"b"]))
            signal.setitimer(signal.ITIMER_REAL, 0.0001, 0.0001)
            try:
                while len(seen) < 300:
                    self.assertEqual(store[b"a"], b"1" * 100)
            finally:
                signal.setitimer(signal.ITIMER_REAL, 0)
                signal.signal(signal.SIGALRM, before)
            self.assertEqual(set(seen), {b"2" * 100})

    def test_keys_stay_while_they_are_gone_over(self):
        with new_store() as store:
            store.update({bytes([number + 1]): b"value" for number in range(20)})
            for key in store:
                del store[key]
                store[b"new"] = key
            self.assertEqual(list(store), [b"new"])

    def test_refusals(self):
        with new_store() as store:
            for absent in (lambda: store[b"absent"], lambda: store.pop(b"absent")):
                with self.assertRaises(fstch.Absent) as raised:
                    absent()
                self.assertIsInstance(raised.exception, KeyError)
                self.assertIsInstance(raised.exception, fstch.Error)
                self.assertEqual(raised.exception.number, -5)
                self.assertIn("b'absent'", str(raised.exception))
            with self.assertRaises(KeyError) as raised:
                del store[b"absent"]
            self.assertIs(type(raised.exception), fstch.NoKey)
            for key in (b"", b"k" * 33):
                with self.assertRaises(fstch.KeyLength):
                    store[key] = b"value"
                with self.assertRaises(fstch.KeyLength):
                    store[key]
                self.assertNotIn(key, store)
            with self.assertRaises(ValueError):
                store[b"key"] = bytes(32769)
            for wrong in ("text", 1, None):
                with self.assertRaises(TypeError):
                    store[wrong] = b"value"
                with self.assertRaises(TypeError):
                    store[b"key"] = wrong
                self.assertNotIn(wrong, store)
            self.assertEqual(len(store), 0)

    def test_puts_win_room_back(self):
        with new_store() as store:
            values = {b"%d" % number: b"%d" % number * 5000 for number in range(10)}
            store.update(values)
            for turn in range(500):  # (some are overwritten often, and others never: these are moved)
                key = b"%d" % (turn * turn % 10)
                store[key] = values[key] = bytes([turn % 256]) * 5000
                self.assertGreater(store.statistics().empty_extents, 0)
            self.assertEqual(store, values)
        with fstch.open(FILE) as store:
            self.assertEqual(store, values)

    def test_full_stores(self):
        with new_store() as store:
            for number in range(64):
                store[b"%d" % number] = b""
            with self.assertRaises(fstch.IndexFull):
                store[b"more"] = b""
            store.clear()
            values = {key: key * 32768 for key in (b"a", b"b", b"c")}
            store.update(values)
            for key in (b"a", b"d"):
                with self.assertRaises(fstch.NoSpace):
                    store[key] = bytes(32768)
            self.assertGreater(store.statistics().live_bytes, 2 * (65536 - 32768 - 1 - 16))
            self.assertEqual(store, values)
            del store[b"a"]
            store[b"d"] = bytes(32768)
            self.assertEqual((store[b"b"], store[b"d"]), (values[b"b"], bytes(32768)))

    def test_extents_are_won_back_by_hand(self):
        with new_store(extents=3, manual=True) as store:
            store[b"key"] = bytes(32768)
            store[b"key"] = bytes(32768)
            with self.assertRaises(fstch.NoSpace):
                store[b"other"] = bytes(32768)
            store.reclaim(0)
            store[b"other"] = bytes(32000)
            with self.assertRaises(fstch.EmptyExtent):
                store.reclaim(0)
            with self.assertRaises(fstch.OpenExtent):
                store.reclaim(1)
            with self.assertRaises(fstch.NoSuchExtent):
                store.reclaim(3)
            for wrong in (-1, 2**32):
                with self.assertRaises(ValueError):
                    store.reclaim(wrong)
        with new_store(extents=3) as store:
            for key in (b"key", b"key", b"other"):
                store[key] = bytes(32768)
            self.assertEqual(store, {b"key": bytes(32768), b"other": bytes(32768)})

    def test_anything_that_holds_bytes(self):
        with new_store() as store:
            numbers = array.array("i", [1, 2, 3])
            store[b"array"] = numbers
            store[memoryview(b"key")[::-1]] = memoryview(b"abcdef")[::2]
            self.assertEqual(store, {b"array": numbers.tobytes(), b"yek": b"ace"})
            self.assertIn(bytearray(b"array"), store)
            self.assertEqual(store[array.array("b", b"yek")], b"ace")

    def test_goes_over_keys_as_they_were(self):
        with new_store() as store:
            keys = [bytes([number + 1]) for number in range(30)]
            store.update(dict.fromkeys(keys, b"value"))
            first, other, back = iter(store), iter(store), reversed(store)
            begun = [next(first), next(first)]
            self.assertEqual([next(back), next(back)], keys[:-3:-1])
            store.clear()
            store[b"new"] = b"value"
            self.assertEqual(begun + list(first), keys)
            self.assertEqual(list(other), keys)
            self.assertEqual(list(back), keys[-3::-1])
            self.assertEqual((list(first), list(back)), ([], []))
            self.assertEqual(list(reversed(store)), [b"new"])
            self.assertEqual(store.popitem(), (b"new", b"value"))
            with self.assertRaises(KeyError):
                store.popitem()

    def test_walks_in_proportion(self):
        with new_store(index_blocks=16, extents=16) as store:
            names = [b"%d" % number for number in range(1000)]
            store.update(dict.fromkeys(names, b"value"))
            asked = mock.Mock(wraps=store._entry)
            with mock.patch.object(store, "_entry", asked):
                next(iter(store))
                self.assertEqual(asked.call_count, 1)
                self.assertEqual(list(store), sorted(names))
                self.assertEqual(asked.call_count, 1002)
                while store:
                    store.popitem()
                self.assertEqual(asked.call_count, 2002)

    def test_unions(self):
        with new_store() as store:
            store.update({b"a": b"1", b"b": b"2"})
            self.assertEqual(store | {b"b": b"3"}, {b"a": b"1", b"b": b"3"})
            self.assertEqual({b"b": b"3", b"c": b"4"} | store, {b"a": b"1", b"b": b"2", b"c": b"4"})
            same = store
            same |= {b"c": b"5"}
            same |= [(b"d", b"6")]
            self.assertIs(same, store)
            self.assertEqual(store, {b"a": b"1", b"b": b"2", b"c": b"5", b"d": b"6"})
            with self.assertRaises(TypeError):
                store | 1

    def test_how_full_it_is(self):
        with new_store() as store:
            self.assertEqual(store.unsynced, 0)
            store[b"key"] = b"value"
            store[b"key"] = b"other"
            self.assertGreater(store.unsynced, 0)
            self.assertEqual(store.extent(0), fstch.Extent(live=24, filled=48))
            self.assertEqual(store.extent(3), (0, 0))
            store.sync()
            self.assertEqual(store.unsynced, 0)
            with self.assertRaises(fstch.NoSuchExtent):
                store.extent(4)

    def test_statistics(self):
        with new_store() as store:
            empty = fstch.Statistics(
                keys=0, unsynced=0, live_bytes=0, file_bytes=67 * 4096, extents=4, empty_extents=4, syncs=0, waves=0
            )
            self.assertEqual(store.statistics(), empty)
            store.update({b"key": b"value", b"more": b""})
            full = empty._replace(keys=2, unsynced=store.unsynced, live_bytes=24 + 20, empty_extents=3)
            self.assertGreater(full.unsynced, 0)
            self.assertEqual(store.statistics(), full)
            store.sync()
            full = full._replace(unsynced=0, syncs=1, waves=3)
            self.assertEqual(store.statistics(), full)
            del store[b"key"]
            store.sync()
            self.assertEqual(store.statistics(), full._replace(keys=1, live_bytes=20, syncs=2, waves=4))


# Keys in no order, of which some begin alike.
KEYS = (b"b", b"ab\0", b"\xff\xff", b"a", b"k" * 32, b"\0", b"abc", b"k" * 31, b"\xff", b"ab", b"k")
# At each key, right behind it, and where a key can't be.
PLACES = (b"", *KEYS, *(key + b"\0" for key in KEYS), b"k" * 40, b"\xff" * 40)


def store_in_order():
    """A store that has these keys and had others, and its keys with their values."""
    store = new_store()
    for number, key in enumerate(KEYS):
        store[key] = b"%d" % number
    for key in (b"aa", b"\xff\xff\xff"):
        store[key] = b"value"
        del store[key]
    return store, sorted((key, b"%d" % number) for number, key in enumerate(KEYS))


class Order(unittest.TestCase):
    def test_keys_are_in_order(self):
        store, items = store_in_order()
        with store:
            keys = sorted(KEYS)
            self.assertEqual((list(store), list(reversed(store))), (keys, keys[::-1]))
            self.assertEqual(list(store.values()), [value for _, value in items])
            for place in PLACES:
                self.assertEqual(store.next_key(place), min((key for key in keys if key >= place), default=None))
                self.assertEqual(store.previous_key(place), max((key for key in keys if key < place), default=None))
            self.assertEqual(store.last_key(), keys[-1])
            self.assertEqual(store.next_key(bytearray(b"b")), b"b")
            store.clear()
            self.assertEqual((store.next_key(b""), store.previous_key(b"k"), store.last_key()), (None, None, None))

    def test_ranges(self):
        store, items = store_in_order()
        with store:
            for start in (None, *PLACES):
                for stop in (None, *PLACES):
                    wanted = [it for it in items if (start or b"") <= it[0] and (stop is None or it[0] < stop)]
                    self.wants(wanted, store, start, stop)

    def test_keys_that_begin_alike(self):
        store, items = store_in_order()
        with store:
            for prefix in PLACES:
                wanted = [it for it in items if it[0].startswith(prefix)]
                self.wants(wanted, store, prefix=prefix)
                self.wants([it for it in wanted if b"ab" <= it[0] < b"k" * 32], store, b"ab", b"k" * 32, prefix=prefix)

    def wants(self, wanted, store, *given, **named):
        keys, items = store.keys(*given, **named), store.items(*given, **named)
        self.assertEqual((list(items), list(reversed(items))), (wanted, wanted[::-1]))
        self.assertEqual((list(keys), list(reversed(keys))), ([key for key, _ in wanted], [key for key, _ in wanted[::-1]]))
        self.assertEqual((len(keys), len(items)), (len(wanted), len(wanted)))
        for key in KEYS:
            self.assertEqual((key in keys, (key, store[key]) in items), (key in dict(wanted), key in dict(wanted)))

    def test_they_are_views(self):
        with new_store() as store:
            keys, items, some = store.keys(), store.items(), store.keys(b"b", b"d")
            store.update({b"a": b"1", b"b": b"2", b"c": b"3"})
            self.assertEqual((keys, items, some), ({b"a", b"b", b"c"}, dict(store).items(), {b"b", b"c"}))
            self.assertEqual((keys & {b"a", b"d"}, some - {b"b"}, some | {b"e"}), ({b"a"}, {b"c"}, {b"b", b"c", b"e"}))
            self.assertTrue(all(isinstance(it, collections.abc.KeysView) for it in (keys, some)))
            self.assertIsInstance(items, collections.abc.ItemsView)
            self.assertNotIn((b"a", b"2"), items)
            for wrong in (b"", b"k" * 33, "text", 1):
                self.assertNotIn(wrong, some)
                self.assertNotIn((wrong, b"1"), items)
            del store[b"c"]
            self.assertEqual((some, len(some), len(keys)), ({b"b"}, 1, 2))
            for wrong in ("text", 1):
                for named in ({"start": wrong}, {"stop": wrong}, {"prefix": wrong}):
                    with self.assertRaises(TypeError):
                        store.keys(**named)

    def test_ranges_as_they_were(self):
        store, _ = store_in_order()
        with store:
            keys = sorted(KEYS)[1:-1]
            rising, falling = iter(store.keys(b"a", b"\xff\xff")), reversed(store.keys(b"a", b"\xff\xff"))
            self.assertEqual((next(rising), next(falling)), (keys[0], keys[-1]))
            store.clear()
            store[b"c"] = b"value"
            self.assertEqual((list(rising), list(falling)), (keys[1:], keys[-2::-1]))
            store[b"d"] = b"value"
            items = iter(store.items())
            store[b"c"] = b"other"
            self.assertEqual(next(items), (b"c", b"other"))
            del store[b"d"]
            with self.assertRaises(fstch.Absent):
                next(items)

    def test_a_change_in_between_is_none_of_a_walk(self):
        for walked in (iter, reversed):
            store, _ = store_in_order()
            keys, found, inside = list(walked(store)), store._entry, []

            def change_behind(*given):
                entry = found(*given)
                if not inside:
                    inside.append(True)
                    del store[entry[0]]
                    store[entry[0] + b"\0"] = b"value"
                    inside.clear()
                return entry

            with store:
                walk = walked(store)
                with mock.patch.object(store, "_entry", change_behind):
                    begun = [next(walk)]
                self.assertEqual(begun + list(walk), keys)


class Files(unittest.TestCase):
    def test_flags(self):
        Path(FILE).unlink(missing_ok=True)
        for flag in ("w", "r"):
            with self.assertRaises(FileNotFoundError):
                fstch.open(FILE, flag)
        with fstch.open(FILE, "c", index_blocks=1, extents=2) as store:
            self.assertEqual(store.check(), (0, 2))
            store[b"key"] = b"value"
        with fstch.open(FILE, "c") as store:
            self.assertEqual(store, {b"key": b"value"})
        with fstch.open(FILE, "r") as store:
            for change in (store.clear, lambda: store.update({b"key": b"other"}), lambda: store.reclaim(0), store.popitem):
                with self.assertRaises(fstch.ReadOnly):
                    change()
            self.assertEqual(store, {b"key": b"value"})
        with fstch.open(FILE, "n") as store:
            self.assertEqual(store, {})
            store[b"long"] = bytes(fstch.MAX_VALUE)
            store[b"k" * fstch.MAX_KEY] = b""
            self.assertEqual(store.check(), (2, 63))
            with self.assertRaises(fstch.InUse):
                fstch.open(FILE, "n")
        with fstch.open(FILE) as store:
            self.assertEqual(len(store), 2)
        for wrong in ({"flag": "x"}, {"flag": "w", "extents": 2}):
            with self.assertRaises(ValueError):
                fstch.open(FILE, **wrong)
        with self.assertRaises(fstch.Geometry):
            fstch.open("other.disk", "c", index_blocks=17, extents=2)

    def test_made_once(self):
        Path(FILE).unlink(missing_ok=True)
        for wrong in ({"index_blocks": 0, "extents": 4}, {"index_blocks": 1, "extents": 1}, {"index_blocks": 1, "extents": 2, "extent_blocks": 15}):
            with self.assertRaises(fstch.Geometry):
                fstch.make(FILE, **wrong)
        self.assertFalse(os.path.exists(FILE))
        fstch.make(Path(FILE), index_blocks=1, extents=2, extent_blocks=64)
        with self.assertRaises(fstch.Disk):
            fstch.make(FILE, index_blocks=1, extents=4)
        with self.assertRaises(fstch.Disk) as raised:
            fstch.make("no such folder/file", index_blocks=1, extents=4)
        self.assertIsInstance(raised.exception, OSError)
        with fstch.open(FILE.encode()) as store:
            store[b"key"] = bytes(131072)

    def test_opened_once(self):
        with new_store() as store:
            with self.assertRaises(fstch.InUse):
                fstch.open(FILE)
            self.assertEqual(in_python(f"import fstch\ntry: fstch.open({FILE!r})\nexcept fstch.InUse: print('in use')"), "in use\n")
            self.assertTrue(store.is_open)
        with fstch.open(FILE):
            pass
        with self.assertRaises(fstch.Disk):
            fstch.open("nothing")
        for wrong in ("with\0zero", b"\0"):
            with self.assertRaises(ValueError):
                fstch.open(wrong)
            with self.assertRaises(ValueError):
                fstch.make(wrong, index_blocks=1, extents=4)
        fstch.make(b"\xff.disk", index_blocks=1, extents=4)
        fstch.open(b"\xff.disk").close()

    def test_refused_by_the_system(self):
        def told(kind, call, *given, **named):
            with self.assertRaises(kind) as raised:
                call(*given, **named)
            self.assertIsInstance(raised.exception, fstch.Disk)
            return raised.exception.errno, raised.exception.filename, os.strerror(raised.exception.errno) in str(raised.exception)

        self.assertEqual(told(FileNotFoundError, fstch.open, "missing.disk"), (errno.ENOENT, "missing.disk", True))
        self.assertEqual(told(fstch.Disk, fstch.open, "."), (errno.EISDIR, ".", True))
        path = Path("no such folder/file")
        self.assertEqual(told(FileNotFoundError, fstch.make, path, index_blocks=1, extents=4), (errno.ENOENT, path, True))
        new_store().close()
        self.assertEqual(told(FileExistsError, fstch.make, FILE, index_blocks=1, extents=4), (errno.EEXIST, FILE, True))
        if os.geteuid() != 0:
            os.chmod(FILE, 0o400)
            self.assertEqual(told(PermissionError, fstch.open, FILE), (errno.EACCES, FILE, True))

    def test_a_limit_of_file_sizes(self):
        new_store().close()
        lines = f"""
import errno, fstch, resource, signal
signal.signal(signal.SIGXFSZ, signal.SIG_IGN)
store = fstch.open({FILE!r})
store[b"key"] = b"value"
resource.setrlimit(resource.RLIMIT_FSIZE, (4096, 4096))
try: store.sync()
except fstch.DeviceGaveUp as error: print(error.errno == errno.EFBIG)
store.close()
"""
        self.assertEqual(in_python(lines), "True\n")

    def test_long_ones_are_told_by_their_length(self):
        with new_store() as store:
            for kind, call in ((fstch.ValueLength, lambda: store.update({b"key": bytes(40000)})), (fstch.KeyLength, lambda: store[bytes(30000)])):
                with self.assertRaises(kind) as raised:
                    call()
                self.assertRegex(str(raised.exception), r": [34]0000 bytes$")

    def test_damaged(self):
        with new_store() as store:
            store[b"key"] = b"value"
        content = Path(FILE).read_bytes()
        for place, kind, slot in ((0, fstch.BadSuper, None), (4096, fstch.BadSlot, 0), (8192, fstch.BadPointer, None), (12288, fstch.BadFrame, 0)):
            Path(FILE).write_bytes(content[:place] + b"\xff" * 8 + content[place + 8 :])
            with self.assertRaises(kind) as raised:
                fstch.open(FILE)
            self.assertEqual(raised.exception.slot, slot)
        Path(FILE).write_bytes(content[:-1])
        with self.assertRaises(fstch.FileSize):
            fstch.open(FILE)

    def test_syncs(self):
        with new_store() as store:
            store[b"key"] = b"value"
        with fstch.open(FILE) as store:
            self.assertEqual(store, {b"key": b"value"})
            store[b"key"] = b"lost"
            store.close()
        with self.assertRaises(ZeroDivisionError), fstch.open(FILE) as store:
            self.assertEqual(store, {b"key": b"value"})
            store[b"key"] = b"lost"
            print(1 / 0)
        with fstch.open(FILE) as store:
            self.assertEqual(store, {b"key": b"value"})
            store[b"key"] = b"kept"
            store.sync()
            store.close()
        with fstch.open(FILE) as store:
            self.assertEqual(store, {b"key": b"kept"})

    def test_syncs_without_barriers(self):
        new_store().close()
        with fstch.open(FILE, barriers=False) as store:
            store[b"key"] = b"value"
        with fstch.open(FILE, barriers=True) as store:
            self.assertEqual(store, {b"key": b"value"})

    def test_closed(self):
        store = new_store()
        group = store.group()
        self.assertTrue(store.is_open)
        self.assertNotIn("closed", repr(store))
        store.close()
        store.close()
        self.assertFalse(store.is_open)
        self.assertIn("closed", repr(store))
        for call in (
            store.sync,
            store.check,
            store.group,
            lambda: store[b"key"],
            lambda: b"key" in store,
            lambda: len(store),
            lambda: list(store),
            lambda: store.reclaim(0),
            lambda: store.pop(b"key"),
            lambda: store.update({b"key": b"value"}),
            lambda: group.pending,
            group.close,
            group.__enter__,
        ):
            with self.assertRaises(fstch.NotOpen):
                call()

    def test_not_copied(self):
        with new_store() as store:
            store[b"key"] = b"value"
            for copies in (copy.copy, copy.deepcopy, pickle.dumps):
                with self.assertRaises(TypeError):
                    copies(store)
            with self.assertRaises(TypeError):
                store.__init__(FILE)
            gc.collect()
            self.assertEqual(store[b"key"], b"value")

    def test_forgotten(self):
        store = new_store()
        with warnings.catch_warnings(record=True) as told:
            warnings.simplefilter("always")
            del store
            gc.collect()
        self.assertEqual([it.category for it in told], [ResourceWarning])
        fstch.open(FILE).close()


def refused(kind, call, *given):
    with contextlib.suppress(kind):
        call(*given).close()
        return False
    return True


def reads_without_a_right():
    """Whether who may not write the file reads it, and leaves it there: 0, or the number of what went wrong."""
    if os.geteuid() == 0:
        os.setgid(NOBODY)
        os.setuid(NOBODY)
    with fstch.open(FILE, "r") as store, fstch.Store(FILE, read_only=True) as other:
        if store != {b"key": b"value"} or store != other:
            return 1
    for number, flag in enumerate("wcn"):
        if not refused(PermissionError, fstch.open, FILE, flag):
            return 2 + number
    return 0 if os.path.exists(FILE) else 5


class Reading(unittest.TestCase):
    def setUp(self):
        with new_store() as store:
            store[b"key"] = b"value"

    def test_several_read_at_once(self):
        lines = f"import fstch\ntry:\n with fstch.open({FILE!r}, 'r') as store: print(store[b'key'])\nexcept fstch.InUse: print('in use')"
        with fstch.open(FILE, "r") as first:
            with fstch.Store(FILE, read_only=True, barriers=False) as second:
                self.assertEqual(accesses(), [os.O_RDONLY] * 2)
                self.assertEqual(first, {b"key": b"value"})
                self.assertEqual(first, second)
                self.assertEqual(in_python(lines), "b'value'\n")
            for flag in "wcn":
                with self.assertRaises(fstch.InUse):
                    fstch.open(FILE, flag)
            self.assertEqual(first[b"key"], b"value")
        with fstch.open(FILE, "w"):
            self.assertEqual(accesses(), [os.O_RDWR])
            with self.assertRaises(fstch.InUse):
                fstch.open(FILE, "r")
            self.assertEqual(in_python(lines), "in use\n")
        self.assertEqual(accesses(), [])

    def test_nothing_is_to_be_synced(self):
        content = Path(FILE).read_bytes()
        with fstch.open(FILE, "r") as store:
            store.sync()
            with store.group() as group:
                with self.assertRaises(fstch.ReadOnly) as raised:
                    store[b"key"] = b"other"
            self.assertIn("was opened to be read", str(raised.exception))
            store.sync()
            self.assertEqual((store.unsynced, group.pending), (0, 0))
            self.assertEqual(fstch.library.calls.fstch_sync(store._at), fstch.ReadOnly.number)
            self.assertEqual(store, {b"key": b"value"})
        with self.assertRaises(fstch.NotOpen):
            store.sync()
        self.assertEqual(Path(FILE).read_bytes(), content)

    @unittest.skipUnless(hasattr(os, "fork"), "there is no fork")
    def test_who_may_not_write(self):
        os.chmod(FILE, 0o444)
        os.chmod(".", 0o777)
        self.assertEqual(status_of_child(reads_without_a_right), 0)

    @unittest.skipUnless(hasattr(os, "fork"), "there is no fork")
    def test_a_child_leaves_the_lock(self):
        with fstch.open(FILE, "r") as store:
            self.assertEqual(status_of_child(lambda: int(store.is_open)), 0)
            with self.assertRaises(fstch.InUse):
                fstch.open(FILE)
            self.assertEqual(store, {b"key": b"value"})
        fstch.open(FILE).close()


class Groups(unittest.TestCase):
    def test_order(self):
        with new_store() as store:
            with store.group() as data:
                store[b"data"] = b"..."
                self.assertGreater(data.pending, 0)
            with store.group(after=data) as name:
                store[b"name"] = b"data"
            store[b"other"] = b"in no group"
            self.assertGreater(name.pending, 0)
            store.sync()
            self.assertEqual((data.pending, name.pending), (0, 0))
            third = store.group(after=[data, name])
            third.close()
            with self.assertRaises(fstch.NoSuchGroup):
                print(third.pending)

    def test_refusals(self):
        with new_store() as store:
            first = store.group()
            with first:
                with self.assertRaises(fstch.Engaged):
                    store.group(after=first)
                with self.assertRaises(fstch.Engaged):
                    first.__enter__()
                with self.assertRaises(fstch.Engaged):
                    first.close()
            with first:
                store[b"key"] = b"again"
            second = store.group(after=first)
            with self.assertRaises(fstch.Sealed), first:
                pass
            with self.assertRaises(fstch.SameGroup):
                second.depend(second)
            with self.assertRaises(fstch.NotEngaged):
                second.__exit__(None, None, None)
            with second:
                pass
            with self.assertRaises(fstch.Started):
                second.depend(first)
            with self.assertRaises(fstch.TooManyGroups):
                while True:
                    store.group()

    def test_a_store_begins_anew(self):
        with new_store() as store:
            with store.group() as first:
                store[b"key"] = b"value"
            groups = [store.group() for _ in range(512)]
            self.assertEqual(groups[-1].number, 512)
            store.sync()
            self.assertEqual(groups[-1].pending, 0)
            first.close()
            store.sync()
            with self.assertRaises(fstch.NoSuchGroup):
                print(groups[-1].pending)
            self.assertEqual(store.group().number, 0)
            self.assertEqual(store, {b"key": b"value"})

    def test_changes_stay_behind_an_exception(self):
        with new_store() as store:
            group = store.group()
            with self.assertRaises(ZeroDivisionError), group:
                store[b"key"] = b"value"
                print(1 / 0)
            self.assertEqual(store[b"key"], b"value")
            with group:
                store.close()


class Threads(unittest.TestCase):
    def test_threads_share_a_store(self):
        wrong = []
        store = new_store()

        def call(number):
            key = b"%d" % number
            for turn in range(200):
                store[key] = b"%d" % turn
                if store[key] != b"%d" % turn or key not in list(store):
                    wrong.append((number, turn))
                if turn % 50 == number:
                    store.sync()

        threads = [threading.Thread(target=call, args=(number,)) for number in range(5)]
        for it in threads:
            it.start()
        for it in threads:
            it.join()
        self.assertEqual(wrong, [])
        self.assertEqual(store, {b"%d" % number: b"199" for number in range(5)})
        other = threading.Thread(target=store.close)
        other.start()
        other.join()
        self.assertFalse(store.is_open)
        fstch.open(FILE).close()

    def test_a_thread_begins_to_go_over_keys_beside_changes(self):
        ends, before, begun = threading.Event(), sys.getswitchinterval(), collections.deque(maxlen=2)

        def begin():
            while not ends.is_set():
                begun.append([iter(store) for _ in range(50)])

        with new_store() as store:
            store[b"key"] = b"value"
            others = [threading.Thread(target=begin) for _ in range(2)]
            sys.setswitchinterval(1e-6)
            try:
                for it in others:
                    it.start()
                for _ in range(5000):
                    store[b"key"] = b"value"
            finally:
                sys.setswitchinterval(before)
                ends.set()
                for it in others:
                    it.join()

    def test_a_store_of_a_thread_that_has_ended(self):
        opened = []
        new_store().close()
        other = threading.Thread(target=lambda: opened.append(fstch.open(FILE)))
        other.start()
        other.join()
        with opened[0] as store:
            store[b"key"] = b"value"
        with fstch.open(FILE) as store:
            self.assertEqual(store, {b"key": b"value"})

    def test_a_thread_of_a_small_stack(self):
        before = threading.stack_size(65536)
        try:
            other = threading.Thread(target=lambda: new_store().close())
            other.start()
            other.join()
        finally:
            threading.stack_size(before)
        fstch.open(FILE).close()

    def test_two_threads_with_a_store_each(self):
        wrong = []

        def call(path):
            try:
                with fstch.open(path) as store:
                    for number in range(200):
                        store[b"%d" % (number % 40)] = path.encode() * number
                        if number % 50 == 49:
                            store.sync()
                with fstch.open(path) as store:
                    wrong.extend(key for key, value in store.items() if value != path.encode() * (160 + int(key)))
            except fstch.Error as error:
                wrong.append(error)

        paths = ["one.disk", "two.disk"]
        for path in paths:
            Path(path).unlink(missing_ok=True)
            fstch.make(path, index_blocks=1, extents=16)
        threads = [threading.Thread(target=call, args=(path,)) for path in paths]
        for it in threads:
            it.start()
        for it in threads:
            it.join()
        self.assertEqual(wrong, [])

    @unittest.skipUnless(hasattr(os, "fork"), "there is no fork")
    def test_a_child_has_its_stores_closed(self):
        with new_store() as store:
            store[b"key"] = b"value"
            child = os.fork()
            if child == 0:
                status = 1
                try:
                    store.sync()
                except fstch.NotOpen:
                    status = 8 if store.is_open else 7
                os._exit(status)
            _, status = os.waitpid(child, 0)
            self.assertEqual(status >> 8, 7)
            with self.assertRaises(fstch.InUse):
                fstch.open(FILE)
            store.sync()
        with fstch.open(FILE) as store:
            self.assertEqual(store, {b"key": b"value"})

    @unittest.skipUnless(hasattr(os, "fork"), "there is no fork")
    def test_forks_beside_calls(self):
        store, ends = new_store(), threading.Event()

        def call():
            while not ends.is_set():
                store[b"key"] = b"value" * 100
                store.sync()

        other = threading.Thread(target=call)
        other.start()
        with warnings.catch_warnings():
            warnings.simplefilter("ignore", DeprecationWarning)  # (of newer Pythons: a process with threads is forked)
            for _ in range(20):
                child = os.fork()
                if child == 0:
                    os._exit(0 if not store.is_open else 1)
                self.assertEqual(os.waitpid(child, 0)[1], 0)
        ends.set()
        other.join()
        self.assertEqual(store[b"key"], b"value" * 100)
        store.close()


class Library(unittest.TestCase):
    def test_each_exception_has_a_number_and_the_librarys_text(self):
        kinds = fstch.Error.__subclasses__()
        self.assertEqual(len({kind.number for kind in kinds}), len(kinds))
        for kind in kinds:
            self.assertIs(kind, type(fstch.errors.of(kind.number, "")))
            self.assertNotEqual(fstch.library.text_of(kind.number), "unknown answer")
            self.assertIn(kind.__name__, fstch.__all__)
        self.assertEqual(fstch.library.text_of(100), "unknown answer")

    def test_version(self):
        number = fstch.library.calls.fstch_version()
        self.assertEqual(fstch.__version__, f"{number // 10000}.{number // 100 % 100}.{number % 100}")
        self.assertNotIn("open", fstch.__all__)
        self.assertEqual(fstch.errors.of(100, "text").number, 100)

    def test_it_is_named_by_the_variable(self):
        told = subprocess.run(
            [sys.executable, "-c", "import fstch"],
            env={**os.environ, "FSTCH_LIBRARY": "/nowhere/libfstch.so"},
            stderr=subprocess.PIPE,
            text=True,
            check=False,
        )
        self.assertEqual(told.returncode, 1)
        self.assertIn("ImportError", told.stderr)
        self.assertIn("/nowhere/libfstch.so", told.stderr)


class Kills(unittest.TestCase):
    def test_what_was_synced_is_there(self):
        new_store().close()
        lines = f"""
import fstch, os, signal
store = fstch.open({FILE!r})
store[b"key"] = b"synced"
store.sync()
store[b"key"] = b"not synced"
print("ready", flush=True)
os.kill(os.getpid(), signal.SIGKILL)
"""
        ended = subprocess.run([sys.executable, "-c", lines], stdout=subprocess.PIPE, check=False)
        self.assertEqual((ended.returncode, ended.stdout), (-signal.SIGKILL, b"ready\n"))
        with fstch.open(FILE) as store:
            self.assertEqual(store, {b"key": b"synced"})


if __name__ == "__main__":
    unittest.main()
