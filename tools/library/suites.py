"""Python's own suites for mappings, databases and shelves, where this Python has them, over stores and `fstch.dbm`."""

import dbm
import itertools
import os
import shelve
import sys
import tempfile
import unittest
from unittest import mock

import fstch
import fstch.dbm

try:
    from test import mapping_tests, test_dbm, test_shelve
except ImportError:
    sys.exit(print("skipped: this Python has no package test"))

_numbers = itertools.count()


class Stores(mapping_tests.BasicTestMappingProtocol):
    """Keys and values are bytes here."""

    def _reference(self):
        return {b"1": b"2", b"key1": b"value1", b"key2": b"(1,2,3)"}

    def _empty_mapping(self):
        store = fstch.open(f"{next(_numbers)}.disk", "n", index_blocks=1, extents=2)
        self.addCleanup(store.close)
        return store

    @unittest.skip("its keys are texts")
    def test_update(self):
        pass

    # (without a line that wants `items(None)` refused: a start may be None)
    def test_items(self):
        self.assertEqual(list(self._empty_mapping().items()), [])


class ByDbm:
    """What `dbm.open` opens is a store."""

    def setUp(self):
        patched = mock.patch.object(dbm, "open", fstch.dbm.open)
        patched.start()
        self.addCleanup(patched.stop)
        super().setUp()


class Databases(ByDbm, test_dbm.AnyDBMTestCase, unittest.TestCase):
    module = fstch.dbm


class Shelves(ByDbm, test_shelve.TestShelveFileBase, mapping_tests.BasicTestMappingProtocol):
    dbm_mod = fstch.dbm
    _args = {"flag": "c"}


class ShelvesOfFiles(ByDbm, test_shelve.TestCase):
    pass


class Room(unittest.TestCase):
    """What the module for dbm does beside: texts, room that is won back, and errors of its own."""

    def test_room_is_won_back(self):
        fstch.make("room.disk", index_blocks=1, extents=3)
        with fstch.dbm.open("room.disk", "w") as database:
            for turn in range(100):
                database["key"] = bytes([turn]) * 30000
                database[b"other"] = "text"
        with fstch.dbm.open("room.disk") as database:
            self.assertEqual(dict(database), {b"key": bytes([99]) * 30000, b"other": b"text"})
            with self.assertRaises(fstch.dbm.error):
                database["key"] = "other"

    def test_read_at_once(self):
        with fstch.dbm.open("read.disk", "n") as database:
            database["key"] = "value"
        with fstch.dbm.open("read.disk") as first, fstch.dbm.open("read.disk", "r") as second:
            self.assertEqual((first["key"], dict(second)), (b"value", {b"key": b"value"}))
            with self.assertRaises(fstch.dbm.error):
                fstch.dbm.open("read.disk", "w")
        fstch.dbm.open("read.disk", "w").close()

    def test_a_full_file(self):
        fstch.make("full.disk", index_blocks=1, extents=2)
        with fstch.dbm.open("full.disk", "w") as database:
            with self.assertRaises(fstch.dbm.error):
                for number in range(64):
                    database[str(number)] = bytes(30000)
            self.assertGreater(len(database), 0)
            with self.assertRaises(fstch.dbm.error):
                database["k" * 33] = b""
            with self.assertRaises(KeyError):
                del database["absent"]
        with self.assertRaises(fstch.dbm.error):
            database["key"]


if __name__ == "__main__":
    with tempfile.TemporaryDirectory() as folder:
        os.chdir(folder)
        unittest.main()
