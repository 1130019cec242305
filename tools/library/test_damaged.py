"""Tests what docs/RECOVERY.md says of files that don't open: run where the module is found, in a folder of its own."""

import os
import re
import shutil
import subprocess
import sys
import unittest
from pathlib import Path

import fstch

TOP = Path(__file__).resolve().parents[2]
sys.path.insert(0, str(TOP / "tools"))

from plain_disk import Disk, Geometry, Pointer, number_in  # noqa: E402
from plain_model import BLOCK  # noqa: E402

FILE, COPY, SAVED = Path("values.disk"), Path("copy.disk"), Path("saved.disk")
GEOMETRY = Geometry(index=2, extents=6)
VALUES = {b"key %d" % number: b"%d" % number * 9000 for number in range(12)}


def make(path):
    path.unlink(missing_ok=True)
    fstch.make(path, index_blocks=GEOMETRY.index, extents=GEOMETRY.extents)


def damage(place, content):
    """Lays these bytes over those of the file."""
    with open(FILE, "r+b") as file:
        file.seek(place)
        file.write(content)


def saved():
    """What the page's lines save of a copy, and which slots they name."""
    shutil.copyfile(FILE, COPY)
    (lines,) = re.findall("^```python\n(.*?)^```", (TOP / "docs/RECOVERY.md").read_text(encoding="utf-8"), re.M | re.S)
    SAVED.unlink(missing_ok=True)
    told = subprocess.run([sys.executable, "-W", "error", "-c", lines], check=True, stdout=subprocess.PIPE, text=True).stdout
    with fstch.open(SAVED, "r") as store:
        return dict(store), [int(line.rsplit(" ", 1)[1]) for line in told.splitlines()]


class Damaged(unittest.TestCase):
    def setUp(self):
        """A file some of whose values are in an extent that was won back."""
        make(FILE)
        with fstch.open(FILE) as store:
            store.update(dict.fromkeys(VALUES, b"other" * 1000))
            store.update(VALUES)
            store.reclaim(0)
            store.update(VALUES)
        self.disk = Disk.read(FILE.read_bytes())
        self.assertEqual({entry.generation for _, entry in self.disk.used_slots()}, {0, 1})

    def slot_of(self, key):
        return self.disk.slot_of(key)

    def place_of_slot(self, key):
        return GEOMETRY.place_of_slot(self.slot_of(key))

    def place_of_frame(self, key):
        entry = self.disk.slots[self.slot_of(key)]
        return GEOMETRY.place_of_extent(entry.extent) + entry.offset

    def refused(self, kind):
        for flag in "wr":
            with self.assertRaises(kind):
                fstch.open(FILE, flag)

    def test_a_file_that_opens(self):
        self.assertEqual(saved(), (VALUES, []))

    def test_slots_that_are_refused(self):
        none, missing, twice = b"key 1", b"key 5", b"key 7"
        damage(self.place_of_slot(none), b"\xff")
        damage(self.place_of_frame(missing), bytes(BLOCK))
        slot = FILE.read_bytes()[self.place_of_slot(twice) :][:64]
        last = GEOMETRY.slots - 1
        damage(GEOMETRY.place_of_slot(last), slot)
        content = FILE.read_bytes()
        wanted = {key: value for key, value in VALUES.items() if key not in (none, missing)}
        self.assertEqual(saved(), (wanted, sorted([self.slot_of(none), self.slot_of(missing), last])))
        self.assertEqual(FILE.read_bytes(), content)

    def test_a_value_that_is_damaged_inside(self):
        damage(self.place_of_frame(b"key 1") + 100, b"\xff")
        with fstch.open(FILE, "r") as store:
            self.assertEqual({key for key in store if store[key] != VALUES[key]}, {b"key 1"})

    def test_a_first_block(self):
        damage(8, b"\xff")
        self.refused(fstch.BadSuper)
        make(COPY)
        damage(0, COPY.read_bytes()[:BLOCK])
        self.assertEqual(saved(), (VALUES, []))

    def test_a_length(self):
        length = GEOMETRY.blocks * BLOCK
        for other in (length + 1, length + BLOCK, length - 1):
            os.truncate(FILE, other)
            self.refused(fstch.FileSize)
            os.truncate(FILE, length)
            self.assertEqual(saved(), (VALUES, []))
        cut = self.place_of_frame(b"key 7")
        os.truncate(FILE, cut)
        self.refused(fstch.FileSize)
        os.truncate(FILE, length)
        self.refused(fstch.BadFrame)
        wanted = {key: value for key, value in VALUES.items() if self.place_of_frame(key) < cut}
        self.assertEqual(saved()[0], wanted)

    def test_pointers(self):
        damage(GEOMETRY.place_of_record(0), b"\xff" * BLOCK)
        self.refused(fstch.BadPointer)
        content, generations = FILE.read_bytes(), [0] * GEOMETRY.extents
        for place in map(GEOMETRY.place_of_slot, range(GEOMETRY.slots)):
            if content[place] == 1:
                generations[number_in(content, place + 2, place + 4)] = number_in(content, place + 4, place + 8)
        records = b"".join(Pointer(it, GEOMETRY.extent_bytes).record() for it in generations)
        damage(GEOMETRY.place_of_record(0), records.ljust(BLOCK, b"\0"))
        self.assertEqual(saved(), (VALUES, []))


if __name__ == "__main__":
    unittest.main()
