"""Changes of a file of the store, from outside, to bytes that mostly can't be opened.

Each takes a source of chances and the bytes of a file, and gives a place and what is written there (none: the file is
cut off), or None where there is nothing of the kind that it changes.
"""

from plain_disk import FRAME, RECORD, SLOT, Disk
from plain_model import BLOCK


def other_byte(random, content, place):
    """The byte at this place is another one."""
    before = content[place]
    return {"place": place, "hex": f"{before ^ random.choice((1, 2, 64, 255)):02x}"}


def wrong_superblock(random, content):
    return other_byte(random, content, random.randrange(26))


def wrong_record(random, content):
    geometry = Disk.read(content).geometry
    return other_byte(random, content, geometry.place_of_record(0) + random.randrange(RECORD * geometry.extents + 4))


def some_used_slot(random, content):
    disk = Disk.read(content)
    used = disk.used_slots()
    return (disk, *random.choice(used)) if used else (disk, None, None)


def wrong_slot(random, content):
    disk, slot, _ = some_used_slot(random, content)
    return other_byte(random, content, disk.geometry.place_of_slot(slot or 0) + random.randrange(SLOT))


def wrong_frame(random, content):
    disk, slot, entry = some_used_slot(random, content)
    if slot is None:
        return None
    place = disk.geometry.place_of_extent(entry.extent) + entry.offset
    return other_byte(random, content, place + random.choice((random.randrange(FRAME), entry.length - 1)))


def second_slot(random, content):
    """Another slot says what a used one says."""
    disk, slot, entry = some_used_slot(random, content)
    if slot is None:
        return None
    other = random.randrange(disk.geometry.slots)
    return {"place": disk.geometry.place_of_slot(other), "hex": entry.slot().hex()}


def cut_off(random, content):
    size = len(content)
    return {"place": random.choice((0, BLOCK, size // 2, size - BLOCK, size - 1)), "hex": ""}


DAMAGES = (wrong_superblock, wrong_record, wrong_slot, wrong_frame, second_slot, cut_off)
