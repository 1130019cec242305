"""The story of a script of a store, which `fstch run` answers, and the patches that its lines make.

`plain_store.Store` says what the store holds, and only counts its patches. Here each change of its disk is made a
patch: bytes of a frame, a pointer record, a slot. What each of them names stands in `docs/ARCHITECTURE.md`: bytes come
after their extent's last reset, a pointer after the bytes that it passes, a slot after the pointer, a slot that was
empty or is cleared after the last one that was cleared, and a reset after all that left the extent. A pointer's patch
is merged with the one before it where it may be.
"""

import collections
from dataclasses import dataclass
from typing import Optional

from explorer import narration, store_words, words
from explorer.stories import Line, Made, WatchedModel, told_of_groups
from plain_disk import Disk
from plain_model import BLOCK, Complete, Create, Merge, Refused, Send, after_of, engaged_by, patches_of, writer_of
from plain_store import Store

FRAME, POINTER, RESET, FILL, CLEAR = "frame", "pointer", "reset", "fill", "clear"


@dataclass(frozen=True)
class Change:
    """Bytes that the store puts on its disk, and what they are: a part of a frame, a pointer, a slot.

    `left` is the extent whose frame a slot named before, where it named one.
    """

    kind: str
    place: int
    content: bytes
    role: tuple
    extent: int = 0
    was_empty: bool = False
    left: Optional[int] = None


class WatchedDisk(Disk):
    """A disk that keeps what was changed since one last looked."""

    def __init__(self, *parts):
        super().__init__(*parts)
        self.changes = []

    def take_changes(self):
        changes, self.changes = self.changes, []
        return changes

    def lay_in(self, extent, offset, written):
        """A frame: a change for each block that it reaches."""
        super().lay_in(extent, offset, written)
        place, end = self.geometry.place_of_extent(extent) + offset, offset + len(written)
        borders = [offset, *range(BLOCK * (offset // BLOCK + 1), end, BLOCK), end]
        key = bytes(written[12 : 12 + written[4]]).decode("utf-8", "replace")
        for part, (one, other) in enumerate(zip(borders, borders[1:]), 1):
            role = (FRAME, key, extent, part, len(borders) - 1)
            content = written[one - offset : other - offset]
            self.changes.append(Change(FRAME, place + one - offset, content, role, extent))

    def point(self, extent, pointer):
        kind = POINTER if pointer.filled else RESET
        role = (kind, extent, pointer.generation, pointer.filled)
        self.changes.append(Change(kind, self.geometry.place_of_record(extent), pointer.record(), role, extent))
        super().point(extent, pointer)

    def fill(self, slot, entry):
        role = (FILL, slot, entry.key.decode("utf-8", "replace"))
        self.changes.append(self.slot_change(FILL, slot, entry.slot(), role, entry.extent))
        super().fill(slot, entry)

    def clear(self, slot):
        role = (CLEAR, slot, self.slots[slot].key.decode("utf-8", "replace"))
        self.changes.append(self.slot_change(CLEAR, slot, bytes(len(self.slots[slot].slot())), role))
        super().clear(slot)

    def slot_change(self, kind, slot, content, role, extent=0):
        before = self.slots[slot]
        left = before.extent if before else None
        return Change(kind, self.geometry.place_of_slot(slot), content, role, extent, before is None, left)


class PatchedStore(Store):
    """The model of a store, and of the cache that has its patches."""

    def __init__(self, geometry):
        super().__init__(WatchedDisk.made(geometry))
        content = bytes(self.disk.content)
        first = tuple(content[BLOCK * block : BLOCK * (block + 1)] for block in range(geometry.blocks))
        self.cache = WatchedModel(geometry.blocks, first)
        self.made_patches, self.calls = [], []
        self.bytes_since_point, self.resets, self.points = [], {}, {}
        self.left = collections.defaultdict(list)
        self.last_delete = None

    def tell_line(self, number, text, line):
        """A line is answered and told."""
        count = len(self.made_patches)
        answer = self.answer(line)
        writer = None if line["op"] == "reclaim" else writer_of(line)
        for change in self.disk.take_changes():
            self.make(number, change, writer)
        if told := told_of_groups(line, answer):
            self.cache.tell(*told)
        said = store_words.of_store(self, line, answer, range(count, len(self.made_patches)))
        note = narration.told(line, "note")
        return Line(number, text, answer, said, self.cache.take_moments(), note=note)

    # Patches.

    def make(self, line, change, writer):
        """The patch of a change, with the merge that may follow it."""
        number = len(self.made_patches)
        groups = engaged_by(self.groups, writer)
        after = frozenset(self.names_of(change)) | after_of(self.groups, writer)
        self.made_patches.append(Made(line, tuple(sorted(groups)), change.role))
        self.call(Create(change.place // BLOCK, change.place % BLOCK, bytes(change.content), after, True))
        self.regroup(patches={**self.groups.patches, **{g: patches_of(self.groups, g) + (number,) for g in groups}})
        self.keep(number, change)

    def names_of(self, change):
        """What the patch of a change has to come after."""
        if change.kind == FRAME:
            return [n for n in (self.resets.get(change.extent),) if n is not None]
        if change.kind == POINTER:
            return self.bytes_since_point
        if change.kind == RESET:
            return self.left[change.extent]
        cleared = [] if self.last_delete is None else [self.last_delete]
        if change.kind == CLEAR:
            return cleared
        return [self.points[change.extent], *(cleared if change.was_empty else [])]

    def keep(self, number, change):
        """What later patches have to know of this one."""
        if change.kind == FRAME:
            self.bytes_since_point.append(number)
        elif change.kind in (POINTER, RESET):
            self.keep_point(number, change)
        else:
            if change.left is not None:
                self.left[change.left].append(number)
            if change.kind == CLEAR:
                self.last_delete = number

    def keep_point(self, number, change):
        self.bytes_since_point = []
        if change.kind == RESET:
            self.resets[change.extent], self.left[change.extent] = number, []
        elif change.extent in self.points:
            self.merge(self.points[change.extent], number)
        self.points[change.extent] = number

    def merge(self, a, b):
        """The two are merged, where that may be."""
        try:
            self.cache.check_merge(a, b)
        except Refused as refusal:
            self.calls.append((Merge(a, b), f"refused {refusal}"))
        else:
            self.call(Merge(a, b))

    def call(self, step):
        """A step of the cache, kept with what a replay of it would be answered."""
        self.cache.accept(step)
        self.calls.append((step, answer_to(step, self.cache.moment.done[-1], self.cache.entries)))

    # Writes.

    def flush(self):
        """All patches reach the disk in waves: all writes that can begin, begin, and then they end."""
        super().flush()
        wave = 0
        while blocks := [block for block in self.cache.waiting_blocks() if self.cache.ready(block)]:
            wave += 1
            self.write_all(wave, blocks)

    def write_all(self, wave, blocks):
        for block in blocks:
            self.call(Send(block))
        self.cache.end_moment(f"Wave {wave} begins: a write of {words.named('block', 'blocks', blocks)}.")
        for block in blocks:
            self.call(Complete(block))
        self.cache.end_moment(f"Wave {wave} is on the disk.")


def answer_to(step, told, entries):
    """What a replay would answer to an accepted step."""
    if isinstance(step, Create):
        return f"patch {told[1]}"
    if isinstance(step, Merge):
        return f"merged {entries[step.a].name}"
    word = "sent" if isinstance(step, Send) else "durable"
    return f"{word} {step.block} {','.join(map(str, told[2]))}"


def line_of_call(step):
    """The line by which a replay does a step."""
    if isinstance(step, Create):
        names = {"block": step.block, "start": step.start, "hex": step.content.hex(), "after": sorted(step.after)}
        return {"op": "patch", **names, "drop": True}
    if isinstance(step, Merge):
        return {"op": "merge", "a": step.a, "b": step.b}
    return {"op": "send" if isinstance(step, Send) else "complete", "block": step.block}


def story_of(lines, geometry):
    """The lines of a script, given as (number, text, object), told one after another, its end, and their model."""
    store = PatchedStore(geometry)
    told = [store.tell_line(*line) for line in lines]
    store.flush()
    end = Line(told[-1].number + 1 if told else 1, "", "", store_words.AT_END, store.cache.take_moments())
    return store, [*told, end]
