"""The strips of the picture: each has the bytes of a block, or of a store's extent those of all its blocks."""

from dataclasses import dataclass

from explorer.changes import Changes
from plain_model import BLOCK

LONGEST_LOOK = 64  # bytes that a line looks at, for which a strip gets columns
MOST_NAMED = 6


@dataclass
class Strip:
    """So many blocks from the first one on. `empty` is what stands in it where no patch of a store lies."""

    first: int
    count: int
    kind: str
    title: str
    empty: str = ""

    @property
    def name(self):
        return self.title.partition(" (")[0].lower()


def strip_of(block, geometry=None):
    """The strip that has a block."""
    if geometry is None:
        return Strip(block, 1, "byte", f"Block {block}")
    if block == 1 + geometry.index:
        return Strip(block, 1, "pointer", f"Pointers (block {block})", "0, gen. 0")
    if block <= geometry.index:
        return Strip(block, 1, "slot", f"Index (block {block})", "empty")
    extent = (block - 2 - geometry.index) // geometry.extent_blocks
    first = 2 + geometry.index + geometry.extent_blocks * extent
    last = first + geometry.extent_blocks - 1
    title = f"Extent {extent} (blocks {first} to {last})"
    return Strip(first, geometry.extent_blocks, "frame", title, "zeros")


class Strips:
    """All strips that are drawn at some moment, and how each stands."""

    def __init__(self, blocks, geometry=None):
        self.of_block = {block: strip_of(block, geometry) for block in blocks}
        self.numbers = {first: n for n, first in enumerate(sorted({s.first for s in self.of_block.values()}))}
        self.status = {first: Changes() for first in self.numbers}

    def span(self, block, start, end):
        """Where bytes of a block stand in its strip."""
        strip = self.of_block[block]
        place = BLOCK * (block - strip.first)
        return {"strip": self.numbers[strip.first], "from": place + start, "to": place + end}

    def block_name(self, block):
        strip = self.of_block[block]
        return f"block {block}: {strip.name}" if strip.empty else f"block {block}"

    def note(self, moment, standing):
        for strip in {strip.first: strip for strip in self.of_block.values()}.values():
            words = status_of(standing, strip.first) if strip.count == 1 else flights_of(standing, strip)
            self.status[strip.first].note(moment, words)

    def listed(self):
        strips = {strip.first: strip for strip in self.of_block.values()}
        return [self.told(number, strips[first]) for first, number in self.numbers.items()]

    def told(self, number, strip):
        known = {"number": number, "first": strip.first, "count": strip.count, "kind": strip.kind}
        return {**known, "title": strip.title, "empty": strip.empty, "status": self.status[strip.first].listed}


def span_of_look(look):
    """The bytes at which a line looks, where they are few."""
    few = look and look["len"] <= LONGEST_LOOK
    return (look["block"], look["start"], look["start"] + look["len"]) if few else None


# How a strip stands, in a few words.


def counted(numbers):
    if len(numbers) > MOST_NAMED:
        return f"{len(numbers)} patches"
    return ", ".join(map(str, numbers)) or "none"


def status_of(standing, block):
    goes, back, later = standing.parts(block)
    if block in standing.flights:
        since = f" · made since: {counted(later)}" if later else ""
        return f"in flight: {counted(goes)} · taken back: {counted(back)}{since}"
    if goes:
        return f"a write now takes {counted(goes)} · takes back {counted(back)}"
    if back:
        return f"nothing may go: {chain_words(standing, back[0])}"
    return "all of it is on the disk" if standing.of_block[block] else "no patch yet"


def chain_words(standing, number):
    chain = standing.chain(number)
    end = "is in flight" if standing.marks[chain[-1]] == "flight" else "may go"
    shown = [*chain[:3], "…", chain[-1]] if len(chain) > 5 else chain
    return f"{' waits for '.join(map(str, shown))}, which {end}"


def flights_of(standing, strip):
    blocks = sorted(b for b in standing.flights if strip.first <= b < strip.first + strip.count)
    if not blocks:
        return "none of its blocks is in flight"
    return f"in flight: {'block' if len(blocks) == 1 else 'blocks'} {', '.join(map(str, blocks))}"
