"""The writes of a story: which were begun by when, with which patches, and what a crash would leave of them."""

from dataclasses import dataclass

from explorer import panels

MOST_LOOSE = 12  # writes of which any may be there


@dataclass(frozen=True)
class Writes:
    """How the writes of a story stand at a moment: `begun` has the block and the patches of each.

    So many of them last, since a sync that has ended came behind them.
    """

    made: int = 0
    durable: frozenset = frozenset()
    flights: tuple = ()
    begun: tuple = ()
    lasting: int = 0

    @property
    def first_loose(self):
        return max(self.lasting, len(self.begun) - MOST_LOOSE)

    def behind(self, moment, is_synced):
        """How they stand behind a moment, which ends a sync or not."""
        now = self
        for what, *numbers in moment.done:
            follow = getattr(now, f"behind_{what}", None)
            now = follow(*numbers) if follow else now
        return Writes(now.made, now.durable, now.flights, now.begun, len(now.begun) if is_synced else now.lasting)

    def behind_patch(self, number):
        return Writes(number + 1, self.durable, self.flights, self.begun, self.lasting)

    def behind_send(self, block, numbers):
        sent = ((block, tuple(numbers)),)
        return Writes(self.made, self.durable, self.flights + sent, self.begun + sent, self.lasting)

    def behind_land(self, block, numbers):
        flights = tuple(flight for flight in self.flights if flight[0] != block)
        return Writes(self.made, self.durable | set(numbers), flights, self.begun, self.lasting)


def writes_of(lines):
    """How they stand at each moment of a story, the one before the first line too."""
    found = [Writes()]
    for line in lines:
        for part, moment in enumerate(line.moments, 1):
            found.append(found[-1].behind(moment, part == len(line.moments) and panels.is_synced(line)))
    return found


class Crashes:
    """What crashes of a kind leave at a moment: the patches that are there, by what is chosen."""

    def __init__(self, writes, patches):
        self.writes, self.patches = writes, patches[: writes.made]

    def choices(self, kind):
        if kind == "kept":
            return sorted(block for block, _ in self.writes.flights)
        if kind == "without":
            return sorted({patch.block for patch in self.patches if patch.number not in self.writes.durable})
        return list(range(self.writes.first_loose, len(self.writes.begun)))

    def there(self, kind, chosen):
        if kind == "kept":
            landed = (numbers for block, numbers in self.writes.flights if block in chosen)
            return set(self.writes.durable).union(*landed)
        if kind == "without":
            return {*self.writes.durable, *(patch.number for patch in self.patches if patch.block in chosen)}
        return self.reordered(chosen)

    def reordered(self, chosen):
        """A write that is there has what the writes of its block before it had."""
        begun = list(enumerate(self.writes.begun))
        last = {self.writes.begun[number][0]: number for number in sorted(chosen)}
        is_there = {n for n, (block, _) in begun if n < self.writes.first_loose or n <= last.get(block, -1)}
        return {patch for n, (_, numbers) in begun if n in is_there for patch in numbers}
