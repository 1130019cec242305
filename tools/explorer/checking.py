"""What a page shows, compared with what the program answers."""

import re

from explorer.writes import Crashes
from plain_disk import Disk, Fault
from plain_model import BLOCK, depends_directly, pile

LONGEST_SHOWN = 400  # characters of an answer; the page cuts longer ones
KEPT = 380
BROKEN = re.compile(r"✕Broken: patch (\d+) \(.*\) is there, and patch (\d+) \(.*\), on which it depends, isn't", re.S)


class Looked:
    """What a page showed at each moment, to be compared with a script and the program's answers to it.

    The patches are those that the model has made in the end, `writes` says how the writes stand at each moment, and
    `first` has the blocks of a store's disk before. Rows of a store aren't compared: its page says what they mean, and
    the program says so too.
    """

    def __init__(self, lines, answers, seen, patches, writes, first=None):
        self.lines, self.answers, self.seen = lines, answers, seen
        self.patches, self.writes, self.first = patches, writes, first
        self.is_store = first is not None
        self.needs = [{other.number for other in patches if depends_directly(patch, other)} for patch in patches]
        self.faults = []

    def expect(self, what, shown, wanted):
        if shown != wanted:
            self.faults.append(f"{what}: the page shows {shown!r}, and not {wanted!r}")

    def compare(self):
        """What differs, in words."""
        self.compare_order()
        for (number, text, line), answer in zip(self.lines, self.answers):
            moments = self.moments_of(f"line {number}")
            for moment in moments:
                self.expect(f"line {number}", moment["answer"], shown_text(answer))
                self.expect(f"line {number}", moment["asked"], shown_text(text))
            if moments:
                self.compare_answer(f"line {number}", line, answer, moments[-1])
        self.expect("the moments", len(self.seen), len(self.writes))
        for moment, writes in zip(self.seen, self.writes):
            self.compare_moment(moment, Crashes(writes, self.patches))
        return self.faults

    def moments_of(self, name):
        return [moment for moment in self.seen if moment["where"].split(",")[0] == name]

    def compare_order(self):
        names = []
        for moment in self.seen:
            name = moment["where"].split(",")[0]
            names += [] if names and names[-1] == name else [name]
        wanted = ["before the first line", *(f"line {number}" for number, _, _ in self.lines)]
        self.expect("the lines", names, [*wanted, "the end"] if self.is_store else wanted)

    # What an answer says.

    def compare_answer(self, name, line, answer, moment):
        kind, *parts = answer.split()
        compare = getattr(self, f"compare_{kind}", None)
        if compare:
            compare(name, line, parts, moment)

    def compare_patch(self, name, line, parts, moment):
        self.expect(name, marks(moment).get(int(parts[0])), "memory")

    def compare_merged(self, name, line, parts, moment):
        self.expect(f"{name}, its class has a frame", int(parts[0]) in moment["classes"], True)

    def compare_sent(self, name, line, parts, moment):
        numbers = numbers_in(parts[1])
        self.expect(name, self.marked(moment, "flight", line["block"]), numbers)
        self.expect(f"{name}, what goes", moment["goes"], numbers)
        written = [n for n, mark in marks(moment).items() if mark != "memory"]
        self.compare_pile(f"{name}, the written copy", line["block"], written, bytes_of(moment, "written", line["block"]))

    def compare_durable(self, name, line, parts, moment):
        shown = {marks(moment).get(number, "durable") for number in numbers_in(parts[1])}
        self.expect(name, shown, {"durable"})
        self.expect(name, self.marked(moment, "flight", line["block"]), [])

    def compare_shown(self, name, line, parts, moment):
        self.compare_bytes(name, line, "cached", parts[0], moment)

    def compare_disk(self, name, line, parts, moment):
        self.compare_bytes(name, line, "disk", parts[0], moment)

    def compare_without(self, name, line, parts, moment):
        self.compare_bytes(name, line, "view", parts[0], moment)
        self.compare_bytes(name, line, "cached", parts[2], moment)

    def compare_pending(self, name, line, parts, moment):
        self.expect(name, dict(moment["groups"])[line["group"]], int(parts[0]))

    def compare_value(self, name, line, parts, moment):
        self.expect(name, dict(moment["keys"]).get(line["key"]), str(len(parts[0]) // 2 if parts else 0))

    def compare_none(self, name, line, parts, moment):
        self.expect(name, dict(moment["keys"]).get(line["key"], ""), "")

    def compare_bytes(self, name, line, row, hexed, moment):
        """Each byte that the row has of those which the line looks at."""
        for place, shown in bytes_of(moment, row, line["block"]):
            at = place - line["start"]
            if 0 <= at < line["len"]:
                self.expect(f"{name}, byte {place} of the row {row}", shown, hexed[2 * at : 2 * at + 2])

    def compare_pile(self, name, block, numbers, shown):
        """These bytes of a block are those under these patches, in order of making."""
        content = pile(bytes(BLOCK), [self.patches[n] for n in sorted(numbers) if self.patches[n].block == block])
        for place, text in shown:
            self.expect(f"{name}, byte {place} of block {block}", text, f"{content[place]:02x}")

    # What holds at each moment.

    def marked(self, moment, mark, block):
        return sorted(n for n, had in marks(moment).items() if had == mark and self.patches[n].block == block)

    def compare_moment(self, moment, crashes):
        name = moment["where"]
        self.expect(f"{name}, that words are said", bool(moment["words"]), True)
        self.expect(f"{name}, how many implied arrows are drawn", moment["implied"], 0)
        durable = crashes.writes.durable
        for number, mark in marks(moment).items():
            self.expect(f"{name}, whether patch {number} is durable", mark == "durable", number in durable)
        for crash in moment["crashes"]:
            self.compare_crash(f"{name}, a crash, {crash['kind']}, with {crash['chosen']}", crashes, crash)

    def compare_crash(self, name, crashes, crash):
        """What the page says is there, is there, and it says whether that is closed."""
        kind, chosen, there = crash["kind"], crash["chosen"], set(crash["there"])
        self.expect(f"{name}, the choices", crash["choices"], crashes.choices(kind))
        self.expect(f"{name}, what is there", there, crashes.there(kind, chosen))
        self.expect(f"{name}, what is lost", crash["lost"], [n for n in range(len(crashes.patches)) if n not in there])
        if not crash["isChosen"]:
            breaking = self.breaking(crashes, kind)
            self.expect(f"{name}, what is chosen first", chosen, breaking)
            self.expect(f"{name}, whether it is told to break", kind in crash["breaks"], bool(breaking))
        self.compare_closed(name, crash["closed"], there)
        if kind == "kept":
            self.expect(name, crash["closed"][:8], "✓Closed:")
        if self.is_store:
            self.compare_opening(name, crash)
        for shown in crash["tables"] if not self.is_store else ():
            self.compare_pile(name, shown["block"], there, shown["bytes"])

    def compare_closed(self, name, said, there):
        """It is closed as the page says, or the first patch is told that is there without one on which it depends."""
        first, told = self.first_broken(there), BROKEN.match(said)
        if first is None or not told:
            self.expect(name, said[:8], "✓Closed:" if first is None else f"✕Broken: patch {first}")
            return
        self.expect(f"{name}, what is broken", int(told[1]), first)
        self.expect(f"{name}, that it lacks patch {told[2]}", int(told[2]) in self.needs[first] - there, True)

    def breaking(self, crashes, kind):
        """The first choice that breaks something, where the order isn't kept."""
        ones = ([choice] for choice in crashes.choices(kind) if kind != "kept")
        return next((one for one in ones if self.first_broken(crashes.there(kind, one)) is not None), [])

    def first_broken(self, there):
        """The first patch that is there without something on which it depends."""
        return next((number for number in sorted(there) if not self.needs[number] <= there), None)

    def compare_opening(self, name, crash):
        """The disk opens by the plain rules, or doesn't, as the page says; and it has these keys."""
        content = bytearray(b"".join(self.first))
        for number in crash["there"]:
            patch = self.patches[number]
            place = BLOCK * patch.block + patch.start
            content[place : place + len(patch.content)] = patch.content
        try:
            keys = {entry.key.decode("utf-8", "replace") for _, entry in Disk.read(bytes(content)).used_slots()}
            self.expect(name, crash["opens"][:15], "✓The disk opens")
            self.expect(name, set(crash["keys"]), keys)
        except Fault as fault:
            slot = str(fault).rpartition(" ")[2]
            self.expect(name, crash["opens"].partition(", for ")[0], f"✕The disk doesn't open: slot {slot}")


def compare_report(looked, report):
    """What a store's page shows at its end is what a check of the file reports."""
    last = looked.seen[-1]
    rows = sorted((key.encode(), length) for key, length in last["keys"])
    entries = [f"entry {key.hex()} {length}" for key, length in rows]
    extents = [f"extent {' '.join(map(str, numbers))}" for numbers in last["extents"]]
    looked.expect("the end", [*entries, *extents, "clean"], report)


def shown_text(text):
    return text if len(text) <= LONGEST_SHOWN else f"{text[:KEPT]}… ({len(text):,} characters)"


def marks(moment):
    return {number: mark for number, mark, _ in moment["bars"]}


def numbers_in(text):
    return [int(number) for number in text.split(",")]


def bytes_of(moment, row, block):
    rows = [shown for shown in moment["rows"] if (shown["row"], shown["block"]) == (row, block)]
    return [pair for shown in rows for pair in shown["bytes"]]


def has_no_address(page):
    """Nothing in a page's text leads elsewhere."""
    return not re.search(r"(?:https?:)?//[a-z]", page, re.IGNORECASE) and "@import" not in page
