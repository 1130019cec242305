"""What the page's script reads: patches, writes, moments, and for all that changes from which moment on it is what."""

import collections
import json

from explorer import panels, store_panels
from explorer.changes import Changes, Texts
from explorer.standing import Standing, directs, leading
from explorer.strips import Strips, span_of_look
from explorer.words import placed

MOST_DRAWN = 60  # patches
MOST_NEEDED = 10  # of what a patch that is drawn depends on


class Showing:
    """Goes through the moments of a story, and notes what the page shows at each."""

    def __init__(self, entries, made, lines, first, geometry=None):
        self.entries, self.made, self.lines, self.geometry = entries, made, lines, geometry
        self.patches = [entry.patch for entry in entries]
        self.direct = directs(self.patches)
        self.standing = Standing(self.patches, self.direct, first)
        looked = [span for span in map(span_of_look, (line.look for line in lines)) if span]
        blocks = {patch.block for patch in self.patches} | {block for block, _, _ in looked}
        self.strips, self.looked = Strips(blocks, geometry), looked
        self.groups_patches = collections.defaultdict(list)
        for number, about in enumerate(made):
            for group in about.groups:
                self.groups_patches[group].append(number)
        self.texts, self.moments = Texts(), []
        self.looks, self.names, self.keepers = ([Changes() for _ in entries] for _ in range(3))
        self.writes = collections.defaultdict(Changes)
        self.flights, self.writable, self.groups, self.holds, self.lasting = (Changes() for _ in range(5))
        self.sends, self.send_of = [], {}
        self.follow()

    @property
    def is_short(self):
        """All patches are drawn at all moments, where they are made and one likes to see them."""
        return self.geometry is None and len(self.patches) <= MOST_DRAWN

    # Moments.

    def follow(self):
        self.note_all()
        self.lasting.note(0, 0)
        self.moments.append(self.before_all())
        last = next((line.number for line in reversed(self.lines) if not panels.is_end(line)), 0)
        for index, line in enumerate(self.lines, 1):
            for part, moment in enumerate(line.moments, 1):
                self.standing.follow(moment)
                self.note_sends(moment)
                if part == len(line.moments) and panels.is_synced(line):
                    self.lasting.note(len(self.moments), len(self.sends))
                self.note_all()
                said = {"where": panels.where(line, part), "said": panels.line_panel(line, part, last), "line": index}
                self.moments.append({**said, **self.moment_of(line, moment)})
        self.note_neighbours()

    def note_sends(self, moment):
        """The writes that begin, and which patches go with which."""
        for block, numbers in (done[1:] for done in moment.done if done[0] == "send"):
            self.send_of.update(dict.fromkeys(numbers, len(self.sends)))
            self.sends.append({"block": block, "from": len(self.moments)})

    def before_all(self):
        said = {"where": "before the first line", "said": panels.GUIDE, "line": 0, "block": None}
        return {**said, "changed": [], "taken": [], "about": [], "spans": [], "touched": [], "view": None}

    def moment_of(self, line, moment):
        standing, look = self.standing, line.look
        taken = self.taken_by(look)
        span = span_of_look(look)
        return {
            "changed": sorted(standing.changed),
            "taken": taken,
            "about": self.about({*standing.changed, *taken}),
            "view": look["block"] if look and look["op"] == "view" else None,
            "spans": [self.strips.span(*span)] if span and not self.is_short else [],
            "touched": [] if self.geometry else sorted(b for b, numbers in standing.of_block.items() if numbers),
            "block": self.block_of(line, moment),
        }

    def taken_by(self, look):
        """The patches of the classes that a view takes back and doesn't put back."""
        if not look or look["op"] != "view":
            return []
        names = self.standing.names
        taken = {names[number] for number in look["take"]} - {names[number] for number in look["back"]}
        return [number for number, name in enumerate(names) if name in taken]

    def about(self, numbers):
        """These patches, and the last of those that they depend on."""
        needed = {other for number in numbers for other in self.direct[number][-MOST_NEEDED:]}
        return sorted({*numbers, *filter(self.standing.is_live, needed)})

    def block_of(self, line, moment):
        """The block that the moment is about, if it has something to be written, or else the first that has."""
        blocks = self.standing.live_blocks()
        asked = [] if panels.is_end(line) else [json.loads(line.text).get("block")]
        done = [self.block_done(*each) for each in moment.done]
        return next((block for block in asked + done + blocks if block in blocks), None)

    def block_done(self, what, number, *_):
        """The block of something that is done, where it is done to one."""
        if what == "patch":
            return self.patches[number].block
        return number if what in ("send", "land") else None

    def note_neighbours(self):
        """Where the lines before and behind end."""
        ends = [n for n, (one, other) in enumerate(zip(self.moments, self.moments[1:])) if one["line"] != other["line"]]
        ends.append(len(self.moments) - 1)
        for moment in self.moments:
            moment["next"] = ends[min(moment["line"] + 1, len(ends) - 1)]
            moment["previous"] = ends[max(moment["line"] - 1, 0)]

    # What changes.

    def note_all(self):
        now, standing = len(self.moments), self.standing
        self.note_patches(now)
        self.strips.note(now, standing)
        blocks = standing.live_blocks()
        for block in standing.touched.intersection(blocks):
            self.writes[block].note(now, panels.write_panel(standing, block))
        self.writable.note(now, {"blocks": blocks, "html": panels.block_choice(self.strips, blocks)})
        self.flights.note(now, sorted(standing.flights))
        self.groups.note(now, panels.groups_panel(standing, self.groups_patches))
        if self.geometry:
            self.note_store(now)

    def note_patches(self, now):
        """Looks, classes, and what keeps patches back."""
        standing = self.standing
        for number in standing.altered:
            self.looks[number].note(now, standing.look(number))
        names = {standing.names[number] for number in standing.altered}
        names |= {standing.names[other] for number in standing.altered for other in standing.needing[number]}
        for number in (number for name in names for number in standing.members[name]):
            if standing.names[number] != number:
                self.names[number].note(now, standing.names[number])
        for name in names:
            keeper = standing.keeper(name) if standing.waits(name) else -1
            for number in standing.members[name]:
                self.keepers[number].note(now, keeper)

    def note_store(self, now):
        standing = self.standing
        disk = store_panels.read(standing.disk)
        self.holds.note(now, store_panels.store_panel(self.texts, store_panels.read(standing.cached), disk))

    # All of it.

    def story(self):
        led = leading(self.direct)
        spans = [self.strips.span(*span) for span in (*self.looked, *((p.block, p.start, p.end) for p in self.patches))]
        return {
            "isStore": self.geometry is not None,
            "geometry": store_panels.places(self.geometry) if self.geometry else None,
            "lookWords": panels.LOOKS,
            "crashes": panels.CRASHES,
            "unchosen": panels.UNCHOSEN,
            "untouched": panels.UNTOUCHED,
            "script": panels.script_list(self.lines),
            "strips": self.strips.listed(),
            "spans": spans if self.is_short else None,
            "patches": [self.patch_told(number, led[number]) for number in range(len(self.patches))],
            "moments": self.moments,
            "writable": self.writable.listed,
            "writes": {block: changes.listed for block, changes in self.writes.items()},
            "flights": self.flights.listed,
            "groups": self.groups.listed,
            "holds": self.holds.listed,
            "sends": self.sends,
            "lasting": self.lasting.listed,
            "texts": self.texts.listed(),
        }

    def patch_told(self, number, led):
        patch, made, is_hard = self.patches[number], self.made[number], self.entries[number].hard
        role = store_panels.role_words(made.role) if made.role else ""
        return {
            "number": number,
            "block": patch.block,
            **self.strips.span(patch.block, patch.start, patch.end),
            "hex": patch.content.hex(),
            "named": sorted(patch.after),
            "led": led,
            "send": self.send_of.get(number, len(self.sends)),
            "isHard": is_hard,
            "groups": list(made.groups),
            "role": store_panels.short_role(made.role) if made.role else "",
            "text": store_panels.text_of(made.role, patch.content) if made.role else "",
            "said": role or made.name or placed(patch),
            "about": panels.about_patch(patch, made, role, is_hard),
            "html": panels.patch_panel(patch, made, role, self.standing.over[number]),
            "looks": self.looks[number].listed,
            "names": self.names[number].listed,
            "keepers": self.keepers[number].listed,
        }
