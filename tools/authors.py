"""What writers of random scripts share: chances, numbers, and lines of groups."""

import functools
import random

import plain_model
from plain_model import MAX_GROUPS, Refused, writer_of

MOST = 2**32 - 1  # that a number of a line may be
WRITERS = 8
LATE = 8  # so many of the last numbers are late ones

# How often each op of groups is asked for, one beside the other.
USUAL_OF_GROUPS = {"group": 7, "engage": 12, "disengage": 8, "depend": 9, "close": 2, "pending": 4, "sync": 2}

# The answers of these ops that scripts must have reached, the accepted one first.
REACHED_OF_GROUPS = {
    "group": "group TooManyGroups",
    "engage": "ok NoSuchGroup Sealed Engaged",
    "disengage": "ok NoSuchGroup NotEngaged",
    "depend": "ok NoSuchGroup SameGroup Sealed Started Engaged",
    "close": "ok NoSuchGroup Engaged",
    "pending": "pending NoSuchGroup",
    "sync": "synced NoSuchGroup",
}


class GroupAuthor:
    """Writes lines, with groups among them, and looks at the model before each of them."""

    orders_share = 0.1  # how often a script with groups puts more of them in order, in the place of a line

    def __init__(self, seed):
        self.random = random.Random(seed)
        self.lines, self.answers = [], []

    def ask(self, line):
        self.lines.append(line)
        self.answers.append(self.model.answer(line))

    def ask_some(self, count):
        for _ in range(count):
            if self.has_groups and self.chance(self.orders_share):
                self.ask_order(self.group_with_patches())
            self.ask(self.line())

    def drawn(self, weights):
        """A line of an op by these weights."""
        if self.has_groups:
            self.weigh_groups(weights)
        op = self.random.choices(list(weights), list(weights.values()))[0]
        return {"op": op, **getattr(self, op)()}

    def weigh_groups(self, weights):
        """First two groups, and mostly engagements where there is none."""
        if self.model.groups.count < 2:
            weights["group"] *= 6
        elif not self.model.groups.engaged:
            weights["engage"] *= 6
            weights["disengage"] /= 6

    def ask_order(self, on):
        """New groups in a chain behind this one, the last one engaged: its patches are after those of all before it."""
        for writer in self.engagers(on):
            self.ask({"op": "disengage", "group": on, "writer": writer})
        for _ in range(self.random.choice((1, 1, 2))):
            group = self.model.groups.count
            self.ask({"op": "group"})
            self.ask({"op": "depend", "group": group, "on": on})
            on = group
        self.ask({"op": "engage", "group": on, **self.writer()})

    def ask_many_groups(self):
        """As many groups as there may be, in one chain, and one more; the last one is engaged."""
        while self.model.groups.count < MAX_GROUPS:
            self.ask_next_group()
        self.ask({"op": "group"})
        self.ask({"op": "engage", "group": MAX_GROUPS - 1, **self.writer()})

    def ask_next_group(self):
        """One more group behind the last one, now and then with patches."""
        group = self.model.groups.count
        self.ask({"op": "group"})
        if group:
            self.ask({"op": "depend", "group": group, "on": group - 1})
        if self.chance(0.03):
            by = {"writer": self.random.randrange(self.writers)}
            self.ask({"op": "engage", "group": group, **by})
            for _ in range(self.random.randint(1, 2)):
                self.ask(self.patching_line(by))
            self.ask({"op": "disengage", "group": group, **by})

    def engagers(self, group):
        return sorted(writer for writer, engaged in self.model.groups.engaged if engaged == group)

    # Parts of lines.

    def chance(self, share):
        return self.random.random() < share

    def no_number(self, count):
        """One that nothing has, where so many things are numbered from 0."""
        return self.random.choice((count, count + 1, MOST))

    def numbers(self, count):
        """Those of so many things, mostly of the late ones alone."""
        return range(max(0, count - LATE) if self.chance(0.7) else 0, count)

    def shuffled(self, numbers):
        numbers = list(numbers)
        return self.random.sample(numbers, len(numbers))

    def writer(self):
        """A writer under its name, which may be missing for the first one."""
        writer = self.random.randrange(WRITERS if self.chance(0.05) else self.writers)
        return {"writer": writer} if writer or self.chance(0.3) else {}

    def group_for(self, check, *arguments):
        """Mostly a group against which the check finds no cause, behind these arguments; now and then one not made."""
        made = self.model.groups.count
        if made == 0 or self.chance(0.03):
            return self.no_number(made)
        numbers = self.numbers(made)
        some = self.random.sample(numbers, min(len(numbers), LATE))
        if self.chance(0.15):
            return some[0]
        return next((g for g in some if is_accepted(check, self.model.groups, *arguments, g)), some[0])

    def group_with_patches(self):
        """Mostly a group that has patches, where there is one."""
        groups = self.groups_with_patches()
        if groups and self.chance(0.7):
            return self.random.choice(groups)
        return self.group_for(plain_model.check_open)

    # Lines.

    def group(self):
        return {}

    def engage(self):
        by = self.writer()
        return {"group": self.group_for(plain_model.check_engage, writer_of(by)), **by}

    def disengage(self):
        engaged = sorted(self.model.groups.engaged)
        if engaged and self.chance(0.8):
            writer, group = self.random.choice(engaged)
            return {"group": group, "writer": writer}
        return {"group": self.group_for(plain_model.check_open), **self.writer()}

    def depend(self):
        on = self.group_with_patches()
        return {"group": self.group_for(functools.partial(plain_model.check_depend, on=on)), "on": on}

    def close(self):
        return {"group": self.group_for(plain_model.check_close)}

    def pending(self):
        return {"group": self.group_with_patches()}

    def sync(self):
        return {"group": self.group_with_patches()}


def is_accepted(check, *arguments):
    """Whether a check of the model's finds no cause to refuse."""
    try:
        check(*arguments)
    except Refused:
        return False
    return True


def kind(answer):
    """The kind of an answer: its first word, or the name of the refusal or the fault."""
    words = answer.split()
    return words[1] if words[0] in ("refused", "fault") else words[0]


# Scripts without some of their lines.


def renumbered(line, names, gone):
    """The line as it reads where what has this number under these names isn't made."""
    return {name: without_number(value, gone) if name in names else value for name, value in line.items()}


def without_number(value, gone):
    if isinstance(value, list):
        return [without_number(number, gone) for number in value if number != gone]
    return value - 1 if type(value) is int and value > gone else value
