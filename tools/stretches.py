"""What keys may have while a run is written, stretch by stretch, by the plain model: from one sync to the next."""

import collections
import functools
import itertools
from dataclasses import dataclass, field
from typing import Optional

import plain_model
import random_writers
import store_scripts
from comparing import Wrong
from plain_disk import Disk, Fault
from plain_model import writer_of
from plain_store import Store, value_of


class Lost(Wrong):
    """What is wrong with a disk: it doesn't open, or has what it may not have."""


@dataclass(frozen=True)
class Change:
    """A put or a delete that was accepted: its value, if it has one, and the groups that it belongs to."""

    key: bytes
    value: Optional[bytes]
    groups: frozenset = frozenset()


@dataclass
class Stretch:
    """What was done from one sync to the next one: all of it is written by the latter, and nothing before it."""

    first: dict  # the values at its beginning
    changes: list = field(default_factory=list)
    orders: list = field(default_factory=list)  # pairs of numbers of changes, the first of which goes to the disk first
    content: bytes = b""  # of the file, at its end

    @functools.cached_property
    def numbers(self):
        """Those of the changes of each key, in order."""
        numbers = collections.defaultdict(list)
        for number, change in enumerate(self.changes):
            numbers[change.key].append(number)
        return dict(numbers)

    def places(self, key, value):
        """Behind which changes the key has this value; -1 is before the first one."""
        here = [number for number in self.numbers.get(key, ()) if self.changes[number].value == value]
        return here if self.first.get(key) != value else [-1, *here]

    def check(self, values):
        """These values of keys, and none of the other keys, may be there while the stretch is written."""
        places = {key: self.places(key, values.get(key)) for key in {*values, *self.first, *self.numbers}}
        for key in sorted(places):
            if not places[key]:
                raise Lost(f"the key {key.hex()} is as it never was since the last sync")
        for one, other in self.orders:
            has_other = min(places[self.changes[other].key]) >= other
            if has_other and max(places[self.changes[one].key]) < one:
                raise Lost(f"change {other} since the last sync is there, and change {one} of a group before isn't")

    def end(self, store):
        befores = [
            {before for group in change.groups for before in plain_model.groups_before(store.groups, group)}
            for change in self.changes
        ]
        pairs = itertools.permutations(range(len(self.changes)), 2)
        self.orders = [(one, other) for one, other in pairs if self.changes[one].groups & befores[other]]
        self.content = bytes(store.disk.content)


def values_of(disk):
    return {entry.key: entry.value for _, entry in disk.used_slots()}


def values_in(content):
    """Those of a file that holds this."""
    try:
        return values_of(Disk.read(content))
    except Fault as fault:
        raise Lost(f"it can't be opened: {fault}") from None


def stretches_of(call, before, after):
    """Those of a run, or of an upgrade, which changes no value."""
    if call.words[0] == store_scripts.RUN:
        return list(stretches(before, call.lines))
    return [Stretch(values_in(before), content=after)]


def stretches(content, lines):
    """The stretches of a run, the last of which ends with it."""
    store = Store(Disk.read(content))
    stretch = Stretch(values_of(store.disk))
    for line in lines:
        groups = frozenset(plain_model.engaged_by(store.groups, writer_of(line)))
        answer = store.answer(line)
        if is_change(line, answer):
            stretch.changes.append(change_of(line, groups))
        if answer == "synced":
            stretch.end(store)
            yield stretch
            stretch = Stretch(values_of(store.disk))
    stretch.end(store)
    yield stretch


def is_change(line, answer):
    return answer == "ok" and line["op"] in ("put", "delete")


def change_of(line, groups=frozenset()):
    return Change(line["key"].encode(), value_of(line) if line["op"] == "put" else None, groups)


def merged(some):
    """One stretch from the beginning of the first to the end of the last."""
    changes, orders = [], []
    for stretch in some:
        orders += [(len(changes) + one, len(changes) + other) for one, other in stretch.orders]
        changes += stretch.changes
    return Stretch(some[0].first, changes, orders, some[-1].content)


class Reached:
    """Which stretch is under way, as what the file holds becomes what it has at the end of one after another."""

    def __init__(self, all_of_a_call):
        self.stretches, self.number = all_of_a_call, 0

    @property
    def stretch(self):
        return self.stretches[self.number]

    def go_on(self, content):
        while self.number + 1 < len(self.stretches) and content == self.stretch.content:
            self.number += 1


# Several writers.


def stretch_of_writers(call, jobs, seen, before, after):
    """The one of a run of several writers: what they do is in no order. By these answers, it may end with what the file has then."""
    status, text = seen
    answers = random_writers.split(text, jobs)
    if status or answers is None:
        raise Wrong(f"{' '.join(call.command('fstch'))} ends with {status}, and answers:\n{text}")
    changes = [list(changes_of(job, said)) for job, said in zip(jobs, answers)]
    first, values = values_in(before), values_in(after)
    for key in {*first, *values, *(change.key for some in changes for change in some)}:
        check_end(key, values.get(key), first, changes)
    return Stretch(first, list(itertools.chain.from_iterable(changes)), content=after)


def changes_of(job, answers):
    for line, answer in zip(job, answers):
        if answer.removeprefix("refused ").split(" ")[0] not in store_scripts.REACHED[line["op"]].split():
            raise Wrong(f"{line} is answered by: {answer}")
        if is_change(line, answer):
            yield change_of(line)


def check_end(key, value, first, changes):
    """At the end a key has what the last change of it by one of the writers gave it."""
    lasts = [[change.value for change in some if change.key == key][-1:] for some in changes]
    if value not in (list(itertools.chain.from_iterable(lasts)) or [first.get(key)]):
        raise Wrong(f"at the end, the key {key.hex()} has what no last change of it gave it")
