"""Random calls of the module `fstch`, beside a dict, by processes that are killed.

    python3 tools/library/random_calls.py                # 10,000 calls; --calls N, --seed S change that

A life is a process that opens the store, makes some of the calls, and compares what they answer with a dict. The store is nearly full, so
that puts win room back; in some lives the random reclaims alone do. Where puts do, one is refused only beyond the header's bound, or
where no extent is empty. Most lives are killed soon after a call has begun, mostly a sync; of the others some close the store without a
sync, and some leave it by the end of a `with`. Then each key has to have a value that it had at the last sync that was answered, or was
given since; where the store was closed, just that of the last sync; where it was left, the last one. Of two keys that were put in
order, the later one's value may be there only with the earlier one's, or what came after it. The calls are the same for the same seed;
where a life is killed isn't quite. The last line tells how many calls, lives and kills there were, how many puts were refused, and how
much of the extents was live, a median of what the lives left; the status is 1 if anything was wrong.
"""

import argparse
import os
import random
import signal
import statistics
import subprocess
import sys
import tempfile
import time
from dataclasses import dataclass
from typing import Optional

import fstch

FILE = "random.disk"
KEYS = 240
EXTENTS = 12
EXTENT = 65536  # bytes
LENGTHS = (200, 6000, 12000, 18000)  # of values, at most
BY_HAND_SHARE = 0.15  # how often room is won back by reclaims alone in a life
CALLS_OF_A_LIFE = 200
SYNCS_SHARE = 0.7  # how often a life is killed at a sync
SECONDS_TILL_KILLED = 0.003  # at most, behind the beginning of the call
CALLS = {"put": 40, "delete": 12, "get": 18, "contains": 5, "count": 2, "list": 2, "range": 4, "sync": 6, "reclaim": 5, "ordered": 8}
ENDS = {"killed": 6, "closed": 1, "left": 1}
OPENED = b"opened\n"


# Calls.


@dataclass(frozen=True)
class Change:
    """A key's new value, or that it has none any more."""

    key: bytes
    value: Optional[bytes]


@dataclass(frozen=True)
class Call:
    """What is called, with which key or extent, and which changes that makes where nothing is refused."""

    kind: str
    key: bytes = b""
    extent: int = 0
    changes: tuple = ()


def call_of(seed, number):
    """The call of this number."""
    chance = random.Random(f"{seed} {number}")
    kind = chance.choices(list(CALLS), list(CALLS.values()))[0]
    key, other = (b"key %d" % it for it in chance.sample(range(KEYS), 2))
    if kind == "put":
        return Call(kind, changes=(Change(key, value_of(chance, number, b"v")),))
    if kind == "delete":
        return Call(kind, changes=(Change(key, None),))
    if kind == "ordered":
        return Call(kind, changes=(Change(key, value_of(chance, number, b"a")), Change(other, value_of(chance, number, b"b"))))
    return Call(kind, key, chance.randrange(EXTENTS + 1))


def value_of(chance, number, letter):
    """A value that no other call gives."""
    mark = b"%d%s" % (number, letter)
    length = chance.randrange(chance.choice(LENGTHS))
    return (mark * (length // len(mark) + 1))[: max(length, len(mark))]


# A life.


class Wrong(Exception):
    """What is wrong."""


def want(wanted, seen, what):
    if wanted != seen:
        raise Wrong(f"{what}: {shown(seen)} and not {shown(wanted)}")


def shown(value):
    text = repr(value)
    return text if len(text) < 100 else f"{text[:100]}.."


def say(text):
    os.write(1, text.encode())


class Life:
    """A store, and a dict beside it."""

    def __init__(self, store, is_by_hand):
        self.store, self.values, self.is_by_hand = store, dict(store), is_by_hand

    def make(self, number, call):
        say(f"begun {number}\n")
        getattr(self, call.kind)(number, call)

    def put(self, number, call):
        (change,) = call.changes
        self.set(number, change)

    def delete(self, number, call):
        (change,) = call.changes
        try:
            del self.store[change.key]
            had = True
        except KeyError:
            had = False
        want(change.key in self.values, had, f"delete {change.key}")
        self.values.pop(change.key, None)

    def get(self, number, call):
        want(self.values.get(call.key), self.store.get(call.key), f"get {call.key}")

    def contains(self, number, call):
        want(call.key in self.values, call.key in self.store, f"contains {call.key}")

    def count(self, number, call):
        want(len(self.values), len(self.store), "len")

    def list(self, number, call):
        want({key: len(value) for key, value in self.values.items()}, self.store.lengths(), "lengths")
        want(sorted(self.values), list(self.store), "keys")
        want(sorted(self.values, reverse=True), list(reversed(self.store)), "keys from the last one on")

    def range(self, number, call):
        keys = sorted(self.values)
        want([key for key in keys if key >= call.key], list(self.store.keys(call.key)), f"keys from {call.key} on")
        want([key for key in keys[::-1] if key < call.key], list(reversed(self.store.keys(stop=call.key))), f"keys below {call.key}")
        alike = [(key, self.values[key]) for key in keys if key.startswith(call.key)]
        want(alike, list(self.store.items(prefix=call.key)), f"keys that begin with {call.key}")

    def sync(self, number, call):
        self.store.sync()
        say(f"synced {number}\n")

    def reclaim(self, number, call):
        try:
            self.store.reclaim(call.extent)
        except (fstch.NoSuchExtent, fstch.EmptyExtent, fstch.OpenExtent, fstch.NoSpace):
            pass

    def ordered(self, number, call):
        earlier, later = call.changes
        with self.store.group() as first:
            has_earlier = self.set(number, earlier)
        with self.store.group(after=first) as second:
            self.set(number, later)
        if has_earlier and first.pending == 0 and second.pending > 0:
            raise Wrong("the first group is on the disk without a sync")

    def set(self, number, change):
        """Whether a value is put."""
        try:
            self.store[change.key] = change.value
        except fstch.NoSpace:
            say(f"refused {number} {change.key.hex()}\n")
            self.want_full(change)
            return False
        self.values[change.key] = change.value
        want(change.value, self.store[change.key], f"the value of {change.key}")
        return True


    def want_full(self, change):
        """Where puts win room back themselves one is refused for want of room alone."""
        if self.is_by_hand:
            return
        seen = self.store.statistics()
        most = (EXTENTS - 2) * (EXTENT - len(change.key) - len(change.value) - 16)
        if seen.empty_extents > 0 and seen.live_bytes <= most:
            raise Wrong(f"a put of {len(change.value)} bytes is refused, and {seen.live_bytes} bytes are live")


def live(seed, first, end, is_by_hand):
    store = fstch.open(FILE, manual=is_by_hand)
    say(OPENED.decode())
    life = Life(store, is_by_hand)
    numbers = range(first, first + CALLS_OF_A_LIFE)
    if end == "left":
        with store:
            make_all(life, seed, numbers)
        return
    make_all(life, seed, numbers)
    if end == "killed":
        signal.pause()
    store.close()


def make_all(life, seed, numbers):
    for number in numbers:
        life.make(number, call_of(seed, number))


# What a life leaves.


@dataclass
class Told:
    """What a life told: the last call that it began, the last sync that was answered, and which changes were refused."""

    begun: int
    synced: int
    refused: set


def told_by(lines, first):
    told = Told(first - 1, first - 1, set())
    for line in lines:
        word, number, *key = line.decode().split()
        if word == "refused":
            told.refused.add((int(number), bytes.fromhex(key[0])))
        else:
            setattr(told, word, int(number))
    return told


class Histories:
    """What each key had at a sync, and was given since, with the number of the call."""

    def __init__(self, values):
        self.of_key = {key: [(-1, value)] for key, value in values.items()}
        self.orders = []

    def of(self, key):
        return self.of_key.setdefault(key, [(-1, None)])

    def take(self, number, call, refused):
        changes = [it for it in call.changes if (number, it.key) not in refused]
        for change in changes:
            self.of(change.key).append((number, change.value))
        if len(changes) == 2:
            self.orders.append((number, *changes))

    def last(self):
        """The values behind all changes."""
        ended = {key: history[-1][1] for key, history in self.of_key.items()}
        return {key: value for key, value in ended.items() if value is not None}

    def latest(self, key, value):
        """The latest call that may have given the key what it has."""
        return max(number for number, given in self.of(key) if given == value)

    def check(self, values):
        """Whether a crash may have left these values."""
        for key in {*self.of_key, *values}:
            if values.get(key) not in [value for _, value in self.of(key)]:
                raise Wrong(f"{key} has {shown(values.get(key))}, which it had neither at the last sync nor since")
        for number, earlier, later in self.orders:
            if values.get(later.key) == later.value and self.latest(earlier.key, values.get(earlier.key)) < number:
                raise Wrong(f"call {number}: {later.key} is there, and {earlier.key} before it is not")


def what_is_left():
    """The values of the store, and how much of its extents is live."""
    with fstch.open(FILE) as store:
        return dict(store), store.statistics().live_bytes / (EXTENTS * EXTENT)


class Trial:
    """A store that lives through one life after another."""

    def __init__(self, seed):
        self.seed = seed
        self.chance = random.Random(seed)
        self.values = {}
        self.first = self.lives = self.kills = self.cut_off = self.calls = self.refused = 0
        self.shares = []

    def live(self):
        end = self.chance.choices(list(ENDS), list(ENDS.values()))[0]
        told = told_by(self.lines_of_a_life(end), self.first)
        self.check(told, end)
        self.calls += told.begun + 1 - self.first
        self.first = told.begun + 1
        self.lives += 1
        self.refused += len(told.refused)
        self.kills += end == "killed"
        self.cut_off += end == "killed" and told.synced < told.begun and call_of(self.seed, told.begun).kind == "sync"

    def lines_of_a_life(self, end):
        """What a life says, which is killed if that is to be its end."""
        how = "hand" if self.chance.random() < BY_HAND_SHARE else "puts"
        words = [sys.executable, os.path.abspath(__file__), "--life", str(self.seed), str(self.first), end, how]
        with subprocess.Popen(words, stdout=subprocess.PIPE) as life:
            want(OPENED, life.stdout.readline(), "the first line of a life")
            lines = self.lines_till_killed(life) if end == "killed" else []
            lines += life.communicate()[0].splitlines(keepends=True)
        want(-signal.SIGKILL if end == "killed" else 0, life.returncode, "the status of a life")
        # (of a line that was cut off nothing was done)
        return [line for line in lines if line.endswith(b"\n")]

    def lines_till_killed(self, life):
        last, lines = b"begun %d\n" % self.last_call(), []
        while last not in lines:
            lines.append(life.stdout.readline())
            if not lines[-1]:
                raise Wrong("a life ended by itself")
        time.sleep(self.chance.uniform(0, SECONDS_TILL_KILLED))
        life.kill()
        return lines

    def last_call(self):
        """The call in which a life is killed."""
        numbers = range(self.first, self.first + CALLS_OF_A_LIFE)
        syncs = [number for number in numbers if call_of(self.seed, number).kind == "sync"]
        return self.chance.choice(syncs if syncs and self.chance.random() < SYNCS_SHARE else numbers)

    def check(self, told, end):
        histories = Histories(self.values)
        for number in range(self.first, told.begun + 1):
            histories.take(number, call_of(self.seed, number), told.refused)
            if number == told.synced:
                histories = Histories(histories.last())
        left, share = what_is_left()
        self.shares.append(share)
        if end == "killed":
            histories.check(left)
        elif end == "left":
            want(histories.last(), left, "what was left")
        else:
            want({key: history[0][1] for key, history in histories.of_key.items() if history[0][1] is not None}, left, "what was closed")
        self.values = left


def arguments():
    parser = argparse.ArgumentParser(description=__doc__, formatter_class=argparse.RawDescriptionHelpFormatter)
    parser.add_argument("--calls", type=int, default=10_000, help="how many calls at least (default 10,000)")
    parser.add_argument("--seed", type=int, default=1, help="which calls (default 1)")
    parser.add_argument("--life", nargs=4, metavar=("SEED", "FIRST", "END", "HOW"), help=argparse.SUPPRESS)
    return parser.parse_args()


def main():
    words = arguments()
    if words.life:
        seed, first, end, how = words.life
        live(int(seed), int(first), end, how == "hand")
        return 0
    with tempfile.TemporaryDirectory() as folder:
        os.chdir(folder)
        fstch.make(FILE, index_blocks=4, extents=EXTENTS)
        trial = Trial(words.seed)
        try:
            while trial.calls < words.calls:
                trial.live()
        except Wrong as wrong:
            print(f"seed {words.seed}, life {trial.lives}, from call {trial.first} on: {wrong}")
            return 1
    killed = f"{trial.kills} of them killed, {trial.cut_off} in the middle of a sync"
    room = f"{trial.refused} puts refused, {statistics.median(trial.shares):.0%} live"
    print(f"{trial.calls} calls in {trial.lives} lives, {killed}, {room}: all as in a dict")
    return 0


if __name__ == "__main__":
    sys.exit(main())
