#!/usr/bin/env python3
"""Writes a script to measure the program with: python3 tools/measure_scripts.py PATTERN COUNT [--refused] > script.jsonl

Patterns of `fstch replay` make patches, and those of `fstch run` puts, COUNT of them or so. With --refused each line of the same
script is as long, and refused at once: what the one run costs more than the other is the work itself. On standard error stands what
the script is to be run with. The same PATTERN and COUNT give the same script.
"""

import argparse
import itertools
import json
import random
import sys

BLOCK = 4096
WAITING_BLOCKS = 1000
ROUNDS = 1000
FRAME = 124
SLOT = 64


def patch(block, start, hexadecimal, after=()):
    line = {"op": "patch", "block": block, "start": start, "hex": hexadecimal}
    return {**line, "after": list(after)} if after else line


def written(block):
    return [{"op": "send", "block": block}, {"op": "complete", "block": block}]


def apart(count):
    """Patches that share no byte, and one write of each block."""
    for number in range(count):
        yield patch(number // BLOCK, number % BLOCK, "aa")
    for block in range((count + BLOCK - 1) // BLOCK):
        yield from written(block)


def overlap(count):
    """Patches of eight bytes, each four further than the one before."""
    for number in range(count):
        yield patch(0, 4 * number % (BLOCK - 8), "aabbccddeeff0011")
    yield from written(0)


def hot(count):
    """Patches of the same eight bytes."""
    for _ in range(count):
        yield patch(0, 0, "aabbccddeeff0011")
    yield from written(0)


def views(count):
    """Patches of a byte each, and as many looks as ROUNDS at their block, each without one of them."""
    for number in range(count):
        yield patch(0, number % BLOCK, "aa")
    for turn in range(ROUNDS):
        taken = count - 1 - turn * 7919 % min(count, BLOCK)
        yield {"op": "view", "block": 0, "take": [taken], "start": 0, "len": 4}


def elsewhere(count):
    """As many patches on other blocks, and ROUNDS times a patch, its write and the end of that."""
    for number in range(count):
        yield patch(number % WAITING_BLOCKS, number // WAITING_BLOCKS, "aa")
    for turn in range(ROUNDS):
        yield patch(WAITING_BLOCKS, turn % BLOCK, "bb")
        yield from written(WAITING_BLOCKS)


def waiting(count):
    """The same where as many patches of the block wait for another one."""
    yield patch(1, 0, "aa")
    for number in range(count):
        yield patch(0, number % (BLOCK // 2), "aa", [0])
    for turn in range(ROUNDS):
        yield patch(0, BLOCK // 2 + turn % (BLOCK // 2), "bb")
        yield from written(0)


def merges_level(count):
    """Pairs of patches side by side, of which the second one waits for a patch of another block, each made one when all are laid."""
    yield patch(1, 0, "aa")
    for pair in range(count):
        yield patch(0, 2 * pair, "bb")
        yield patch(0, 2 * pair + 1, "cc", [0])
    for pair in range(count):
        yield {"op": "merge", "a": 2 * pair + 1, "b": 2 * pair + 2}


def merges_over(count):
    """Patches of a byte, and behind them one of two bytes beside each, over the next one, with which it is made one."""
    for number in range(count):
        yield patch(0, 2 * number, "bb")
    for pair in range(count - 1):
        yield patch(0, 2 * pair + 1, "cccc")
    for pair in range(count - 1):
        yield {"op": "merge", "a": pair, "b": count + pair}


def merges_naming(count):
    """The same where the later one names the next one."""
    for number in range(count):
        yield patch(0, 2 * number, "bb")
    for pair in range(count - 1):
        yield patch(0, 2 * pair + 1, "cc", [pair + 1])
    for pair in range(count - 1):
        yield {"op": "merge", "a": pair, "b": count + pair}


def merges_between(count):
    """The same where what the later one is over is over another one between the two."""
    for number in range(count):
        yield patch(0, 2 * number, "bb")
    for pair in range(count - 1):
        yield patch(0, 2 * pair + 2, "cc")
    for pair in range(count - 1):
        yield patch(0, 2 * pair + 1, "dddd")
    for pair in range(count - 1):
        yield {"op": "merge", "a": pair, "b": 2 * count - 1 + pair}


def puts(count):
    """What a store asks of its cache for so many puts of 100 bytes: a frame behind the last one, the pointer to its end, which
    becomes one with the pointer before, and a slot. At the end data, pointer and slots are written, each wave after the one before."""
    made, end, last, slots = 0, 0, None, (count + BLOCK // SLOT - 1) // (BLOCK // SLOT)
    pointer, data = slots + 1, slots + 2
    for number in range(count):
        parts = []
        while sum(size for _, size in parts) < FRAME:
            at = end % BLOCK
            size = min(FRAME - sum(size for _, size in parts), BLOCK - at)
            yield {**patch(data + end // BLOCK, at, "ab" * size), "drop": True}
            parts.append((made, size))
            made, end = made + 1, end + size
        yield {**patch(pointer, 0, "cd" * 8, [part for part, _ in parts]), "drop": True}
        if last is not None:
            yield {"op": "merge", "a": last, "b": made}
        last, made = made, made + 1
        yield {**patch(1 + number // (BLOCK // SLOT), number % (BLOCK // SLOT) * SLOT, "ef" * SLOT, [last]), "drop": True}
        made += 1
    for wave in range(data, data + (end + BLOCK - 1) // BLOCK), [pointer], range(1, slots + 1):
        for op in "send", "complete":
            yield from ({"op": op, "block": block} for block in wave)


def put(key, length):
    """A value of its own, in a pattern of at most eight bytes that is repeated."""
    width = next(width for width in (8, 4, 2, 1) if length % width == 0)
    pattern = random.Random(f"{key} {length}").randbytes(width).hex() if length else ""
    return {"op": "put", "key": key, "hex": pattern, "times": max(1, length // width)}


def name(number):
    return f"key{number:05d}"


SYNC = {"op": "sync", "group": 0}


def shuffled(count):
    numbers = list(range(count))
    random.Random(1).shuffle(numbers)
    return numbers


def keys(count, length, behind_each=()):
    """Keys with values of one length, in an order of their own, and a sync at the end."""
    for number in shuffled(count):
        yield put(name(number), length)
        yield from behind_each
    yield SYNC


def overwrite(count):
    """Values of 1,000 bytes under 100 keys, and a sync after 100 of them."""
    chosen = random.Random(3)
    for number in range(count):
        yield put(name(chosen.randrange(100)), 1000)
        if number % 100 == 99:
            yield SYNC
    yield SYNC


def mixed(count):
    """Half gets, four of ten puts of up to 4,096 bytes, and deletes, over 500 keys, and a sync after 50."""
    chosen = random.Random(5)
    for number in range(count):
        key, kind = name(chosen.randrange(500)), chosen.random()
        if kind < 0.5:
            yield {"op": "get", "key": key}
        elif kind < 0.9:
            yield put(key, chosen.randrange(BLOCK + 1))
        else:
            yield {"op": "delete", "key": key}
        if number % 50 == 49:
            yield SYNC


MERGES = merges_level, merges_over, merges_naming, merges_between
OF_REPLAY = {f.__name__: f for f in (apart, overlap, hot, views, elsewhere, waiting, *MERGES, puts)}
OF_RUN = {
    "small": lambda count: keys(count, 100),
    "synced": lambda count: keys(count, 100, behind_each=[SYNC]),
    "overwrite": overwrite,
    "large": lambda count: keys(count, 32768),
    "mixed": mixed,
}
DISKS = {"small": (16, 3), "synced": (16, 3), "overwrite": (2, 158), "large": (1, 65), "mixed": (8, 150)}


def refused(line):
    """A line of the same kind and about the same length that changes nothing."""
    if "key" in line:
        return {**line, "key": line["key"] + "k" * 33}
    if "group" in line:
        return {**line, "group": 4294967295}
    if line["op"] == "merge":
        return {**line, "a": 4294967295}
    return {**line, "block": 4294967295}


def main():
    words = argparse.ArgumentParser(description=__doc__, formatter_class=argparse.RawDescriptionHelpFormatter)
    words.add_argument("pattern", choices=[*OF_REPLAY, *OF_RUN])
    words.add_argument("count", type=int)
    words.add_argument("--refused", action="store_true")
    asked = words.parse_args()
    if asked.pattern in OF_RUN:
        lines = itertools.chain([{"op": "group"}], OF_RUN[asked.pattern](asked.count))
        index, extents = DISKS[asked.pattern]
        print(f"fstch make FILE --index {index} --extents {extents}; fstch run FILE", file=sys.stderr)
    else:
        lines = OF_REPLAY[asked.pattern](asked.count)
        print(f"fstch replay --blocks {WAITING_BLOCKS + 1}", file=sys.stderr)
    for line in lines:
        print(json.dumps(refused(line) if asked.refused and line["op"] != "group" else line, separators=(",", ":")))


if __name__ == "__main__":
    main()
