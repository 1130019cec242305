"""What the lines of a script of a store and their answers say, in words."""

import plain_model
from explorer import words
from plain_disk import MAX_KEY, frame_length
from plain_model import writer_of

AT_END = "The script ends: all that isn't on the disk yet is written, in waves, and the file is synced."


def of_store(store, line, answer, made):
    """What a line says, which has made these patches."""
    if answer.startswith("refused"):
        return refused(store, line, answer.split()[1])
    return ACCEPTED[line["op"]](store, line, answer, made)


# Accepted lines.


def of_put(store, line, answer, made):
    entry = store.disk.slots[store.disk.slot_of(line["key"].encode())]
    size = f"{len(entry.value):,} byte{'' if len(entry.value) == 1 else 's'}"
    return f"The key {line['key']} has {size} now, in the cache. {roles(store, made)}{membership(store, line)}"


def roles(store, made):
    """What each of some patches is for, those of a frame together."""
    said, frame = [], []
    for number in made:
        kind, *role = store.made_patches[number].role
        frame += [number] * (kind == "frame")
        if kind != "frame" or role[2] == role[3]:
            said.append(SAID[kind](store, frame if kind == "frame" else number, *role))
            frame = []
    return f"{words.capital('; '.join(said))}." if said else ""


def frame_said(store, numbers, key, extent, part, parts):
    where = f"at the end of extent {extent}"
    if parts > 1:
        return f"{words.patches(numbers)} are the frame of {key}, {where}, over {parts} blocks"
    return f"patch {numbers[0]} is the frame of {key}, {where}"


def pointer_said(store, number, extent, generation, filled):
    name = store.cache.entries[number].name
    merged = f", in class {name}" if name != number else ""
    return f"patch {number} moves the extent's pointer behind it, to {filled:,}{merged}"


def reset_said(store, number, extent, generation, filled):
    return f"patch {number} empties extent {extent}, once all that left it is on the disk: generation {generation}"


def fill_said(store, number, slot, key):
    return f"patch {number} lets slot {slot} name it"


def clear_said(store, number, slot, key):
    return f"patch {number} clears slot {slot}"


SAID = {"frame": frame_said, "pointer": pointer_said, "reset": reset_said, "fill": fill_said, "clear": clear_said}


def membership(store, line):
    groups = sorted(plain_model.engaged_by(store.groups, writer_of(line)))
    return f" All of it belongs to {words.named('group', 'groups', groups)}." if groups else ""


def of_get(store, line, answer, made):
    return "The key has no value." if answer == "none" else "The value as the cache has it."


def of_delete(store, line, answer, made):
    return f"The key {line['key']} has no value now, in the cache. {roles(store, made)}{membership(store, line)}"


def of_reclaim(store, line, answer, made):
    moved = [role[2] for role in (store.made_patches[n].role for n in made) if role[0] == "fill"]
    if not moved:
        return f"Nothing in extent {line['extent']} is live. {roles(store, made)}"
    return f"What is live in extent {line['extent']} moves elsewhere: {', '.join(moved)}. {roles(store, made)}"


def of_sync(store, line, answer, made):
    return "All patches go to the file, in waves: all writes that can begin, begin, and end; then what waited for them."


def of_groups(store, line, answer, made):
    return words.ACCEPTED[line["op"]](store, (), line, answer)


ACCEPTED = {
    "put": of_put,
    "get": of_get,
    "delete": of_delete,
    "reclaim": of_reclaim,
    "sync": of_sync,
    **{op: of_groups for op in ("group", "engage", "disengage", "depend", "close", "pending")},
}


# Refused lines.


def refused(store, line, name):
    return OF_STORE[name](store, line) if name in OF_STORE else words.OF_ANY[name](store, line)


def key_length(store, line):
    return f"A key has 1 to {MAX_KEY} bytes, and this one has {len(line['key'].encode())}."


def value_length(store, line):
    size = len(line["hex"]) // 2 * line.get("times", 1)
    return f"A value has at most {store.geometry.max_value:,} bytes on this disk, and this one has {size:,}."


def no_key(store, line):
    return f"The key {line['key']} has no value."


def index_full(store, line):
    return f"Each of the {store.geometry.slots} slots has a key, and this one is new."


def no_space(store, line):
    if line["op"] == "reclaim":
        return "What is live in the extent doesn't fit elsewhere."
    size = len(line["hex"]) // 2 * line.get("times", 1)
    length = frame_length(line["key"].encode(), b"") + size
    return (
        f"Its frame of {length:,} bytes fits neither behind the pointer of the extent that puts go to, "
        "nor in an empty one: the last of these is kept."
    )


def no_such_extent(store, line):
    return f"There is no extent {line['extent']}: the last one is {store.geometry.extents - 1}."


def empty_extent(store, line):
    return f"Nothing was put in extent {line['extent']} since its last reset."


def open_extent(store, line):
    return f"Puts go to extent {line['extent']}, and something in it is live."


def generation_spent(store, line):
    return "The extent was reset as often as can be counted."


OF_STORE = {
    "KeyLength": key_length,
    "ValueLength": value_length,
    "NoKey": no_key,
    "IndexFull": index_full,
    "NoSpace": no_space,
    "NoSuchExtent": no_such_extent,
    "EmptyExtent": empty_extent,
    "OpenExtent": open_extent,
    "GenerationSpent": generation_spent,
}
