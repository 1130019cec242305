"""What the lines of a script and their answers say, in words."""

import plain_model
from plain_model import BLOCK, Mark, Refused, engaged_by, numbers_of, shares_byte, writer_of

SHOWN = 12  # bytes, and numbers, that are written out


# Parts of sentences.


def patches(numbers):
    """Patches by their numbers."""
    return named("patch", "patches", numbers)


def named(one, many, numbers):
    numbers = list(numbers)
    if not numbers:
        return f"no {one}"
    if len(numbers) == 1:
        return f"{one} {numbers[0]}"
    if len(numbers) > SHOWN:
        return f"{len(numbers):,} {many}, {numbers[0]} to {numbers[-1]}"
    return f"{many} {', '.join(map(str, numbers[:-1]))} and {numbers[-1]}"


def hexed(content):
    """Bytes, of which only the first are written out where they are many."""
    if len(content) <= SHOWN:
        return content.hex()
    return f"{content[:4].hex()}… ({len(content):,} bytes)"


def span(start, end):
    return f"byte {start}" if end == start + 1 else f"bytes {start} to {end - 1}"


def placed(patch):
    return f"{span(patch.start, patch.end)} of block {patch.block}"


def marked(entry):
    return {Mark.MEMORY: "is in memory", Mark.FLIGHT: "is in flight", Mark.DURABLE: "is durable"}[entry.mark]


def capital(text):
    return text[:1].upper() + text[1:]


# What keeps a patch from being sent.


def keeper(model, number):
    """A patch that keeps this one, which waits, from the next write of its block."""
    block = model.entries[number].patch.block
    name = model.entries[number].name
    able = {entry.name for entry in model.ready(block)}
    needed = {n for member in model.links.members[name] for n in model.links.needs[member]}
    others = sorted(n for n in needed if model.entries[n].name != name)
    keeping = [n for n in others if model.keeps(n, block)]
    return (keeping or [n for n in others if model.entries[n].name not in able])[0]


def may_go(model, number):
    entry = model.entries[number]
    return entry.mark is Mark.MEMORY and entry.name in {other.name for other in model.ready(entry.patch.block)}


def chain(model, number):
    """The patches from one that waits to the one that lets nothing go: it is in flight, or could be sent now."""
    found = [number]
    while model.entries[found[-1]].mark is Mark.MEMORY and not may_go(model, found[-1]):
        found.append(keeper(model, found[-1]))
    return found


def waiting(model, number):
    """Why a patch waits."""
    numbers = chain(model, number)
    links = [f"patch {n} of block {model.entries[n].patch.block}" for n in numbers[1:]]
    last = model.entries[numbers[-1]]
    end = "which may be sent now" if last.mark is Mark.MEMORY else "which is in flight until that write is completed"
    return f"patch {number} waits for {', which waits for '.join(links)}, {end}"


# Accepted lines.


def of_replay(model, before, line, answer):
    """What a line and its answer say, where these were the patches before it."""
    if answer.startswith("refused"):
        return refused(model, before, line, answer.split()[1:])
    return ACCEPTED[line["op"]](model, before, line, answer)


def of_patch(model, before, line, answer):
    entry = model.entries[-1]
    patch = entry.patch
    replaced = model.without(patch.block, {entry.name})[patch.start : patch.end]
    written = f"{hexed(patch.content)} over {hexed(replaced)}"
    head = f"Patch {patch.number} writes {written}, {placed(patch)}, in the cache alone."
    return " ".join([head, *sharing(before, patch), *naming(model, line, patch), *hardness(entry, line)])


def sharing(before, patch):
    shared = [entry.patch.number for entry in before if shares_byte(patch, entry.patch)]
    return [f"It lies over {patches(shared)}, and depends on {'it' if len(shared) == 1 else 'them'}."] if shared else []


def naming(model, line, patch):
    said = []
    if line.get("after"):
        named_here = patches(sorted(set(line["after"])))
        said.append(f"It names {named_here}: it reaches the disk after, or in one write with, what it names.")
    groups = sorted(engaged_by(model.groups, writer_of(line)))
    if groups:
        said.append(f"It belongs to {named('group', 'groups', groups)}.")
    earlier = sorted(patch.after - set(line.get("after", ())))
    if earlier:
        said.append(f"So it names {patches(earlier)} of the groups before, too.")
    return said


def hardness(entry, line):
    if entry.hard:
        return [HARD]
    return [NOT_HARD] if line.get("drop") else []


HARD = "It is hard: all that it depends on is durable, or hard and of this block, so it is never taken back."
NOT_HARD = "It isn't hard, though it may be: something that it depends on is neither durable nor hard here."


def of_merge(model, before, line, answer):
    members = plain_model.members(model.entries, model.entries[line["a"]].name)
    return (
        f"{capital(patches(numbers_of(members)))} are one class now, named {members[0].name}: "
        "they are taken back together, and reach the disk together."
    )


def of_send(model, before, line, answer):
    block = line["block"]
    sent = numbers_of(plain_model.flying(model.entries, block))
    return f"A write of block {block} begins, with {patches(sent)}. {held_back(model, block)}"


def held_back(model, block):
    """What is taken back in the written copy of a block whose write has begun."""
    held = sorted(model.links.in_memory[block])
    if not held:
        return "Nothing is taken back: the written copy is the cached block."
    verb = "is" if len(held) == 1 else "are"
    return f"{capital(patches(held))} {verb} taken back in the written copy alone: {waiting(model, held[0])}."


def of_complete(model, before, line, answer):
    block = line["block"]
    landed = numbers_of(plain_model.flying(before, block))
    verb = "is" if len(landed) == 1 else "are"
    return f"The write of block {block} has landed: {patches(landed)} {verb} durable."


def of_view(model, before, line, answer):
    take, back = line["take"], line.get("back", [])
    if not take:
        return "Nothing is taken back: the block is shown as the cache has it."
    taken = f"{capital(patches(take))} {'is' if len(take) == 1 else 'are'} taken back"
    put = f", then {patches(back)} put back" if back else ""
    return f"{taken}{put}, and the block is shown without and with it; then all is put right again."


def of_show(model, before, line, answer):
    return f"{looked_at(line)} as the cache has them."


def of_disk(model, before, line, answer):
    return f"{looked_at(line)} as the disk has them."


def looked_at(line):
    return f"{capital(span(line['start'], line['start'] + line['len']))} of block {line['block']},"


def of_group(model, before, line, answer):
    return f"{capital(answer)} is made. It has no patches yet."


def of_engage(model, before, line, answer):
    return f"What writer {writer_of(line)} makes from now on belongs to group {line['group']}."


def of_disengage(model, before, line, answer):
    return f"What writer {writer_of(line)} makes from now on belongs to group {line['group']} no more."


def of_depend(model, before, line, answer):
    return (
        f"Group {line['group']} goes to the disk after group {line['on']}: its patches will name all of that one's. "
        f"So group {line['on']} is sealed, and takes no more patches."
    )


def of_close(model, before, line, answer):
    return f"The number {line['group']} is used no more. The group's patches, and its place in the order, stay."


def of_pending(model, before, line, answer):
    count = int(answer.split()[1])
    verb = "isn't" if count == 1 else "aren't"
    return f"{count} of the patches of group {line['group']} {verb} durable."


def of_sync(model, before, line, answer):
    landed = [old.patch.number for old, new in zip(before, model.entries) if old.mark is not new.mark]
    if not landed:
        return f"All patches of group {line['group']} are durable already."
    return f"Blocks are written until all patches of group {line['group']} are durable: {patches(landed)} by now."


ACCEPTED = {
    "patch": of_patch,
    "merge": of_merge,
    "send": of_send,
    "complete": of_complete,
    "view": of_view,
    "show": of_show,
    "disk": of_disk,
    "group": of_group,
    "engage": of_engage,
    "disengage": of_disengage,
    "depend": of_depend,
    "close": of_close,
    "pending": of_pending,
    "sync": of_sync,
}


# Refused lines.


def refused(model, entries, line, refusal):
    """Why the line was refused."""
    name = refusal[0]
    number = int(refusal[1]) if len(refusal) > 1 else None
    if line["op"] == "view" and name in OF_VIEW:
        return OF_VIEW[name](model, entries, line, faulty_move(entries, line), number)
    if line["op"] == "merge" and name in OF_MERGE:
        return OF_MERGE[name](model, entries, line, number)
    return OF_ANY[name](model, line)


def faulty_move(entries, line):
    """The number of a view that was refused."""
    taken = frozenset()
    for number in line["take"]:
        try:
            taken = plain_model.take(entries, line["block"], taken, number)
        except Refused:
            return number
    for number in line.get("back", ()):
        try:
            taken = plain_model.put_back(entries, taken, number)
        except Refused:
            return number
    raise ValueError("no move of the view is refused")


def view_unknown(model, entries, line, number, other):
    if number >= len(entries):
        return f"Patch {number} was never made."
    return f"Patch {number} is of block {entries[number].patch.block}, not of block {line['block']}."


def view_durable(model, entries, line, number, other):
    return f"Patch {number} is on the disk: it can't be taken back any more."


def view_in_flight(model, entries, line, number, other):
    return f"Patch {number} is in the write of its block that is under way, so it isn't taken back."


def view_hard(model, entries, line, number, other):
    return f"Patch {number} is hard: it keeps no bytes to be taken back to."


def view_already_taken(model, entries, line, number, other):
    return f"The class of patch {number} is taken back already."


def view_dependent_applied(model, entries, line, number, other):
    return f"Class {other} depends on patch {number} and isn't taken back: it would be there without it."


def view_not_taken(model, entries, line, number, other):
    return f"Patch {number} isn't taken back, so it can't be put back."


def view_dependency_taken(model, entries, line, number, other):
    return f"Patch {number} depends on class {other}, which is still taken back: that one has to be put back first."


OF_VIEW = {
    "Unknown": view_unknown,
    "Durable": view_durable,
    "InFlight": view_in_flight,
    "Hard": view_hard,
    "AlreadyTaken": view_already_taken,
    "DependentApplied": view_dependent_applied,
    "NotTaken": view_not_taken,
    "DependencyTaken": view_dependency_taken,
}


def merge_unknown(model, entries, line, number):
    return f"Patch {next(n for n in (line['a'], line['b']) if n >= len(entries))} was never made."


def merge_not_in_memory(model, entries, line, number):
    return f"Patch {number} {marked(entries[number])}: only patches in memory are merged."


def merge_same(model, entries, line, number):
    if line["a"] == line["b"]:
        return f"Both are patch {line['a']}: it is of one class with itself."
    return f"Patches {line['a']} and {line['b']} are of one class already, {entries[line['a']].name}."


def merge_other_block(model, entries, line, number):
    one, other = (entries[line[name]].patch for name in "ab")
    return f"Patch {one.number} is of block {one.block}, and patch {other.number} of block {other.block}."


def merge_hard(model, entries, line, number):
    return f"Patch {number} is hard: it can't be taken back, and a class is taken back whole."


def merge_apart(model, entries, line, number):
    one, other = (plain_model.members(entries, entries[line[name]].name) for name in "ab")
    return f"{capital(spans(one))} and {spans(other)} neither overlap nor touch: a class has no gap."


def spans(members):
    start, end = min(e.patch.start for e in members), max(e.patch.end for e in members)
    return f"{span(start, end)} of class {members[0].name}"


def merge_would_cycle(model, entries, line, number):
    a, b = (entries[line[name]].name for name in "ab")
    on, behind = (a, b) if number in model.on_the_way(b, a) else (b, a)
    return (
        f"Class {number} lies between them: it waits for class {on}, and class {behind} waits for it. "
        "As one class these two would have to go before it and after it."
    )


OF_MERGE = {
    "Unknown": merge_unknown,
    "NotInMemory": merge_not_in_memory,
    "Same": merge_same,
    "OtherBlock": merge_other_block,
    "Hard": merge_hard,
    "Apart": merge_apart,
    "WouldCycle": merge_would_cycle,
}


def no_such_block(model, line):
    return f"There is no block {line['block']}: the last one is {model.blocks - 1}."


def empty_patch(model, line):
    return "It has no bytes, and a patch has at least one."


def out_of_block(model, line):
    size = line["len"] if "len" in line else len(line["hex"]) // 2
    return f"A block has bytes 0 to {BLOCK - 1}, and {span(line['start'], line['start'] + size)} would go over its end."


def unknown_dependency(model, line):
    unknown = sorted({n for n in line["after"] if n >= len(model.entries)})
    return f"It names {patches(unknown)}, and the patches from {len(model.entries)} on aren't made yet."


def numbers_spent(model, line):
    return "As many patches were made as there are numbers."


def too_many_live(model, line):
    return "As many patches are in memory or in flight as may be, 65,536."


def already_in_flight(model, line):
    return f"Block {line['block']} has a write under way: it ends first."


def nothing_ready(model, line):
    held = sorted(model.links.in_memory[line["block"]])
    if not held:
        return f"Block {line['block']} has no patch in memory."
    return f"Nothing of block {line['block']} may go to the disk now: {waiting(model, held[0])}."


def stranger(model, line):
    return f"No write of block {line['block']} is under way."


def no_such_group(model, line):
    number = next(line[n] for n in ("group", "on") if n in line and not plain_model.is_open(model.groups, line[n]))
    return f"Group {number} {'was closed' if number < model.groups.count else 'was never made'}."


def same_group(model, line):
    return "A group can't go after itself."


def started(model, line):
    group, on = line["group"], line["on"]
    return f"Group {group} was engaged before: it may have patches, which wouldn't name those of group {on}."


def sealed(model, line):
    later = min(group for group, on in model.groups.orders if on == line["group"])
    return f"Group {later} depends on group {line['group']}, which is sealed so: it takes no more patches and orders."


def engaged(model, line):
    group = line["on"] if line["op"] == "depend" else line["group"]
    writer = writer_of(line) if line["op"] == "engage" else min(w for w, g in model.groups.engaged if g == group)
    why = "already" if line["op"] == "engage" else "and may add patches"
    return f"Writer {writer} has engaged group {group}, {why}."


def not_engaged(model, line):
    return f"Writer {writer_of(line)} hasn't engaged group {line['group']}."


def too_many_groups(model, line):
    return "As many groups were made as may be, 1,024."


OF_ANY = {
    "NoSuchBlock": no_such_block,
    "EmptyPatch": empty_patch,
    "OutOfBlock": out_of_block,
    "UnknownDependency": unknown_dependency,
    "NumbersSpent": numbers_spent,
    "TooManyLive": too_many_live,
    "AlreadyInFlight": already_in_flight,
    "NothingReady": nothing_ready,
    "Stranger": stranger,
    "NoSuchGroup": no_such_group,
    "SameGroup": same_group,
    "Started": started,
    "Sealed": sealed,
    "Engaged": engaged,
    "NotEngaged": not_engaged,
    "TooManyGroups": too_many_groups,
}
