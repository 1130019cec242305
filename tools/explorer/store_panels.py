"""What a page says of a store: what its patches are for, and what it holds."""

from explorer.changes import escaped
from plain_disk import FRAME_BEGINS, FRAME_ENDS, Disk, number_in

MOST_FRAMES = 24
NONE = '<span class="none">none</span>'
NO_KEY = '<p class="none">No key has a value.</p>'


# What a patch is for.


def short_role(role):
    """In a word or two."""
    kind, *said = role
    if kind == "frame":
        return f"{said[2]} of {said[3]}" if said[3] > 1 and said[2] > 1 else said[0]
    if kind == "pointer":
        return f"→ {said[2]:,}"
    if kind == "reset":
        return f"→ 0, gen. {said[1]}"
    return said[1] if kind == "fill" else "empty"


def role_words(role):
    """And in a sentence."""
    kind, *said = role
    if kind == "frame":
        return f"part {said[2]} of {said[3]} of the frame of {said[0]}, in extent {said[1]}"
    if kind == "pointer":
        return f"the pointer of extent {said[0]}, to {said[2]:,}"
    if kind == "reset":
        return f"the reset of extent {said[0]}, to generation {said[1]}"
    return f"slot {said[0]}, for {said[1]}" if kind == "fill" else f"slot {said[0]}, cleared of {said[1]}"


def text_of(role, content):
    """What stands in a row of bytes where this patch begins; nothing is a reason to show the bytes."""
    kind, *said = role
    if kind == "frame":
        return key_in(content) if content[:4] == FRAME_BEGINS else ""
    if kind in ("pointer", "reset"):
        return f"{said[2]:,}, gen. {said[1]}"
    return f"{said[1]} → {number_in(content, 2, 4)}+{number_in(content, 8, 12)}" if kind == "fill" else "empty"


def key_in(content):
    return bytes(content[12 : 12 + content[4]]).decode("utf-8", "replace")


# What the store holds.


def store_panel(texts, cached, disk):
    """Keys with their values, in the cache and on the disk, and extents."""
    extents = [extent_row(texts, cached, extent) for extent in range(cached.geometry.extents)]
    return texts.join(keys_table(texts, cached, disk), *extents)


def entries_of(disk):
    return {entry.key.decode("utf-8", "replace"): (slot, entry) for slot, entry in disk.used_slots()}


def keys_table(texts, cached, disk):
    here, there = entries_of(cached), entries_of(disk)
    if not here and not there:
        return texts.put(NO_KEY)
    rows = [texts.put(key_row(key, here.get(key), there.get(key))) for key in sorted({*here, *there})]
    heads = "".join(f'<th scope="col">{name}</th>' for name in ("key", "value", "slot", "extent", "on the disk"))
    begin = '<div class="scroll tall" tabindex="0" role="region" aria-label="Keys">'
    begin += f'<table class="keys" id="keys"><thead><tr>{heads}</tr></thead><tbody>'
    return texts.join(begin, *rows, "</tbody></table></div>")


def key_row(key, here, there):
    is_same = here and there and here[1].value == there[1].value
    on_disk = '<span class="none">the same</span>' if is_same else f"≠ {value_text(there[1].value) if there else NONE}"
    said = [NONE, "–", "–"]
    if here:
        slot, entry = here
        said = [value_text(entry.value), slot, f"{entry.extent} at {entry.offset:,}"]
    cells = "".join(f"<td>{cell}</td>" for cell in (*said, on_disk))
    length = len(here[1].value) if here else ""
    return f'<tr data-key="{escaped(key)}" data-length="{length}"><th scope="row">{escaped(key)}</th>{cells}</tr>'


def value_text(value):
    size = f"{len(value):,} byte{'' if len(value) == 1 else 's'}"
    text = value.hex() if len(value) <= 8 else f"{value[:4].hex()}…"
    return f'<code>{text or "–"}</code> <span class="where">{size}</span>'


def extent_row(texts, cached, extent):
    pointer, live = cached.pointers[extent], {entry.offset: entry for _, entry in cached.live(extent)}
    size = sum(entry.length for entry in live.values())
    numbers = f"pointer {pointer.filled:,} of {cached.geometry.extent_bytes:,} · live {size:,}"
    state = f"generation {pointer.generation} · {numbers if pointer.filled else 'empty'}"
    data = f'data-generation="{pointer.generation}" data-filled="{pointer.filled}" data-live="{size}"'
    said = f'<b>extent {extent}</b> <span class="where">{state}</span>'
    head = f'<div class="extent" data-extent="{extent}" {data}>{said}'
    return texts.join(head, *frames_row(texts, cached, extent, live), "</div>")


def frames_row(texts, cached, extent, live):
    """The frames up to the pointer; those that no slot names are space until a reclaim."""
    frames = frames_of(cached, extent)
    if not frames:
        return []
    left = len(frames) - MOST_FRAMES
    more = f'<span class="none">{left} more, and</span>' if left > 0 else ""
    boxes = [texts.put(frame_box(key, offset, offset in live)) for key, offset in frames[-MOST_FRAMES:]]
    return [f'<div class="frames">{more}', *boxes, '<span class="none">◂ pointer</span></div>']


def frame_box(key, offset, is_live):
    place = f"<small>{'' if is_live else 'no slot · '}at {offset:,}</small>"
    return f'<span class="frame-box {"live" if is_live else "dead"}">{escaped(key)}{place}</span>'


def frames_of(disk, extent):
    """The keys and offsets of the frames from the front of an extent to its pointer."""
    place, offset, frames = disk.geometry.place_of_extent(extent), 0, []
    content = bytes(disk.content[place : place + disk.pointers[extent].filled])
    while length := frame_length_at(content, offset):
        frames.append((key_in(content[offset : offset + length]), offset))
        offset += length
    return frames


def frame_length_at(content, offset):
    """How long the frame is that begins there, or 0 where none does."""
    if content[offset : offset + 4] != FRAME_BEGINS:
        return 0
    length = 16 + content[offset + 4] + number_in(content, offset + 8, offset + 12)
    return length if content[offset + length - 4 : offset + length] == FRAME_ENDS else 0


def places(geometry):
    """Where slots, pointers and extents of a disk stand, for who reads its bytes."""
    return {
        "blocks": geometry.blocks,
        "slots": geometry.slots,
        "extents": geometry.extents,
        "extentBytes": geometry.extent_bytes,
        "records": geometry.place_of_record(0),
        "frames": geometry.place_of_extent(0),
    }


def read(blocks):
    """A store's disk by what its blocks hold."""
    return Disk.read(b"".join(map(bytes, blocks)))
