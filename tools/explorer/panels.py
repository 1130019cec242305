"""The texts of the panels beside the picture, with holes for the patches in them as they stand."""

import pathlib

from explorer.changes import all_of, escaped, hole, shortened, term
from explorer.words import placed

GUIDE = (pathlib.Path(__file__).parent / "page" / "guide.html").read_text(encoding="utf-8")
MOST_CHAINS = 4
NOTHING_TO_WRITE = '<p class="words">No block has anything to be written now.</p>'
UNCHOSEN = '<p class="words">Choose a patch: click its bar, or go to it with Tab and press Enter.</p>'
UNTOUCHED = '<p class="words">No block is touched yet.</p>'
LOOKS = {
    "memory": "in memory, and a write would take it",
    "waits": "in memory, and waits",
    "taken": "taken back",
    "flight": "in flight",
    "durable": "durable",
}
# What a page says of each kind of crash: of it, of what one chooses, and where there is nothing to choose.
CRASHES = {
    "kept": {
        "words": "A patch is written with what it depends on, or after it. What is under way may be there or not.",
        "legend": "Which writes had landed?",
        "none": "No write is under way: a crash leaves what the last writes left.",
    },
    "without": {
        "words": "A cache without the order writes a block whole, whatever its patches wait for.",
        "legend": "Which blocks had been written?",
        "none": "No block has anything to be written now.",
    },
    "reorders": {
        "words": "A disk that keeps writes back: of those since the last sync, ended or not, any may be there.",
        "legend": "Which writes are there?",
        "none": "No write was begun since the last sync.",
    },
}


# The line.


def is_refused(line):
    return line.answer.startswith("refused")


def is_end(line):
    """It stands for the end of a store's script."""
    return line.text == ""


def is_synced(line):
    """Behind it, all writes that were begun last."""
    return is_end(line) or line.answer == "synced"


def where(line, part):
    """Which moment it is."""
    name = "the end" if is_end(line) else f"line {line.number}"
    parts = len(line.moments)
    return f"{name}, part {part} of {parts}" if parts > 1 else name


def line_panel(line, part, last):
    """What is said of a moment of a line."""
    title = "Behind the last line" if is_end(line) else f"Line {line.number} of {last}"
    parts, words = len(line.moments), line.moments[part - 1].words
    step = f'<p class="part">Part {part} of {parts}: {escaped(words)}</p>' if parts > 1 else ""
    asked = f'<p class="asked"><code>{escaped(shortened(line.text))}</code></p>{answer_of(line)}'
    note = f'<p class="note">{escaped(line.note)}</p>' if line.note else ""
    return f'<h2>{title}</h2>{"" if is_end(line) else asked}{note}{step}<p class="words">{escaped(line.words)}</p>'


def answer_of(line):
    kind, sign = ("refused", "✕") if is_refused(line) else ("accepted", "✓")
    text = f'<code id="answer">{escaped(shortened(line.answer))}</code>'
    return f'<p class="answer {kind}"><span class="sign" aria-hidden="true">{sign}</span>{text}</p>'


def script_list(lines):
    """The script. A hidden item stands for what is before the first line."""
    return "<li hidden></li>" + "".join(script_item(*each) for each in enumerate(lines, 1))


def script_item(index, line):
    mark = "" if is_end(line) else "✕ " if is_refused(line) else "✓ "
    number, text = ("", "the end") if is_end(line) else (line.number, shortened(line.text, 120))
    asked = f'<span class="no">{number}</span><code>{escaped(text)}</code>'
    said = f'<code class="said">{mark}{escaped(shortened(line.answer, 60))}</code>'
    button = f'<button type="button" data-line="{index}">{asked}{said}</button>'
    return f'<li class="{"refused" if is_refused(line) else ""}">{button}</li>'


# A write.


def block_choice(strips, blocks):
    """Of which block one sees the write."""
    if not blocks:
        return NOTHING_TO_WRITE
    options = "".join(f'<option value="{block}">{strips.block_name(block)}</option>' for block in blocks)
    return f'<label class="check">Block <select id="write-block">{options}</select></label>'


def write_panel(standing, block):
    goes, back, later = standing.parts(block)
    looks = ("flight", "taken") if block in standing.flights else ("memory", "waits")
    lists = [
        term("goes", f'<span id="goes">{hole(block=block, looks=looks[0])}</span>'),
        term("taken back", f'<span id="taken-back">{hole(block=block, looks=looks[1])}</span>'),
        term("made since", hole(block=block, looks="memory waits")) if later else "",
    ]
    state = f'<p class="state" id="write-state">{state_of_write(standing, block, goes)}</p>'
    return f"{state}<dl>{''.join(lists)}</dl>{hole(bytes=block)}{chains(standing, back)}"


def state_of_write(standing, block, goes):
    if block in standing.flights:
        return "A write of it is under way."
    return "If it were sent now:" if goes else "Nothing of it may go now."


def chains(standing, waiting):
    """For patches that can't go, from each to the one that keeps it."""
    first = {}
    for number in waiting:
        first.setdefault(standing.names[number], number)
    if not first:
        return ""
    shown = "".join(f"<li>{hole(chain=number)}</li>" for number in list(first.values())[:MOST_CHAINS])
    left = len(first) - MOST_CHAINS
    more = f'<p class="none">and {left} more</p>' if left > 0 else ""
    return f'<h3>What keeps them</h3><ul class="chains">{shown}</ul>{more}'


# Groups.


def groups_panel(standing, patches_of):
    """The groups, of which each has these patches in the end."""
    return "".join(group_band(standing, number, patches_of.get(number, ())) for number in range(len(standing.groups)))


def group_band(standing, number, patches):
    group = standing.groups[number]
    pending = sum(standing.is_live(patch) for patch in patches if patch < standing.count)
    states = [
        f"engaged by writer {', '.join(map(str, group.writers))}" if group.writers else "",
        f"goes after group {', '.join(map(str, group.before))}" if group.before else "",
        "sealed" if group.is_sealed else "",
        "closed" if group.is_closed else "",
        f"{pending} pending",
    ]
    said = f'<b>group {number}</b> <span class="where">{" · ".join(filter(None, states))}</span>'
    data = f'data-group="{number}" data-pending="{pending}"'
    return f'<div class="group band{number % 4}" {data}>{said} {all_of(patches, "no patches")}</div>'


# A patch.


def patch_panel(patch, made, role, over):
    """All that stays of a patch, with places for what changes."""
    number = patch.number
    parts = [
        term("patch", all_of([number], "")),
        term("for", escaped(role or made.name)) if role or made.name else "",
        term("where", f"{placed(patch)}, line {made.line}"),
        term("writes", f"<code>{shortened(patch.content.hex(), 80)}</code>"),
        term("over", f"<code>{shortened(over.hex(), 80)}</code>"),
        term("state", '<span id="patch-state"></span>'),
        term("class", '<span id="patch-class"></span>'),
        term("groups", ", ".join(map(str, made.groups))) if made.groups else "",
        term("depends on", '<span id="patch-needs"></span>'),
        term("needed by", '<span id="patch-needing"></span>'),
        term("waits", hole(chain=number), ' id="patch-waits"'),
    ]
    return f"<dl>{''.join(parts)}</dl>"


def about_patch(patch, made, role, is_hard):
    """What is said of a patch before its look, and behind it."""
    words = [f"Patch {patch.number}", placed(patch), made.name]
    behind = [", hard"] if is_hard else []
    if made.groups:
        behind.append(f", of group {', '.join(map(str, made.groups))}")
    return [", ".join(filter(None, [*words, role])) + ", ", "".join(behind)]
