"""The story of a script of patches, which `fstch replay` answers."""

from explorer import narration, words
from explorer.stories import Line, Made, WatchedModel, told_of_groups
from plain_model import Complete, Send, engaged_by, writer_of

LOOKS = ("view", "show", "disk")


class Replay(WatchedModel):
    """The model of a replay that keeps what the page says of its patches."""

    def __init__(self, blocks):
        super().__init__(blocks)
        self.made = []
        self.is_syncing = False

    def tell_line(self, number, text, line):
        """A line is answered and told."""
        before, groups = self.entries, self.groups
        answer = self.answer(line)
        if answer.startswith("patch"):
            engaged = tuple(sorted(engaged_by(groups, writer_of(line))))
            self.made.append(Made(number, engaged, name=narration.told(line, "name")))
        if told := told_of_groups(line, answer):
            self.tell(*told)
        said = words.of_replay(self, before, line, answer)
        note = narration.told(line, "note")
        return Line(number, text, answer, said, self.take_moments(), look_of(line, answer), note)

    def sync(self, line):
        """Each write that begins or ends is a moment of its own."""
        self.is_syncing = True
        try:
            return super().sync(line)
        finally:
            self.is_syncing = False

    def accept(self, step):
        super().accept(step)
        if not self.is_syncing:
            return
        numbers = self.moment.done[-1][2]
        if isinstance(step, Send):
            self.end_moment(f"A write of block {step.block} begins, with {words.patches(numbers)}.")
        if isinstance(step, Complete):
            self.end_moment(f"The write of block {step.block} is on the disk, with {words.patches(numbers)}.")


def look_of(line, answer):
    """What a line looks at: the block, the bytes, and the patches that it takes back and doesn't put back."""
    if line["op"] not in LOOKS or answer.startswith("refused"):
        return {}
    look = {name: line[name] for name in ("op", "block", "start", "len")}
    if line["op"] == "view":
        look.update(take=line["take"], back=line.get("back", []))
    return look


def story_of(lines, blocks):
    """The lines of a script, given as (number, text, object), told one after another, and their model."""
    model = Replay(blocks)
    return model, [model.tell_line(*line) for line in lines]
