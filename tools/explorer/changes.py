"""What the page's script reads: texts that others share parts of, and how something changes from moment to moment."""

import html
import json


def escaped(text):
    return html.escape(str(text))


def shortened(text, most=400):
    """The text, or its beginning where it is longer."""
    return text if len(text) <= most else f"{text[: most - 20]}… ({len(text):,} characters)"


class Texts:
    """Texts by their numbers, each once. One that is made of others is a list of their numbers."""

    def __init__(self):
        self.numbers = {}

    def put(self, text):
        return self.numbers.setdefault(text, len(self.numbers))

    def join(self, *parts):
        """The number of a text that is made of these, which are texts, or numbers of some."""
        return self.put(tuple(part if isinstance(part, int) else self.put(part) for part in parts))

    def listed(self):
        return list(self.numbers)


class Changes:
    """A list of [moment, value]: what holds from which moment on."""

    def __init__(self):
        self.listed = []

    def note(self, moment, value):
        """This holds at the moment, whether it is new or not."""
        if not self.listed or self.listed[-1][1] != value:
            self.listed.append([moment, value])


# Holes in texts, which the script fills with what holds at a moment.


def hole(**data):
    """An element that stands for something else."""
    said = "".join(f' data-{name}="{escaped(value)}"' for name, value in data.items())
    return f"<span{said}></span>"


def all_of(numbers, none):
    """Those of these patches that are made by then."""
    return hole(all=json.dumps(list(numbers), separators=(",", ":")), none=none)


def term(name, content, more=""):
    return f"<div{more}><dt>{name}</dt><dd>{content}</dd></div>"
