"""What a script says of itself to those who look at it: names in its lines that the program ignores.

`title` and `story` of its first line say what it is about. The `note` of a line says what it is for, and the `name` of
one that makes a patch what the patch is.
"""

import re

NARRATION = re.compile(r',\s*"(?:title|story|note|name)"\s*:\s*"(?:[^"\\]|\\.)*"')


def asked(text):
    """A line of a script without them: what it asks for."""
    return NARRATION.sub("", text)


def told(line, name):
    """What the object of a line says there, or nothing."""
    said = line.get(name, "")
    return said.encode("utf-8", "replace").decode() if isinstance(said, str) else ""
