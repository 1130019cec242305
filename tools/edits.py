"""Reads edits: files of lines 'file: src/FILE.rt', 'old: TEXT' and 'new: TEXT'."""

import os


def read_text(path):
    with open(path, encoding="utf-8") as it:
        return it.read()


def pairs_of(text):
    """The file that an edit changes, and its old and new texts."""
    file, old, pairs = None, None, []
    for line in text.split("\n"):
        if line.startswith("file: "):
            file = line.removeprefix("file: ").strip()
        elif line.startswith("old: "):
            old = line.removeprefix("old: ")
        elif line.startswith("new:"):
            if file is None or not old:
                raise ValueError("a 'new:' line stands before any 'file:' or 'old:' line")
            pairs.append((file, old, line.removeprefix("new:").removeprefix(" ")))
            old = None
    if not pairs:
        raise ValueError("it has no 'old:' and 'new:' pair")
    return pairs


def edited_texts(crate, pairs):
    """The texts of the files that these pairs change, one pair after another."""
    texts = {}
    for file, old, new in pairs:
        if not file.startswith("src/") or os.path.normpath(file) != file:
            raise ValueError(f"it changes {file}, which is no source")
        if file not in texts:
            if not os.path.isfile(f"{crate}/{file}"):
                raise ValueError(f"there is no file {file}")
            texts[file] = read_text(f"{crate}/{file}")
        found = texts[file].count(old)
        if found != 1:
            raise ValueError(f"an old text is in {file} {found} times, and not once")
        texts[file] = texts[file].replace(old, new)
    return texts
