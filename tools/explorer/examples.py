"""The pages of the examples: in which order one goes through them, and what each is linked with."""

import pathlib

from explorer.pages import About

ROOT = pathlib.Path(__file__).resolve().parent.parent.parent
SCRIPTS = ROOT / "examples"
PAGES = ROOT / "docs" / "pages"
# Each leads to the next one, and the last to the first.
ORDER = ("held_back", "cycle", "groups", "store", "overlap", "dependencies", "views", "merge")
HOME = "../../README.md"  # from the folder of the pages
PICTURE = "../explore_held_back.png"
PICTURES = {"store": "../explore_store.png"}


def script_of(name):
    return SCRIPTS / f"{name}.jsonl"


def next_of(name):
    return ORDER[(ORDER.index(name) + 1) % len(ORDER)]


def about(name, of_script):
    """What the page of an example says of itself, where `of_script` tells what a script says."""
    title, story = of_script(script_of(name))
    following = next_of(name)
    onward = (f"{following}.html", of_script(script_of(following))[0])
    return About(title, story, f"examples/{name}.jsonl", PICTURES.get(name, PICTURE), onward, HOME)
