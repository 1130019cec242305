"""Puts a story into a page: one file of HTML with its style, its script and its story in it."""

import base64
import html
import json
import pathlib
import re
import zlib
from dataclasses import dataclass

from explorer.showing import Showing

PARTS = pathlib.Path(__file__).parent / "page"
SCRIPTS = ("story.js", "picture.js", "panels.js", "crash.js", "opening.js", "main.js")
STORY_OF_ANY = "What a script does to blocks, step by step: its patches, its writes, and what a crash would leave."
STORY = re.compile(r'(<script type="text/plain" id="story">)([^<]*)(</script>)')
SHAPE = re.compile(r'<template id="([\w-]+)">(.*?)</template>', re.DOTALL)


def part(name):
    return (PARTS / name).read_text(encoding="utf-8")


def script():
    """The page's script: all of its JavaScript."""
    return "\n".join(map(part, SCRIPTS))


def plain(code):
    """Code of a page without what stands in it for its readers: indents, empty lines, and lines of comments."""
    lines = (line.strip() for line in code.splitlines())
    return "\n".join(line for line in lines if line and not line.startswith("//"))


def shapes():
    """What the script fills with values, by name."""
    return {name: text.replace("\n", "") for name, text in SHAPE.findall(part("shapes.html"))}


@dataclass(frozen=True)
class About:
    """What a page says of itself: what it is about, of which script it is made, and what it is linked with.

    `image` is for who shares the page. `onward` has the address and the title of the next one, and `home` is the
    address of the README.
    """

    title: str
    story: str
    script: str
    image: str = ""
    onward: tuple = ()
    home: str = ""


def page_of(about, story):
    """The page's text."""
    parts = {
        "title": html.escape(about.title),
        "told": html.escape(about.story),
        "made-of": html.escape(about.script),
        "image": f'<meta property="og:image" content="{html.escape(about.image)}">\n' if about.image else "",
        "links": links_of(about),
        "last": str(len(story["moments"]) - 1),
        "checked": " checked" if story["spans"] is not None else "",
        "hidden": "" if story["isStore"] else " hidden",
        "style": plain(part("page.css")),
        "story": packed({**story, "shapes": shapes()}),
        "script": plain(script()),
    }
    return re.sub(r"\{\{([\w-]+)\}\}", lambda name: parts[name[1]], part("page.html"))


def links_of(about):
    """Where one may go on from a page."""
    if not about.onward:
        return ""
    address, title = map(html.escape, about.onward)
    onward = f'<a href="{address}" rel="next">Next: {title}</a>'
    home = f'<a href="{html.escape(about.home)}">The README</a>'
    return f'<nav class="links" aria-label="Other pages">{onward} {home}</nav>'


def packed(story):
    """The story as the page has it: made small by zlib, and spelled in base64."""
    text = json.dumps(story, separators=(",", ":"), ensure_ascii=False)
    return base64.b64encode(zlib.compress(text.encode(), 9)).decode()


def unpacked(page):
    """The page's text, with its story as the browser unpacks it."""
    return STORY.sub(lambda found: found[1] + zlib.decompress(base64.b64decode(found[2])).decode() + found[3], page)


def story_of(model, lines):
    """What the page's script reads of a replay."""
    return Showing(model.entries, model.made, lines, model.first).story()


def story_of_store(store, lines):
    """And of a store."""
    return Showing(store.cache.entries, store.made_patches, lines, store.cache.first, store.geometry).story()
