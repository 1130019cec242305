"""Whether one can handle a page: by keys alone, by touch, on a narrow window, and with all that matters in sight."""

import time

DESKTOP, LOW, MIDDLE, PHONE = (1280, 900), (1280, 720), (1000, 900), (390, 844)
SCHEMES = ("light", "dark")
TRIES = 3  # steps, of which the quickest counts: others may be at work on the machine
LEAST_TARGET = 24  # pixels
SECONDS_OF_SCROLL = 2
WHERE = "document.querySelector('#where').textContent"
BEFORE_ALL = "before the first line"

MOST_OF_STEP = 2  # seconds

# What one may click or touch, and is smaller than it should be.
SMALL = f"""(() => {{
  const all = [...document.querySelectorAll("button, a, select, input, .bar")];
  const target = (one) => (one.matches("input") && one.closest("label")) || one;
  const size = (one) => (({{ width, height }}) => [width, height])(target(one).getBoundingClientRect());
  const isSmall = (one) => size(one)[0] > 0 && Math.min(...size(one)) < {LEAST_TARGET};
  return all.filter(isSmall).map((one) => `${{one.outerHTML.slice(0, 70)}}: ${{size(one)}}`);
}})()"""


# Some patch has implied arrows, and they are drawn where it is chosen.
DRAWS_IMPLIED = """(() => {
  leadTo(story.moments.findLastIndex(({ line }) => line === 4));
  const isDrawn = (number) => (choose(number), document.querySelector(".arrow.implied") !== null);
  return story.patches.filter(({ looks }) => looks[0][0] <= state.index).some(({ number }) => isDrawn(number));
})()"""


def box_of(looker, selector):
    """Where an element stands in the window."""
    script = "(({ left, top, right, bottom }) => ({ left, top, right, bottom }))(BOX.getBoundingClientRect())"
    return looker.value_of(script.replace("BOX", f"document.querySelector('{selector}')"))


def faults_of_handling(looker, page, is_store):
    yield from faults_of_width(looker, page)
    yield from faults_of_keys(looker, page)
    yield from faults_of_scrolling(looker, page)
    yield from faults_of_playing(looker, page)
    yield from faults_of_crash(looker, page)
    yield from faults_of_sight(looker, page, is_store)
    yield from faults_of_phone(looker, page)


def faults_of_width(looker, page):
    """At no width and at no moment is the page wider than its window, or a target too small."""
    small = set()
    for width, height in (DESKTOP, PHONE):
        looker.resize(width, height)
        for scheme in SCHEMES:
            looker.paint(scheme)
            looker.open(page.as_uri())
            for lead in ("0", "1", "Math.floor(story.moments.length / 2)", "story.moments.length"):
                looker.value_of(f"leadTo({lead})")
                wide = looker.value_of("document.documentElement.scrollWidth")
                if wide > width:
                    yield f"at {width} pixels, {scheme}, the page is {wide} wide"
                small.update(looker.value_of(SMALL))
    yield from (f"a target is too small: {target}" for target in sorted(small))


def faults_of_keys(looker, page):
    """By the keyboard alone one goes on, and back, and to a line, and chooses a patch."""
    looker.resize(*DESKTOP)
    looker.open(page.as_uri())
    for key, wanted in (("ArrowRight", "line 1"), ("ArrowLeft", BEFORE_ALL), ("]", "line 1"), ("[", BEFORE_ALL)):
        looker.press(key)
        if not looker.value_of(WHERE).startswith(wanted):
            yield f"the key {key} doesn't lead to {wanted}"
    looker.value_of("document.querySelector('#script [data-line=\"1\"]').focus()")
    looker.press("Enter")
    if not looker.value_of(WHERE).startswith("line 1"):
        yield "a line of the script doesn't lead there by the keyboard"
    looker.value_of("leadTo(story.moments.length)")
    if looker.value_of("document.querySelector('.bar') !== null") and not chooses_by_keys(looker):
        yield "the keyboard doesn't choose a patch"


def chooses_by_keys(looker):
    looker.value_of("document.activeElement.blur()")
    looker.press("b")
    looker.press("Enter")
    return looker.value_of("document.querySelector('#patch').textContent.includes('depends on')")


def faults_of_scrolling(looker, page):
    """Arrows up and down, the page keys, Home and End scroll the page, and lead to no other step."""
    looker.resize(DESKTOP[0], 400)
    looker.open(f"{page.as_uri()}#1")
    for key, is_down in (("ArrowDown", True), ("ArrowUp", False), ("PageDown", True), ("Home", False), ("End", True)):
        before = looker.value_of("scrollY")
        looker.press(key)
        if not scrolls(looker, before, is_down):
            yield f"the key {key} doesn't scroll the page"
    looker.press("PageUp")
    if not looker.value_of(WHERE).startswith("line 1"):
        yield "a key that scrolls the page leads to another step"


def scrolls(looker, before, is_down):
    end = time.monotonic() + SECONDS_OF_SCROLL
    while time.monotonic() < end:
        moved = looker.value_of("scrollY") - before
        if moved > 0 if is_down else moved < 0:
            time.sleep(0.3)  # it may scroll smoothly, and still goes on
            return True
    return False


def faults_of_playing(looker, page):
    """It goes on by itself until the end, and stops where one takes it over."""
    looker.open(page.as_uri())
    looker.press("p")
    time.sleep(0.1 + looker.value_of("SECONDS"))
    if looker.value_of(WHERE) == BEFORE_ALL:
        yield "it doesn't play"
    looker.press("ArrowRight")
    if looker.value_of("state.timer !== null"):
        yield "it goes on playing where one takes it over"
    looker.value_of("leadTo(story.moments.length - 2), play()")
    time.sleep(0.1 + looker.value_of("SECONDS"))
    if looker.value_of("state.timer !== null || state.index < story.moments.length - 1"):
        yield "it doesn't stop at the end"


def faults_of_crash(looker, page):
    """By the keyboard one says which writes had landed, and how the order is kept."""
    looker.resize(*DESKTOP)
    looker.open(page.as_uri())
    flight = looker.value_of("story.flights.find(([, blocks]) => blocks.length > 0)?.[0] ?? 0")
    if flight:
        looker.value_of(f"leadTo({flight})")
        for key in ("c", "Tab", " "):
            looker.press(key)
        if not looker.value_of("document.querySelector('[data-choice]').checked"):
            yield "the keyboard doesn't say which write had landed"
    looker.press("c")
    looker.press("ArrowRight")
    if looker.value_of("state.kind") != "without":
        yield "the keyboard doesn't choose how the order is kept"


def faults_of_sight(looker, page, is_store):
    """The crash stands beside the picture, with its verdict in the window; of a store, what it holds comes first."""
    for width, height in (MIDDLE, LOW, DESKTOP):
        looker.resize(width, height)
        looker.open(f"{page.as_uri()}#1")
        picture, crash, verdict = (box_of(looker, name) for name in ("#picture-part", "#crash-part", "#closed"))
        is_beside = crash["right"] < picture["left"] or picture["right"] < crash["left"]
        if not is_beside or verdict["bottom"] > height or picture["right"] - picture["left"] < width / 3:
            yield f"at {width} by {height} pixels, the crash isn't in sight beside the picture"
    if is_store and box_of(looker, "#store-part")["bottom"] > picture["top"]:
        yield "what the store holds doesn't come first"
    if is_store and not looker.value_of(DRAWS_IMPLIED):
        yield "the implied arrows of a chosen patch aren't drawn"


def faults_of_phone(looker, page):
    """The panel of a chosen bar opens under it, and the names of rows stay in sight."""
    looker.resize(*PHONE)
    looker.open(f"{page.as_uri()}#{looker.value_of('story.moments.length - 1')}")
    looker.value_of("document.querySelector('#durable').checked || document.querySelector('#durable').click()")
    if looker.value_of("document.querySelector('.bar') === null"):
        return
    looker.value_of("document.querySelector('.bar').dispatchEvent(new MouseEvent('click', { bubbles: true }))")
    bar, panel = box_of(looker, ".bar.chosen"), box_of(looker, "#patch-part")
    if not 0 <= panel["top"] - bar["bottom"] <= LEAST_TARGET or panel["bottom"] - panel["top"] < LEAST_TARGET:
        yield "on a narrow window the panel of a patch doesn't open under its bar"
    looker.value_of("document.querySelector('#leave').click()")
    if looker.value_of("getComputedStyle(document.querySelector('#patch-part')).display") != "none":
        yield "on a narrow window the panel of a patch doesn't close"
    looker.value_of("document.querySelector('#drawing').scrollLeft = 1e6")
    if box_of(looker, ".names .label")["left"] != box_of(looker, "#drawing")["left"]:
        yield "the names of rows don't stay in sight"


def faults_of_steps(looker, page):
    """Steps of a long script don't take long, whatever crash is looked at."""
    looker.resize(*DESKTOP)
    looker.open(page.as_uri())
    for part in (0.1, 0.5, 0.9):
        for kind in ("kept", "without", "reorders"):
            looker.value_of(f"leadTo(Math.floor({part} * story.moments.length))")
            looker.value_of(f"document.querySelector('[value={kind}]').click()")
            took = min(seconds_of_step(looker) for _ in range(TRIES))
            if took > MOST_OF_STEP:
                yield f"a step takes {took:.1f} seconds"


def seconds_of_step(looker):
    began = time.monotonic()
    looker.value_of("leadTo(state.index + 1), document.body.getBoundingClientRect().height")
    return time.monotonic() - began
