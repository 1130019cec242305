// Goes through the moments: slider, keys and buttons.

const SECONDS = 1.8; // between two steps that go by themselves
const STEPS = { ArrowRight: 1, ArrowLeft: -1 };
const LINES = { "]": "next", "[": "previous" };

// What these keys lead to.
const PLACES = { b: "#drawing .bar", w: "#write-block", c: "#kinds :checked" };

function goTo(index) {
  const place = Math.min(Math.max(index, 0), story.moments.length - 1);
  if (place !== state.index) state.landed = null;
  state.index = place;
  show();
}

const isAtEnd = () => state.index === story.moments.length - 1;

// By hand one stops what goes by itself.
function leadTo(index) {
  stop();
  goTo(index);
}

function play() {
  if (state.timer) return stop();
  if (isAtEnd()) goTo(0);
  state.timer = setInterval(() => (goTo(state.index + 1), isAtEnd() && stop()), 1000 * SECONDS);
  showPlaying();
}

function stop() {
  clearInterval(state.timer);
  state.timer = null;
  showPlaying();
}

function showPlaying() {
  at("play").textContent = state.timer ? "❚❚ Pause" : "▶ Play";
  at("line").setAttribute("aria-live", state.timer ? "off" : "polite");
}

function choose(number) {
  state.chosen = state.chosen === number ? null : number;
  show();
  focusBar(number);
  if (state.chosen !== null) at("patch-part").scrollIntoView({ block: "nearest" });
}

const barOf = (number) => document.querySelector(`.bar[data-patch="${number}"]`);
const focusBar = (number) => barOf(number)?.focus({ preventScroll: true });

// Showing.

function show() {
  const now = standingAt(state.index);
  now.crash = crashAt(now);
  at("slider").value = now.index;
  at("slider").setAttribute("aria-valuetext", now.where);
  at("where").textContent = now.where;
  at("back").disabled = now.index === 0;
  at("on").disabled = isAtEnd();
  at("line").innerHTML = now.said;
  put(now, "groups", now.held(story.groups));
  at("groups-part").hidden = now.held(story.groups) === "";
  if (story.isStore) at("store").innerHTML = joined(now.held(story.holds));
  showWrite(now);
  showCrash(now);
  showPicture(now);
  showPatch(now);
  placePatch();
  showScript(now);
  history.replaceState(null, "", `#${state.index}`);
}

function showPicture(now) {
  const { html, left, arrowsLeft } = pictureOf(now);
  const focused = document.activeElement.closest(".bar")?.dataset.patch;
  at("drawing").innerHTML = html;
  if (focused) focusBar(focused);
  const patches = left > 0 ? `${grouped(left)} more patches aren't drawn. ` : "";
  const more = `${grouped(arrowsLeft)} more arrows aren't drawn: choose a patch to see its own.`;
  at("notes").textContent = patches + (arrowsLeft > 0 ? more : "");
  bringIntoSight(at("drawing"));
}

// Scrolls the picture sideways to what was changed.
function bringIntoSight(box) {
  const bar = box.querySelector(".bar.now");
  if (!bar) return;
  const [outer, inner] = [box.getBoundingClientRect(), bar.getBoundingClientRect()];
  const isInSight = outer.left + WIDE.labels <= inner.left && inner.right <= outer.right;
  if (!isInSight) box.scrollLeft += inner.left - outer.left - WIDE.labels - 2 * WIDE.cell;
}

// Where there is no room beside the picture, what is said of the chosen patch stands under its bar.
function placePatch() {
  const bar = barOf(state.chosen);
  if (!bar) return;
  const top = bar.getBoundingClientRect().bottom - document.querySelector("main").getBoundingClientRect().top;
  at("patch-part").style.setProperty("--under", `${top + 4}px`);
}

function showScript(now) {
  const list = at("script");
  list.querySelector(".current")?.classList.remove("current");
  list.querySelector("[aria-current]")?.removeAttribute("aria-current");
  const current = list.children[now.line];
  current.classList.add("current");
  current.firstChild?.setAttribute("aria-current", "step");
  list.scrollTop = current.offsetTop - list.clientHeight / 2;
}

// Listening.

// The keys are those of the slider, of a list of choices, or of what is being scrolled.
const isScrolled = (target) => target.matches(".scroll") && target.scrollWidth > target.clientWidth;
const hasOwnKeys = (target) => target.matches("select, [type=range], [type=radio]") || isScrolled(target);

function leave() {
  document.activeElement.blur();
  choose(state.chosen);
}

// Keys that the page has no use for, among them those that scroll it, stay the browser's.
function onKey(event) {
  const isHeld = event.metaKey || ((event.altKey || event.ctrlKey) && !LINES[event.key]);
  if (isHeld || (STEPS[event.key] && hasOwnKeys(event.target))) return;
  const bar = event.target.closest(".bar");
  if (event.key === "Escape") leave();
  else if (bar && [" ", "Enter"].includes(event.key)) choose(Number(bar.dataset.patch));
  else if (STEPS[event.key]) leadTo(state.index + STEPS[event.key]);
  else if (LINES[event.key]) leadTo(story.moments[state.index][LINES[event.key]]);
  else if (event.target.matches("select")) return;
  else if (event.key === "p") play();
  else if (PLACES[event.key]) document.querySelector(PLACES[event.key])?.focus();
  else return;
  event.preventDefault();
}

function onClick(event) {
  const patch = event.target.closest("[data-patch]");
  if (patch) choose(Number(patch.dataset.patch));
  const item = event.target.closest("[data-line]");
  if (item) leadTo(story.moments.findLastIndex((moment) => moment.line === Number(item.dataset.line)));
}

function onChange({ target }) {
  const { choice } = target.dataset;
  if (target.id === "durable") state.showsDurable = target.checked;
  else if (target.id === "write-block") state.picked = Number(target.value);
  else if (target.name === "kind") Object.assign(state, { kind: target.value, landed: null });
  else if (choice) state.landed = chosenIn(at("choices"));
  else return;
  show();
  document.querySelector(choice ? `[data-choice="${choice}"]` : target.id ? `#${target.id}` : PLACES.c).focus();
}

const chosenIn = (part) => new Set([...part.querySelectorAll(":checked")].map((box) => Number(box.dataset.choice)));
const goToAddress = () => leadTo(Number(location.hash.slice(1)) || 0);

function begin() {
  state.showsDurable = at("durable").checked;
  at("script").innerHTML = story.script;
  at("slider").addEventListener("input", () => leadTo(Number(at("slider").value)));
  at("back").addEventListener("click", () => leadTo(state.index - 1));
  at("on").addEventListener("click", () => leadTo(state.index + 1));
  at("play").addEventListener("click", play);
  at("leave").addEventListener("click", leave);
  document.addEventListener("keydown", onKey);
  document.addEventListener("click", onClick);
  document.addEventListener("change", onChange);
  window.addEventListener("hashchange", goToAddress);
  window.addEventListener("resize", placePatch);
  goToAddress();
}

const shown = readStory().then(begin);
