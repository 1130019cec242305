// The picture: strips of blocks one below another, on each its patches piled up, and arrows to what they depend on.

const HIGH = { head: 58, row: 24, unequal: 11, bar: 36, lane: 24, between: 34 };
const WIDE = { labels: 62, cell: 30, gap: 18, byte: 150, slot: 112, pointer: 104, frame: 52, margin: 10, letter: 6.1 };
const MOST = { cells: 12, drawn: 60, beside: 30, needed: 10, arrows: 90, chips: 40, loose: 12, named: 6 };

const namesIn = (names) => names.filter(Boolean).join(" ");

function fitted(text, width, letter = WIDE.letter) {
  const most = Math.max(1, Math.floor(width / letter));
  return escaped(text.length <= most ? text : `${text.slice(0, most - 1)}…`);
}

// Which patches are drawn, and where.

// All patches where they are few; or else those that the moment is about, and the last ones beside them.
function drawnAt(now) {
  const chosen = now.made[state.chosen];
  const needed = (chosen?.led ?? []).slice(-MOST.needed).filter((number) => isLive(now, number));
  const broken = now.crash.missing.slice(0, 1).flatMap(({ from, to }) => [from, to]);
  const about = new Set([...now.about, ...needed, ...broken, chosen?.number]);
  const all = now.made.filter(({ number }) => state.showsDurable || isLive(now, number) || about.has(number));
  if (all.length <= MOST.drawn) return { drawn: all, left: 0 };
  const first = all.filter(({ number }) => about.has(number)).slice(-MOST.drawn);
  const others = all.filter(({ number }) => !about.has(number));
  const last = others.slice(others.length - Math.max(0, MOST.beside - first.length));
  const drawn = [...first, ...last].sort((one, other) => one.number - other.number);
  return { drawn, left: all.length - drawn.length };
}

// The columns of a strip: one for each byte where they are few, one for a longer piece, a narrow one where no span is.
function columnsOf(strip, spans) {
  const ends = spans.flatMap(({ from, to }) => [from, to]);
  const points = [...new Set([0, ...ends, BLOCK * strip.count])].sort((one, other) => one - other);
  const columns = [];
  let x = WIDE.labels;
  const add = (from, to, kind) => {
    columns.push({ from, to, x, width: WIDE[kind], middle: x + WIDE[kind] / 2, isGap: kind === "gap" });
    x += WIDE[kind];
  };
  points.slice(1).forEach((to, index) => {
    const from = points[index];
    if (!spans.some((span) => span.from <= from && to <= span.to)) add(from, to, "gap");
    else if (strip.kind !== "byte" || to - from > MOST.cells) add(from, to, strip.kind);
    else for (let place = from; place < to; place += 1) add(place, place + 1, "cell");
  });
  return { columns, right: x };
}

function stripsFor(spans) {
  const isOn = (strip) => (span) => span.strip === strip.number;
  const touched = story.strips.filter((strip) => spans.some(isOn(strip)));
  return touched.map((strip) => ({ ...strip, ...columnsOf(strip, spans.filter(isOn(strip))) }));
}

// In which row of the pile each patch lies: above all earlier ones under it.
function lanesOf(spans) {
  const lanes = [];
  for (const { from, to } of spans) {
    const below = lanes.map((lane, index) => (spans[index].from < to && from < spans[index].to ? lane + 1 : 0));
    lanes.push(Math.max(0, ...below));
  }
  return lanes;
}

// Puts the strips below one another, and the bars of the patches on them; gives the bars, and how high all of it is.
function placed(strips, drawn) {
  const bars = new Map();
  let top = 4;
  for (const strip of strips) {
    const here = drawn.filter((patch) => patch.strip === strip.number);
    const lanes = lanesOf(here);
    const pile = (Math.max(0, ...lanes) + 1) * (HIGH.bar + HIGH.lane) + HIGH.lane / 2;
    const [cached, written] = [top + HIGH.head, top + HIGH.head + HIGH.row + HIGH.unequal];
    Object.assign(strip, { top, cached, written, disk: written + HIGH.row + pile });
    here.forEach((patch, index) => {
      const first = strip.columns.find((column) => column.from === patch.from);
      const last = strip.columns.find((column) => column.to === patch.to);
      const [x, right] = [first.x + 1.5, last.x + last.width - 1.5];
      const y = strip.disk - (lanes[index] + 1) * (HIGH.bar + HIGH.lane) + 4;
      bars.set(patch.number, { patch, strip, x, right, y, width: right - x });
    });
    top = strip.disk + HIGH.row + HIGH.between;
  }
  return { bars, height: top - HIGH.between + 6 };
}

// Strips.

// The cells of a row of bytes, in the picture or in a table; those that are otherwise in another row are marked.
function cellsOf(now, strip, row, { other = row, kind = "svg", y = 0 } = {}) {
  const piles = [row, other].map((name) => pileOf(now, strip, name));
  const cell = (column) => {
    if (column.isGap) return shape(`${kind}-gap`, { ...column, y });
    const [here, there] = piles.map((pile) => columnUnder(pile, strip, column));
    const name = namesIn([strip.empty ? "said" : "byte", ["zeros", "empty"].includes(here.text) && "quiet"]);
    const text = kind === "svg" ? fitted(here.text, column.width - 4) : escaped(here.text);
    return shape(`${kind}-${here.bytes === there.bytes ? "cell" : "differs"}`, { ...column, y, name, text });
  };
  return strip.columns.map(cell).join("");
}

function stripAt(now, strip) {
  const copy = copyOf(now, strip);
  const row = (name, y, other) =>
    shape("row", { row: name, block: strip.first, y, cells: cellsOf(now, strip, name, { other, y }) });
  const axis = strip.columns.filter((column) => !column.isGap).map((column) =>
    shape("axis", { ...column, y: strip.cached, text: grouped(column.from) }));
  return [...axis, row("cached", strip.cached), row(copy, strip.written, "cached"), row("disk", strip.disk)].join("");
}

const copyOf = (now, strip) => (now.view === strip.first ? "view" : "written");

// The names of a strip and of its rows, which stay in sight.
function namesAt(now, strip) {
  const label = (row, y) => shape("label", { row, y });
  const head = shape("head", { ...strip, status: now.held(strip.status) });
  return head + label("cached", strip.cached) + label(copyOf(now, strip), strip.written) + label("disk", strip.disk);
}

// Bars.

// How a patch looks in the picture, where a view takes some back too.
const lookOf = (now, number) => (now.taken.includes(number) ? "taken" : now.looks[number]);
const markOf = (now, number) => (["flight", "durable"].includes(now.looks[number]) ? now.looks[number] : "memory");

const aboutPatch = (now, { number, about: [before, behind] }) =>
  escaped(before + story.lookWords[lookOf(now, number)] + behind);

function barAt(now, bar) {
  const { number, isHard, role } = bar.patch;
  const [look, mark] = [lookOf(now, number), markOf(now, number)];
  const isChosen = number === state.chosen;
  const names = namesIn(["bar", mark, look, now.changed.includes(number) && "now", isChosen && "chosen"]);
  const size = number > 99 && bar.width < 40 ? "number small" : "number";
  const said = role ? shape("role", { ...bar, text: fitted(role, bar.width - 6, 5.4) }) : bytesOnBar(bar);
  const about = aboutPatch(now, bar.patch);
  return shape("bar", { ...bar, number, look, mark, names, size, said, about, hatch: isHard ? "hatch" : "nothing" });
}

// The bytes that it writes, each in its column.
function bytesOnBar({ patch, strip, y }) {
  const columns = strip.columns.filter((column) => patch.from <= column.from && column.to <= patch.to);
  const text = ({ from, to }) => textOf(strip, patch.bytes.slice(from - patch.from, to - patch.from));
  return columns.map((column) => shape("byte", { ...column, y, text: text(column) })).join("");
}

// Frames around classes, and bands behind groups.

function classesOf(now, bars) {
  const names = [...new Set(bars.map((bar) => now.names[bar.patch.number]))];
  const classes = names.map((name) => [name, bars.filter((bar) => now.names[bar.patch.number] === name)]);
  return classes.filter(([, members]) => members.length > 1);
}

function frameAt([, members]) {
  const links = members.slice(1).map((bar, index) => ({ path: linkBetween(members.slice(0, index + 1), bar) }));
  const shapes = (name, all) => all.map((one) => shape(name, one)).join("");
  const layer = (name) => shapes(name, members) + shapes(`${name}-link`, links);
  return layer("frame") + layer("frame-inner");
}

// A line from a member of a class to one that it overlaps or touches.
function linkBetween(others, bar) {
  const isNear = (other) => other.x <= bar.right + 4 && bar.x <= other.right + 4;
  const other = others.findLast(isNear) ?? others[others.length - 1];
  const x = (Math.max(other.x, bar.x) + Math.min(other.right, bar.right)) / 2;
  return `M${x} ${other.y + HIGH.bar / 2}V${bar.y + HIGH.bar / 2}`;
}

const nameOfClass = ([name, members]) =>
  shape("class-name", { ...members.reduce((top, bar) => (bar.y < top.y ? bar : top)), name });

// A band that goes on from the one beside it needs no name.
function nameOfBand(bar, index, all) {
  const nameOf = ({ patch }) => `group ${patch.groups.join(", ")}`;
  const isBeside = (other) => other.y === bar.y && Math.abs(other.right - bar.x) < 6;
  const goesOn = all.some((other) => isBeside(other) && nameOf(other) === nameOf(bar));
  return goesOn ? "" : shape("band-name", { ...bar, name: nameOf(bar) });
}

// Arrows.

// An arrow is met where its end is durable, and broken where a crash leaves its beginning without its end. It is
// implied where another patch between the two leads there as well.
function arrowAt(now, bars, from, to) {
  const [isMet, isChosen, { there }] = [!isLive(now, to), [from, to].includes(state.chosen), now.crash];
  const [isImplied, isBroken] = [!now.made[from].led.includes(to), there.has(from) && !there.has(to)];
  const names = namesIn(["arrow", isImplied && "implied", isMet && "met", isChosen && "chosen", isBroken && "broken"]);
  const path = pathBetween(bars.get(from), bars.get(to));
  return { from, to, isMet, isAsked: isChosen || isBroken, names, path, tip: isBroken ? "tip-broken" : "tip" };
}

// All of them, but the implied ones of the chosen patch alone. Where they are too many, those of the moment and of what
// is chosen or broken.
function arrowsOf(now, bars) {
  const all = [...bars.values()].map(({ patch }) => patch);
  const isChosen = (patch, other) => [patch, other].includes(now.made[state.chosen]) && dependsOn(patch, other);
  const endsOf = (patch) => all.filter((other) => patch.led.includes(other.number) || isChosen(patch, other));
  const arrows = all.flatMap((patch) => endsOf(patch).map((other) => arrowAt(now, bars, patch.number, other.number)));
  const isHistory = ({ from, isMet }) => story.isStore && isMet && !isLive(now, from);
  const some = arrows.filter((arrow) => arrow.isAsked || !isHistory(arrow));
  if (some.length <= MOST.arrows) return { arrows: some, arrowsLeft: 0 };
  const isNear = ({ from, isMet, isAsked }) => isAsked || now.changed.includes(from) || !isMet;
  const few = some.filter(isNear).slice(-MOST.arrows);
  return { arrows: few, arrowsLeft: some.length - few.length };
}

const nearest = (bar, x) => Math.min(Math.max(x, bar.x + 9), bar.right - 9);

// Straight between two bars that lie over one another, below two that lie side by side, or in a bend.
function pathBetween(one, other) {
  const [left, right] = [Math.max(one.x, other.x), Math.min(one.right, other.right)];
  const way = one.y < other.y ? 1 : -1;
  const [begin, end] = way > 0 ? [one.y + HIGH.bar, other.y] : [one.y, other.y + HIGH.bar];
  if (one.strip === other.strip && left < right) return `M${(left + right) / 2} ${begin}V${end - 2 * way}`;
  if (one.strip === other.strip && one.y === other.y) return pathBeside(one, other, one.y + HIGH.bar);
  const [x, toX] = [nearest(one, (other.x + other.right) / 2), nearest(other, (one.x + one.right) / 2)];
  const bend = way * Math.max(18, Math.min(60, Math.abs(end - begin) / 2));
  return `M${x} ${begin}C${x} ${begin + bend} ${toX} ${end - bend} ${toX} ${end - 2 * way}`;
}

function pathBeside(one, other, y) {
  const [begin, end] = [nearest(one, other.x), nearest(other, one.x)];
  return `M${begin} ${y}C${begin} ${y + 17} ${end} ${y + 17} ${end} ${y + 2}`;
}

// The whole picture, with how many patches and arrows it leaves out.
function pictureOf(now) {
  const { drawn, left } = drawnAt(now);
  const strips = stripsFor(story.spans ?? [...drawn, ...now.spans]);
  if (strips.length === 0) return { html: story.untouched, left, arrowsLeft: 0 };
  const { bars, height } = placed(strips, drawn);
  const { arrows, arrowsLeft } = arrowsOf(now, bars);
  const all = [...bars.values()];
  const [banded, classes] = [all.filter((bar) => bar.patch.groups.length > 0), classesOf(now, all)];
  const layers = [
    banded.map((bar) => shape("band", { ...bar, band: bar.patch.groups[0] % 4 })),
    classes.map(frameAt),
    arrows.map((arrow) => shape("arrow", arrow)),
    banded.map(nameOfBand),
    classes.map(nameOfClass),
    strips.map((strip) => stripAt(now, strip)),
    all.map((bar) => barAt(now, bar)),
  ];
  const ends = strips.flatMap((strip) => [strip.right, WIDE.letter * now.held(strip.status).length]);
  const names = strips.map((strip) => namesAt(now, strip)).join("");
  const width = Math.max(...ends) + WIDE.margin;
  const html = shape("picture", { width, height, layers: layers.flat().join(""), names });
  return { html, left, arrowsLeft };
}
