// What stands beside the picture. Its texts were made beforehand, with holes for patches, chains and bytes.

// Puts a text into a part of the page, and fills its holes.
function put(now, id, html) {
  const part = at(id);
  const fill = (name, content) => {
    for (const hole of part.querySelectorAll(`[data-${name}]`)) hole.outerHTML = content(hole.dataset);
  };
  const having = (block, looks) => (patch) => patch.block === Number(block) && looks.includes(now.looks[patch.number]);
  part.innerHTML = html;
  fill("all", ({ all, none }) => chips(now, JSON.parse(all).filter((number) => number < now.made.length), none));
  fill("looks", ({ block, looks }) => chips(now, numbersOf(now, having(block, looks))));
  fill("chain", ({ chain }) => chainItem(now, Number(chain)));
  fill("bytes", ({ bytes }) => bytesTable(now, Number(bytes), ["cached", "written", "disk"]));
}

// A patch as a button with its number, and some of them.

function chip(now, number) {
  const [patch, look] = [now.made[number], now.looks[number]];
  const names = namesIn(["chip", markOf(now, number), look, patch.isHard && "hard"]);
  return shape("chip", { number, look, names, about: aboutPatch(now, patch) });
}

function chips(now, numbers, none = "none") {
  if (numbers.length === 0) return shape("none", { text: none });
  const shown = numbers.slice(0, MOST.chips).map((number) => chip(now, number)).join("");
  const left = numbers.length - MOST.chips;
  return shape("chips", { numbers, chips: shown, more: left > 0 ? shape("none", { text: ` and ${left} more` }) : "" });
}

// From a patch that waits, over what keeps each back, to the one that lets nothing go: it may go now, or is in flight.
function chainOf(now, number) {
  const keeper = now.held(now.made[number].keepers);
  return keeper >= 0 ? [number, ...chainOf(now, keeper)] : [number];
}

function chainItem(now, number) {
  const chain = chainOf(now, number);
  const last = now.made[chain[chain.length - 1]];
  const links = chain.map((link) => shape("link", { chip: chip(now, link), block: now.made[link].block }));
  const words = isFlying(now, last.block) ? "may go once its block's write has ended" : "may be sent now";
  const end = now.looks[last.number] === "flight" ? "is in flight" : words;
  return `${links.join(' <span class="waits-for">waits for</span> ')}, which ${end}`;
}

// Bytes of a block, where its patches lie, in a table of these rows.
function bytesTable(now, block, rows) {
  const here = now.made.filter((patch) => patch.block === block).slice(-MOST.drawn);
  const strip = { ...story.strips[here[0].strip], ...columnsOf(story.strips[here[0].strip], here) };
  const cells = (row) => cellsOf(now, strip, row, { kind: "table", other: row === "written" ? "cached" : row });
  const nameOf = (row) => (row === "crash" ? `block ${block}` : row);
  const tableRows = rows.map((row) => shape("table-row", { name: nameOf(row), cells: cells(row) }));
  return shape("table", { block, rows: tableRows.join("") });
}

// The write of a block, and the patch that was chosen.

function showWrite(now) {
  const { blocks, html } = now.held(story.writable);
  const block = blocks.includes(state.picked) ? state.picked : now.block;
  put(now, "write", blocks.length > 0 ? html + now.held(story.writes[block]) : html);
  if (blocks.length > 0) at("write-block").value = block;
}

function showPatch(now) {
  const patch = now.made[state.chosen];
  put(now, "patch", patch?.html ?? story.unchosen);
  at("patch-part").classList.toggle("chosen", Boolean(patch));
  if (!patch) return;
  const hardness = patch.isHard ? ", hard: never taken back" : "";
  at("patch-state").textContent = story.lookWords[lookOf(now, patch.number)] + hardness;
  at("patch-class").textContent = now.names[patch.number];
  put(now, "patch-needs", chips(now, numbersOf(now, (other) => dependsOn(patch, other)), "nothing"));
  put(now, "patch-needing", chips(now, numbersOf(now, (other) => dependsOn(other, patch)), "nothing"));
  if (chainOf(now, patch.number).length === 1) at("patch-waits").remove();
}
