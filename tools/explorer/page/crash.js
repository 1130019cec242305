// A crash: what is on the disk then, by how cache and disk keep the order.

function ofBlock(block, passes) {
  return { id: block, name: `block ${block}`, brings: (patch) => patch.block === block && passes(patch) };
}

// Of each kind of crash, the patches that are there whatever one chooses, and the choices, with those that each brings.
const CRASHES = {
  kept: (now) => ({
    isSafe: ({ number }) => !isLive(now, number),
    all: now.held(story.flights).map((block) => ofBlock(block, ({ number }) => now.looks[number] === "flight")),
  }),
  without: (now) => ({
    isSafe: ({ number }) => !isLive(now, number),
    all: now.held(story.writable).blocks.map((block) => ofBlock(block, () => true)),
  }),
  // Any of the writes since the last sync may be there; of many, any of the last ones.
  reorders: (now) => {
    const begun = story.sends.filter(({ from }) => from <= now.index);
    const first = Math.max(now.held(story.lasting), begun.length - MOST.loose);
    const write = ({ block }, number) => ({
      id: number,
      name: `write ${number + 1}, of block ${block}`,
      brings: (patch) => patch.block === block && patch.send <= number,
    });
    return { isSafe: ({ send }) => send < first, all: begun.map(write).slice(first) };
  },
};

// The choices that break something.
function breakingOf(now, kind) {
  const { isSafe, all } = CRASHES[kind](now);
  const breaks = ({ brings }) => {
    const isThere = (number) => isSafe(now.made[number]) || brings(now.made[number]);
    return now.made.some((patch) => brings(patch) && !patch.led.every(isThere));
  };
  return kind === "kept" ? [] : all.filter(breaks);
}

// What a crash leaves, and the arrows that lead from a patch that is there to one that isn't. Where nobody has chosen,
// that is done which breaks something.
function crashAt(now) {
  const { isSafe, all } = CRASHES[state.kind](now);
  const breaking = breakingOf(now, state.kind);
  const landed = state.landed ?? new Set(breaking.slice(0, 1).map(({ id }) => id));
  const chosen = all.filter(({ id }) => landed.has(id));
  const there = new Set(numbersOf(now, (patch) => isSafe(patch) || chosen.some(({ brings }) => brings(patch))));
  const missingTo = (from) => now.made[from].led.filter((to) => !there.has(to)).map((to) => ({ from, to }));
  const choices = all.map(({ id, name, brings }) => {
    const brought = numbersOf(now, (patch) => brings(patch) && !isSafe(patch));
    return { id, name, brought, said: countedPatches(brought), checked: landed.has(id) ? "checked" : "" };
  });
  return { choices, there, missing: [...there].flatMap(missingTo), isSure: all.length > 0 && breaking.length === 0 };
}

function countedPatches(numbers) {
  if (numbers.length > MOST.named) return `${grouped(numbers.length)} patches`;
  return `${numbers.length === 1 ? "patch" : "patches"} ${numbers.join(", ")}`;
}

function showCrash(now) {
  const { choices, there } = now.crash;
  const { words, legend, none } = story.crashes[state.kind];
  const all = choices.map((choice) => shape("choice", choice)).join("");
  for (const mark of document.querySelectorAll("[data-kind]")) {
    mark.hidden = breakingOf(now, mark.dataset.kind).length === 0;
  }
  at("crash-words").textContent = words;
  at("choices").innerHTML = all ? shape("choices", { legend, all }) : shape("none", { text: none });
  showWhetherClosed(now);
  put(now, "there", chips(now, [...there]));
  put(now, "lost", chips(now, numbersOf(now, ({ number }) => !there.has(number))));
  if (story.isStore) showWhatOpens(diskOf(now));
  else put(now, "left", now.touched.map((block) => bytesTable(now, block, ["crash"])).join(""));
}

function showVerdict(id, isRight, words) {
  at(id).className = isRight ? "verdict" : "verdict broken";
  at(id).innerHTML = shape("verdict", { sign: isRight ? "✓" : "✕", words: escaped(words) });
}

// Of the patches that are there without something on which they depend, the first one is told.
function showWhetherClosed(now) {
  const { missing, isSure } = now.crash;
  const [first, ...others] = missing;
  const closed = "Closed: with each patch, all that it depends on is there.";
  const named = (number) => `patch ${number} (${now.made[number].said})`;
  const lacks = () => `Broken: ${named(first.from)} is there, and ${named(first.to)}, on which it depends, isn't.`;
  const more = others.length > 0 ? ` There are ${grouped(others.length)} more such patches.` : "";
  showVerdict("closed", !first, first ? lacks() + more : `${closed}${isSure ? " So it is for every choice." : ""}`);
}
