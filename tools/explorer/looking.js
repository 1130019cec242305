// Goes through all moments of a page by its keys, and tells what it shows at each: for tools/check_pages.
(() => {
  const all = (selector) => [...document.querySelectorAll(selector)];
  const text = (selector) => document.querySelector(selector)?.textContent.trim() ?? null;
  const press = (key) => document.body.dispatchEvent(new KeyboardEvent("keydown", { key, bubbles: true }));
  const numbers = (selector) => (document.querySelector(`${selector} .chips`)?.dataset.numbers ?? "").split(",").filter(Boolean).map(Number);

  // The places of single bytes, with what is shown of them.
  const single = (shown) =>
    shown.filter(({ dataset }) => dataset.to - dataset.from === 1).map((byte) => [Number(byte.dataset.from), byte.textContent]);

  const rowsShown = () =>
    all("#drawing .row").map((row) => ({
      row: row.dataset.row,
      block: Number(row.dataset.block),
      bytes: single([...row.querySelectorAll("[data-from]")]),
    }));

  const tablesShown = (selector) =>
    all(`${selector} table.bytes`).map((table) => ({ block: Number(table.dataset.block), bytes: single([...table.querySelectorAll("[data-from]")]) }));

  const crashShown = (kind, chosen) => ({
    kind,
    chosen: chosen ?? all("[data-choice]:checked").map((box) => Number(box.dataset.choice)),
    isChosen: chosen !== null,
    breaks: all("[data-kind]").filter((mark) => !mark.hidden).map((mark) => mark.dataset.kind),
    choices: all("[data-choice]").map((box) => Number(box.dataset.choice)),
    there: numbers("#there"),
    lost: numbers("#lost"),
    closed: text("#closed"),
    opens: text("#opens"),
    keys: all("#left .keys b").map((key) => key.textContent),
    tables: tablesShown("#crash"),
  });

  // The crash of a kind that a choice leaves, or that is shown where nobody has chosen.
  const crashOf = (kind, chosen) => {
    Object.assign(state, { kind, landed: chosen && new Set(chosen) });
    const now = standingAt(state.index);
    now.crash = crashAt(now);
    showCrash(now);
    return crashShown(kind, chosen);
  };

  // Of each kind: none of the choices, one of the first few alone, and all.
  const crashesShown = () => {
    const found = ["kept", "without", "reorders"].flatMap((kind) => {
      const first = crashOf(kind, null);
      const few = [[], ...first.choices.slice(0, 4).map((id) => [id]), first.choices];
      return [first, ...few.map((chosen) => crashOf(kind, chosen))];
    });
    Object.assign(state, { kind: "kept", landed: null });
    show();
    return found;
  };

  const shown = () => ({
    where: text("#where"),
    asked: text(".asked code"),
    answer: text("#answer"),
    words: text("#line .words"),
    bars: all("#drawing .bar").map((bar) => [Number(bar.dataset.patch), bar.dataset.mark, bar.dataset.look]),
    classes: all("#drawing .class").map((frame) => Number(frame.dataset.class)),
    arrows: all("#drawing .arrow").map((arrow) => [Number(arrow.dataset.from), Number(arrow.dataset.to)]),
    implied: all("#drawing .arrow.implied").length,
    notes: text("#notes"),
    rows: rowsShown(),
    block: Number(document.querySelector("#write-block")?.value ?? -1),
    state: text("#write-state"),
    goes: numbers("#goes"),
    back: numbers("#taken-back"),
    groups: all("[data-group]").map((group) => [Number(group.dataset.group), Number(group.dataset.pending)]),
    keys: all("#keys [data-key]").map((row) => [row.dataset.key, row.dataset.length]),
    extents: all("[data-extent]").map(({ dataset }) => [dataset.extent, dataset.generation, dataset.filled, dataset.live].map(Number)),
    crashes: crashesShown(),
  });

  const seen = [];
  for (;;) {
    seen.push(shown());
    if (document.querySelector("#on").disabled) return seen;
    press("ArrowRight");
  }
})();
