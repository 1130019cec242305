"use strict";

// What the page was given: patches, moments, and for all that changes a list of the moments at which it does.

const BLOCK = 4096;
const state = { index: 0, chosen: null, picked: null, kind: "kept", landed: null, showsDurable: false, timer: null };
let story;

const at = (id) => document.getElementById(id);
const grouped = (number) => number.toLocaleString("en");
const escaped = (text) => String(text).replace(/[&<>"]/g, (sign) => `&#${sign.charCodeAt(0)};`);
const bytesIn = (hex) => Uint8Array.from(hex.match(/../g) ?? [], (digits) => parseInt(digits, 16));
const hexOf = (bytes) => Array.from(bytes, (byte) => byte.toString(16).padStart(2, "0")).join("");

async function readStory() {
  const packed = Uint8Array.from(atob(at("story").textContent), (sign) => sign.charCodeAt(0));
  const stream = new Blob([packed]).stream().pipeThrough(new DecompressionStream("deflate"));
  story = JSON.parse(await new Response(stream).text());
  for (const patch of story.patches) patch.bytes = bytesIn(patch.hex);
}

// A text that others have parts of is a list of the numbers of its parts.
function joined(number) {
  const text = story.texts[number];
  return typeof text === "string" ? text : text.map(joined).join("");
}

// A shape with its places filled: {x} by a value, and {x+4} by one that is moved.
function shape(name, values) {
  const fill = (place, key, by) => (by ? values[key] + Number(by) : values[key]);
  return story.shapes[name].replace(/\{(\w+)([+-][\d.]+)?\}/g, fill);
}

// How things stand at a moment: the patches made by then, with their looks and the names of their classes.
function standingAt(index) {
  const held = (changes) => changes.findLast(([from]) => from <= index)?.[1];
  const made = story.patches.filter((patch) => patch.looks[0][0] <= index);
  const looks = made.map((patch) => held(patch.looks));
  const names = made.map((patch) => held(patch.names) ?? patch.number);
  return { ...story.moments[index], index, held, made, looks, names };
}

const isLive = (now, number) => now.looks[number] !== "durable";
const isFlying = (now, block) => now.held(story.flights).includes(block);
const numbersOf = (now, passes) => now.made.filter(passes).map((patch) => patch.number);

// A patch depends directly on those that it names, and on the earlier ones under it.
const sharesByte = (patch, { block, from, to }) => patch.block === block && patch.from < to && from < patch.to;
const dependsOn = (patch, other) =>
  other.number < patch.number && (patch.named.includes(other.number) || sharesByte(patch, other));

// Which patches a row of bytes is piled up of. What is written goes with the write under way, or one that began now.
const ROWS = {
  cached: () => true,
  written: (now, { number, block }) =>
    ["flight", "durable"].includes(now.looks[number]) || (now.looks[number] === "memory" && !isFlying(now, block)),
  view: (now, { number }) => !now.taken.includes(number),
  disk: (now, { number }) => !isLive(now, number),
  crash: (now, { number }) => now.crash.there.has(number),
};

const pileOf = (now, strip, row) => now.made.filter((patch) => patch.strip === strip.number && ROWS[row](now, patch));

// The bytes of a column under a pile, and their text: what the patch says that begins there, or the bytes themselves.
function columnUnder(pile, strip, { from, to }) {
  const here = pile.filter((patch) => patch.from < to && from < patch.to);
  const bytes = new Uint8Array(to - from);
  for (const patch of here) {
    bytes.set(patch.bytes.slice(Math.max(0, from - patch.from), to - patch.from), Math.max(0, patch.from - from));
  }
  const top = here.findLast((patch) => patch.from <= from);
  return { bytes: String(bytes), text: (top?.from === from && top.text) || textOf(strip, bytes) };
}

function textOf(strip, bytes) {
  if (strip.empty) return bytes.some((byte) => byte) ? `${hexOf(bytes.slice(0, 2))}…` : strip.empty;
  if (bytes.length === 1) return hexOf(bytes);
  const isOne = bytes.every((byte) => byte === bytes[0]);
  const [first, last] = [hexOf(bytes.slice(0, isOne ? 1 : 3)), hexOf(bytes.slice(-2))];
  return isOne ? `${grouped(bytes.length)} × ${first}` : `${first}…${last}`;
}
