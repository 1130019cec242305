// What a store finds that opens the disk of a crash, by the rules of tools/plain_disk.py.

const textIn = (bytes) => new TextDecoder().decode(bytes);
const numberIn = (bytes, from, to) => bytes.slice(from, to).reduce((sum, byte) => 256 * sum + byte, 0);
const numbersBelow = (count) => Array.from({ length: count }, (_, number) => number);

function diskOf(now) {
  const disk = new Uint8Array(BLOCK * story.geometry.blocks);
  const there = now.made.filter(({ number }) => now.crash.there.has(number));
  for (const patch of there) disk.set(patch.bytes, BLOCK * story.strips[patch.strip].first + patch.from);
  return disk;
}

function recordOf(disk, extent) {
  const place = story.geometry.records + 8 * extent;
  return { extent, generation: numberIn(disk, place, place + 4), filled: numberIn(disk, place + 4, place + 8) };
}

// What a slot says, and whether the frame is there that it names. Patches write slots whole, so each is one, or empty.
function entryOf(disk, number) {
  const slot = disk.subarray(BLOCK + 64 * number, BLOCK + 64 * (number + 1));
  if (slot[0] === 0) return [];
  const spans = [[2, 4], [4, 8], [8, 12], [12, 16]];
  const [extent, generation, offset, length] = spans.map(([from, to]) => numberIn(slot, from, to));
  const place = story.geometry.frames + story.geometry.extentBytes * extent + offset;
  const [key, frame] = [slot.subarray(16, 16 + slot[1]), disk.subarray(place, place + length)];
  const record = recordOf(disk, extent);
  const value = frame.subarray(12 + key.length, length - 4);
  const head = [...textEncoded("FCH1"), key.length, 0, 0, 0];
  const parts = [[0, head], [12, key], [length - 4, textEncoded("1HCF")]];
  const isFrame = parts.every(([from, bytes]) => bytes.every((byte, index) => frame[from + index] === byte));
  const isFilled = record.generation === generation && offset + length <= record.filled;
  return [{ number, key: textIn(key), value, isSound: isFrame && isFilled && numberIn(frame, 8, 12) === value.length }];
}

const textEncoded = (text) => new TextEncoder().encode(text);

function faultOf(entries) {
  const keys = entries.map(({ key }) => key);
  const fault = entries.find(({ key, isSound }, index) => !isSound || keys.indexOf(key) < index);
  if (!fault) return "";
  const why = fault.isSound ? "has the key of another one" : "names a frame that isn't there";
  return `The disk doesn't open: slot ${fault.number}, for ${fault.key}, ${why}.`;
}

function showWhatOpens(disk) {
  const entries = numbersBelow(story.geometry.slots).flatMap((number) => entryOf(disk, number));
  const fault = faultOf(entries);
  showVerdict("opens", !fault, fault || `The disk opens, and has ${entries.length > 0 ? "these keys" : "no key"}.`);
  const items = entries.sort((one, other) => (one.key < other.key ? -1 : 1)).map(entryItem);
  const records = numbersBelow(story.geometry.extents).map((extent) => recordOf(disk, extent));
  const used = records.filter(({ generation, filled }) => generation + filled > 0);
  const pointers = used.map((record) => shape("crash-pointer", { ...record, filled: grouped(record.filled) }));
  at("left").innerHTML = shape("crash-keys", { items: [...items, ...pointers].join("") });
}

function entryItem({ key, value, isSound }) {
  if (!isSound) return shape("crash-key", { key: escaped(key), value: "", said: "no frame" });
  const text = value.length <= 8 ? hexOf(value) : `${hexOf(value.slice(0, 4))}…`;
  const said = `${grouped(value.length)} byte${value.length === 1 ? "" : "s"}`;
  return shape("crash-key", { key: escaped(key), value: text || "–", said });
}
