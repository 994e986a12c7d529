// @ts-check
// The flash part: what the page has of its own. It takes steps one by one, whole or cut, as docs/MODEL.md says a part does.

/** @typedef {{words: BigUint64Array, flags: Uint8Array, wear: bigint}} Stretch some words of a page, and the page's wear */
/** @typedef {{page: number, from: number, before: Stretch, after: Stretch}} Delta what a step changed */

/** @typedef {"torn" | "turned"} Damage what becomes of a word that goes bad: it can't be read, or one bit of it turned */

/** @type {Record<Damage, string>} */
const DAMAGES = { torn: "torn", turned: "one bit turned" };
// The bit that turns is one by which no store wrote the word: of a mark, and of what a slot says that it is.
const HEADER_BIT = 1n << 63n;
const SLOT_BIT = 1n << 31n;

/** @param {Cells} cells @param {number} page @param {number} from @param {number} to @returns {Stretch} */
function stretchOf(cells, page, from, to) {
  return { words: cells.words.slice(from, to), flags: cells.flags.slice(from, to), wear: cells.wears[page] };
}

/** Takes a step, cut as the tear says, if there is one.
 *  @param {Cells} cells @param {Step} step @param {Tear | null} tear @returns {Delta} */
function takeStep(cells, step, tear) {
  const first = step.page * cells.pageWords;
  const from = step.place === ERASE ? first : first + step.place;
  const to = step.place === ERASE ? first + cells.pageWords : from + 1;
  const before = stretchOf(cells, step.page, from, to);
  if (step.place === ERASE) erasePage(cells, step.page, tear);
  else programWord(cells, from, step.value, tear);
  return { page: step.page, from, before, after: stretchOf(cells, step.page, from, to) };
}

/** @param {Cells} cells @param {number} index @param {bigint} value @param {Tear | null} tear */
function programWord(cells, index, value, tear) {
  if (cells.flags[index] !== 0 || cells.words[index] !== ALL_ONES) throw new Error("a word is programmed that is not erased");
  if (tear === "n") return;
  const torn = tear === "t" || tear === "m";
  cells.words[index] = torn ? 0n : value;
  cells.flags[index] = torn ? 1 : 0;
}

/** @param {Cells} cells @param {number} page @param {Tear | null} tear */
function erasePage(cells, page, tear) {
  if (cells.wears[page] !== ALL_ONES) cells.wears[page] += 1n;
  for (let at = 0; at < cells.pageWords; at++) {
    const left = leftOfErase(tear, at);
    if (left === "old") continue;
    const index = page * cells.pageWords + at;
    cells.words[index] = left === "torn" ? 0n : ALL_ONES;
    cells.flags[index] = left === "torn" ? 1 : 0;
  }
}

/** @param {Tear | null} tear @param {number} at the place in the page @returns {"old" | "erased" | "torn"} */
function leftOfErase(tear, at) {
  if (tear === "n") return "old";
  if (tear === "t") return "torn";
  if (tear === "m") return /** @type {const} */ (["old", "erased", "torn"])[at % 3];
  return "erased";
}

/** Lets a word go bad.
 *  @param {Cells} cells @param {number} index @param {Damage} damage @returns {Delta} */
function spoilWord(cells, index, damage) {
  if (cells.flags[index] !== 0) throw new Error("This word is torn already, so nothing was changed.");
  const page = Math.floor(index / cells.pageWords);
  const before = stretchOf(cells, page, index, index + 1);
  const bit = index % cells.pageWords < 4 ? HEADER_BIT : SLOT_BIT;
  cells.words[index] = damage === "torn" ? 0n : cells.words[index] ^ bit;
  cells.flags[index] = damage === "torn" ? 1 : 0;
  return { page, from: index, before, after: stretchOf(cells, page, index, index + 1) };
}

/** Puts the cells of a delta back, or forth.
 *  @param {Cells} cells @param {Delta} delta @param {"before" | "after"} side */
function applyDelta(cells, delta, side) {
  cells.words.set(delta[side].words, delta.from);
  cells.flags.set(delta[side].flags, delta.from);
  cells.wears[delta.page] = delta[side].wear;
}

/** @param {Cells} cells @returns {Cells} */
function copyOf(cells) {
  return { ...cells, words: cells.words.slice(), flags: cells.flags.slice(), wears: cells.wears.slice() };
}

/** @param {Cells} cells @returns {Uint32Array} each word as its low and its high half, which is quicker than words */
function halvesOf(cells) {
  return new Uint32Array(cells.words.buffer, cells.words.byteOffset, 2 * cells.words.length);
}

/** Whether two parts of one shape read alike, and were erased as often.
 *  @param {Cells} one @param {Cells} other */
function readAlike(one, other) {
  const [these, those] = [halvesOf(one), halvesOf(other)];
  for (let index = 0; index < one.flags.length; index++) {
    if ((one.flags[index] !== 0) !== (other.flags[index] !== 0)) return false;
    if (one.flags[index] !== 0) continue;
    if (these[2 * index] !== those[2 * index] || these[2 * index + 1] !== those[2 * index + 1]) return false;
  }
  return one.wears.every((wear, page) => wear === other.wears[page]);
}
