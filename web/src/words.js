// @ts-check
// What the words say, read off the cells: docs/FORMATS.md has their spelling, docs/MODEL.md their meaning.

/** @typedef {"live" | "superseded" | "copied" | "forgetting" | "torn" | "free" | "foreign" | "header" | "unset"} Kind */
/** @typedef {{kinds: Kind[], states: string[], liveSet: number, live: number}} Reading
 *  each word's kind, each page's state, the live set or -1, and how many slots are live */

/** @type {Record<Kind, [string, string]>} the glyph of a kind, and what it means */
const KINDS = {
  live: ["\u25cf", "live"],
  superseded: ["\u25cb", "superseded"],
  copied: ["\u25d0", "not live yet"],
  forgetting: ["\u2715", "forgetting"],
  torn: ["?", "torn"],
  free: ["\u00b7", "erased"],
  foreign: ["!", "foreign"],
  header: ["\u25a0", "header word"],
  unset: ["\u00b7", "header word, erased"],
};
const HEADERS = ["receive word", "active mark", "valid mark", "erasing mark"];
const STATES = ["RECEIVE", "ACTIVE", "VALID", "ERASING"];
const MARK = 0xaaaaaaaaaaaaaaaan;
const MARK_HALF = 0xaaaaaaaa;
const ONES_HALF = 0xffffffff;

/** @param {bigint} word one that is held @param {number} place @returns {string} what it says where it stands */
function sayWord(word, place) {
  const [high, low] = [Number(word >> 32n), Number(word & 0xffffffffn)];
  if (place === 0) return high === MARK_HALF && low > 0 && low < ONES_HALF ? `receive ${low}` : "foreign";
  if (place < 4) return word === MARK ? HEADERS[place] : "foreign";
  const [form, address] = [low >>> 16, low & 0xffff];
  if (form > 1 || address === 0 || address === 0xffff) return "foreign";
  return form === 0 ? `${address}=${high}` : `forget ${address}`;
}

/** Reads cells by halves of words, which is quick. */
class Reader {
  /** @param {Cells} cells */
  constructor(cells) {
    this.cells = cells;
    this.halves = halvesOf(cells);
  }

  /** @param {number} index */
  isTorn(index) {
    return this.cells.flags[index] !== 0;
  }

  /** @param {number} index */
  isErased(index) {
    return !this.isTorn(index) && this.halves[2 * index] === ONES_HALF && this.halves[2 * index + 1] === ONES_HALF;
  }

  /** @param {number} index */
  isMark(index) {
    return !this.isTorn(index) && this.halves[2 * index] === MARK_HALF && this.halves[2 * index + 1] === MARK_HALF;
  }

  /** @param {number} index @returns {number} the generation that a receive word there names, or 0 */
  generation(index) {
    const low = this.halves[2 * index];
    return this.isTorn(index) || this.halves[2 * index + 1] !== MARK_HALF || low === ONES_HALF ? 0 : low;
  }

  /** @param {number} index @returns {{address: number, forgets: boolean} | null} what a slot says */
  slot(index) {
    const low = this.halves[2 * index];
    const address = low & 0xffff;
    if (this.isTorn(index) || low >>> 16 > 1 || address === 0 || address === 0xffff) return null;
    return { address, forgets: low >>> 16 === 1 };
  }

  /** @param {number} page */
  state(page) {
    const first = page * this.cells.pageWords;
    const last = [3, 2, 1, 0].find((place) => !this.isErased(first + place));
    return last === undefined ? "ERASED" : STATES[last];
  }
}

/** @param {Reader} reader @param {Counts} counts
 *  @returns {number} the set whose receive word names the live generation, and that is committed; -1 for none */
function liveSetOf(reader, counts) {
  const { pages, pageWords } = reader.cells;
  const isLive = (/** @type {number} */ set) => {
    const first = set * pages * pageWords;
    return reader.generation(first) === counts.generation && reader.isMark(first + 1);
  };
  return counts.status === STATUS.OK ? [0, 1].findIndex(isLive) : -1;
}

/** @param {Reader} reader @param {number} set
 *  @returns {Map<number, number>} for each address the last slot of the set that says something of it */
function lastSlots(reader, set) {
  const { pages, pageWords } = reader.cells;
  const last = new Map();
  for (let index = set * pages * pageWords; index < (set + 1) * pages * pageWords; index++) {
    const said = index % pageWords < 4 ? null : reader.slot(index);
    if (said !== null) last.set(said.address, index);
  }
  return last;
}

/** @param {Cells} cells @param {Counts} counts what the proved code says of the same cells @returns {Reading} */
function readingOf(cells, counts) {
  const reader = new Reader(cells);
  const liveSet = liveSetOf(reader, counts);
  const last = liveSet < 0 ? new Map() : lastSlots(reader, liveSet);
  const states = Array.from(cells.wears, (_, page) => reader.state(page));
  const kinds = Array.from(cells.flags, (_, index) => kindOf(reader, index, liveSet, last, counts.generation, states));
  return { kinds, states, liveSet, live: kinds.filter((kind) => kind === "live").length };
}

/** @param {Reader} reader @param {number} index @param {number} liveSet @param {Map<number, number>} last
 *  @param {number} generation the live one @param {string[]} states @returns {Kind} */
function kindOf(reader, index, liveSet, last, generation, states) {
  const { pages, pageWords } = reader.cells;
  const isHeader = index % pageWords < 4;
  if (reader.isErased(index)) return isHeader ? "unset" : "free";
  if (reader.isTorn(index)) return "torn";
  if (isHeader) return (index % pageWords === 0 ? reader.generation(index) > 0 : reader.isMark(index)) ? "header" : "foreign";
  const said = reader.slot(index);
  if (said === null) return "foreign";
  const page = Math.floor(index / pageWords);
  const set = Math.floor(page / pages);
  if (set === liveSet) return last.get(said.address) !== index ? "superseded" : said.forgets ? "forgetting" : "live";
  const isCopy = liveSet >= 0 && states[page] !== "ERASING" && reader.generation(set * pages * pageWords) > generation;
  return isCopy ? "copied" : "superseded";
}

/** All of a word, for the pointer and for readers of the screen.
 *  @param {Cells} cells @param {Reading} reading @param {number} index */
function describeWord(cells, reading, index) {
  const { pageWords } = cells;
  const [page, place] = [Math.floor(index / pageWords), index % pageWords];
  const name = place < 4 ? HEADERS[place] : `slot ${(page % cells.pages) * (pageWords - 4) + place - 4}`;
  const kind = reading.kinds[index];
  const where = `page ${page}, word ${place}, ${name}`;
  if (kind === "free" || kind === "unset") return `${where}: erased`;
  if (kind === "torn") return `${where}: torn, it cannot be read`;
  return `${where}: ${wordText(cells, index)}, ${place < 4 || kind === "foreign" ? "" : KINDS[kind][1] + ", "}${sayWord(cells.words[index], place)}`;
}
