// @ts-check
// The proved module: its memory, and its calls. Nothing else of the page knows an address.

/**
 * The cells of a part, as a mirror has them. A word whose flag is not 0 is torn; else all ones is an erased one.
 * @typedef {object} Cells
 * @property {number} pages pages of a set, 1 to 64
 * @property {number} pageWords words of a page, 5 to 512
 * @property {BigUint64Array} words page after page, the first set first
 * @property {Uint8Array} flags as many
 * @property {BigUint64Array} wears how often each page was erased
 */
/** @typedef {{page: number, place: number, value: bigint}} Step a word to be programmed; at place ERASE a page to be erased */
/** @typedef {{status: number, page: number, place: number, bad: number, live: number, steps: Step[], after: Cells}} Done
 *  what a call answers, lists and leaves in the mirror; `bad` and `live` are a rescue's */
/** @typedef {{status: number, live: number, fill: number, room: number, generation: number, pending: number}} Counts */
/** @typedef {{address: number, value: number}} Variable */
/** @typedef {{result: number, words: number, wears: number, list: number, flags: number, places: number}} Loan
 *  where a mirror, a list and a result lie in the memory of the module */

const ERASE = -1;
const ALL_ONES = 2n ** 64n - 1n;
// those of ee_web's Answers.antt that are asked for by name
const STATUS = { OK: 0, NOTHING: 2, SPENT: 4, UNFORMATTED: 6, FOREIGN: 9, TWICE: 13, NOTHING_BEGUN: 14 };
const MEMORY_PAGE = 65536;

/** @param {number} pages @param {number} pageWords @returns {Cells} a part as it comes, each word erased */
function blankCells(pages, pageWords) {
  const count = 2 * pages * pageWords;
  const words = new BigUint64Array(count).fill(ALL_ONES);
  return { pages, pageWords, words, flags: new Uint8Array(count), wears: new BigUint64Array(2 * pages) };
}

/** @param {Cells} cells */
function slotsOf(cells) {
  return cells.pages * (cells.pageWords - 4);
}

/** Whether this browser has 64-bit memories: it takes the smallest module with one. */
function hasLongMemories() {
  return typeof WebAssembly === "object" && WebAssembly.validate(new Uint8Array([0, 97, 115, 109, 1, 0, 0, 0, 5, 3, 1, 4, 1]));
}

class Library {
  /** @param {string} base64 the module */
  static async load(base64) {
    const bytes = Uint8Array.from(atob(base64), (letter) => letter.charCodeAt(0));
    const { instance } = await WebAssembly.instantiate(bytes, {});
    return new Library(instance.exports);
  }

  /** @param {any} exports */
  constructor(exports) {
    this.exports = exports;
    this.memory = /** @type {WebAssembly.Memory} */ (exports.memory);
    this.base = Math.ceil(Number(exports.__heap_base.value) / 64) * 64;
  }

  /** Lends the module memory behind its own, and fills the mirror there with these cells.
   *  @param {Cells} cells @param {number} places of the list: as many as a call takes at the most @returns {Loan} */
  lend(cells, places = slotsOf(cells) + 6 * cells.pages + 1) {
    const words = this.base + 64;
    const wears = words + 8 * cells.words.length;
    const list = wears + 8 * cells.wears.length;
    const flags = list + 24 * places;
    this.reach(flags + cells.flags.length);
    const memory = this.memory.buffer;
    new BigUint64Array(memory, words, cells.words.length).set(cells.words);
    new BigUint64Array(memory, wears, cells.wears.length).set(cells.wears);
    new Uint8Array(memory, flags, cells.flags.length).set(cells.flags);
    return { result: this.base, words, wears, list, flags, places };
  }

  /** @param {number} end the memory is at least so long afterwards */
  reach(end) {
    const lacking = Math.ceil((end - this.memory.buffer.byteLength) / MEMORY_PAGE);
    if (lacking > 0) /** @type {any} */ (this.memory).grow(BigInt(lacking));
  }

  /** @param {Cells} cells @param {Loan} loan
   *  @returns {bigint[]} where the result goes, the shape, and the mirror's arrays with their lengths */
  mirror(cells, loan) {
    const count = cells.words.length;
    const shape = [cells.pages, cells.pageWords];
    return [loan.result, ...shape, loan.words, count, loan.flags, count, loan.wears, cells.wears.length].map(BigInt);
  }

  /** A call that takes steps: format, open, write, write_both, forget, clean, clear, rescue. The cells stay as they are.
   *  @param {string} name @param {Cells} cells @param {number[]} operands @param {number} [places] of the list
   *  @returns {Done} */
  change(name, cells, operands = [], places = undefined) {
    const loan = this.lend(cells, places);
    this.exports["ee_" + name](...this.mirror(cells, loan), BigInt(loan.list), BigInt(loan.places), ...operands);
    const [status, listed, page, place, bad, live] = this.numbers(loan, 6);
    const list = new BigUint64Array(this.memory.buffer, loan.list, 3 * listed);
    const steps = Array.from({ length: listed }, (_, at) => {
      const erases = list[3 * at + 1] === ALL_ONES;
      return { page: Number(list[3 * at]), place: erases ? ERASE : Number(list[3 * at + 1]), value: list[3 * at + 2] };
    });
    return { status, page, place, bad, live, steps, after: this.mirrored(cells, loan) };
  }

  /** @param {Loan} loan @param {number} count @returns {number[]} the numbers of the result */
  numbers(loan, count) {
    return Array.from(new BigUint64Array(this.memory.buffer, loan.result, count), Number);
  }

  /** @param {Cells} cells @param {Loan} loan @returns {Cells} a copy of the mirror, as the call left it */
  mirrored(cells, loan) {
    const memory = this.memory.buffer;
    return {
      pages: cells.pages,
      pageWords: cells.pageWords,
      words: new BigUint64Array(memory, loan.words, cells.words.length).slice(),
      flags: new Uint8Array(memory, loan.flags, cells.flags.length).slice(),
      wears: new BigUint64Array(memory, loan.wears, cells.wears.length).slice(),
    };
  }

  /** @param {string} name read or next @param {Cells} cells @param {Loan} loan @param {number} address
   *  @returns {Variable | null} */
  find(name, cells, loan, address) {
    this.exports["ee_" + name](...this.mirror(cells, loan), address);
    const [status] = this.numbers(loan, 1);
    const [found, value] = new Uint32Array(this.memory.buffer, loan.result + 8, 2);
    return status === STATUS.OK ? { address: found, value } : null;
  }

  /** @param {Cells} cells @param {number} address */
  read(cells, address) {
    return this.find("read", cells, this.lend(cells), address);
  }

  /** @param {Cells} cells @param {number} most @returns {Variable[]} the first variables, by rising address */
  variables(cells, most) {
    const loan = this.lend(cells);
    const found = [];
    let next = this.find("next", cells, loan, 0);
    while (next !== null && found.length < most) {
      found.push(next);
      next = this.find("next", cells, loan, next.address);
    }
    return found;
  }

  /** @param {Cells} cells @returns {Counts & {page: number, place: number}} */
  counts(cells) {
    const loan = this.lend(cells);
    this.exports.ee_counts(...this.mirror(cells, loan));
    const [status, live, fill, room, generation, pending, page, place] = this.numbers(loan, 8);
    return { status, live, fill, room, generation, pending, page, place };
  }

  /** @param {Cells} cells @returns {number[]} the words that a rescue finds bad, by their place in the part */
  badWords(cells) {
    const loan = this.lend(cells);
    const length = cells.words.length / 2;
    const flags = loan.flags + cells.flags.length;
    this.reach(flags + length);
    this.exports.ee_bad_words(...this.mirror(cells, loan), BigInt(flags), BigInt(length));
    const [status, set] = this.numbers(loan, 2);
    if (status !== STATUS.OK) return [];
    const bad = new Uint8Array(this.memory.buffer, flags, length);
    return Array.from(bad.keys(), (place) => set * length + place).filter((_, place) => bad[place] !== 0);
  }
}
