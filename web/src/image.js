// @ts-check
// Images as text, as `ee` reads and writes them.

const MOST_IMAGE = 4194304;
const NUMBER = /^(0|[1-9][0-9]{0,19})$/;

/** @param {Cells} cells @param {number} index */
function wordText(cells, index) {
  if (cells.flags[index] !== 0) return "?";
  const word = cells.words[index];
  return word === ALL_ONES ? "-" : word.toString(16).padStart(16, "0");
}

/** @param {Cells} cells */
function imageText(cells) {
  const lines = [`ee ${cells.pages} ${cells.pageWords}`];
  for (let page = 0; page < 2 * cells.pages; page++) {
    const fields = [String(cells.wears[page])];
    for (let at = 0; at < cells.pageWords; at++) fields.push(wordText(cells, page * cells.pageWords + at));
    lines.push(fields.join(" "));
  }
  return lines.join("\n") + "\n";
}

/** @param {string} text @returns {bigint | null} the number that is spelled so, if it has 64 bits */
function readNumber(text) {
  if (!NUMBER.test(text)) return null;
  const number = BigInt(text);
  return number <= ALL_ONES ? number : null;
}

/** Reads a word into its place.
 *  @param {Cells} cells @param {number} index @param {string} text @returns {boolean} whether it is one */
function readWord(cells, index, text) {
  if (text === "-") return true;
  if (text === "?") {
    cells.flags[index] = 1;
    cells.words[index] = 0n;
    return true;
  }
  if (!/^[0-9a-f]{16}$/.test(text) || text === "ffffffffffffffff") return false;
  cells.words[index] = BigInt("0x" + text);
  return true;
}

/** Reads the line of a page into its cells.
 *  @param {Cells} cells @param {number} page @param {string} line @returns {boolean} whether it is good */
function readPage(cells, page, line) {
  const [first, ...rest] = line.split(" ");
  const wear = readNumber(first);
  if (wear === null || rest.length !== cells.pageWords) return false;
  cells.wears[page] = wear;
  return rest.every((text, at) => readWord(cells, page * cells.pageWords + at, text));
}

/** Reads an image, or names its first fault by the words of `ee`.
 *  @param {string} text @returns {{cells: Cells} | {fault: string}} */
function readImage(text) {
  if (text.length > MOST_IMAGE) return { fault: "too long" };
  const lines = text.split("\n");
  const rest = lines.pop();
  const fields = (lines[0] ?? "").split(" ");
  const [pages, pageWords] = fields.slice(1).map(readNumber);
  if (fields.length !== 3 || fields[0] !== "ee" || pages === null || pageWords === null) return { fault: "line 1" };
  if (pages < 1n || pages > 64n || pageWords < 5n || pageWords > 512n) return { fault: "shape" };
  const cells = blankCells(Number(pages), Number(pageWords));
  for (let page = 0; page < 2 * cells.pages; page++) {
    if (!readPage(cells, page, lines[page + 1] ?? "")) return { fault: `line ${page + 2}` };
  }
  const surplus = lines.length > 2 * cells.pages + 1 || rest !== "";
  return surplus ? { fault: `line ${2 * cells.pages + 2}` } : { cells };
}
