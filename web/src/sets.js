// @ts-check
// Draws both sets, page by page and word by word.

const MOST_ROOMY = 16; // words of a page up to which each is spelled out
const MOST_AT_ONCE = 4096; // words of a part up to which all are drawn; of a larger one the pages that are seen
const HEADER_NAMES = ["receive", "active", "valid", "erasing"];
const HEADER_LETTERS = ["R", "A", "V", "E"];

/** @param {Cells} cells @param {Reading} reading @param {number} index
 *  @returns {string} what stands in the box of a word */
function boxText(cells, reading, index) {
  const place = index % cells.pageWords;
  const kind = reading.kinds[index];
  const glyph = KINDS[kind][0];
  if (cells.pageWords > MOST_ROOMY) return kind === "header" ? HEADER_LETTERS[place] : glyph;
  if (place < 4) {
    const said = kind === "header" && place === 0 ? String(cells.words[index] & 0xffffffffn) : glyph;
    return `${HEADER_NAMES[place]} ${said}`;
  }
  if (kind === "free" || kind === "torn" || kind === "foreign") return `${glyph} ${KINDS[kind][1]}`;
  return `${glyph} ${sayWord(cells.words[index], place)}`;
}

/** @param {Step} step @param {number} pageWords */
function wordsOfStep(step, pageWords) {
  const first = step.page * pageWords;
  return step.place === ERASE ? Array.from({ length: pageWords }, (_, at) => first + at) : [first + step.place];
}

class SetsView {
  /** @param {HTMLElement} root @param {HTMLElement} readout the line that tells of the word that is pointed at */
  constructor(root, readout) {
    this.root = root;
    this.readout = readout;
    /** @type {HTMLElement[]} the row of each page */
    this.rows = [];
    /** @type {HTMLElement[][]} the boxes of each page's words, none before it is drawn */
    this.boxes = [];
    /** @type {string[]} what stands in each box */
    this.drawn = [];
    /** @type {Set<number>} the pages that are seen, or near it */
    this.near = new Set();
    this.watch = new IntersectionObserver((seen) => this.see(seen), { rootMargin: "400px" });
    /** @type {Set<number>} the words that the entry changed */
    this.changed = new Set();
    /** @type {Set<number>} those of the step that comes next */
    this.next = new Set();
    this.shape = "";
    this.cursor = -1;
    /** @type {Entry | null} */
    this.shown = null;
    /** @type {(index: number) => string} */
    this.describe = () => "";
    /** @type {(page: number) => void} */
    this.paint = () => {};
    root.addEventListener("keydown", (event) => this.walk(event));
    root.addEventListener("mouseover", (event) => this.point(/** @type {HTMLElement} */ (event.target)));
    window.addEventListener("resize", () => this.measure());
  }

  /** @param {Bench} bench @param {Reading} reading */
  draw(bench, reading) {
    const { cells } = bench;
    const shape = `${cells.pages} ${cells.pageWords}`;
    if (shape !== this.shape) this.build(cells);
    this.shape = shape;
    this.describe = (index) => describeWord(cells, reading, index);
    this.paint = (page) => this.fill(cells, reading, page);
    this.mark(bench);
    this.near.forEach((page) => this.paint(page));
    this.name(cells, reading);
    const [first] = [...this.changed, ...this.next];
    if (this.shown !== bench.entry && first !== undefined) this.follow(this.box(first));
    this.shown = bench.entry;
    if (this.cursor >= 0) this.tell(this.cursor);
  }

  /** Scrolls the sets, and not the window, to a word that is out of sight.
   *  @param {HTMLElement} box */
  follow(box) {
    const [outer, inner] = [this.root, box].map((it) => it.getBoundingClientRect());
    const isSeen = inner.top >= outer.top && inner.bottom <= outer.bottom;
    if (!isSeen) this.root.scrollTop += inner.top - outer.top - outer.height / 2;
  }

  /** @param {Cells} cells a part of another shape than before */
  build(cells) {
    const page =
      '<div class="page" role="row"><div class="name" role="rowheader"></div><div class="heads" role="none"></div>' +
      '<div class="slots" role="none"></div></div>';
    const set = (/** @type {number} */ number) =>
      `<div class="set" role="rowgroup"><h3><span>Set ${number}</span> <b></b></h3>${page.repeat(cells.pages)}</div>`;
    this.watch.disconnect();
    this.root.innerHTML = set(0) + set(1);
    this.root.className = cells.pageWords > MOST_ROOMY ? "dense" : "roomy";
    this.rows = Array.from(this.root.querySelectorAll(".page"));
    this.boxes = this.rows.map(() => []);
    this.drawn = Array(cells.flags.length).fill("");
    this.near.clear();
    this.cursor = -1;
    this.readout.textContent = "Point at a word, or go there by the arrow keys.";
    const isAtOnce = cells.flags.length <= MOST_AT_ONCE;
    this.rows.forEach((row, at) => (isAtOnce ? this.raise(at, cells.pageWords) : this.watch.observe(row)));
    if (!isAtOnce) this.raise(0, cells.pageWords);
    this.measure();
  }

  /** Makes the boxes of a page, and keeps them drawn from there on.
   *  @param {number} page @param {number} pageWords */
  raise(page, pageWords) {
    this.near.add(page);
    if (this.boxes[page].length > 0) return;
    const row = this.rows[page];
    const boxes = (/** @type {number} */ count) => '<i role="gridcell"></i>'.repeat(count);
    row.children[1].innerHTML = boxes(4);
    row.children[2].innerHTML = boxes(pageWords - 4);
    row.classList.add("is-drawn");
    this.boxes[page] = Array.from(row.querySelectorAll("i"));
  }

  /** All pages are as high as the first one, also those that aren't drawn. */
  measure() {
    const [first] = this.rows;
    if (first === undefined) return;
    first.style.contentVisibility = "visible";
    this.root.style.setProperty("--page-height", `${first.getBoundingClientRect().height}px`);
    first.style.contentVisibility = "";
  }

  /** Draws the pages that come near, and no longer those that go.
   *  @param {IntersectionObserverEntry[]} seen */
  see(seen) {
    for (const { target, isIntersecting } of seen) {
      const page = this.rows.indexOf(/** @type {HTMLElement} */ (target));
      if (!isIntersecting) this.near.delete(page);
      else if (page >= 0) this.show(page);
    }
  }

  /** @param {number} page */
  show(page) {
    this.raise(page, Number(this.shape.split(" ")[1]));
    this.paint(page);
  }

  /** @param {number} index @returns {HTMLElement} the box of a word, on a page that is drawn with it */
  box(index) {
    const pageWords = Number(this.shape.split(" ")[1]);
    const page = Math.floor(index / pageWords);
    if (this.boxes[page].length === 0) this.show(page);
    return this.boxes[page][index % pageWords];
  }

  /** @param {HTMLElement} target @returns {number} the word whose box it is, or -1 */
  indexOf(target) {
    const page = this.rows.findIndex((row) => row.contains(target));
    const place = page < 0 ? -1 : this.boxes[page].indexOf(target);
    return place < 0 ? -1 : page * this.boxes[page].length + place;
  }

  /** Draws the words of a page that say something else than before.
   *  @param {Cells} cells @param {Reading} reading @param {number} page */
  fill(cells, reading, page) {
    const first = page * cells.pageWords;
    this.boxes[page].forEach((box, place) => {
      const index = first + place;
      const text = boxText(cells, reading, index);
      const marks = (this.changed.has(index) ? " changed" : "") + (this.next.has(index) ? " next" : "");
      const drawn = reading.kinds[index] + marks + text;
      if (this.drawn[index] === drawn) return;
      this.drawn[index] = drawn;
      box.textContent = text;
      box.className = reading.kinds[index] + marks;
    });
  }

  /** @param {Cells} cells @param {Reading} reading */
  name(cells, reading) {
    this.rows.forEach((row, page) => {
      const told = `page ${page} <b>${reading.states[page]}</b> <span>wear ${cells.wears[page]}</span>`;
      if (row.dataset.told !== told) row.children[0].innerHTML = row.dataset.told = told;
    });
    this.root.querySelectorAll(".set").forEach((set, number) => {
      const isLive = number === reading.liveSet;
      set.classList.toggle("is-live", isLive);
      set.setAttribute("aria-label", `Set ${number}${isLive ? ", live" : ""}`);
      /** @type {HTMLElement} */ (set.querySelector("h3 b")).textContent = isLive ? "live" : "";
    });
  }

  /** Frames the words that the entry changed, and those of the step that comes next.
   *  @param {Bench} bench */
  mark(bench) {
    const { delta, desk } = bench.entry;
    const changed = delta === null ? [] : Array.from(delta.after.flags, (_, at) => delta.from + at);
    const step = bench.underWay && desk.call !== null ? desk.call.steps[desk.call.taken] : null;
    this.changed = new Set(changed);
    this.next = new Set(step === null ? [] : wordsOfStep(step, bench.cells.pageWords));
  }

  /** @param {KeyboardEvent} event */
  walk(event) {
    const [pages, pageWords] = this.shape.split(" ").map(Number);
    /** @type {Record<string, number>} */
    const moves = { ArrowLeft: -1, ArrowRight: 1, ArrowUp: -pageWords, ArrowDown: pageWords };
    const move = moves[event.key];
    if (move === undefined || event.ctrlKey || event.altKey || event.metaKey) return;
    event.preventDefault();
    const goal = this.cursor < 0 ? 0 : this.cursor + move;
    if (goal >= 0 && goal < 2 * pages * pageWords) this.visit(goal);
  }

  /** @param {number} index */
  visit(index) {
    if (this.cursor >= 0) this.box(this.cursor).removeAttribute("id");
    this.cursor = index;
    const box = this.box(index);
    box.id = "cursor";
    this.root.setAttribute("aria-activedescendant", "cursor");
    box.scrollIntoView({ block: "nearest" });
    this.tell(index);
  }

  /** @param {number} index the word at the cursor */
  tell(index) {
    this.box(index).setAttribute("aria-label", this.describe(index));
    this.readout.textContent = this.describe(index);
  }

  /** @param {HTMLElement} target */
  point(target) {
    const index = target.tagName === "I" ? this.indexOf(target) : -1;
    if (index < 0) return;
    target.title = this.describe(index);
    this.readout.textContent = target.title;
  }
}
