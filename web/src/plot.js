// @ts-check
// The plot of how long a part lasts, by the pages of a set, in three lines.

/** Its measures in pixels; it is as wide as there is room. */
const PLOT = { width: 640, height: 190, left: 62, right: 12, top: 12, bottom: 34 };
/** @type {["ours" | "least" | "limit", string][]} the lines, and what each tells */
const LASTING = [
  ["ours", "this store"],
  ["least", "no store of this kind lasts longer"],
  ["limit", "none lasts longer that programs a word for each change"],
];

/** @param {number} pages */
function plotX(pages) {
  return PLOT.left + ((PLOT.width - PLOT.left - PLOT.right) * (pages - 0.5)) / MOST_PAGES;
}

/** @param {number[]} years those of the sizes that bear some
 *  @returns {(years: number) => number} the height of a number of years, on a scale of decades */
function plotScale(years) {
  const low = Math.floor(Math.log10(Math.min(...years)));
  const high = Math.max(low + 1, Math.ceil(Math.log10(Math.max(...years))));
  const reach = PLOT.height - PLOT.top - PLOT.bottom;
  const foot = PLOT.height - PLOT.bottom;
  const scale = (/** @type {number} */ number) => foot - (reach * (Math.log10(number) - low)) / (high - low);
  return Object.assign(scale, { low, high });
}

/** @param {any} scale @returns {string} a line and a label for each decade, and the pages below */
function plotAxes(scale) {
  const parts = [];
  for (let decade = scale.low; decade <= scale.high; decade++) {
    const y = scale(10 ** decade);
    const label = decade < 0 ? (10 ** decade).toFixed(-decade) : (10 ** decade).toLocaleString("en");
    parts.push(`<path class="grid" d="M${PLOT.left} ${y}H${PLOT.width - PLOT.right}"/>`);
    parts.push(`<text x="${PLOT.left - 6}" y="${y + 4}" class="end">${label}</text>`);
  }
  for (const pages of [1, 8, 16, 24, 32, 40, 48, 56, 64]) {
    parts.push(`<text x="${plotX(pages)}" y="${PLOT.height - PLOT.bottom + 14}" class="middle">${pages}</text>`);
  }
  parts.push(`<text x="${(PLOT.left + PLOT.width) / 2}" y="${PLOT.height - 4}" class="middle">pages of a set</text>`);
  parts.push(`<text transform="translate(12 ${(PLOT.height - PLOT.bottom) / 2 + 8}) rotate(-90)" class="middle">years</text>`);
  return parts.join("");
}

/** @param {Size} size @param {number} runsADay @param {any} scale
 *  @param {boolean} isShown whether it is the size of the part on the page */
function plotPoint(size, runsADay, scale, isShown) {
  const x = plotX(size.pages);
  const title = `<title>${size.pages} pages: ${sizeText(size, runsADay)}</title>`;
  if (size.ours === 0) {
    const y = PLOT.height - PLOT.bottom - 5;
    return `<path class="misfit" d="M${x - 3} ${y - 3}l6 6m0 -6l-6 6">${title}</path>`;
  }
  const y = scale(yearsOf(size.ours, runsADay));
  const ring = isShown ? `<circle class="shown" cx="${x}" cy="${y}" r="6.5"/>` : "";
  return `${ring}<circle class="point" cx="${x}" cy="${y}" r="5">${title}</circle>`;
}

/** @param {Size} size @param {number} runsADay */
function sizeText(size, runsADay) {
  if (size.misfit > 0) return `change ${size.misfit} does not fit`;
  return size.ours === 0 ? "worn in the first run" : lifeText(size.ours, runsADay);
}

/** @param {Size[]} sizes those that bear some runs @param {"ours" | "least" | "limit"} name of the line
 *  @param {number} runsADay @param {any} scale */
function plotLine(sizes, name, runsADay, scale) {
  const points = sizes.map((size) => `${plotX(size.pages)} ${scale(yearsOf(size[name], runsADay))}`);
  return `<path class="${name}" d="M${points.join("L")}h0"/>`;
}

/** @param {Size[]} sizes @param {number} runsADay @param {number} shown the pages of a set of the part on the page
 *  @returns {string} a drawing, or nothing where there is none to make */
function plotText(sizes, runsADay, shown) {
  const bears = sizes.filter((size) => size.ours > 0);
  const years = bears.flatMap((size) => [size.ours, size.least, size.limit]).map((runs) => yearsOf(runs, runsADay));
  if (years.length === 0) return "";
  const scale = plotScale(years);
  const lines = LASTING.map(([name]) => plotLine(bears, name, runsADay, scale)).join("");
  const points = sizes.map((size) => plotPoint(size, runsADay, scale, size.pages === shown)).join("");
  return (
    `<svg width="${PLOT.width}" height="${PLOT.height}" role="img" aria-label="Years until the first page is worn, for 1 to 64 ` +
    `pages of a set, in the three lines above; the table below has the numbers. A ring is this part, a cross a size that does not do.">` +
    `${plotAxes(scale)}${lines}${points}</svg>`
  );
}

/** @param {Command[] | null} trace the changes of the script, or none where it has a line that power is cut by
 *  @param {Cells} cells */
function drawSizing(trace, cells) {
  const [cycles, runsADay] = [at("cycles"), at("runs")].map((field) => Number(field.value));
  const good = [cycles, runsADay].every((number) => Number.isInteger(number) && number >= 1 && number <= 4294967295);
  const sizes = good && trace !== null && trace.length > 0 ? sizesOf(trace, cells.pageWords, cycles) : [];
  PLOT.width = Math.max(240, Math.min(760, at("plot").clientWidth));
  at("plot").innerHTML = plotText(sizes, runsADay, cells.pages);
  const rows = sizes.map((size) => [size.pages, size.slots, size.ours, sizeText(size, runsADay), size.least, size.limit]);
  drawTable(at("sizes"), "By pages of a set", ["pages", "slots", "runs", "lasts", "runs by least", "by limit"], rows);
  const shown = sizes[cells.pages - 1];
  at("sizing").textContent = sizingText(good, trace, shown, runsADay, cells);
  drawLasting(shown, runsADay);
}

/** The three lines by name, each with how long the part on the page lasts by it.
 *  @param {Size | undefined} size @param {number} runsADay */
function drawLasting(size, runsADay) {
  const lines = size === undefined ? [] : LASTING;
  const rows = lines.map(([name, told]) => {
    const lasts = size === undefined || size.misfit > 0 ? "\u2013" : lifeText(size[name], runsADay);
    return make("li", { className: name }, make("b", {}, name), make("span", {}, lasts), make("span", {}, told));
  });
  at("lasting").replaceChildren(...rows);
}

/** @param {boolean} good @param {Command[] | null} trace @param {Size} size @param {number} runsADay
 *  @param {Cells} cells */
function sizingText(good, trace, size, runsADay, cells) {
  if (!good) return "Erases and runs are whole numbers from 1 to 4294967295.";
  if (trace === null) return "The script has a bad line, or one of power (x, p): mend it, or take those lines out.";
  if (trace.length === 0) return "The script changes nothing, so no page is erased.";
  return `${cells.pages} ${cells.pages === 1 ? "page" : "pages"} of ${cells.pageWords} words a set: ${sizeText(size, runsADay)}.`;
}
