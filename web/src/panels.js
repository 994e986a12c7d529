// @ts-check
// Draws what stands around the sets: counts, steps, history, variables, report, moves and erases.

const MOST_ROWS = 200;
/** What answers mean that a reader may meet for the first time here.
 *  @type {Record<string, string>} */
const MEANINGS = {
  ok: "Done: a slot was free.",
  moved: "Done: all slots were used, so the live set moved.",
  full: "Refused: as many addresses have a value as there are slots.",
  absent: "Refused: this address has no value.",
  spent: "Refused: all slots are used, and this generation is the last.",
  none: "This address has no value.",
  clean: "One of the pages that waited is erased.",
  idle: "No page waits to be erased.",
  armed: "Power will be cut in a step to come.",
  cut: "Power was cut on the way. Power on opens the store again.",
  off: "No store is open, so nothing was done.",
};

/** @param {string} id @returns {any} */
const at = (id) => document.getElementById(id);

/** @param {string} tag @param {Record<string, any>} properties @param {(Node | string)[]} children */
function make(tag, properties, ...children) {
  const made = Object.assign(document.createElement(tag), properties);
  made.append(...children);
  return made;
}

/** @param {HTMLElement} table @param {string} caption @param {string[]} heads
 *  @param {(string | number | bigint)[][]} rows */
function drawTable(table, caption, heads, rows) {
  const head = make("tr", {}, ...heads.map((text) => make("th", { scope: "col" }, text)));
  const lines = rows.map((row) => make("tr", {}, ...row.map((text) => make("td", {}, String(text)))));
  table.replaceChildren(make("caption", {}, caption), make("thead", {}, head), make("tbody", {}, ...lines));
}

/** @type {Record<string, string>} */
const COUNTS = {
  fill: "slots of the live set that are used",
  room: "slots of the live set that are free",
  live: "addresses that have a value",
  pending: "pages of the other set that wait to be erased",
  generation: "that of the live set: one more with each move",
  transfers: "moves since the report began",
};
const NOT_OPEN = "\u25a0 Power is on; no store was opened yet: go forth in the history, rescue or format.";

/** @param {Bench} bench @returns {string} one sentence or two on power, the store and the call */
function standText(bench) {
  const { power, open, fault, armed, call } = bench.desk;
  const line = call?.command.line;
  const number = (call?.taken ?? 0) + (bench.underWay ? 1 : 0);
  const step = `step ${number} of ${call?.steps.length} of \u201c${line}\u201d`;
  if (!power) return `\u25a1 Power is off: cut in ${step}. Power on opens what lies here.`;
  const wait = armed?.after === 0n ? "the next step" : `${armed?.after} steps pass, and the next`;
  const fuse = armed === null ? "" : ` A cut is armed: ${wait} is left ${TEARS[armed.tear]}.`;
  if (bench.underWay) return `\u25b8 Power is on; ${step} comes next. The counts are of a store opened here.${fuse}`;
  if (fault !== null) return `\u25b2 No store here: ${fault}. Rescue makes one of what can be read; format loses what these cells hold.`;
  return open ? `\u25a0 Power is on, and the store is open.${fuse}` : NOT_OPEN;
}

/** @param {Bench} bench @param {Counts} counts */
function drawStand(bench, counts) {
  at("stand").textContent = standText(bench);
  const { fill, room, live, pending, generation } = counts;
  const known = counts.status === STATUS.OK;
  const transfers = bench.desk.trace?.last?.number ?? 0;
  const pairs = Object.entries({ fill, room, live, pending, generation, transfers });
  const rows = pairs.map(([name, number]) => {
    const shown = known || name === "transfers" ? String(number) : "\u2013";
    return make("div", { title: COUNTS[name] }, make("dt", {}, name), make("dd", {}, shown));
  });
  at("counts").replaceChildren(...rows);
  const { told, note, lines } = bench.entry;
  drawAnswer(told, lines.length === 0 ? note : (MEANINGS[lines[lines.length - 1][1]] ?? ""));
}

/** @param {string} told an answer, or nothing where none stands @param {string} meaning what that says in a few words */
function drawAnswer(told, meaning) {
  at("answer").textContent = told;
  at("meaning").textContent = meaning;
}

/** @param {Call} call @param {number} index @returns {[string, string]} the class and the sign of a step */
function signOf(call, index) {
  if (call.tear !== null && index === call.taken - 1) return ["is-cut", `\u2716 cut, ${TEARS[call.tear]}: `];
  if (index < call.taken) return ["is-taken", "\u2713 "];
  if (index === call.taken && call.tear === null) return ["is-next", "\u25b8 "];
  return ["is-left", call.tear === null ? "" : "\u2013 never taken: "];
}

/** @param {Bench} bench */
function drawSteps(bench) {
  const { call } = bench.desk;
  const list = at("steps");
  const from = Math.max(0, (call?.taken ?? 0) - MOST_ROWS / 2);
  list.start = from + 1;
  const steps = call === null ? [] : call.steps.slice(from, from + MOST_ROWS);
  const rows = steps.map((step, index) => {
    const [style, sign] = signOf(/** @type {Call} */ (call), from + index);
    return make("li", { className: style }, sign + stepText(step));
  });
  list.replaceChildren(...rows);
  at("steps-title").textContent = call === null ? "Its steps" : `Steps of \u201c${call.command.line}\u201d`;
  for (const id of ["step", "rest", "cut-n", "cut-d", "cut-t", "cut-m"]) at(id).disabled = !bench.underWay;
  at("power").disabled = bench.desk.power;
}

/** @param {Bench} bench */
function drawHistory(bench) {
  const last = bench.entries.length - 1;
  Object.assign(at("entry"), { max: last, value: bench.at });
  at("entry").setAttribute("aria-valuetext", bench.entry.what);
  for (const id of ["first-entry", "back"]) at(id).disabled = bench.at === 0;
  for (const id of ["last-entry", "forth"]) at(id).disabled = bench.at === last;
  const behind = last - bench.at;
  const replaced = `of ${last}. What is done now replaces the ${behind} behind it.`;
  at("branch").textContent = `Entry ${bench.at}${behind === 0 ? ", the last." : " " + replaced}`;
  const from = Math.max(0, Math.min(bench.at - MOST_ROWS / 2, last - MOST_ROWS));
  const rows = bench.entries.slice(from, from + MOST_ROWS + 1).map((entry, index) => {
    const button = make("button", { type: "button", value: String(from + index) }, entry.what);
    if (from + index === bench.at) button.setAttribute("aria-current", "step");
    return make("li", { value: from + index, className: from + index > bench.at ? "is-ahead" : "" }, button);
  });
  const list = at("history");
  list.style.paddingLeft = `${Math.max(4, String(last).length) + 2}ch`;
  list.replaceChildren(...rows);
  const shown = rows[bench.at - from];
  list.scrollTop = shown.offsetTop - list.clientHeight / 2;
}

/** @param {Bench} bench @param {Counts} counts */
function drawVariables(bench, counts) {
  const variables = bench.library.variables(bench.cells, MOST_ROWS);
  const more = counts.live > variables.length ? `, the first ${variables.length}` : "";
  const caption = counts.status === STATUS.OK ? `${counts.live} with a value${more}` : "None: these cells are no store.";
  drawTable(at("variables"), caption, ["address", "value"], variables.map(({ address, value }) => [address, value]));
}

/** @param {Bench} bench @param {Counts} counts */
function drawReport(bench, counts) {
  const report = at("report");
  const text = reportText(bench, counts);
  if (report.textContent !== text) {
    const end = text.search(/^end /m);
    const answers = end < 0 ? text : text.slice(0, end);
    const [stand = "", head = "", ...rest] = text.slice(answers.length).split(/(?<=\n)/);
    const long = [stand, head].map((line) => make("span", { className: "long" }, line));
    report.replaceChildren(answers, ...long, rest.join(""));
    report.scrollTop = report.scrollHeight;
  }
  at("lines").textContent = scriptText(bench);
}

/** @param {Bench} bench */
function drawMoves(bench) {
  const { trace } = bench.desk;
  const slots = slotsOf(bench.cells);
  const stretches = trace === null || trace.cut ? [] : stretchesOf(trace);
  at("why").textContent = trace === null ? "The report begins with the next store that opens." : whyFewest(trace, slots);
  const shown = stretches.slice(0, MOST_ROWS);
  const rows = shown.map(({ number, to, from }) => [number, `to ${to} from ${from}`, `change ${to}`, `${from} of ${slots}`]);
  const more = stretches.length > MOST_ROWS ? `, the first ${MOST_ROWS} of ${stretches.length}` : "";
  const caption = `Stretches, one for each move${more}`;
  drawTable(at("moves"), caption, ["move", "stretch", "moved with", "used before"], rows);
  const wears = Array.from(bench.cells.wears, (wear, page) => [page, wear, trace === null ? "\u2013" : wear - trace.wears[page]]);
  drawTable(at("erases"), "Erases per page", ["page", "in all", "since the store was open"], wears);
}

function drawLegend() {
  const kinds = /** @type {Kind[]} */ (["live", "superseded", "copied", "forgetting", "torn", "free", "foreign"]);
  const signs = kinds.map((kind) => make("li", {}, make("i", { className: kind }, KINDS[kind][0]), ` ${KINDS[kind][1]}`));
  const frames = [["changed", "changed by the last step"], ["next", "of the next step"]];
  const framed = frames.map(([style, text]) => make("li", {}, make("i", { className: `free ${style}` }, "\u00b7"), ` ${text}`));
  at("legend").replaceChildren(...signs, ...framed);
}
