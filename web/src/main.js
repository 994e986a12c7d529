// @ts-check
// Joins the parts: what each button, field and key does.

const OTHER_COUNT = "\u25b2 The page counts other live slots than the proved code: do not trust its colours.";
const NO_LONG_MEMORIES =
  "\u25b2 This browser has no 64-bit memories for WebAssembly, which the proved store needs: " +
  "take Chromium 133, Firefox 134 or later.";
/** What a click on a word does.
 *  @type {Record<string, string>} */
const CLICKS = {
  "": "A click changes nothing. Let a word go bad to see what it costs, and what a rescue saves.",
  torn: "A click, or Enter at the cursor, leaves the word torn: it can\u2019t be read. Then the store is opened anew.",
  turned: "A click, or Enter at the cursor, turns one bit, so that no store wrote the word. Then the store is opened anew.",
};
const NO_NUMBERS = "An address is a whole number from 1 to 65534, a value one from 0 to 4294967295.";

class Page {
  /** @param {Library} library */
  constructor(library) {
    this.library = library;
    this.view = new SetsView(at("sets"), at("word"));
    this.nextLine = 0;
    this.imageTyped = false;
    this.bench = this.fresh(1, 6);
  }

  /** @param {number} pages @param {number} pageWords */
  fresh(pages, pageWords) {
    const what = `a new part: 2 \u00d7 ${pages} pages of ${pageWords} words`;
    const bench = new Bench(this.library, blankCells(pages, pageWords), what);
    bench.begin(ownCommand("format"));
    return bench;
  }

  /** Does something, and draws; or says what is wrong with it, and no answer stands beside that.
   *  @param {() => void} deed */
  act(deed) {
    at("notice").textContent = "";
    let refusal = "";
    try {
      deed();
    } catch (fault) {
      refusal = `\u25b2 ${/** @type {Error} */ (fault).message}`;
    }
    this.draw();
    if (refusal === "") return;
    at("notice").textContent = refusal;
    drawAnswer("", "");
  }

  draw() {
    const { bench } = this;
    const counts = this.library.counts(bench.cells);
    const reading = readingOf(bench.cells, counts);
    if (reading.live !== counts.live) at("notice").textContent = OTHER_COUNT;
    this.view.draw(bench, reading);
    drawStand(bench, counts);
    drawSteps(bench);
    drawHistory(bench);
    drawVariables(bench, counts);
    drawReport(bench, counts);
    drawMoves(bench);
    this.drawImage();
    this.drawScript();
  }

  drawImage() {
    if (at("image").open && !this.imageTyped) at("image-text").value = imageText(this.bench.cells);
  }

  drawScript() {
    const script = readScript(at("script").value);
    const commands = "commands" in script ? script.commands : [];
    const changes = commands.filter((command) => command.kind === "w" || command.kind === "f");
    const cuts = commands.some((command) => command.kind === "x" || command.kind === "p");
    drawSizing("bad" in script || cuts ? null : changes, this.bench.cells);
    const left = commands.slice(this.nextLine);
    const next = `line ${this.nextLine + 1} of ${commands.length} is next`;
    const told = left.length === 0 ? "no line is left" : `${next}: ${left[0].line}`;
    at("line-at").textContent = "bad" in script ? `line ${script.bad} is no command` : told;
  }

  /** Takes the steps of the call, unless the user wants to take them. */
  goOn() {
    if (!at("by-step").checked) this.bench.rest();
  }

  /** @param {Command} command */
  command(command) {
    const { underWay, desk } = this.bench;
    if (underWay) throw new Error("A call is under way: take its steps, or cut power in one.");
    const makes = command.kind === "format" || command.kind === "rescue";
    if (desk.fault !== null && !makes) throw new Error(`No store here: ${desk.fault}. Rescue or format first.`);
    this.bench.begin(command);
  }

  /** @param {string} line one that is put together from the fields */
  byHand(line) {
    const command = readCommand(line);
    if (command === null) throw new Error(NO_NUMBERS);
    this.command(command);
    this.goOn();
  }

  /** Writes the values of both addresses at once.
   *  @param {string[]} one an address and its value, as they are typed @param {string[]} other */
  bothByHand(one, other) {
    const [first, second] = [one, other].map((fields) => readCommand(`w ${fields.join(" ")}`));
    if (first === null || second === null) throw new Error(NO_NUMBERS);
    this.command(bothCommand(variableOf(first), variableOf(second)));
    this.goOn();
  }

  /** Lets a word go bad, where that is what a click does.
   *  @param {number} index */
  spoil(index) {
    const damage = at("tool").value;
    if (damage === "" || index < 0) return;
    this.view.visit(index);
    this.act(() => {
      this.bench.spoil(index, damage);
      this.goOn();
    });
  }

  /** Says what a click on a word does. */
  drawTool() {
    const { value } = at("tool");
    at("sets").dataset.tool = value;
    at("hint").textContent = CLICKS[value];
  }

  runAll() {
    for (const command of this.script()) {
      this.command(command);
      this.bench.rest();
    }
    this.nextLine = 0;
  }

  runLine() {
    const commands = this.script();
    if (this.nextLine >= commands.length) this.nextLine = 0;
    if (commands.length === 0) throw new Error("The script has no line.");
    this.command(commands[this.nextLine]);
    this.nextLine += 1;
    this.goOn();
  }

  /** @returns {Command[]} */
  script() {
    const script = readScript(at("script").value);
    if ("bad" in script) throw new Error(`script line ${script.bad}: this is no command, and no line was run.`);
    return script.commands;
  }

  newPart() {
    const [pages, pageWords] = [at("pages"), at("page-words")].map((field) => Number(field.value));
    const isIn = (/** @type {number} */ number, /** @type {number} */ least, /** @type {number} */ most) =>
      Number.isInteger(number) && least <= number && number <= most;
    if (!isIn(pages, 1, 64) || !isIn(pageWords, 5, 512)) throw new Error("A set has 1 to 64 pages, a page 5 to 512 words.");
    this.imageTyped = false;
    this.bench = this.fresh(pages, pageWords);
    this.nextLine = 0;
    this.goOn();
  }

  /** @param {string} text */
  load(text) {
    const read = readImage(text);
    if ("fault" in read) throw new Error(`image ${read.fault}: this text is no image, and nothing was changed.`);
    this.imageTyped = false;
    this.bench = new Bench(this.library, read.cells, "an image is loaded");
    this.nextLine = 0;
    this.bench.begin(ownCommand("open"));
    this.goOn();
    Object.assign(at("pages"), { value: read.cells.pages });
    Object.assign(at("page-words"), { value: read.cells.pageWords });
  }

  loadTyped() {
    const text = at("image-text").value;
    this.load(text === "" || text.endsWith("\n") ? text : text + "\n");
  }

  save() {
    const link = document.createElement("a");
    link.href = URL.createObjectURL(new Blob([imageText(this.bench.cells)], { type: "text/plain" }));
    link.download = "part.image";
    link.click();
    setTimeout(() => URL.revokeObjectURL(link.href), 10000);
  }
}

/** @param {string} id @returns {string} the number in a field, as a script spells it: 7 where 007 is typed */
function numberIn(id) {
  const { value } = at(id);
  return value === "" ? "" : String(Number(value));
}

/** @param {Command} command @returns {Variable} what it writes */
function variableOf({ address, value }) {
  return { address, value };
}

/** @param {Page} page */
function listenToButtons(page) {
  const fields = () => [numberIn("address"), numberIn("value")];
  const others = () => [numberIn("other-address"), numberIn("other-value")];
  /** @type {Record<string, () => void>} */
  const deeds = {
    new: () => page.newPart(),
    format: () => (page.command(ownCommand("format")), page.goOn()),
    write: () => page.byHand(`w ${fields().join(" ")}`),
    both: () => page.bothByHand(fields(), others()),
    read: () => page.byHand(`r ${fields()[0]}`),
    forget: () => page.byHand(`f ${fields()[0]}`),
    clean: () => page.byHand("c"),
    clear: () => (page.command(ownCommand("clear")), page.goOn()),
    rescue: () => (page.command(ownCommand("rescue")), page.goOn()),
    step: () => page.bench.step(),
    rest: () => page.bench.rest(),
    power: () => page.byHand("p"),
    run: () => page.runAll(),
    "next-line": () => page.runLine(),
    "image-load": () => page.loadTyped(),
    "image-save": () => page.save(),
    "first-entry": () => page.bench.go(0),
    back: () => page.bench.go(page.bench.at - 1),
    forth: () => page.bench.go(page.bench.at + 1),
    "last-entry": () => page.bench.go(page.bench.entries.length),
  };
  for (const tear of /** @type {Tear[]} */ (["n", "d", "t", "m"])) deeds[`cut-${tear}`] = () => page.bench.step(tear);
  for (const [id, deed] of Object.entries(deeds)) at(id).addEventListener("click", () => page.act(deed));
}

/** @param {string} button @param {(event: KeyboardEvent) => boolean} counts whether this press of Enter is meant */
function pressOnEnter(button, counts) {
  return (/** @type {KeyboardEvent} */ event) => {
    if (event.key === "Enter" && counts(event)) at(button).click();
  };
}

/** @param {Page} page */
function listenToFields(page) {
  at("entry").addEventListener("input", () => page.act(() => page.bench.go(Number(at("entry").value))));
  at("history").addEventListener("click", (/** @type {any} */ event) => {
    const { value } = event.target;
    if (value !== undefined && event.target.tagName === "BUTTON") page.act(() => page.bench.go(Number(value)));
  });
  for (const id of ["address", "value"]) at(id).addEventListener("keydown", pressOnEnter("write", () => true));
  for (const id of ["other-address", "other-value"]) at(id).addEventListener("keydown", pressOnEnter("both", () => true));
  for (const id of ["pages", "page-words"]) at(id).addEventListener("keydown", pressOnEnter("new", () => true));
  at("script").addEventListener("keydown", pressOnEnter("run", (event) => event.ctrlKey));
  at("script").addEventListener("input", () => ((page.nextLine = 0), page.drawScript()));
  for (const id of ["cycles", "runs"]) at(id).addEventListener("input", () => page.drawScript());
  window.addEventListener("resize", () => (placeLasts(), page.drawScript()));
  at("image").addEventListener("toggle", () => ((page.imageTyped = false), page.drawImage()));
  at("image-text").addEventListener("input", () => (page.imageTyped = true));
  at("image-file").addEventListener("change", async () => {
    const [file] = at("image-file").files;
    if (file === undefined) return;
    const text = await file.text();
    at("image-file").value = "";
    page.act(() => page.load(text));
  });
  at("theme").addEventListener("change", () => (document.documentElement.dataset.theme = at("theme").value));
}

/** What a click on a word, or Enter at the cursor, does.
 *  @param {Page} page */
function listenToSets(page) {
  at("tool").addEventListener("change", () => page.drawTool());
  at("sets").addEventListener("click", (/** @type {MouseEvent} */ event) => {
    page.spoil(page.view.indexOf(/** @type {HTMLElement} */ (event.target)));
  });
  at("sets").addEventListener("keydown", (/** @type {KeyboardEvent} */ event) => {
    if (event.key === "Enter") page.spoil(page.view.cursor);
  });
}

/** How long a part lasts stands beside the sets, under the report, where the window has a column for it, and else below
 *  the moves. */
function placeLasts() {
  const column = at(matchMedia("(min-width: 1400px)").matches ? "third" : "fourth");
  if (at("lasts").parentNode !== column) column.append(at("lasts"));
}

/** Single keys, where no field is written in. */
function listenToKeys() {
  /** @type {Record<string, string>} */
  const buttons = { s: "step", r: "rest", p: "power", n: "cut-n", d: "cut-d", t: "cut-t", m: "cut-m", "[": "back", "]": "forth" };
  document.addEventListener("keydown", (event) => {
    const target = /** @type {HTMLElement} */ (event.target);
    const writes = target.matches("textarea, select, input:not([type=range]):not([type=checkbox])");
    const id = buttons[event.key];
    if (id === undefined || writes || !at("keys").checked || event.ctrlKey || event.altKey || event.metaKey) return;
    event.preventDefault();
    at(id).click();
  });
}

async function start() {
  if (!hasLongMemories()) {
    at("notice").textContent = NO_LONG_MEMORIES;
    document.body.classList.add("without");
    return;
  }
  const page = new Page(await Library.load(MODULE));
  page.bench.rest();
  drawLegend();
  placeLasts();
  listenToButtons(page);
  listenToFields(page);
  listenToSets(page);
  listenToKeys();
  page.drawTool();
  page.draw();
}

start();
