// @ts-check
// The bench: a part, its power, the call that is under way, and the history of all that was done.

/**
 * A call that takes steps: under way until all are taken or power was cut in one.
 * @typedef {object} Call
 * @property {Command} command
 * @property {Step[]} steps
 * @property {number} taken how many steps began
 * @property {Tear | null} tear what the last of them left, if it was cut
 * @property {string} answer what is answered once all are taken
 * @property {string} note what that means in a few words, of a call that no script has
 */
/** @typedef {{to: number, from: number, number: number, before: StretchLine | null}} StretchLine a move, and those before it:
 *  the number of its change, the fill behind the move before it, and its own number */
/**
 * What a report needs, from the opening of a store on.
 * @typedef {object} Trace
 * @property {number} base the entry at which the store was first open
 * @property {{fill: number, live: number}} start
 * @property {BigUint64Array} wears how often each page was erased then
 * @property {number} changes how many were accepted
 * @property {number} fill slots used behind the last move
 * @property {StretchLine | null} last
 * @property {boolean} cut whether a line was answered `cut`
 */
/**
 * How things stand beside the cells. Never changed in place, for the history keeps each.
 * @typedef {object} Desk
 * @property {boolean} power
 * @property {boolean} open whether a store is open
 * @property {string | null} fault why none can be opened
 * @property {{after: bigint, tear: Tear} | null} armed
 * @property {Call | null} call the last call
 * @property {Trace | null} trace
 */
/** @typedef {{what: string, told: string, note: string, lines: string[][], delta: Delta | null, desk: Desk}} Entry
 *  what was done, what is told of it as an answer and what that means, the script lines that it answered with their
 *  answers, and what it left */

/** @type {Record<string, string>} */
const CALLS = { w: "write", both: "write_both", f: "forget", c: "clean", p: "open", open: "open", anew: "open", format: "format", clear: "clear" };
const SCRIPTED = ["w", "f", "r", "c", "x", "p"];
const ANSWERS = ["ok", "moved", "idle", "full", "spent", "absent"];
/** @type {Record<string, string>} */
const WHOLE_ANSWERS = { c: "clean", p: "open", open: "open", anew: "open", format: "formatted" };

/** What is told of the commands that no script has, once all their steps are taken.
 *  @type {Record<string, string>} */
const OWN_ANSWERS = {
  format: "the part is formatted, with no values",
  open: "the image is loaded, its store is open",
  anew: "the store opens still, with the word as it is",
};
/** What the answers of a clear mean.
 *  @type {Record<string, string>} */
const CLEARED = {
  moved: "Done: no address has a value. The set that was live waits to be erased.",
  nothing: "No slot is used, so nothing was done.",
  spent: "Refused: a slot is used, and this generation is the last.",
};
/** Why there is no rescue, by the words of `ee`, and what that means.
 *  @type {Record<number, [string, string]>} */
const NOT_RESCUED = {
  [STATUS.NOTHING_BEGUN]: ["nothing to rescue", "Refused: in both sets the mark that commits it is erased."],
  [STATUS.SPENT]: ["spent", "Refused: the set that would be rescued names the last generation."],
};
const CUT_RESCUE = "Power was cut on the way. Power on opens what lies there; where that is refused, rescue again.";
const MOST_NAMED = 8; // of the words that a rescue finds bad

/** @param {string} kind @returns {Command} a command that no script has */
function ownCommand(kind) {
  return { line: kind, kind, address: 0, value: 0, steps: 0n, tear: "n" };
}

/** @param {Variable} one @param {Variable} other @returns {Command} that writes both at once */
function bothCommand(one, other) {
  const line = `w ${one.address} ${one.value} with w ${other.address} ${other.value}`;
  return { ...ownCommand("both"), line, ...one, other };
}

/** @param {Command} command @returns {number[]} the operands of its call */
function operandsOf({ kind, address, value, other }) {
  if (other !== undefined) return [address, value, other.address, other.value];
  return kind === "w" ? [address, value] : kind === "f" ? [address] : [];
}

/** @param {string} kind @param {number} status */
function answerOf(kind, status) {
  if (kind === "clear" && status === STATUS.NOTHING) return "nothing";
  return status === STATUS.OK ? (WHOLE_ANSWERS[kind] ?? "ok") : ANSWERS[status];
}

/** @param {{status: number, page: number, place: number}} done
 *  @returns {string | null} why the words are no store, by the words of `ee` */
function faultOf(done) {
  if (done.status < STATUS.UNFORMATTED) return null;
  if (done.status > STATUS.FOREIGN) throw new Error(`the page made a call that the library refuses: status ${done.status}`);
  const foreign = `image foreign word ${done.page} ${done.place}`;
  return ["image unformatted", "image no live set", "image two live sets", foreign][done.status - STATUS.UNFORMATTED];
}

/** @param {Step} step */
function stepText(step) {
  if (step.place === ERASE) return `erase page ${step.page}`;
  return `page ${step.page} word ${step.place} \u2190 ${sayWord(step.value, step.place)}`;
}

/** @param {number[]} bad the words that a rescue finds bad @param {number} pageWords @returns {string} which they are */
function badText(bad, pageWords) {
  if (bad.length === 0) return "Done: no word was bad, and the values moved.";
  const named = bad.slice(0, MOST_NAMED).map((index) => {
    const place = index % pageWords;
    return `page ${Math.floor(index / pageWords)} word ${place} (${place < 4 ? "header" : "slot"})`;
  });
  const more = bad.length - named.length;
  return `Done. Bad: ${named.join(", ")}${more === 0 ? "" : `, and ${more} more`}.`;
}

/** @param {Call | null} call */
function isUnderWay(call) {
  return call !== null && call.tear === null && call.taken < call.steps.length;
}

class Bench {
  /** @param {Library} library @param {Cells} cells @param {string} what where the cells come from */
  constructor(library, cells, what) {
    this.library = library;
    this.cells = cells;
    /** @type {Desk} */
    const desk = { power: true, open: false, fault: null, armed: null, call: null, trace: null };
    /** @type {Entry[]} */
    this.entries = [{ what, told: what, note: "", lines: [], delta: null, desk }];
    this.at = 0;
  }

  get desk() {
    return this.entries[this.at].desk;
  }

  get entry() {
    return this.entries[this.at];
  }

  get underWay() {
    return isUnderWay(this.desk.call);
  }

  /** Adds an entry behind the one that is shown, in place of what followed it.
   *  @param {string} what @param {string[][]} lines @param {Delta | null} delta @param {Partial<Desk>} changes
   *  @param {string} told @param {string} note */
  push(what, lines, delta, changes, told = what, note = "") {
    this.entries.length = this.at + 1;
    this.entries.push({ what, told, note, lines, delta, desk: { ...this.desk, ...changes } });
    this.at += 1;
  }

  /** Shows another entry of the history.
   *  @param {number} goal */
  go(goal) {
    const wanted = Math.max(0, Math.min(goal, this.entries.length - 1));
    while (this.at > wanted) this.put(this.at--, "before");
    while (this.at < wanted) this.put(++this.at, "after");
  }

  /** @param {number} index @param {"before" | "after"} side */
  put(index, side) {
    const { delta } = this.entries[index];
    if (delta !== null) applyDelta(this.cells, delta, side);
  }

  /** Begins a command: it is answered at once, or its steps are listed.
   *  @param {Command} command */
  begin(command) {
    if (this.underWay) throw new Error("a call is under way");
    const { line, kind } = command;
    if (kind === "x") this.answer(line, "armed", { armed: { after: command.steps - 1n, tear: command.tear } });
    else if (kind === "format") this.list(command, { power: true, open: false, fault: null, armed: null, trace: null });
    else if (kind === "rescue") this.rescue(command);
    else if (kind === "open" || kind === "anew" || (kind === "p" && !this.desk.open)) this.list(command, { power: true });
    else if (kind === "p") this.answer(line, "open");
    else if (!this.desk.open) this.answer(line, "off");
    else if (kind === "both" || kind === "clear") this.list(command, { trace: null });
    else if (kind === "r") this.answer(line, String(this.library.read(this.cells, command.address)?.value ?? "none"));
    else this.list(command, {});
  }

  /** @param {string} line @param {string} answer @param {Partial<Desk>} changes */
  answer(line, answer, changes = {}) {
    this.push(`${line}: ${answer}`, [[line, answer]], null, changes);
  }

  /** Asks the proved code for a call's steps.
   *  @param {Command} command @param {Partial<Desk>} changes how the desk stands once the call has begun */
  list(command, changes) {
    const { kind } = command;
    const done = this.library.change(CALLS[kind], this.cells, operandsOf(command));
    if (done.status === STATUS.TWICE) throw new Error("Both values are of one address: nothing is written.");
    const fault = faultOf(done);
    const what = kind === "p" ? "power on" : command.line;
    if (fault !== null) return this.push(`${what}: ${fault}`, [], null, { ...changes, open: false, fault });
    const answer = answerOf(kind, done.status);
    this.callFor(command, done, changes, answer, kind === "clear" ? CLEARED[answer] : "");
  }

  /** Asks the proved code for the steps of a rescue, and which words it finds bad.
   *  @param {Command} command */
  rescue(command) {
    const bad = this.library.badWords(this.cells);
    const done = this.library.change("rescue", this.cells);
    const refusal = NOT_RESCUED[done.status];
    if (refusal !== undefined) return this.push(`rescue: ${refusal[0]}`, [], null, { power: true }, undefined, refusal[1]);
    const changes = { power: true, open: false, fault: null, trace: null };
    this.callFor(command, done, changes, `live ${done.live} bad ${done.bad}`, badText(bad, this.cells.pageWords));
  }

  /** The steps of a call are listed, or it takes none.
   *  @param {Command} command @param {Done} done @param {Partial<Desk>} changes @param {string} answer @param {string} note */
  callFor(command, done, changes, answer, note) {
    this.checkPlayed(done);
    const { line, kind } = command;
    const { length } = done.steps;
    const call = { command, steps: done.steps, taken: 0, tear: null, answer, note };
    if (length === 0) this.end(call, null, kind === "both" || kind === "clear" ? {} : changes);
    else this.push(`${line}: ${length} ${length === 1 ? "step" : "steps"} listed`, [], null, { ...changes, call });
  }

  /** A word goes bad. Where power is on the store is opened anew.
   *  @param {number} index @param {Damage} damage */
  spoil(index, damage) {
    if (this.underWay) throw new Error("A call is under way: take its steps, or cut power in one.");
    const delta = spoilWord(this.cells, index, damage);
    const what = `page ${delta.page} word ${index % this.cells.pageWords} goes bad: ${DAMAGES[damage]}`;
    const { power, call } = this.desk;
    this.push(what, [], delta, { open: false, fault: null, trace: null, call: power ? null : call });
    if (power) this.begin({ ...ownCommand("anew"), line: "open" });
  }

  /** The mirror that the proved code left is what its steps make of the part: else the page is wrong, and says so.
   *  @param {Done} done */
  checkPlayed(done) {
    const played = copyOf(this.cells);
    for (const step of done.steps) takeStep(played, step, null);
    if (!readAlike(played, done.after)) throw new Error("the steps do not lead to the mirror");
  }

  /** Takes the next step of the call that is under way, cut by hand if there is a tear.
   *  @param {Tear | null} tear */
  step(tear = null) {
    const { call, armed } = this.desk;
    if (call === null || !this.underWay) return;
    const step = call.steps[call.taken];
    const cut = tear ?? (armed !== null && armed.after === 0n ? armed.tear : null);
    const delta = takeStep(this.cells, step, cut);
    const now = { ...call, taken: call.taken + 1, tear: cut };
    if (cut !== null) return this.cutIn(now, delta, tear);
    const fuse = { armed: armed && { ...armed, after: armed.after - 1n } };
    const told = `${call.command.line}: ${now.taken} of ${call.steps.length} steps taken`;
    if (isUnderWay(now)) this.push(stepText(step), [], delta, { ...fuse, call: now }, told);
    else this.end(now, delta, fuse);
  }

  /** Takes all steps that are left, up to an armed cut. */
  rest() {
    while (this.underWay) this.step();
  }

  /** Power was cut in a step. A cut by hand is told as the line that would have armed it.
   *  @param {Call} call @param {Delta} delta @param {Tear | null} byHand */
  cutIn(call, delta, byHand) {
    const { trace } = this.desk;
    const arming = byHand === null ? [] : [[`x ${call.taken} ${byHand}`, "armed"]];
    const lines = trace === null ? [] : [...arming, [call.command.line, "cut"]];
    const what = `cut, ${TEARS[/** @type {Tear} */ (call.tear)]}: ${stepText(call.steps[call.taken - 1])}`;
    const changes = { power: false, open: false, armed: null, call, trace: trace && { ...trace, cut: true } };
    this.push(what, lines, delta, changes, `${call.command.line}: cut`, call.command.kind === "rescue" ? CUT_RESCUE : "");
  }

  /** All steps of a call are taken.
   *  @param {Call} call @param {Delta | null} delta what the last of them changed @param {Partial<Desk>} changes */
  end(call, delta, changes) {
    const { line, kind } = call.command;
    const { trace } = { ...this.desk, ...changes };
    const lines = trace === null || !SCRIPTED.includes(kind) ? [] : [[line, call.answer]];
    const last = delta === null ? "" : stepText(call.steps[call.steps.length - 1]) + "; ";
    const after = trace === null ? this.firstTrace() : this.traceAfter(trace, call);
    const what = `${last}${line}: ${call.answer}`;
    const told = OWN_ANSWERS[kind] ?? `${line}: ${call.answer}`;
    this.push(what, lines, delta, { ...changes, call, open: true, fault: null, trace: after }, told, call.note);
  }

  /** @returns {Trace} the trace of a store that is open for the first time, with the next entry */
  firstTrace() {
    const { fill, live } = this.library.counts(this.cells);
    const wears = this.cells.wears.slice();
    return { base: this.at + 1, start: { fill, live }, wears, changes: 0, fill, last: null, cut: false };
  }

  /** @param {Trace} trace @param {Call} call one that ended @returns {Trace} */
  traceAfter(trace, call) {
    const { kind } = call.command;
    if ((kind !== "w" && kind !== "f") || (call.answer !== "ok" && call.answer !== "moved")) return trace;
    const changes = trace.changes + 1;
    if (call.answer === "ok") return { ...trace, changes };
    const last = { to: changes, from: trace.fill, number: (trace.last?.number ?? 0) + 1, before: trace.last };
    return { ...trace, changes, last, fill: this.library.counts(this.cells).live };
  }
}
