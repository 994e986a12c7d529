// @ts-check
// The lines of a script, as `ee run` reads them.

/** @typedef {"n" | "d" | "t" | "m"} Tear what a cut step leaves: nothing, the whole step, torn words, a mixture */
/**
 * @typedef {object} Command
 * @property {string} line
 * @property {string} kind w, f, r, c, x or p; also `format`, `open`, `anew`, `both`, `clear` and `rescue`, which no script has
 * @property {number} address
 * @property {number} value
 * @property {Variable} [other] what `both` writes with it
 * @property {bigint} steps
 * @property {Tear} tear
 */

/** @type {Record<Tear, string>} */
const TEARS = { n: "not done", d: "done", t: "torn", m: "mixed" };
const LINES = /^(?:w ([0-9]+) ([0-9]+)|[fr] ([0-9]+)|x ([0-9]+) ([ndtm])|c|p)$/;

/** @param {string} text @param {bigint} least @param {bigint} most */
function isNumberIn(text, least, most) {
  const number = readNumber(text);
  return number !== null && least <= number && number <= most;
}

/** @param {string} line @returns {Command | null} the command that is spelled so */
function readCommand(line) {
  const found = LINES.exec(line);
  if (found === null) return null;
  const [, written, value, other, steps, tear] = found;
  const address = written ?? other;
  if (address !== undefined && !isNumberIn(address, 1n, 65534n)) return null;
  if (value !== undefined && !isNumberIn(value, 0n, 4294967295n)) return null;
  if (steps !== undefined && !isNumberIn(steps, 1n, ALL_ONES)) return null;
  return {
    line,
    kind: line[0],
    address: Number(address ?? 0),
    value: Number(value ?? 0),
    steps: BigInt(steps ?? 0),
    tear: /** @type {Tear} */ (tear ?? "n"),
  };
}

/** Reads a script; its last line feed may be missing.
 *  @param {string} text @returns {{commands: Command[]} | {bad: number}} or the number of its first bad line, from 1 */
function readScript(text) {
  const lines = text === "" ? [] : text.replace(/\n$/, "").split("\n");
  const commands = [];
  for (const line of lines) {
    const command = readCommand(line);
    if (command === null) return { bad: commands.length + 1 };
    commands.push(command);
  }
  return { commands };
}
