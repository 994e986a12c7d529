// @ts-check
// How long a part lasts, computed by the page: the count of moves that docs/GUIDE.md explains, without the proofs.

/** @typedef {{pages: number, slots: number, ours: number, least: number, limit: number, misfit: number}} Size
 *  the runs of the script that it bears, as many as the erases, the least and the limit are enough for: with this store,
 *  at the most with any of this kind, and at the most with any that programs a word for each change; and the first change
 *  that does not fit, 0 if all do */

const MOST_PAGES = 64;
const DAYS_A_YEAR = 365;
/** A new store has generations for so many moves. */
const GENERATIONS = 4294967293;

/** How many addresses have a value after each change of a run, and at its end which.
 *  @param {Command[]} trace @param {Set<number>} live those at its start */
function liveCounts(trace, live) {
  const now = new Set(live);
  const counts = trace.map((change) => {
    if (change.kind === "w") now.add(change.address);
    else now.delete(change.address);
    return now.size;
  });
  return { counts, live: now };
}

/** A script's changes made over and over, from an empty store: the first run differs, all later ones are alike.
 *  @param {Command[]} trace */
function repeatedTrace(trace) {
  const first = liveCounts(trace, new Set());
  const later = liveCounts(trace, first.live);
  const length = trace.length;
  return {
    length,
    counts: first.counts.concat(later.counts),
    /** @param {number} change the number of a change, from 1 */
    liveAt: (change) => (change <= length ? first.counts[change - 1] : later.counts[(change - 1) % length]),
  };
}

/** The number of the change that takes the move of this number; each move comes when all slots are used.
 *  @param {ReturnType<typeof repeatedTrace>} rounds @param {number} slots
 *  @param {number} wanted the number of a move, from 1 */
function changeOfMove(rounds, slots, wanted) {
  const seen = new Map();
  let change = slots + 1;
  for (let move = 1; move < wanted; move++) {
    const place = (change - 1) % rounds.length;
    const earlier = change > rounds.length ? seen.get(place) : undefined;
    if (earlier !== undefined) {
      const turns = Math.floor((wanted - move) / (move - earlier.move));
      change += turns * (change - earlier.change);
      move += turns * (move - earlier.move);
      seen.clear();
      if (move === wanted) break;
    } else if (change > rounds.length) seen.set(place, { move, change });
    change += slots - rounds.liveAt(change) + 1;
  }
  return change;
}

/** A page is erased once in two moves, so a part bears twice as many moves as its pages bear erases. Any store of this kind
 *  erases some page once in two moves, rounded down; and any that programs a word for each change can program each word of
 *  the part once, and once more for each erase.
 *  @param {Command[]} trace some changes @param {number} pageWords @param {number} cycles
 *  @returns {Size[]} for 1 to 64 pages of a set */
function sizesOf(trace, pageWords, cycles) {
  const rounds = repeatedTrace(trace);
  return Array.from({ length: MOST_PAGES }, (_, index) => {
    const slots = (index + 1) * (pageWords - 4);
    const misfit = rounds.counts.findIndex((count) => count > slots) + 1;
    /** @param {number} moves the runs that these are enough for */
    const runsOf = (moves) => (misfit > 0 ? 0 : Math.floor((changeOfMove(rounds, slots, moves + 1) - 1) / trace.length));
    const ours = runsOf(Math.min(2 * cycles, GENERATIONS));
    const least = runsOf(2 * cycles + 1);
    const limit = Math.floor((2 * (index + 1) * pageWords * (cycles + 1)) / trace.length);
    return { pages: index + 1, slots, ours, least, limit, misfit };
  });
}

/** @param {number} runs @param {number} runsADay */
function yearsOf(runs, runsADay) {
  return runs / runsADay / DAYS_A_YEAR;
}

/** @param {number} runs @param {number} runsADay @returns {string} how long so many runs last */
function lifeText(runs, runsADay) {
  const days = Math.floor(runs / runsADay);
  if (days < 2) return ["less than a day", "1 day"][days];
  if (days < DAYS_A_YEAR) return `${days} days`;
  const tenths = Math.floor((10 * days) / DAYS_A_YEAR);
  return tenths < 1000 ? `${(tenths / 10).toFixed(1)} years` : `${Math.floor(tenths / 10).toLocaleString("en")} years`;
}
