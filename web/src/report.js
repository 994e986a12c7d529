// @ts-check
// The report, in the form of `ee run`: answers, how the store stands, and the certificate.

/** @param {Bench} bench @returns {string[][]} the script's lines since the store was first open, with their answers */
function answeredLines(bench) {
  const { trace } = bench.desk;
  return trace === null ? [] : bench.entries.slice(trace.base, bench.at + 1).flatMap((entry) => entry.lines);
}

/** @param {Trace} trace @returns {StretchLine[]} the moves, the first one first */
function stretchesOf(trace) {
  const stretches = [];
  for (let line = trace.last; line !== null; line = line.before) stretches.push(line);
  return stretches.reverse();
}

/** @param {Trace} trace @param {number} slots @returns {string[]} the lines of the certificate */
function certificateLines(trace, slots) {
  if (trace.cut) return ["no certificate"];
  const { fill, live } = trace.start;
  const stretches = stretchesOf(trace);
  return [
    `slots ${slots} fill ${fill} live ${live} writes ${trace.changes}`,
    ...stretches.map((stretch) => `to ${stretch.to} from ${stretch.from}`),
    `transfers ${stretches.length}`,
  ];
}

/** @param {Bench} bench @param {Counts} counts
 *  @returns {string} the report of all lines so far; during a call, what is answered by then */
function reportText(bench, counts) {
  const { trace, open } = bench.desk;
  if (trace === null) return "";
  const lines = answeredLines(bench).map(([, answer]) => answer);
  if (!bench.underWay) {
    const { fill, room, live, pending } = counts;
    const stand = open ? `fill ${fill} room ${room} live ${live} pending ${pending}` : "off";
    lines.push(`end ${stand} transfers ${trace.last?.number ?? 0}`, ...certificateLines(trace, slotsOf(bench.cells)));
  }
  return lines.join("\n") + "\n";
}

/** @param {Bench} bench @returns {string} the lines so far as a script, cuts by hand among them */
function scriptText(bench) {
  return answeredLines(bench)
    .map(([line]) => line + "\n")
    .join("");
}

/** Why no store does with fewer moves, in a sentence.
 *  @param {Trace} trace @param {number} slots */
function whyFewest(trace, slots) {
  if (trace.cut) return "Power was cut on the way, so there is no certificate.";
  const moves = trace.last?.number ?? 0;
  if (moves === 0) return "No change had to move: none is the fewest.";
  return (
    `Where a stretch begins any store has so many slots used (\u201cfrom\u201d), and with the changes up to its end ` +
    `(\u201cto\u201d) they are more than ${slots} ${slots === 1 ? "slot takes" : "slots take"}: so every store of ` +
    `this kind moves at least once in each stretch, ${moves} ${moves === 1 ? "time" : "times"} in all, and this one moved no more often.`
  );
}
