// What the lines of a report say.

const LINE = /^(\d+) ([ms]) (.+) (Reset|Session|Connection|Parameter|Data) ([0-9a-f]*)(?: > ([0-9a-f]+))?$/;

/** What an end did: the word, and the command, the code or the reason after it. */
function didOf(text) {
  const [word, first, second] = text.split(" ");
  if (word === "took") return { word, command: first };
  if (word === "drop") return { word, why: first };
  if (word === "reset") return { word, cause: first, code: second };
  return { word };
}

/**
 * The entries of a report and how it ends: `other` is the number of the first other entry, 0 where there is none and null where the report
 * doesn't say; `refused` has the line and the cause where a line is refused.
 */
export function readReport(text) {
  const report = { lines: text.split("\n"), entries: [], other: null, refused: null };
  if (report.lines.at(-1) === "") report.lines.pop();
  for (const line of report.lines) {
    const parts = LINE.exec(line);
    if (parts) {
      const [, , at, did, state, outputs, sent] = parts;
      report.entries.push({ at, did: didOf(did), text: did, state, outputs, sent: sent ?? "" });
      continue;
    }
    const [word, first, second] = line.split(" ");
    if (word === "other") report.other = first === "none" ? 0 : Number(first);
    if (word === "refused") report.refused = { line: Number(first), cause: second };
  }
  return report;
}
