// What is said of one event: what it was, what the end did and why, and the parts of its frames.
import { partsOf } from "./frame.js";
import { ENDS, STATES, didWords, eventWords } from "./words.js";

const sentence = (text) => `${text[0].toUpperCase()}${text.slice(1)}.`;
const escaped = (text) => text.replace(/[&<>]/g, (c) => ({ "&": "&amp;", "<": "&lt;", ">": "&gt;" })[c]);
const crcHex = (crc) => crc.toString(16).padStart(4, "0").toUpperCase();

function frameTable(title, hex) {
  const parts = partsOf(hex);
  const rows = parts
    ? [
        ["command", `${parts.command} (${parts.code.toString(16).padStart(2, "0").toUpperCase()}h)`],
        ["data", `<span class="hex">${parts.data}</span>`],
        [parts.crcs.length === 1 ? "CRC" : "CRCs", parts.crcs.map((crc) => `${crcHex(crc)}h`).join(" ")],
        ["connection id", parts.conn],
      ]
    : [["", "as many bytes as no frame has"]];
  const cells = rows.map(([name, value]) => `<tr><th scope="row">${name}</th><td>${value}</td></tr>`).join("");
  return `<table><caption>${title} <code class="hex">${hex}</code></caption>${cells}</table>`;
}

const FIRST_OTHER = `This is the first <strong>other</strong> entry: a frame passed the test of the CRCs here that isn't the one that the end
awaits, its peer's answer to its own last frame. It was invented or altered, or is an old one whose CRCs came again. By its CRCs no receiver can
tell it from the awaited one. The law of the pair holds of all lines before this one, and the report says so by its last line.`;

function otherWords(n, other) {
  if (!other || n < other) return "";
  if (n > other) return `<p class="note">The law of the pair holds of the lines before event ${other}, and says nothing of this one.</p>`;
  return `<p class="note">${FIRST_OTHER}</p>`;
}

/** The text, as HTML, on the event of this number. */
export function aboutEvent(run, n) {
  const { schedule, report, arrowOf } = run;
  const event = schedule.events[n - 1];
  const entry = report.entries[n - 1];
  if (!event || !entry) return "<p>Choose an event in the schedule, in the chart or in the report.</p>";
  const arrow = arrowOf(n);
  return [
    `<h3>Event ${n} <code>${escaped(event.text)}</code></h3>`,
    `<p>${sentence(eventWords(event, arrow))} The ${ENDS[entry.at]} ${didWords(entry.did)}.</p>`,
    otherWords(n, report.other),
    `<p>After it the ${ENDS[entry.at]} is in state <strong>${entry.state}</strong> (${STATES[entry.state]}),`,
    ` and its outputs are <code>${entry.outputs}</code>.</p>`,
    arrow ? frameTable("Came:", arrow.hex) : "",
    entry.sent ? frameTable("Sent:", entry.sent) : "",
  ].join("");
}
