// What one may do to a schedule at the chosen event: lose, repeat, alter and forge frames, and reset ends.
import { forged } from "./frame.js";
import { isDelivery, peerOf } from "./schedule.js";

const FORGED = 0xff;

/** For each thing to try, whether it can be tried at an event with this entry. */
const CAN = {
  lose: (event) => isDelivery(event),
  repeat: (event) => isDelivery(event) && event.kind !== "invent",
  alter: (event) => event.kind === "deliver",
  forge: (_, entry) => entry.state === "Data",
  misforge: (_, entry) => entry.state === "Data",
  reset: () => true,
};

/** A frame with data of ff and zeros, and the CRCs that the end of this event expects after it. */
function forgedAfter(run, n, end) {
  const data = new Array(run.schedule.lengths[peerOf(end)]).fill(0);
  data[0] = FORGED;
  return forged(end, data, run.schedule.conn, run.report.entries.slice(0, n), (k) => run.arrowOf(k).hex);
}

/** The frame with a bit of its last CRC turned. */
function misforgedOf(hex) {
  const byte = parseInt(hex.slice(-6, -4), 16) ^ 1;
  return hex.slice(0, -6) + byte.toString(16).padStart(2, "0") + hex.slice(-4);
}

/** Whether this can be tried at the event of this number. */
export function canTry(what, run, n) {
  const event = run.schedule.events[n - 1];
  const entry = run.report.entries[n - 1];
  return Boolean(event && entry && CAN[what](event, entry));
}

/** The lines that then stand in place of the event's. */
export function linesOf(what, run, n) {
  const { text, at, back } = run.schedule.events[n - 1];
  switch (what) {
    case "lose":
      return [];
    case "repeat":
      return [text, `d${at} -${back}`];
    case "alter":
      return [`a${at} -${back} 1 01`];
    case "forge":
      return [text, `r${at} ${forgedAfter(run, n, at)}`];
    case "misforge":
      return [text, `r${at} ${misforgedOf(forgedAfter(run, n, at))}`];
    default:
      return [text, `z${at}`];
  }
}
