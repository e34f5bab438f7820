// What the lines of a pair file say, for the chart. The engine alone judges them: what it refuses is never asked for here.

const KINDS = { d: "deliver", a: "alter", r: "invent", t: "tick", p: "put", h: "hold", n: "nonce", z: "reset" };

/** The bytes of a hexadecimal text. */
export function bytesOf(hex) {
  const bytes = new Uint8Array(hex.length >> 1);
  for (let i = 0; i < bytes.length; i++) bytes[i] = parseInt(hex.substr(2 * i, 2), 16);
  return bytes;
}

/** The event of a line, or null where its first word is no event's. `line` is its number in the text, from 1. */
function eventOf(text, line) {
  const fields = text.split(" ");
  const word = fields[0];
  if (word.length !== 2 || !(word[0] in KINDS) || (word[1] !== "m" && word[1] !== "s")) return null;
  const event = { line, text, kind: KINDS[word[0]], at: word[1] };
  if (event.kind === "deliver" || event.kind === "alter") event.back = -Number(fields[1]);
  if (event.kind === "alter") {
    event.place = Number(fields[2]);
    event.mask = parseInt(fields[3], 16);
  }
  if (event.kind === "invent" || event.kind === "put") event.hex = (fields[1] ?? "").toLowerCase();
  if (event.kind === "hold") event.on = fields[1] === "1";
  if (event.kind === "nonce") event.id = Number(fields[1]);
  return event;
}

/**
 * The header and the events of a text, up to its `end` or the first line that is no event's: the safe data bytes of both ends' frames, the
 * connection id, and the events with their lines.
 */
export function readSchedule(text) {
  const lines = text.split("\n");
  const schedule = { lengths: { m: 2, s: 2 }, conn: 1, events: [] };
  let at = 0;
  for (; at < lines.length && lines[at] !== "go"; at++) {
    const fields = lines[at].split(" ");
    if (fields[0] === "lengths") schedule.lengths = { m: Number(fields[1]), s: Number(fields[2]) };
    if (fields[0] === "master") schedule.conn = Number(fields[1]);
  }
  for (at++; at < lines.length && lines[at] !== "end"; at++) {
    const event = eventOf(lines[at], at + 1);
    if (!event) break;
    schedule.events.push(event);
  }
  return schedule;
}

/** The other end. */
export function peerOf(end) {
  return end === "m" ? "s" : "m";
}

/** Whether something comes to the end as a frame. */
export function isDelivery(event) {
  return event.kind === "deliver" || event.kind === "alter" || event.kind === "invent";
}
