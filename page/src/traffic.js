// What became of each frame: which were delivered, when, and how; and which never were.
import { isDelivery, peerOf } from "./schedule.js";

/** The bytes that came where a byte of a frame is altered by a mask. */
function alteredHex(hex, place, mask) {
  const byte = parseInt(hex.substr(2 * place, 2), 16) ^ mask;
  return hex.slice(0, 2 * place) + byte.toString(16).padStart(2, "0") + hex.slice(2 * place + 2);
}

function arrowOf(event, n, sent) {
  if (event.kind === "invent") return { n, from: 0, kind: "invented", hex: event.hex };
  const frame = sent[peerOf(event.at)].at(-event.back);
  if (!frame) return null;
  const again = frame.came > 0;
  frame.came++;
  if (event.kind === "alter") return { n, from: frame.n, kind: "altered", hex: alteredHex(frame.hex, event.place, event.mask), frame };
  return { n, from: frame.n, kind: again ? "again" : event.back > 1 ? "late" : "plain", hex: frame.hex, frame };
}

/**
 * The frames that each end sent, with the event that sent them and how often they came, and an arrow for each frame that came: the event at
 * which it came, the event that sent it (0 where it was invented), and how it came: plain, late, again, altered or invented.
 */
export function trafficOf(events, entries) {
  const sent = { m: [], s: [] };
  const arrows = [];
  entries.forEach((entry, i) => {
    const event = events[i];
    if (event && isDelivery(event)) {
      const arrow = arrowOf(event, i + 1, sent);
      if (arrow) arrows.push({ ...arrow, to: event.at });
    }
    if (entry.sent) sent[entry.at].push({ n: i + 1, end: entry.at, hex: entry.sent, came: 0 });
  });
  const last = { m: sent.m.at(-1), s: sent.s.at(-1) };
  const stubs = [...sent.m, ...sent.s].filter((frame) => frame.came === 0);
  for (const frame of stubs) frame.lost = frame !== last[frame.end];
  return { sent, arrows, stubs };
}
