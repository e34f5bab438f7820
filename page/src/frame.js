// The parts of a frame, its CRCs, and how to forge one.
import { bytesOf } from "./schedule.js";

const COMMANDS = { 0x2a: "Reset", 0x4e: "Session", 0x64: "Connection", 0x52: "Parameter", 0x08: "FailSafeData", 0x36: "ProcessData" };
const PROCESS_DATA = 0x36;

const hexOf = (bytes) => Array.from(bytes, (byte) => byte.toString(16).padStart(2, "0")).join("");
const low = (number) => [number & 255, number >> 8];
const number = (bytes, at) => bytes[at] | (bytes[at + 1] << 8);

/** The command, the data, the CRCs and the connection id of a frame of a valid length, else null. */
export function partsOf(hex) {
  const bytes = bytesOf(hex);
  const one = bytes.length === 6;
  if (!one && (bytes.length < 7 || bytes.length % 4 !== 3)) return null;
  const data = [];
  const crcs = [];
  for (let at = 1; at < bytes.length - 2; ) {
    data.push(bytes[at++]);
    if (!one) data.push(bytes[at++]);
    crcs.push(number(bytes, at));
    at += 2;
  }
  return { code: bytes[0], command: COMMANDS[bytes[0]] ?? "no command", data: hexOf(data), crcs, conn: number(bytes, bytes.length - 2) };
}

/** The remainder of some bytes and sixteen zero bits. */
export function crcOf(bytes) {
  let value = 0;
  for (const byte of [...bytes, 0, 0]) {
    for (let bit = 7; bit >= 0; bit--) {
      value = (value << 1) | ((byte >> bit) & 1);
      if (value & 0x10000) value ^= 0x139b7;
    }
  }
  return value;
}

/** The CRC of a group: what it covers stands in docs/protocol.md, "Cover". */
function groupCrc(last, conn, count, code, index, group) {
  return crcOf([...low(last), ...low(conn), ...low(count), code, ...(index ? low(index) : []), ...group, 0, 0, 0]);
}

const nextNumber = (count) => (count === 65535 ? 1 : count + 1);

/** The number of the frame after one with this number and CRC_0, where its CRC_0 is `crc(number)`: stepped once more on an equal CRC_0. */
function steppedNumber(before, crc) {
  const count = nextNumber(before.number);
  return crc(count) === before.crc ? nextNumber(count) : count;
}

/** The layout of a frame with the CRCs that it gets under this number. */
function laidOut(code, data, last, conn, count) {
  const bytes = [code];
  const size = data.length === 1 ? 1 : 2;
  for (let at = 0; at < data.length; at += size) {
    const group = data.slice(at, at + size);
    bytes.push(...group, ...low(groupCrc(last, conn, count, code, at / size, group)));
  }
  return hexOf([...bytes, ...low(conn)]);
}

/** What an end knows of its session after some entries: the CRC_0 of its own last frame, and number and CRC_0 of the frame taken last. */
function chainOf(end, entries, cameAt) {
  let last = 0;
  let taken = { number: 0, crc: null };
  const begins = entries.findLastIndex((entry) => entry.at === end && partsOf(entry.sent)?.command === "Reset") + 1;
  for (let i = begins; i < entries.length; i++) {
    const entry = entries[i];
    if (entry.at !== end) continue;
    if (entry.did.word === "took" && entry.did.command !== "Reset") {
      const came = partsOf(cameAt(i + 1));
      const group = [...bytesOf(came.data).slice(0, 2)];
      const before = last;
      taken = { number: steppedNumber(taken, (count) => groupCrc(before, came.conn, count, came.code, 0, group)), crc: came.crcs[0] };
    }
    if (entry.sent) last = partsOf(entry.sent).crcs[0];
  }
  return { last, taken };
}

/**
 * A ProcessData frame with these data, whose CRCs are those that the end expects after these entries: who knows all frames of a session, and
 * puts one in between, can make it. `cameAt(n)` is the frame that came at event n.
 */
export function forged(end, data, conn, entries, cameAt) {
  const { last, taken } = chainOf(end, entries, cameAt);
  const group = data.slice(0, 2);
  const count = steppedNumber(taken, (at) => groupCrc(last, conn, at, PROCESS_DATA, 0, group));
  return laidOut(PROCESS_DATA, data, last, conn, count);
}
