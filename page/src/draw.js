// A chart as SVG, row by row: a row is an event, and time goes down.
import { ARROWS, ENDS } from "./words.js";

export const ROW = 28;
export const HEAD = 30;
const LETTER = 6.7; // the width of a letter at 11 px
const WIDE = 170; // between the lifelines: where words have room beside arrows
const FOOT = 24;
const SHORT = { Reset: "Reset", Session: "Sess.", Connection: "Conn.", Parameter: "Param.", Data: "Data" };

const MEANT = { "&": "&amp;", "<": "&lt;", ">": "&gt;", '"': "&quot;" };
const escaped = (text) => text.replace(/[&<>"]/g, (letter) => MEANT[letter]);
const short = (text, room) => (text.length <= room ? text : `${text.slice(0, Math.max(room - 1, 1))}…`);
const middle = (n) => HEAD + (n - 0.5) * ROW;

/** An element with attributes, and what is in it. */
function tag(name, attributes, inner = "") {
  const words = Object.entries(attributes).map(([key, value]) => ` ${key}="${value}"`);
  return `<${name}${words.join("")}>${inner}</${name}>`;
}

const path = (d, attributes = {}) => tag("path", { ...attributes, d });
const rect = (kind, x, y, width, height) => tag("rect", { class: kind, x, y, width, height });

/** Words at a place; `anchor` says which part of them is there. */
function words(kind, x, y, text, anchor = "start") {
  return tag("text", { class: kind, x, y, ...(anchor === "start" ? {} : { "text-anchor": anchor }) }, escaped(text));
}

/** Where the parts of a chart of this width stand, in pixels. */
export function placesOf(width) {
  const numbers = 38;
  const side = Math.min(Math.max((width - numbers) * 0.29, 88), 240);
  const places = { width, numbers, m: numbers + side + 8, s: width - side - 8, letters: Math.floor((side - 10) / LETTER) };
  return { ...places, wide: places.s - places.m >= WIDE };
}

/** A point between the lifelines: this part of the way from an end to its peer. */
const across = (places, end, part) => places[end] + part * (end === "m" ? places.s - places.m : places.m - places.s);

/** Towards the peer, by so much. */
const inward = (end, by) => (end === "m" ? by : -by);

/** Beside an end, on its outer side: the place and the anchor of words there. */
const outside = (places, end) => (end === "m" ? [places.m - 12, "end"] : [places.s + 12, "start"]);

/** The band of a state and its name, as far as they stand among these events. */
function bandAt(places, end, band, first, last) {
  const top = HEAD + Math.max(band.from, first - 1) * ROW;
  const bottom = HEAD + Math.min(band.to, last) * ROW;
  if (bottom <= top) return { bar: "", name: "" };
  const name = places.wide ? band.state : SHORT[band.state];
  return {
    bar: rect(`band ${band.state}`, places[end] - 7, top, 14, bottom - top),
    name: words("state", places[end] + inward(end, 12), top + 10, name, end === "m" ? "start" : "end"),
  };
}

/** The line of an arrow, a zigzag in its middle where the frame was altered. */
function shaft(x1, y1, x2, y2, kind) {
  if (kind !== "altered") return `M${x1} ${y1}L${x2} ${y2}`;
  const at = (part, off) => `${x1 + part * (x2 - x1)} ${y1 + part * (y2 - y1) + off}`;
  return `M${x1} ${y1}L${at(0.4, 0)}L${at(0.46, -6)}L${at(0.54, 6)}L${at(0.6, 0)}L${x2} ${y2}`;
}

/** The arrow of a frame that came: from where it was sent, or from a star where it was invented. */
function arrowAt(places, arrow) {
  const from = arrow.to === "m" ? "s" : "m";
  const invented = arrow.kind === "invented";
  const x1 = invented ? across(places, from, 0.62) : places[from] + inward(from, 9);
  const y1 = invented ? middle(arrow.n) - 8 : middle(arrow.from);
  const x2 = places[arrow.to] + inward(arrow.to, 9);
  const y2 = middle(arrow.n);
  const way = ARROWS[arrow.kind];
  return tag(
    "g",
    { class: `arrow ${arrow.kind}`, "data-n": arrow.n },
    path(shaft(x1, y1, x2, y2, arrow.kind), { "marker-end": `url(#tip-${arrow.kind})` }) +
      (invented ? words("star", x1, y1 + 4, "✶", "middle") : "") +
      (way && places.wide ? words("way", x2 + inward(arrow.to, 36), y2 - 5, way, "middle") : ""),
  );
}

/** The beginning of an arrow, of a frame that never came. */
function stubAt(places, stub) {
  const x1 = places[stub.end] + inward(stub.end, 9);
  const y1 = middle(stub.n);
  const x2 = across(places, stub.end, 0.36);
  const y2 = y1 + ROW * 0.55;
  const way = stub.lost ? "never came" : "under way";
  return tag(
    "g",
    { class: "stub", "data-n": stub.n },
    path(`M${x1} ${y1}L${x2} ${y2}`) +
      words("end", x2, y2 + 5, stub.lost ? "×" : "…", "middle") +
      (places.wide ? words("way", x2 + inward(stub.end, 8), y2 + 4, way, stub.end === "m" ? "start" : "end") : ""),
  );
}

/** The mark on a lifeline: what an end did. */
function markAt(x, y, entry, event) {
  switch (entry.did.word) {
    case "took":
      return tag("circle", { class: "took", cx: x, cy: y, r: 4.5 });
    case "drop":
      return tag("circle", { class: "drop", cx: x, cy: y, r: 4.5 }) + path(`M${x - 3} ${y + 3}L${x + 3} ${y - 3}`, { class: "drop" });
    case "reset":
      return rect("reset", x - 5.5, y - 5.5, 11, 11) + path(`M${x - 3} ${y - 3}l6 6m-6 0l6 -6`, { class: "cross" });
    default:
      if (event?.kind === "tick") return path(`M${x - 7} ${y}h14`, { class: "tick" });
      return path(`M${x - 4} ${y}l4 -4l4 4l-4 4Z`, { class: "act" });
  }
}

const TOLD = {
  tick: () => "tick",
  put: (event) => `offers ${event.hex}`,
  hold: (event) => (event.on ? "held" : "not held"),
  nonce: (event) => `id ${event.id}`,
  reset: () => "is told to",
};

/** What stands beside an entry, in so many letters: what the end did, or what it was told. */
function besideOf(entry, event, letters) {
  const { word, command } = entry.did;
  if (word === "took") return command;
  if (word === "drop") return entry.text;
  if (word === "reset") return entry.text.length <= letters ? entry.text : entry.text.replace("reset ", "");
  const told = TOLD[event?.kind]?.(event) ?? "";
  return word === "again" ? `${told}, sends` : told;
}

/** Before, at and behind the first other entry. */
function kindOf(chart, n) {
  if (!chart.other || n < chart.other) return "row";
  return n === chart.other ? "row other" : "row beyond";
}

const OTHER = ["◆ first other entry", "passed, and wasn't awaited"];

/** What the first other entry is, on the free side of its row: as much as there is room for. */
function otherAt(places, x, anchor, y) {
  if (places.letters < OTHER[1].length) return words("first", x, y + 4, places.letters < OTHER[0].length ? "◆ first other" : OTHER[0], anchor);
  return words("first", x, y, OTHER[0], anchor) + words("first", x, y + 12, OTHER[1], anchor);
}

function rowAt(chart, places, n) {
  const entry = chart.entries[n - 1];
  const event = chart.events[n - 1];
  const y = middle(n);
  const [x, anchor] = outside(places, entry.at);
  const changed = chart.changed[n - 1];
  return tag(
    "g",
    { class: kindOf(chart, n), "data-n": n },
    rect("back", 0, y - ROW / 2, places.width, ROW) +
      words("number", places.numbers - 6, y + 4, String(n), "end") +
      words(`did ${entry.did.word}`, x, y + (changed ? 1 : 4), short(besideOf(entry, event, places.letters), places.letters), anchor) +
      (changed ? words("outputs", x, y + 13, `= ${short(entry.outputs, places.letters - 2)}`, anchor) : "") +
      (n === chart.other ? otherAt(places, ...outside(places, entry.at === "m" ? "s" : "m"), y) : ""),
  );
}

/** The tip of a kind of arrows: open where a frame came again. */
function tipOf(kind) {
  const size = { viewBox: "0 0 10 10", refX: 9, refY: 5, markerWidth: 8, markerHeight: 8 };
  const open = kind === "again";
  return tag(
    "marker",
    { id: `tip-${kind}`, class: `tip ${kind}`, ...size, markerUnits: "userSpaceOnUse", orient: "auto" },
    path(open ? "M1 1L9 5L1 9" : "M0 0L10 5L0 10Z"),
  );
}

const HATCH = { id: "hatch", width: 8, height: 8, patternUnits: "userSpaceOnUse", patternTransform: "rotate(45)" };

/** What stands once in each chart: the tips of its arrows, and the pattern of what is behind the first other entry. */
export const DEFS = tag("defs", {}, Object.keys(ARROWS).map(tipOf).join("") + tag("pattern", HATCH, rect("hatch", 0, 0, 2, 8)));

/** The names above the lifelines. */
export function headAt(places) {
  return (
    rect("head", 0, 0, places.width, HEAD - 4) +
    words("number", places.numbers - 6, 20, "event", "end") +
    ["m", "s"].map((end) => words("name", places[end], 20, ENDS[end], "middle")).join("")
  );
}

/** The rows from one event to another, with all that crosses them. */
export function rowsAt(chart, places, first, last) {
  const rows = Array.from({ length: Math.max(last - first + 1, 0) }, (_, i) => first + i);
  const bands = ["m", "s"].flatMap((end) =>
    chart.bands[end].filter((band) => band.from < last && band.to > first - 1).map((band) => bandAt(places, end, band, first, last)),
  );
  const marks = rows.map((n) => {
    const entry = chart.entries[n - 1];
    return tag("g", { class: "mark", "data-n": n }, markAt(places[entry.at], middle(n), entry, chart.events[n - 1]));
  });
  return [
    ...rows.map((n) => rowAt(chart, places, n)),
    ...bands.map((band) => band.bar),
    ...Array.from(chart.arrows.near(first, last), (arrow) => arrowAt(places, arrow)),
    ...Array.from(chart.stubs.near(first, last), (stub) => stubAt(places, stub)),
    ...marks,
    ...bands.map((band) => band.name),
  ].join("");
}

/** How high a chart is. */
export function heightOf(chart) {
  return HEAD + chart.rows * ROW + FOOT;
}
