// The page: what is typed is run, and shown.
import { BYTES } from "./engine_bytes.js";
import { aboutEvent } from "./about.js";
import { chartView } from "./chart_view.js";
import { editorOf } from "./editor.js";
import { engineOf } from "./engine.js";
import { EXAMPLES } from "./examples.js";
import { choose, chosen, watch } from "./link.js";
import { menuOf } from "./menu.js";
import { scheduleOf } from "./number.js";
import { numberForm } from "./number_form.js";
import { plantTab } from "./plant.js";
import { reportView } from "./report_view.js";
import { runOf } from "./run.js";
import { savedChart } from "./saved.js";
import { ALONE, COLOURS, PARTS } from "./style.js";
import { tabsOf } from "./tabs.js";
import { canTry, linesOf } from "./tries.js";
import { causeWords, endingWords } from "./words.js";

const PATIENCE = 120; // ms without a key before a text is run
const SAVED_WIDTH = 760;
const by = (id) => document.getElementById(id);
const bytesOfBase64 = (text) => Uint8Array.from(atob(text), (letter) => letter.charCodeAt(0));

let engine = null;
let run = null;
let shown = ""; // the text of the example, or what else was shown
let timer = 0;

// What is said of an event takes room from the report: so it is first, and the report brings the event's line into sight after it.
watch((_, why) => why.chose && showEvent());
const chart = chartView(by("chart-box"));
const report = reportView(by("report-box"));
const editor = editorOf(by("editor"), (text) => {
  menu.edited(text !== shown);
  by("example-about").classList.toggle("changed", text !== shown);
  clearTimeout(timer);
  timer = setTimeout(runText, PATIENCE);
});
const menu = menuOf(by("examples"), EXAMPLES, ({ text, about }) => showText(text, about));

function showEnding() {
  const { status, place, report: said } = run;
  const refused = said.refused;
  by("ending").textContent = endingWords(status, place, said.entries.length);
  by("ending").className = status === 0 ? "good" : "note strong";
  by("refused").textContent = refused ? `Line ${refused.line} is refused: ${refused.cause}, ${causeWords(refused.cause)}.` : "";
}

function showEvent() {
  if (!run) return;
  by("event").innerHTML = aboutEvent(run, chosen());
  for (const button of document.querySelectorAll("[data-try]")) button.disabled = !canTry(button.dataset.try, run, chosen());
}

function runText() {
  clearTimeout(timer);
  if (!engine) return;
  run = runOf(engine, editor.text());
  editor.ran(run.schedule, run.report.entries.length, run.report.refused?.line ?? 0);
  chart.show(run.chart);
  report.show(run.report);
  showEnding();
  if (chosen() > run.report.entries.length) choose(0, "page");
  showEvent();
}

/** Shows a text, with an event of it in sight: the first other entry, or the last. One that is no example has a name. */
function showText(text, about, name = "") {
  if (name) menu.tell(name);
  by("example-about").textContent = about;
  choose(0, "page");
  shown = text;
  editor.set(text);
  runText();
  if (run) choose(run.report.other || run.report.entries.length, "page");
}

function tryAt(what) {
  const n = chosen();
  if (!run || !canTry(what, run, n)) return;
  const lines = linesOf(what, run, n);
  editor.replace(run.schedule.events[n - 1].line, 1, lines);
  runText();
  choose(Math.min(n + Math.max(lines.length - 1, 0), run.report.entries.length), "page");
  showEvent();
}

function save() {
  const link = document.createElement("a");
  link.href = URL.createObjectURL(new Blob([savedChart(run.chart, ALONE, SAVED_WIDTH)], { type: "image/svg+xml" }));
  link.download = "gatepast-chart.svg";
  link.click();
  setTimeout(() => URL.revokeObjectURL(link.href), 1000);
}

function setUp() {
  const style = document.createElement("style");
  style.textContent = COLOURS + PARTS;
  document.head.append(style);
  numberForm(by("number-form"), by("number-refused"), showText);
  by("save").addEventListener("click", save);
  for (const button of document.querySelectorAll("[data-try]")) button.addEventListener("click", () => tryAt(button.dataset.try));
}

/** For checks: what the page makes of a text. */
globalThis.gatepast = {
  examples: EXAMPLES,
  run: (text) => {
    const { status, place, report: said, arrows } = runOf(engine, text);
    return { status, place, report: said.text, arrows };
  },
  /** The lines up to each event at which a frame can be forged so, and the forged frame after them. */
  forged: (text, what) => {
    const ran = runOf(engine, text);
    const lines = text.split("\n");
    const upTo = (n) => [...lines.slice(0, ran.schedule.events[n - 1].line - 1), ...linesOf(what, ran, n), "end\n"].join("\n");
    return ran.report.entries.flatMap((_, i) => (canTry(what, ran, i + 1) ? [upTo(i + 1)] : []));
  },
  saved: (text) => savedChart(runOf(engine, text).chart, ALONE, SAVED_WIDTH),
  show: showText,
  scheduleOf,
};

setUp();
const showTab = tabsOf(document.querySelector(".tabs"));
const plant = plantTab((text, name, eventOf) => {
  showTab("pair");
  showText(text, "", name);
  if (run) choose(eventOf(run), "page");
});
if (plant.served || location.hash === "#plant") showTab("plant");
const engineReady = engineOf(bytesOfBase64(BYTES)).then(
  (made) => {
    engine = made;
    by("build").textContent = engine.build;
    menu.pick(0);
  },
  (why) => {
    by("ending").textContent = why.message;
    by("ending").className = "note strong";
  },
);
globalThis.gatepast.ready = Promise.all([engineReady, plant.ready]);
