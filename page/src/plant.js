// The tab of a plant. Its texts go to the companion's server, whose answer is shown: what its commands say, and the chart
// that they make. Without the server the examples are shown as they ran before.
import { CHART } from "./chart_html.js";
import { linesOf } from "./lines.js";
import { menuOf } from "./menu.js";
import { PLANTS } from "./plants_json.js";

const PATIENCE = 400; // ms without a key before a plant is run
const SERVED = "server" in document.documentElement.dataset; // as the server writes it there
const EXCHANGE = "ds -1\ndm -1\n"; // many of them are their number in braces, in the examples
const NONE = { status: 0, lines: [] };
const by = (id) => document.getElementById(id);

/** The event of an end in a tick: the first that reset it, or else its last. A tick begins with that of the slave. */
export function eventIn(run, tick, end) {
  let now = 0;
  let found = 0;
  for (const [i, entry] of run.report.entries.entries()) {
    const event = run.schedule.events[i];
    now += event.kind === "tick" && event.at === "s";
    if (now > tick) break;
    if (now !== tick || entry.at !== end) continue;
    found = i + 1;
    if (entry.did.word === "reset") break;
  }
  return found;
}

/** The rates that are typed: none, or four numbers; null if it is something else. */
function ratesOf(text) {
  const rates = text.trim() ? text.trim().split(/\s+/).map(Number) : [];
  const fit = rates.every((rate) => Number.isInteger(rate) && rate >= 0 && rate <= 10000);
  return fit && [0, 4].includes(rates.length) ? rates : null;
}

/** The line of a text that is named first among these lines; 0 for none. */
const lineIn = (lines, form) => Number(lines.map((line) => form.exec(line)?.[1]).find(Boolean) ?? 0);

/** What the server answers, or why it doesn't. */
async function answerOf(asked) {
  try {
    const said = await fetch("plant", { method: "POST", body: JSON.stringify(asked) });
    return said.ok ? await said.json() : { check: { status: 2, lines: [await said.text()] }, plant: NONE };
  } catch {
    const why = "The server doesn't answer. Start companion/gatepast serve again, and open the address that it prints.";
    return { check: { status: 2, lines: [why] }, plant: NONE };
  }
}

/**
 * Makes the tab ready. `showSchedule(text, name, choose)` shows a connection's schedule in the other tab, and there the
 * event that `choose` finds.
 */
export function plantTab(showSchedule) {
  const marked = { configuration: 0, script: 0 };
  const lineOf = (name) => linesOf(by(name), () => [["refused", marked[name]]]);
  const [configuration, script] = [lineOf("configuration"), lineOf("script")];
  const fields = [configuration.field, script.field, by("rates"), by("fresh")];
  const menu = menuOf(by("plants"), PLANTS, showExample);
  let shown = null; // the example
  let answer = null;
  let frame = by("plant-chart");
  let [timer, asking, again] = [0, false, false];

  const typed = () => ({
    configuration: configuration.field.value,
    script: script.field.value,
    rates: ratesOf(by("rates").value),
    fresh: by("fresh").checked,
  });

  function mark(name, line) {
    marked[name] = line;
    const editor = name === "script" ? script : configuration;
    if (line) editor.bringIntoSight(line);
    editor.draw();
  }

  /** Lines, of which those that name a line of a text lead to it. */
  function tell(place, lines, text) {
    place.replaceChildren(
      ...lines.map((line) => {
        const item = document.createElement("li");
        item.textContent = line;
        const found = /line (\d+)(?: of the script|: )/.exec(line);
        if (!found) return item;
        item.className = "leads";
        item.tabIndex = 0;
        item.addEventListener("click", () => mark(text, Number(found[1])));
        item.addEventListener("keydown", (event) => event.key === "Enter" && item.click());
        return item;
      }),
    );
  }

  function showChart(page) {
    const next = frame.cloneNode();
    next.hidden = !page;
    next.srcdoc = page ?? "";
    next.addEventListener("load", () => {
      next.contentWindow.addEventListener("end", ({ detail }) => showEnd(detail.name, detail.tick));
    });
    frame.replaceWith(next);
    frame = next;
  }

  function showEnd(name, tick) {
    const [number, end] = name.split(" ");
    const text = answer.schedules[number - 1];
    showSchedule(text, `Connection ${number} of the plant`, (run) => eventIn(run, tick, end[0]));
  }

  function show(said) {
    answer = said;
    const { check, plant, schedules = [] } = said;
    mark("configuration", lineIn(check.lines, /^line (\d+) is: /));
    mark("script", lineIn(plant.lines, /line (\d+) of the script/));
    tell(by("plant-check"), check.lines, "configuration");
    by("plant-check").className = check.status || check.lines.length > 1 ? "note" : "good";
    tell(by("plant-said"), plant.lines, "script");
    by("plant-said").className = plant.status ? "note" : "good";
    by("connections").replaceChildren(...schedules.map((_, at) => new Option(`connection ${at + 1}`)));
    by("schedules").hidden = !schedules.length;
    showChart(said.chart ?? (said.data && CHART.replace("DATA", () => JSON.stringify(said.data).replaceAll("<", "\\u003c"))));
  }

  async function ask() {
    clearTimeout(timer);
    if (asking) {
      again = true;
      return;
    }
    asking = true;
    do {
      again = false;
      const asked = typed();
      by("plant").setAttribute("aria-busy", "true");
      if (asked.rates) show(await answerOf(asked));
      else show({ check: { status: 2, lines: ["Rates are four numbers from 0 to 10,000: lose, alter, repeat, late."] }, plant: NONE });
    } while (again);
    by("plant").removeAttribute("aria-busy");
    asking = false;
  }

  function changed() {
    const same = JSON.stringify(typed()) === JSON.stringify(asTyped(shown));
    menu.edited(!same);
    by("plant-about").classList.toggle("changed", !same);
    for (const editor of [configuration, script]) editor.count();
    clearTimeout(timer);
    timer = setTimeout(ask, PATIENCE);
  }

  const asTyped = ({ configuration, script, rates, fresh }) => ({ configuration, script, rates, fresh });

  function showExample(example) {
    shown = example;
    by("plant-about").textContent = example.about;
    by("plant-about").classList.remove("changed");
    configuration.field.value = example.configuration;
    script.field.value = example.script;
    by("rates").value = example.rates.join(" ");
    by("fresh").checked = example.fresh;
    for (const editor of [configuration, script]) editor.count();
    if (SERVED) return ask();
    const whole = (text) => text.replace(/\{(\d+)\}/g, (_, count) => EXCHANGE.repeat(count));
    return show({ ...example.answer, schedules: example.answer.schedules.map(whole) });
  }

  for (const field of fields) field.addEventListener("input", changed);
  for (const field of fields) field.toggleAttribute(field.type === "checkbox" ? "disabled" : "readonly", !SERVED);
  by("unserved").hidden = SERVED;
  by("schedules").addEventListener("submit", (event) => {
    event.preventDefault();
    showEnd(`${by("connections").selectedIndex + 1} master`, 1);
  });
  const ready = menu.pick(0);
  return { ready, served: SERVED };
}
