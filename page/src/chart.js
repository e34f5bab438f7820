// What a chart shows of a run, found once: bands of states, changes of outputs, and which arrows cross which events.

const BUCKET = 64; // events

/** The states of each end as bands: from after which event to after which, halves for the middle of an event's row. */
function bandsOf(entries) {
  const bands = { m: [], s: [] };
  entries.forEach((entry, i) => {
    const own = bands[entry.at];
    if (own.at(-1)?.state === entry.state) return;
    if (own.length) own.at(-1).to = i + 0.5;
    own.push({ state: entry.state, from: own.length ? i + 0.5 : 0, to: entries.length });
  });
  for (const end of ["m", "s"]) if (!bands[end].length) bands[end].push({ state: "Reset", from: 0, to: entries.length });
  return bands;
}

/** Whether the outputs after each entry are others than those before it at its end, which are zeros at first. */
function changesOf(entries) {
  const last = { m: null, s: null };
  return entries.map((entry) => {
    const before = last[entry.at] ?? "0".repeat(entry.outputs.length);
    last[entry.at] = entry.outputs;
    return entry.outputs !== before;
  });
}

/** Things by the buckets of events that they cross: each has the numbers of its first and its last event. */
function bucketsOf(things, first, last) {
  const buckets = [];
  for (const thing of things) {
    for (let at = Math.floor(first(thing) / BUCKET); at <= Math.floor(last(thing) / BUCKET); at++) (buckets[at] ??= []).push(thing);
  }
  return {
    /** Those that cross these events. */
    near(from, to) {
      const found = new Set();
      for (let at = Math.floor(from / BUCKET); at <= Math.floor(to / BUCKET); at++) {
        for (const thing of buckets[at] ?? []) if (first(thing) <= to && last(thing) >= from) found.add(thing);
      }
      return found;
    },
  };
}

/** All that a chart shows of a run. */
export function chartOf(schedule, report, traffic) {
  const { entries, other } = report;
  return {
    events: schedule.events,
    entries,
    other,
    rows: entries.length,
    bands: bandsOf(entries),
    changed: changesOf(entries),
    arrows: bucketsOf(traffic.arrows, (arrow) => arrow.from || arrow.n, (arrow) => arrow.n),
    stubs: bucketsOf(traffic.stubs, (stub) => stub.n, (stub) => stub.n + 1),
  };
}
