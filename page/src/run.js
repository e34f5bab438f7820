// One run: a text, what the engine says of it, and what the views show of that.
import { chartOf } from "./chart.js";
import { readReport } from "./report.js";
import { readSchedule } from "./schedule.js";
import { trafficOf } from "./traffic.js";

/** Runs a text. */
export function runOf(engine, text) {
  const ended = engine.run(text);
  const schedule = readSchedule(text);
  const report = readReport(ended.report);
  const traffic = trafficOf(schedule.events, report.entries);
  const arrows = new Map(traffic.arrows.map((arrow) => [arrow.n, arrow]));
  return {
    status: ended.status,
    place: ended.place,
    schedule,
    report: { ...report, text: ended.report },
    arrows: traffic.arrows.length,
    chart: chartOf(schedule, report, traffic),
    /** The frame that came at this event, if one did. */
    arrowOf: (n) => arrows.get(n),
  };
}
