// The editor of a schedule: lines with numbers, the line of the event that is shown, and the line that is refused.
import { linesOf } from "./lines.js";
import { choose, hover, watch } from "./link.js";

/** Watches the text field in a box, and calls back when its text changes. */
export function editorOf(box, changed) {
  let firstLine = 0; // the line of the first event, less 1
  let count = 0; // how many events were run
  let refused = 0;
  let shown = { chosen: 0, hovered: 0 };

  const lineOf = (n) => (n && n <= count ? firstLine + n : 0);
  const lines = linesOf(box, () => [["hover", lineOf(shown.hovered)], ["chosen", lineOf(shown.chosen)], ["refused", refused]]);
  const { field } = lines;
  const eventOf = (line) => (line > firstLine && line <= firstLine + count ? line - firstLine : 0);
  const caretLine = () => field.value.slice(0, field.selectionStart).split("\n").length;

  field.addEventListener("input", () => changed(field.value));
  field.addEventListener("pointermove", (at) => hover(eventOf(lines.lineAt(at.offsetY)), "editor"));
  field.addEventListener("pointerleave", () => hover(0, "editor"));
  for (const when of ["keyup", "click"]) field.addEventListener(when, () => choose(eventOf(caretLine()), "editor"));
  watch((state, why) => {
    shown = { ...state };
    const line = lineOf(state.chosen);
    if (why.chose && why.by !== "editor" && line) lines.bringIntoSight(line);
    lines.draw();
  });

  return {
    text: () => field.value,
    /** Puts a whole text. */
    set(text) {
      field.value = text;
      field.scrollTop = 0;
      changed(text);
    },
    /** Puts other lines in place of some, from a line on, in a way that the browser can undo. */
    replace(line, many, put) {
      const all = field.value.split("\n");
      const from = all.slice(0, line - 1).reduce((sum, each) => sum + each.length + 1, 0);
      const to = all.slice(line - 1, line - 1 + many).reduce((sum, each) => sum + each.length + 1, from);
      field.focus({ preventScroll: true });
      field.setSelectionRange(from, to);
      const text = put.map((each) => `${each}\n`).join("");
      if (!document.execCommand(text ? "insertText" : "delete", false, text)) {
        field.setRangeText(text, from, to, "end");
        changed(field.value);
      }
    },
    /** Notes what the run made of the text. */
    ran(schedule, events, refusedLine) {
      firstLine = schedule.events.length ? schedule.events[0].line - 1 : 0;
      count = events;
      refused = refusedLine;
      lines.count();
    },
  };
}
