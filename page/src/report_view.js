// The report in sight: of many lines only those that are seen stand in the page.
import { choose, chosen, hover, moved, watch } from "./link.js";

const LINE = 20;
const SLACK = 6;

/** Shows reports in a box that scrolls. The answer's `show(report)` shows another one. */
export function reportView(box) {
  const room = box.querySelector(".room");
  const list = box.querySelector(".lines");
  let report = null;
  let drawn = "";

  function lineAt(at) {
    const line = document.createElement("div");
    line.textContent = report.lines[at];
    const n = at + 1;
    if (n <= report.entries.length) {
      line.dataset.n = n;
      line.id = `line-${n}`;
      line.setAttribute("role", "option");
    }
    if (report.other) {
      if (n === report.other || (n > report.entries.length && report.lines[at].startsWith("other"))) line.className = "other";
      else if (n > report.other && n <= report.entries.length) line.className = "beyond";
    }
    if (report.refused && n === report.lines.length) line.className = "other";
    return line;
  }

  function draw() {
    if (!report) return;
    const first = Math.max(0, Math.floor(box.scrollTop / LINE) - SLACK);
    const last = Math.min(report.lines.length, Math.ceil((box.scrollTop + box.clientHeight) / LINE) + SLACK);
    if (drawn !== `${first} ${last}`) {
      list.style.transform = `translateY(${first * LINE}px)`;
      list.replaceChildren(...Array.from({ length: last - first }, (_, i) => lineAt(first + i)));
      drawn = `${first} ${last}`;
      mark();
    }
  }

  function mark(state = { chosen: chosen(), hovered: 0 }) {
    for (const line of list.children) {
      const n = Number(line.dataset.n ?? -1);
      line.classList.toggle("chosen", n === state.chosen);
      line.classList.toggle("hover", n === state.hovered && n !== state.chosen);
      if (line.id) line.setAttribute("aria-selected", n === state.chosen);
    }
    if (state.chosen) box.setAttribute("aria-activedescendant", `line-${state.chosen}`);
    else box.removeAttribute("aria-activedescendant");
  }

  function bringIntoSight(n) {
    const top = (n - 1) * LINE;
    if (top < box.scrollTop) box.scrollTop = top;
    else if (top + LINE > box.scrollTop + box.clientHeight) box.scrollTop = top + LINE - box.clientHeight;
  }

  const eventAt = (at) => Number(at.target.closest("[data-n]")?.dataset.n ?? 0);
  box.addEventListener("scroll", draw, { passive: true });
  new ResizeObserver(() => {
    if (chosen()) bringIntoSight(chosen());
    draw();
  }).observe(box);
  list.addEventListener("pointermove", (at) => hover(eventAt(at), "report"));
  list.addEventListener("pointerleave", () => hover(0, "report"));
  list.addEventListener("click", (at) => choose(eventAt(at), "report"));
  box.addEventListener("keydown", (key) => {
    const to = report && moved(key.key, chosen(), report.entries.length, Math.max(1, Math.floor(box.clientHeight / LINE) - 1));
    if (to === null) return;
    key.preventDefault();
    choose(to, "keys");
  });
  watch((state, why) => {
    if (why.chose && why.by !== "report" && state.chosen) {
      bringIntoSight(state.chosen);
      draw();
    }
    mark(state);
  });

  return {
    show(next) {
      report = next;
      drawn = "";
      room.style.height = `${report.lines.length * LINE}px`;
      draw();
    },
  };
}
