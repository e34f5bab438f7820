// The chart in sight: of many events only those that are seen are drawn.
import { DEFS, HEAD, ROW, headAt, heightOf, placesOf, rowsAt } from "./draw.js";
import { choose, chosen, hover, moved, watch } from "./link.js";

const SLACK = 4; // rows drawn beyond what is seen

/** Shows charts in a box that scrolls. The answer's `show(chart)` shows another one. */
export function chartView(box) {
  const room = box.querySelector(".room");
  const svg = box.querySelector("svg");
  let chart = null;
  let drawn = "";
  let waiting = false;

  function draw() {
    waiting = false;
    if (!chart) return;
    const width = box.clientWidth;
    const height = box.clientHeight;
    const top = box.scrollTop;
    const first = Math.max(1, Math.floor((top - HEAD) / ROW) + 1 - SLACK);
    const last = Math.min(chart.rows, Math.ceil((top + height - HEAD) / ROW) + SLACK);
    const key = `${first} ${last} ${width}`;
    const places = placesOf(width);
    svg.setAttribute("viewBox", `0 ${top} ${width} ${height}`);
    svg.setAttribute("width", width);
    svg.setAttribute("height", height);
    if (key !== drawn) {
      svg.innerHTML = `${DEFS}<g>${rowsAt(chart, places, first, last)}</g><g class="sticky">${headAt(places)}</g>`;
      drawn = key;
      mark();
    }
    svg.querySelector(".sticky").setAttribute("transform", `translate(0 ${top})`);
  }

  function soon() {
    if (waiting) return;
    waiting = true;
    requestAnimationFrame(draw);
  }

  function mark(state = { chosen: chosen(), hovered: 0 }) {
    for (const part of svg.querySelectorAll("[data-n]")) {
      const n = Number(part.dataset.n);
      part.classList.toggle("chosen", n === state.chosen);
      part.classList.toggle("hover", n === state.hovered && n !== state.chosen);
    }
  }

  function bringIntoSight(n) {
    const top = HEAD + (n - 1) * ROW;
    if (top - HEAD - ROW < box.scrollTop) box.scrollTop = top - HEAD - ROW;
    else if (top + 2 * ROW > box.scrollTop + box.clientHeight) box.scrollTop = top + 2 * ROW - box.clientHeight;
  }

  const eventAt = (at) => Number(at.target.closest("[data-n]")?.dataset.n ?? 0);
  box.addEventListener("scroll", soon, { passive: true });
  new ResizeObserver(() => {
    if (chosen()) bringIntoSight(chosen());
    soon();
  }).observe(box);
  svg.addEventListener("pointermove", (at) => hover(eventAt(at), "chart"));
  svg.addEventListener("pointerleave", () => hover(0, "chart"));
  svg.addEventListener("click", (at) => choose(eventAt(at), "chart"));
  box.addEventListener("keydown", (key) => {
    const to = chart && moved(key.key, chosen(), chart.rows, Math.max(1, Math.floor(box.clientHeight / ROW) - 2));
    if (to === null) return;
    key.preventDefault();
    choose(to, "keys");
  });
  watch((state, why) => {
    if (why.chose && why.by !== "chart" && state.chosen) {
      bringIntoSight(state.chosen);
      draw();
    }
    mark(state);
  });

  return {
    show(next) {
      chart = next;
      drawn = "";
      room.style.height = `${heightOf(chart)}px`;
      draw();
    },
  };
}
