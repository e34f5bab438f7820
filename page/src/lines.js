// Numbers beside the lines of a text field, and bars behind them.

const LINE = 20;
const PAD = 6;

/** Draws them for the field in a box. `marks()` gives the marked lines, each as its kind and its number, 0 for none. */
export function linesOf(box, marks) {
  const field = box.querySelector("textarea");
  const gutter = box.querySelector(".gutter");
  const bars = box.querySelector(".bars");
  let count = 1;

  function draw() {
    const marked = marks().filter(([, line]) => line);
    const refused = marked.find(([kind]) => kind === "refused")?.[1];
    const first = Math.floor(field.scrollTop / LINE);
    const last = Math.min(count, first + Math.ceil(field.clientHeight / LINE) + 1);
    const numbers = [];
    for (let line = first + 1; line <= last; line++) numbers.push(line === refused ? `<div class="refused">▶${line}</div>` : `<div>${line}</div>`);
    gutter.innerHTML = `<div style="transform:translateY(${PAD + first * LINE - field.scrollTop}px)">${numbers.join("")}</div>`;
    const top = (line) => PAD + (line - 1) * LINE - field.scrollTop;
    bars.innerHTML = marked.map(([kind, line]) => `<div class="${kind}" style="top:${top(line)}px"></div>`).join("");
  }

  field.addEventListener("scroll", draw, { passive: true });
  new ResizeObserver(draw).observe(field);
  return {
    field,
    draw,
    /** Counts the lines again. */
    count() {
      count = field.value.split("\n").length;
      draw();
    },
    /** The line at a height of the field. */
    lineAt: (y) => Math.floor((y + field.scrollTop - PAD) / LINE) + 1,
    bringIntoSight(line) {
      const top = PAD + (line - 1) * LINE;
      if (top < field.scrollTop) field.scrollTop = top - LINE;
      else if (top + LINE > field.scrollTop + field.clientHeight) field.scrollTop = top + 2 * LINE - field.clientHeight;
    },
  };
}
