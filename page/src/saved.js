// A whole chart as a file that stands alone.
import { DEFS, headAt, heightOf, placesOf, rowsAt } from "./draw.js";

/** The text of an SVG file with the whole chart, in the style that it is given. */
export function savedChart(chart, style, width) {
  const places = placesOf(width);
  const height = heightOf(chart);
  const parts = [
    `<svg xmlns="http://www.w3.org/2000/svg" class="chart" width="${width}" height="${height}" viewBox="0 0 ${width} ${height}">`,
    `<style>${style}</style>`,
    DEFS,
    `<rect class="paper" width="100%" height="100%"/>`,
    headAt(places),
    rowsAt(chart, places, 1, chart.rows),
    "</svg>",
  ];
  return `${parts.join("\n")}\n`;
}
