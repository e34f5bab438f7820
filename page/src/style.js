// How a chart looks. Kinds are told apart by form and word; colours only help.

const LIGHT =
  "--paper:#fff;--ink:#1d2430;--soft:#5b6675;--line:#c9d1dc;--blue:#1f5fa8;" +
  "--green:#1c7a4a;--red:#b3261e;--amber:#8a5a00;--violet:#6b3fa0;--wash:#eef3f9;--warn:#fde7e5";
const DARK =
  "--paper:#14181f;--ink:#e6ebf2;--soft:#9aa7b8;--line:#3a4453;--blue:#7db4f0;" +
  "--green:#6fcf97;--red:#ff8a80;--amber:#f0c060;--violet:#c4a0f0;--wash:#1f2733;--warn:#3d2022";

/** The colours by name, for the page: dark where the system asks for it. */
export const COLOURS = `:root{color-scheme:light dark;${LIGHT}}@media(prefers-color-scheme:dark){:root{${DARK}}}`;

/** The parts of a chart. */
export const PARTS = `
.chart{font:11px ui-monospace,SFMono-Regular,Menlo,Consolas,"DejaVu Sans Mono",monospace;fill:var(--ink)}
.chart .paper,.chart .head{fill:var(--paper)}
.chart .name{font-size:13px;font-weight:bold}
.chart .number,.chart .state{fill:var(--soft);font-size:10px}
.chart .state{paint-order:stroke;stroke:var(--paper);stroke-width:3px}
.chart .back{fill:transparent}
.chart .row.other .back{fill:var(--warn);stroke:var(--red);stroke-width:1.5}
.chart .row.beyond .back{fill:url(#hatch)}
.chart .hatch{fill:var(--warn)}
.chart .first{fill:var(--red);font-weight:bold}
.chart .row.hover .back{fill:var(--wash)}
.chart .row.chosen .back{fill:var(--wash);stroke:var(--blue);stroke-width:1.5}
.chart .row.other.chosen .back,.chart .row.other.hover .back{fill:var(--warn)}
.chart .did.reset{fill:var(--red)}
.chart .did.drop{fill:var(--amber)}
.chart .did.quiet,.chart .did.again{fill:var(--soft)}
.chart .outputs{font-weight:bold;fill:var(--green)}
.chart .band{stroke:var(--soft);stroke-width:1;fill:var(--paper)}
.chart .band.Session{fill:var(--line)}
.chart .band.Connection{fill:var(--line);stroke-dasharray:4 2}
.chart .band.Parameter{fill:var(--soft);stroke-dasharray:4 2}
.chart .band.Data{fill:var(--green);stroke:var(--green)}
.chart .arrow path{fill:none;stroke:var(--ink);stroke-width:1.4}
.chart .arrow.late path{stroke-dasharray:10 3;stroke:var(--amber)}
.chart .arrow.again path{stroke-dasharray:3 3;stroke:var(--amber)}
.chart .arrow.altered path{stroke:var(--violet)}
.chart .arrow.invented path{stroke:var(--red);stroke-width:2.4}
.chart .arrow.chosen path,.chart .arrow.hover path{stroke-width:3}
.chart .tip path{fill:var(--ink)}
.chart .tip.late path{fill:var(--amber)}
.chart .tip.again path{fill:none;stroke:var(--amber);stroke-width:2}
.chart .tip.altered path{fill:var(--violet)}
.chart .tip.invented path{fill:var(--red)}
.chart .way,.chart .star{font-size:10px;fill:var(--ink);paint-order:stroke;stroke:var(--paper);stroke-width:3px}
.chart .star{font-size:15px;fill:var(--red)}
.chart .stub path{fill:none;stroke:var(--soft);stroke-width:1.2;stroke-dasharray:5 3}
.chart .stub .way{fill:var(--soft)}
.chart .stub .end{font-size:15px;fill:var(--red);font-weight:bold}
.chart .mark .took{fill:var(--ink);stroke:var(--paper)}
.chart .mark .drop{fill:var(--paper);stroke:var(--amber);stroke-width:1.6}
.chart .mark .reset{fill:var(--red);stroke:var(--paper)}
.chart .mark .cross{fill:none;stroke:var(--paper);stroke-width:1.6}
.chart .mark .tick{fill:none;stroke:var(--ink);stroke-width:1.6}
.chart .mark .act{fill:var(--paper);stroke:var(--ink)}
`;

/** The whole style of a chart that stands alone, dark where the system asks for it. */
export const ALONE = `svg{${LIGHT}}@media(prefers-color-scheme:dark){svg{${DARK}}}${PARTS}`;
