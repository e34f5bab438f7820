"""Runs a plant over a script for people, and says what changed in it, and why.

A script may have comments after #, blank lines, `t 100` for so many ticks, and `repeat N` and `done` around lines. The
causes are what `replay` says of each connection, by the journal of the plant, which the program fsoe_lab writes.
"""
from __future__ import annotations

import argparse
from collections import Counter
from dataclasses import dataclass
from typing import Iterator, Sequence

from layer.causes import Causes, Change
from layer.chart import page_of
from layer.explain import explained
from layer.journal import Pair, Step, pairs_of, steps_of
from layer.program import LAB, Complaint, Tool, lab_of, text_of, write_whole
from layer.reactions import MOST_SEEDS, Seen, Tables, outputs_of, over_seeds, report_of, rows, said_of, seen_of, summary
from layer.reactions import with_file, with_key
from layer.schedules import write_schedules
from layer.script import Line, expanded, with_fresh_ids
from layer.script import text_of as plain
from layer.startup import short_watchdogs, started
from layer.toml_lines import read, tables_of

HELP = "runs a plant, and says what changed in it, and why"
REFUSED = 4  # a line of the script: what was done before it is shown
RAN = (0, 1)


@dataclass(frozen=True)
class Ran:
    """A plant that ran: its configuration, its script, its report, and by its journal what each connection did."""

    tables: Tables
    script: list[Line]
    report: str
    steps: list[Step]
    pairs: dict[int, Pair]
    changes: list[Change]

    def bounds(self) -> list[tuple[str, str]]:
        """The line of each bound, and what it says."""
        lines = [line for line in self.report.splitlines() if line.startswith("bound ")]
        ticks = outputs_of(self.report)
        return [
            (line, said_of(bound, self.tables, line, self.script, ticks))
            for bound, line in zip(self.tables.get("bound", []), lines)
        ]

    def seen(self) -> list[Seen]:
        """What was seen of each bound."""
        ticks = outputs_of(self.report)
        return [seen_of(bound, self.script, ticks) for bound in self.tables.get("bound", [])]

    def refused_line(self) -> int | None:
        """The number of the script's line that was refused, if one was."""
        return line_refused(self.report, self.script)

    def refusal(self) -> list[str]:
        """Why it was, in words."""
        return [] if self.refused_line() is None else refused(self.report, "", self.script)

    def begun_twice(self) -> list[int]:
        """The ticks in which an end began two sessions, the second with the id of the first."""
        begun = Counter(
            (self.steps[entry.step].tick, pair.number, entry.end)
            for pair in self.pairs.values()
            for entry in pair.entries
            if entry.state == "Session" and (not entry.before or entry.before.state == "Reset")
        )
        return sorted({tick for (tick, _, _), count in begun.items() if count > 1})

    def others(self) -> Iterator[str]:
        """What the report's line on `other` entries says."""
        line = next(line for line in self.report.splitlines() if line.startswith("other "))
        before = "" if line == "other none" else ", of these before the entry:"
        yield f"{line}: the law of the pair holds of each connection{before}"
        for pair in self.pairs.values():
            if pair.other:
                when = self.steps[pair.other.step].when
                yield f"  {when}: in connection {pair.number} a frame passed that wasn't the awaited one"


def ran(
    tool: Tool, lab: Tool, text: str, script: list[Line], rates: Sequence[int] = ()
) -> tuple[int, str, Ran | None]:
    """The program's status and report, and what ran by them; None if nothing did."""
    status, report = report_of(lab if rates else tool, text, script, rates)
    if status not in (*RAN, REFUSED):
        return status, report, None
    again, journal = with_file(lab, text, plain(script), "journal", rates)
    if again not in (*RAN, REFUSED):
        raise Complaint(f"the program that writes journals ends with status {again}, and the other with {status}")
    tables = tables_of(read(text))
    steps = steps_of(journal, script)
    if max((step.tick for step in steps), default=0) != len(outputs_of(report)):
        raise Complaint("the journal has another number of ticks than the report: the programs don't belong together")
    pairs = pairs_of(tables["connection"], steps, tool)
    changes = Causes(tables, steps, pairs).changes()
    return status, report, Ran(tables, script, report, steps, pairs, changes)


def line_refused(report: str, script: list[Line]) -> int | None:
    """The number of the script's line that the program refuses, if it does; of its last line, if the script ends."""
    word, _, number = report.rstrip("\n").rpartition("\n")[2].rpartition(" ")[0].partition(" ")
    if word != "refused":
        return None
    return script[min(int(number), len(script)) - 1].source if script else 1


def refused(report: str, text: str, script: list[Line]) -> list[str]:
    """Why the program refuses a configuration or a line, in words."""
    if (source := line_refused(report, script)) is not None:
        return explained(report, plain(script), f"line {source} of the script")
    return explained(report, text) or report.rstrip("\n").split("\n")[-1:]


def take(parser: argparse.ArgumentParser) -> None:
    parser.add_argument("configuration", metavar="CONF", help="the configuration of a plant, a TOML file")
    parser.add_argument("script", metavar="SCRIPT", nargs="?", help="the script, or - for standard input")
    parser.add_argument("--plain", action="store_true", help="write the script that the program reads, and no more")
    parser.add_argument("--chart", metavar="FILE", help="write a page with a chart of the run")
    seeds = "run all seeds from A to B, and tell how long reactions took; the rest is of seed A"
    parser.add_argument("--seeds", type=int, nargs=2, metavar=("A", "B"), help=seeds)
    rates = "run over a channel that does so to so many of 10,000 frames, and of 10,000 pulls gives so many late"
    parser.add_argument("--rates", type=int, nargs=4, metavar=("LOSE", "ALTER", "REPEAT", "LATE"), help=rates)
    parser.add_argument("--fresh", action="store_true", help="give each end its next session id before each tick")
    parser.add_argument("--lab", metavar="FILE", help=LAB)
    schedules = "write what happened to each connection as a file for replay, connection_1.pair and so on"
    parser.add_argument("--schedules", metavar="FOLDER", help=schedules)


def told(done: Ran, status: int, text: str, fresh: bool) -> Iterator[str]:
    """What is said of a run: its start, its changes, how it ended, and its bounds."""
    yield from started(done)
    yield from short_watchdogs(done.tables)
    yield from (change.text for change in done.changes)
    if fresh and (ticks := done.begun_twice()):
        yield f"ticks in which an end began two sessions with one id: {len(ticks)}, the first {ticks[0]}"
    yield from done.others() if status in RAN else refused(done.report, text, done.script)
    yield from (part for line, said in done.bounds() for part in (line, f"  {said}"))


def connections_of(text: str) -> int:
    """How many connections a configuration has; none if the program refuses it."""
    try:
        return len(tables_of(read(text)).get("connection", []))
    except Complaint:
        return 0


def prepared(given: argparse.Namespace, text: str, source: str) -> tuple[str, list[Line]]:
    """The configuration and the lines of the script that are run."""
    script = expanded(source)
    if given.rates:
        if min(given.rates) < 0 or sum(given.rates) > 10_000:
            raise Complaint("rates go from 0 on, and are at most 10,000 together")
        text = with_key(text, "channel", "rates")
    if given.fresh:
        script = with_fresh_ids(script, connections_of(text))
    return text, script


def run(given: argparse.Namespace, tool: Tool) -> int:
    configuration = text_of(given.configuration)  # first: the script may be typed
    if given.script is None:
        raise Complaint(f"{given.configuration} is run over a script: name its file, or - for standard input")
    source = text_of(given.script)
    text, script = prepared(given, configuration, source)
    if given.plain:
        print(plain(script), end="")
        return 0
    lab, rates = lab_of(given.lab), given.rates or ()
    first, last = given.seeds or (0, 0)
    if not 0 <= first <= last < 1 << 63 or last - first >= MOST_SEEDS:
        raise Complaint(f"seeds go from 0 to 2^63 - 1, the first one at most the last, {MOST_SEEDS:,} of them at most")
    text = with_key(text, "seed", first) if given.seeds else text
    status, report, done = ran(tool, lab, text, script, rates)
    if not done:
        print("\n".join(refused(report, text, script)))
        return status
    lines, bounds, seen, others = list(told(done, status, text, given.fresh)), done.bounds(), [], []
    if given.seeds and status in RAN:
        others, seen = over_seeds(lab if rates else tool, text, script, range(first, last + 1), rates)
        status = int(bool(others))
        first_other = f", the first {others[0]}" if others else ""
        lines.append(f"seeds {first} to {last}: {len(others)} with an other entry{first_other}")
        for (line, _), each in zip(bounds, seen):
            lines += [summary(line, each), *rows(line, each.counts)]
    elif rates and status in RAN:
        lines += [summary(line, each) for (line, _), each in zip(bounds, done.seen())]
    if given.chart:
        page = page_of(done, source, bounds, [each.counts for each in seen], given.seeds, others)
        write_whole(given.chart, page.encode())
    if given.schedules:
        write_schedules(given.schedules, done.pairs, done.tables["connection"])
    print("\n".join(lines))
    return status
