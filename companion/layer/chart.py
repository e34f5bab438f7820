"""A page with a chart of a plant: companion/chart.html with the data of a run in it."""
from __future__ import annotations

import json
from itertools import groupby
from typing import TYPE_CHECKING, Any, Iterator

from layer.causes import Change, drives_of, place_of
from layer.journal import ENDS, Entry, Pair
from layer.program import TOP
from layer.reactions import is_guarded, outputs_of, presses
from layer.startup import spoken
from layer.words import WORDS, code_words

if TYPE_CHECKING:
    from layer.plant import Ran

TEMPLATE = TOP / "companion" / "chart.html"
MOST_LINES = 6  # at the top of a page


def first_lines(changes: list[Change]) -> list[str]:
    """Which drives went off, when and why: a line for those that did together."""
    drives = [change for change in changes if change.drive]
    offs = groupby((change for change in drives if change.is_off), lambda change: (change.step.during, change.why))
    lines = [f"{spoken('Drive', [each.drive for each in same])} went off {when}: {why}" for (when, why), same in offs]
    if len(lines) > MOST_LINES:
        lines[MOST_LINES - 1 :] = [f"{len(lines) - MOST_LINES + 1} more such lines stand below"]
    if drives and not lines:
        lines = [f"No drive went off. Drive {drives[0].drive} went on {drives[0].step.during}: {drives[0].why}"]
    return lines or ["No drive was on"]


def refusal_lines(told: list[str]) -> list[str]:
    """That a script was refused, where and why, by what is told of it; and that the rest is of what ran before."""
    at = next((number for number, line in enumerate(told) if line.startswith("refused ")), None)
    words = [] if at is None else [*told[:at], told[at + 1]]
    return [f"The script was refused: {'; '.join(words)}", "All else is of what ran before that line"] if words else []


def did_words(did: str) -> str:
    """What an end did, in the words of docs/formats.md."""
    word, *rest = did.split(" ")
    if word == "took":
        return did
    if word == "drop":
        return f"dropped a frame: {WORDS['drops'][rest[0]]}"
    if word == "reset":
        whose = {"own": "by the script", "peer": "by its peer's Reset frame", "found": "by itself"}[rest[0]]
        return f"was reset {whose}{f': {code_words(rest[1])}' if rest[1:] else ''}"
    return "sent a frame" if word == "again" else ""


def summary(entries: list[Entry]) -> str:
    """What an end did in a tick."""
    found = [(words, len(list(same))) for words, same in groupby(did_words(entry.did) for entry in entries) if words]
    return ", ".join(f"{words}{f' ({count} times)' if count > 1 else ''}" for words, count in found)


def spans(entries: list[tuple[float, bool]], end: float) -> Iterator[tuple[float, float]]:
    """From where to where a bit is on."""
    since = None
    for at, on in [*entries, (end, False)]:
        if on and since is None:
            since = at
        elif not on and since is not None:
            yield since, at
            since = None


class Chart:
    """The data of a page."""

    def __init__(self, ran: Ran) -> None:
        self.ran = ran
        self.ticks = max((step.tick for step in ran.steps), default=0)
        self.texts: dict[str, int] = {"": 0}

    def text(self, words: str) -> int:
        """The number of a text."""
        return self.texts.setdefault(words, len(self.texts))

    def named(self, pair: Pair, end: str) -> list[tuple[str, str]]:
        """The bits of an end's outputs that have a name, and whether each is of a stop or a drive."""
        tables = self.ran.tables
        if end == "s":
            bits = {drive: "drive" for drive in drives_of(tables)}
        else:
            wires = [wire for block in tables.get("block", []) for wire in block["ins"]]
            wires += [drive["from"] for drive in tables.get("drive", [])]
            bits = {wire: "" for wire in wires if wire.startswith("i")}
            bits |= {bound["estop"]: "stop" for bound in tables.get("bound", [])}
        own = {bit: kind for bit, kind in bits.items() if place_of(bit)[0] == pair.number}
        return sorted(own.items(), key=lambda item: place_of(item[0]))

    def lane(self, pair: Pair, end: str) -> dict[str, Any]:
        """What is shown of an end."""
        entries = [(self.ran.steps[entry.step].x, entry) for entry in pair.ends[end]]
        states: list[tuple[float, str]] = [(0, "Reset")]
        states += [(x, entry.state) for x, entry in entries if not entry.before or entry.before.state != entry.state]
        by_tick: list[list[Entry]] = [[] for _ in range(self.ticks + 2)]
        for _, entry in entries:
            by_tick[max(1, self.ran.steps[entry.step].tick)].append(entry)
        marks = [(way.got or way.sent, way.what) for way in pair.ways if way.what and (way.got or way.sent).end == end]
        return {
            "name": f"{pair.number} {ENDS[end]}",
            "states": states,
            "bits": [
                {
                    "name": name,
                    "kind": kind,
                    "on": list(spans([(x, entry.bit(place_of(name)[1])) for x, entry in entries], self.ticks)),
                }
                for name, kind in self.named(pair, end)
            ],
            "told": [self.text(summary(part)) for part in by_tick],
            "marks": [(self.ran.steps[entry.step].x, what) for entry, what in marks],
        }

    def proved(self, bound: dict[str, str], limit: int) -> int | None:
        """The proved limit of a bound; None where a premise of the law isn't seen to hold (docs/promises.md)."""
        others = any(self.ran.pairs[place_of(bound[key])[0]].other for key in ("estop", "drive"))
        changes = any(line.text.startswith("app ") for line in self.ran.script)
        return limit - 3 if is_guarded(bound, self.ran.tables) and not others and not changes else None

    def bound(self, number: int, line: str, said: str) -> dict[str, Any]:
        """What is shown of a bound."""
        bound = self.ran.tables["bound"][number]
        found = presses(bound, self.ran.script, outputs_of(self.ran.report))
        limit = int(line.split(" ")[3])
        return {
            "stop": bound["estop"],
            "drive": bound["drive"],
            "limit": limit,
            "proved": self.proved(bound, limit),
            "line": line,
            "said": said[0].upper() + said[1:],
            "presses": [(press.tick, press.off) for press in found],
        }


def page_of(
    ran: Ran, script: str, bounds: list[tuple[str, str]], counts: list, seeds: list[int] | None, others: list[int]
) -> str:
    """The page of a run, with its script as it was written; others are the seeds with an `other` entry."""
    chart = Chart(ran)
    lanes = [chart.lane(pair, end) for pair in ran.pairs.values() for end in "ms"]
    told = [chart.bound(number, line, said) for number, (line, said) in enumerate(bounds)]
    offs = [change.step.tick for change in ran.changes if change.is_off]
    data = {
        "first": refusal_lines(ran.refusal()) + first_lines(ran.changes),
        "refused": ran.refused_line(),
        "at": offs[0] if offs else 1,
        "ticks": chart.ticks,
        "script": [
            (step.x, step.line.where)
            for step in ran.steps
            if step.line and step.line.source and step.words[0] != "t"  # a fresh id comes from no line
        ],
        "lanes": lanes,
        "bounds": [bound | {"counts": dict(count)} for bound, count in zip(told, counts)] if counts else told,
        "changes": [(max(1, change.step.tick), change.text, change.is_off) for change in ran.changes],
        "texts": list(chart.texts),
        "lines": script.rstrip("\n").split("\n"),
        "seeds": seeds if counts else None,
        "others": len(others),
    }
    return TEMPLATE.read_text().replace("DATA", json.dumps(data, separators=(",", ":")).replace("<", "\\u003c"))
