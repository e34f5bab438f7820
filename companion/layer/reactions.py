"""How long a drive stayed on after its stop was pressed, by the script and the report of a plant."""
from __future__ import annotations

import json
import re
from collections import Counter
from concurrent.futures import ProcessPoolExecutor
from contextlib import suppress
from dataclasses import dataclass
from functools import partial, reduce
from operator import add
from tempfile import NamedTemporaryFile
from typing import Any, Iterable, Iterator, Sequence

from layer.causes import place_of
from layer.journal import bit_of
from layer.net import Net
from layer.program import Complaint, Tool
from layer.script import Line, text_of
from layer.toml_lines import lines_of, read, tables_of

Tables = dict[str, list[dict[str, Any]]]
MOST_SEEDS = 10_000
WIDTH = 40  # of the longest bar


@dataclass(frozen=True)
class Press:
    """A stop was pressed after a tick with the drive on, which was off after a later one; None if it wasn't, or if the
    stop was released before."""

    tick: int
    off: int | None


@dataclass(frozen=True)
class Seen:
    """What was seen of a bound: how often a reaction took so many ticks (None: no end), and ticks with the drive on."""

    counts: Counter[int | None]
    on: int
    ticks: int

    def __add__(self, other: Seen) -> Seen:
        return Seen(self.counts + other.counts, self.on + other.on, self.ticks + other.ticks)


def outputs_of(report: str) -> list[dict[int, str]]:
    """The outputs of each slave after each tick."""
    ticks: list[dict[int, str]] = []
    for line in report.splitlines():
        words = line.split(" ")
        if words[0] == "tick":
            ticks.append({})
        elif words[0].isdigit():
            ticks[-1][int(words[0])] = words[4]
    return ticks


def presses(bound: dict[str, str], script: list[Line], ticks: list[dict[int, str]]) -> list[Press]:
    """Each time at which the stop of a bound was pressed with its drive on."""
    stop, drive = place_of(bound["estop"]), place_of(bound["drive"])
    found: list[Press] = []
    offered, held, on, tick, open_at = "", False, False, 0, None
    for word, *fields in (line.text.split(" ") for line in script[1:]):
        if word == "t":
            if tick == len(ticks):
                break
            tick += 1
            on = bit_of(ticks[tick - 1].get(drive[0], ""), drive[1])
            if open_at is not None and not on:
                found.append(Press(open_at, tick))
                open_at = None
        elif word in ("p", "h") and fields[0] == str(stop[0]):
            was = not held and bit_of(offered, stop[1])
            offered, held = (fields[1], held) if word == "p" else (offered, fields[1] == "1")
            released = not held and bit_of(offered, stop[1])
            if was and not released and on:
                open_at = tick
            elif released and open_at is not None:
                found.append(Press(open_at, None))
                open_at = None
    return found + ([Press(open_at, None)] if open_at is not None else [])


def is_guarded(bound: dict[str, str], tables: Tables) -> bool:
    """Whether the application of a configuration keeps a drive off while its stop is off."""
    app, drive = tables["plant"][0]["app"], bound["drive"]
    wires = {drive["out"]: drive["from"] for drive in tables.get("drive", [])}
    if app == "mirror":
        return bound["estop"][1:] == drive[1:]
    return app == "zeros" or drive not in wires or Net(tables.get("block", [])).guards(bound["estop"], wires[drive])


def said_of(bound: dict[str, str], tables: Tables, ended: str, script: list[Line], ticks: list[dict[int, str]]) -> str:
    """What a bound's line of the report says, in words."""
    stop, drive, limit = bound["estop"], bound["drive"], ended.split(" ")[3]
    link, number = place_of(drive)
    if not ended.endswith("kept"):
        return f"drive {drive} was still on after {limit} ticks of stop {stop}, in tick {ended.split(' ')[-1]}"
    if not is_guarded(bound, tables):
        return f"this shows nothing: the application doesn't guard {drive} by {stop}, so the bound was never active"
    if not any(bit_of(tick.get(link, ""), number) for tick in ticks):
        return f"this shows nothing: drive {drive} was never on"
    found = presses(bound, script, ticks)
    if not found:
        return f"this shows nothing: stop {stop} was never pressed with drive {drive} on"
    took = sorted({press.off - press.tick for press in found if press.off})
    off = f"; it was off after {spoken(took)}" if took else ""
    left = sum(press.off is None for press in found)
    never = f"; {left} of these ended before it was off" if left else ""
    return f"stop {stop} was pressed {times(len(found))} with drive {drive} on{off}{never}; the limit is {limit}"


def seen_of(bound: dict[str, str], script: list[Line], ticks: list[dict[int, str]]) -> Seen:
    """What was seen of a bound in a run."""
    link, number = place_of(bound["drive"])
    found = presses(bound, script, ticks)
    on = sum(bit_of(tick.get(link, ""), number) for tick in ticks)
    return Seen(Counter(press.off and press.off - press.tick for press in found), on, len(ticks))


def times(count: int) -> str:
    """How often something was."""
    return "once" if count == 1 else f"{count:,} times"


def spoken(ticks: list[int]) -> str:
    """The least and the greatest number of ticks."""
    least = f"{ticks[0]} to " if ticks[0] < ticks[-1] else ""
    return f"{least}{ticks[-1]} tick{'s' if ticks[-1] > 1 else ''}"


def with_key(text: str, key: str, value: int | str) -> str:
    """A configuration with another value of a key of the plant; one that the program refuses stays as it is."""
    shown = json.dumps(value)
    try:
        wanted = read(text)
    except Complaint:
        return text
    place, lines = lines_of(text).get(("plant", 1, key)), text.split("\n")
    if place:
        lines[place - 1] = re.sub(r"""=\s*("[^"]*"|'[^']*'|[\w+-]+)""", f"= {shown}", lines[place - 1], count=1)
    elif head := lines_of(text).get(("plant", 1, "")):
        lines.insert(head, f"{key} = {shown}")
    changed = "\n".join(lines)
    if not isinstance(wanted.get("plant"), dict):
        return text
    with suppress(Complaint):
        if read(changed) == wanted | {"plant": wanted["plant"] | {key: value}}:
            return changed
    raise Complaint(f"the {key} of the configuration can't be replaced: write it in a line of its own under [plant]")


def with_file(tool: Tool, configuration: str, script: str, word: str, rates: Iterable[int]) -> tuple[int, str]:
    """Status and report of a command for a configuration and a script."""
    with NamedTemporaryFile("w", suffix=".toml", encoding="utf-8") as file:
        file.write(configuration)
        file.flush()
        return tool.ask(word, file.name, *map(str, rates), text=script)


def report_of(tool: Tool, text: str, script: list[Line], rates: Sequence[int]) -> tuple[int, str]:
    """Status and report of a plant, which the program for trials runs if there are rates."""
    return with_file(tool, text, text_of(script), "rates" if rates else "plant", rates)


def reactions_with(
    tool: Tool, text: str, script: list[Line], rates: Sequence[int], seed: int
) -> tuple[int, list[Seen]]:
    """The program's status with a seed, and what was seen of each bound."""
    status, report = report_of(tool, with_key(text, "seed", seed), script, rates)
    if status > 1:
        raise Complaint(f"with seed {seed} the program ends with status {status}: {report.splitlines()[-1]}")
    ticks = outputs_of(report)
    return status, [seen_of(bound, script, ticks) for bound in tables_of(read(text)).get("bound", [])]


def over_seeds(
    tool: Tool, text: str, script: list[Line], seeds: range, rates: Sequence[int] = ()
) -> tuple[list[int], list[Seen]]:
    """The seeds with an `other` entry, and what was seen of each bound over all seeds."""
    with ProcessPoolExecutor() as pool:
        runs = list(pool.map(partial(reactions_with, tool, text, script, rates), seeds, chunksize=4))
    return [seed for seed, (status, _) in zip(seeds, runs) if status], [
        reduce(add, found) for found in zip(*(found for _, found in runs))
    ]


def summary(line: str, seen: Seen) -> str:
    """How long a drive was on, and how often its stop was pressed then."""
    _, stop, drive, *_ = line.split(" ")
    took = [ticks for ticks in seen.counts if ticks is not None]
    longest = f", and the longest reaction was {spoken([max(took)])}" if took else ""
    pressed = f"stop {stop} was pressed {times(seen.counts.total())} then{longest}"
    return f"drive {drive} was on in {seen.on:,} of {seen.ticks:,} ticks; {pressed}"


def rows(line: str, counts: Counter) -> Iterator[str]:
    """How often a reaction of a bound took so many ticks, as bars, and its limit."""
    _, stop, drive, limit, *_ = line.split(" ")
    most = max(counts.values(), default=1)
    yield f"ticks from stop {stop} pressed to drive {drive} off, and how often:"
    for ticks in sorted(ticks for ticks in counts if ticks is not None):
        yield f"{ticks:>6} {counts[ticks]:>6}  {'#' * max(1, counts[ticks] * WIDTH // most)}"
    if counts[None]:
        yield f"     - {counts[None]:>6}  the stop was released, or the run ended, before it was off"
    yield f"{limit:>6}         the limit"
