"""How a plant starts: when each connection came to Data first, and from when on each drive could run."""
from __future__ import annotations

from itertools import chain
from typing import TYPE_CHECKING, Iterator

from layer.causes import Change, drives_of, place_of
from layer.net import Net
from layer.reactions import Tables

if TYPE_CHECKING:
    from layer.plant import Ran

PULLS = 64  # frames that the channel gives in a tick at most
WAYS = 2  # frames of a connection in a round: the master's, and the answer to it


def spoken(word: str, names: list[str]) -> str:
    """A word for one or more, and their names; a range has more."""
    *others, last = names
    return f"{word}{'s' if others or ' ' in last else ''} {', '.join(others)}{' and ' if others else ''}{last}"


def connections(numbers: list[int]) -> str:
    """One connection or more; three and more in a row are a range."""
    parts: list[list[int]] = []
    for number in sorted(numbers):
        if not parts or parts[-1][-1] != number - 1:
            parts.append([])
        parts[-1].append(number)
    names = ([f"{part[0]} to {part[-1]}"] if len(part) > 2 else map(str, part) for part in parts)
    return spoken("connection", list(chain.from_iterable(names)))


def needed(drive: str, tables: Tables) -> set[int]:
    """The connections that a drive needs: its own, and those whose bits its wire reads. None if nothing drives it."""
    own, app = place_of(drive)[0], tables["plant"][0]["app"]
    wires = {each["out"]: each["from"] for each in tables.get("drive", [])} if app == "net" else {}
    if drive not in wires:
        return {own} if app == "mirror" else set()
    return {own, *(place_of(bit)[0] for bit in Net(tables.get("block", [])).bits_under(wires[drive]))}


def up_together(wanted: set[int], changes: list[Change]) -> int | None:
    """The first tick in which these connections were in Data together."""
    up: set[int] = set()
    for change in changes:
        word, number, *way = change.what.split(" ")
        if word == "connection":
            up = up | {int(number)} if way == ["up"] else up - {int(number)}
            if wanted <= up:
                return change.step.tick
    return None


def of_drive(drive: str, wanted: set[int], changes: list[Change]) -> str:
    """From when on a drive could run, and when it went on."""
    tick = up_together(wanted, changes)
    if tick is None:
        never = sorted(number for number in wanted if up_together({number}, changes) is None)
        apart = f"{connections(list(wanted))} were never in Data together"
        return f"could never run: {f'{connections(never)} never came to Data' if never else apart}"
    on = next((change.step.tick for change in changes if change.drive == drive and change.on), None)
    went = "never went on" if on is None else f"went on first in tick {on}"
    return f"could run from tick {tick} on, and {went}"


def started(done: Ran) -> Iterator[str]:
    """When the connections of a plant were in Data first, and its drives could run."""
    first = {number: up_together({number}, done.changes) for number in done.pairs}
    for tick in sorted({tick for tick in first.values() if tick is not None}):
        numbers = [number for number, at in first.items() if at == tick]
        yield f"start: {connections(numbers)} came to Data first in tick {tick}"
    if never := [number for number, at in first.items() if at is None]:
        yield f"start: {connections(never)} never came to Data"
    found: dict[str, list[str]] = {}  # the drives of which the same is said
    for drive in drives_of(done.tables):
        if links := needed(drive, done.tables):
            found.setdefault(of_drive(drive, links, done.changes), []).append(drive)
    for said, drives in found.items():
        yield f"start: {spoken('drive', drives)} {said}"


def short_watchdogs(tables: Tables) -> Iterator[str]:
    """The connections whose watchdogs expire though the channel loses nothing: it carries too few frames in a tick."""
    count = len(tables["connection"])
    ticks = -(-WAYS * count // PULLS)
    short = [number for number, connection in enumerate(tables["connection"], 1) if connection["watchdog"] <= ticks]
    if short:
        why = f"a round of {count} takes up to {ticks}, as a tick carries at most {PULLS} frames"
        yield f"warning: {connections(short)}: the watchdog is too short, it needs {ticks + 1} ticks at least: {why}"
