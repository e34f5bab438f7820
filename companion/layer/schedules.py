"""The schedule of each connection of a plant, as a pair file for `replay` and for the page."""
from __future__ import annotations

import pathlib
from typing import Any, Iterator

from layer.journal import PEER, RECENT, Entry, Pair, header_of
from layer.program import write_whole


def named(entry: Entry, sent: list[Entry]) -> str:
    """An event. A frame that came is named by its place among those that the peer sent, if it is one of them."""
    way = entry.frame
    if not way or not way.sent:
        return entry.event
    back = len(sent) - next(at for at in range(len(sent) - 1, -1, -1) if sent[at] is way.sent)
    if back > RECENT:
        return entry.event
    if way.what != "altered":
        return f"d{entry.end} -{back}"
    came, was = bytes.fromhex(entry.event[3:]), bytes.fromhex(way.sent.sent)
    place = next(at for at in range(len(was)) if came[at] != was[at])
    return f"a{entry.end} -{back} {place} {came[place] ^ was[place]:02x}"


def lines_of(pair: Pair, connection: dict[str, Any]) -> Iterator[str]:
    """The lines of the file, by what both ends did."""
    yield from header_of(connection)
    sent: dict[str, list[Entry]] = {"m": [], "s": []}
    for entry in pair.entries:
        yield named(entry, sent[PEER[entry.end]])
        if entry.sent:
            sent[entry.end].append(entry)
    yield "end"


def write_schedules(folder: str, pairs: dict[int, Pair], connections: list[dict[str, Any]]) -> None:
    """Writes a file for each connection."""
    for number, pair in pairs.items():
        path = pathlib.Path(folder) / f"connection_{number}.pair"
        text = "\n".join([*lines_of(pair, connections[number - 1]), ""])
        write_whole(str(path), text.encode())
