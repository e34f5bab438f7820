"""Says in words what the program refuses in a plant's configuration, and warns of what it takes but few people mean.

The status is the program's; warnings don't change it.
"""
from __future__ import annotations

import argparse
import difflib
from typing import Any, Iterator

from layer.explain import explained
from layer.forms import KEYS
from layer.net import Net
from layer.program import Complaint, Tool, text_of
from layer.toml_lines import Place, lines_of, read, tables_of
from layer.words import code_words

HELP = "explains what is wrong with a plant's configuration"
SCRIPT = "fsoe 1 plant\nend\n"
LOADED, REFUSED = 0, 3  # statuses of the program
TAKEN = "ticks 0\n"  # the first line of the report that SCRIPT gives
Told = tuple[Place, str]  # where a warning stands, and what it says
Tables = dict[str, list[dict[str, Any]]]


def nearest(name: str, known: list[str]) -> str:
    """The known name that is most like this one, as a part of a sentence."""
    found = difflib.get_close_matches(name, known, 1)
    return f": perhaps {found[0]} is meant" if found else f": known are {', '.join(known)}"


def unread(tables: Tables) -> Iterator[Told]:
    """Tables and keys that nobody reads."""
    for name, found in tables.items():
        if name == "":
            yield from (
                (("", 1, key), f"nobody reads {key}, which is in no table") for key in found[0] if key not in KEYS
            )
        elif name not in KEYS:
            yield (name, 1, ""), f"nobody reads tables {name}{nearest(name, list(KEYS))}"
        else:
            for number, table in enumerate(found, 1):
                at = "" if name == "plant" else f" {number}"
                for key in [key for key in table if key not in KEYS[name]]:
                    yield (name, number, key), f"nobody reads {key} of {name}{at}{nearest(key, list(KEYS[name]))}"


def unlike_ends(tables: Tables) -> Iterator[Told]:
    """Ends of a connection that never come to Data, and slaves that can be taken for one another."""
    addresses: dict[int, int] = {}
    for number, connection in enumerate(tables["connection"], 1):
        own, wanted = connection.get("slave_address", connection["address"]), connection["address"]
        refused = f"connection {number}: the slave refuses the master with code"
        if own != wanted:
            yield ("connection", number, "slave_address"), f"{refused} 06, {code_words('06')}: {own} isn't {wanted}"
        if connection["watchdog"] > connection.get("most", 65535):
            yield ("connection", number, "most"), f"{refused} 09, {code_words('09')}: the watchdog is above most"
        first = addresses.setdefault(own, number)
        if first != number:
            yield ("connection", number, "address"), f"the slaves of connections {first} and {number} have one address"


def bounds(tables: Tables, app: str, net: Net) -> Iterator[Told]:
    """Bounds that watch nothing."""
    wires = {drive["out"]: drive["from"] for drive in tables.get("drive", [])} if app == "net" else {}
    for number, bound in enumerate(tables.get("bound", []), 1):
        stop, out = bound["estop"], bound["drive"]
        wire = "i" + out[1:] if app == "mirror" else wires.get(out)
        if wire is None:
            yield ("bound", number, "drive"), f"bound {number}: nothing drives {out}, so it is always off"
        elif not net.guards(stop, wire):
            yield ("bound", number, ""), f"bound {number}: {out} isn't guarded by {stop}, so the bound is never active"


def restarts(tables: Tables, net: Net) -> Iterator[Told]:
    """Drives that come on again by themselves, and acknowledgements that a stuck button gives."""
    for number, drive in enumerate(tables.get("drive", []), 1):
        if net.bits_under(drive["from"]) and "estop" not in net.kinds_under(drive["from"]):
            yield (
                "drive",
                number,
                "from",
            ), f"{drive['out']} comes on by itself with its inputs: no estop is on its way"
    for number, block in enumerate(net.blocks, 1):
        if block["kind"] == "estop":
            stop, acknowledgement = block["ins"]
            own = net.bits_under(acknowledgement) - net.bits_under(stop)
            if len(own) < 2 or "latch" not in net.kinds_under(acknowledgement):
                why = "a stuck acknowledgement restarts by itself: it has to be seen released, pressed and released"
                yield ("block", number, "ins"), f"block {number}: {why}"


def warnings(text: str, loaded: bool) -> Iterator[Told]:
    """All warnings; of a configuration that is refused only those of names."""
    try:
        tables = tables_of(read(text))
    except Complaint:
        return
    yield from unread(tables)
    if loaded:
        app, net = tables["plant"][0]["app"], Net(tables.get("block", []))
        yield from unlike_ends(tables)
        yield from bounds(tables, app, net)
        yield from restarts(tables, net) if app == "net" else ()


def judged(path: str, tool: Tool) -> tuple[int, str, list[str]]:
    """The program's status for a configuration, the text of it, and what is to be said of it."""
    text = text_of(path)
    status, report = tool.ask("plant", path, text=SCRIPT)
    if (status == LOADED) != report.startswith(TAKEN):
        raise Complaint(f"status {status} of the program doesn't belong to its report, {report[:80]!r}")
    return status, text, ["the program takes it"] if status == LOADED else explained(report, text) or [report.rstrip()]


def take(parser: argparse.ArgumentParser) -> None:
    parser.add_argument("configuration", metavar="CONF", help="the configuration of a plant, a TOML file")


def run(given: argparse.Namespace, tool: Tool) -> int:
    status, text, said = judged(given.configuration, tool)
    places = lines_of(text)
    print("\n".join(said))
    for (name, number, key), why in warnings(text, status == LOADED) if status in (LOADED, REFUSED) else ():
        line = places.get((name, number, key)) or places.get((name, number, ""))
        print(f"warning: {f'line {line}: ' if line else ''}{why}")
    return status
