"""What changed in a plant, and why: each cause is what `replay` says of the end that began it."""
from __future__ import annotations

from dataclasses import dataclass
from typing import Any, Iterator

from layer.journal import ENDS, Entry, Pair, Step, bit_of
from layer.net import Net
from layer.words import code_words

CAME = {
    "altered": "with a bit turned",
    "late": "late",
    "again": "again",
    "never sent": "that nobody sent",
    "": "as it was sent",
}


@dataclass(frozen=True)
class Change:
    """A connection came up or went down, or a drive went on or off, at a step."""

    step: Step
    what: str
    why: str
    drive: str = ""
    on: bool = False

    @property
    def is_off(self) -> bool:
        """Whether a drive went off."""
        return self.drive != "" and not self.on

    @property
    def text(self) -> str:
        """The change as a line."""
        return f"{self.step.when}: {self.what}: {self.why}"


def place_of(bit: str) -> tuple[int, int]:
    """The connection and the number of a bit such as i1.0."""
    link, _, number = bit[1:].partition(".")
    return int(link), int(number)


def drives_of(tables: dict[str, list[dict[str, Any]]]) -> list[str]:
    """The output bits that have a name in a configuration."""
    driven = tables.get("drive", []) if tables["plant"][0]["app"] == "net" else []
    named = [drive["out"] for drive in driven] + [bound["drive"] for bound in tables.get("bound", [])]
    return sorted(set(named), key=place_of)


def is_first(entry: Entry) -> bool:
    """Whether an end took its first data of a session."""
    taken = entry.last_taken()
    return not taken or taken.did not in ("took ProcessData", "took FailSafeData")


class Causes:
    """Finds the causes of changes in a plant."""

    def __init__(self, tables: dict[str, list[dict[str, Any]]], steps: list[Step], pairs: dict[int, Pair]) -> None:
        self.tables, self.steps, self.pairs = tables, steps, pairs
        self.net = Net(tables.get("block", []))
        self.wires = {drive["out"]: drive["from"] for drive in tables.get("drive", [])}
        self.stops = {bound["estop"] for bound in tables.get("bound", [])}
        self.masters: dict[int, list[tuple[int, Entry]]] = {}
        for number, pair in pairs.items():
            for entry in pair.ends["m"]:
                self.masters.setdefault(entry.step, []).append((number, entry))

    def changes(self) -> list[Change]:
        """All changes, in their order."""
        found = [change for pair in self.pairs.values() for change in self.of_connection(pair)]
        found += [change for drive in drives_of(self.tables) for change in self.of_drive(drive)]
        return sorted(found, key=lambda change: change.step.x)

    def of_connection(self, pair: Pair) -> Iterator[Change]:
        """When both ends of a connection came to Data, and when one left it."""
        states, up, name = {"m": "Reset", "s": "Reset"}, False, f"connection {pair.number}"
        for entry in pair.entries:
            states[entry.end] = entry.state
            if up != (set(states.values()) == {"Data"}):
                up = not up
                why = "both its ends are in Data" if up else self.why_reset(pair, entry)
                yield Change(self.steps[entry.step], f"{name} {'up' if up else 'down'}", why)

    def of_drive(self, drive: str) -> Iterator[Change]:
        """When a drive went on and off."""
        link, number = place_of(drive)
        for entry in self.pairs[link].ends["s"]:
            on = entry.bit(number)
            if on != bool(entry.before and entry.before.bit(number)):
                why = self.why_drive(drive, entry, on)
                yield Change(self.steps[entry.step], f"drive {drive} {'on' if on else 'off'}", why, drive, on)

    def by(self, at: int) -> str:
        """A line of the script."""
        return self.steps[at].line.where

    def why_reset(self, pair: Pair, entry: Entry) -> str:
        """Why an end was reset. If its peer's Reset frame did it, why that was reset."""
        _, kind, *code = entry.did.split(" ")
        who = f"its {ENDS[entry.end]} was reset, "
        if kind == "own":
            return who + self.by(entry.step)
        if kind == "peer" and entry.frame.sent and entry.frame.sent.did.startswith("reset"):
            again = f", and its Reset frame came {CAME[entry.frame.what]}" if entry.frame.what else ""
            return self.why_reset(pair, entry.frame.sent) + again
        why = who + code_words(code[0])
        if entry.frame:
            return f"{why}: a {'Reset ' * (kind == 'peer')}frame came {CAME[entry.frame.what]}"
        return why + self.why_none_came(pair, entry)

    def why_none_came(self, pair: Pair, entry: Entry) -> str:
        """What kept frames from an end whose watchdog expired: the first loss since its last frame."""
        taken = entry.last_taken()
        since = range(taken.step if taken else entry.step, entry.step)
        lost = [way for way in pair.ways if way.what in ("cut", "lost") and way.sent.step in since]
        first = min(lost, key=lambda way: way.sent.step, default=None)
        cut = pair.cuts[first.sent.step if first else entry.step]
        if cut is not None:
            return f" ({self.by(cut)})"
        if first:
            return f": a frame that the {ENDS[first.sent.end]} sent {self.steps[first.sent.step].during} never came"
        return f": it took its last frame {self.steps[taken.step].during}" if taken else ""

    def why_drive(self, drive: str, entry: Entry, on: bool) -> str:
        """Why a drive's bit changed at its slave."""
        link, number = place_of(drive)
        pair = self.pairs[link]
        if entry.did.startswith("reset"):
            return self.why_reset(pair, entry)
        sent = entry.frame.sent if entry.frame else None
        if sent is None:
            return "its slave took a frame that nobody sent"
        if on and is_first(entry):
            return f"connection {link} came up, and the application has it on"
        was, changed = False, None
        for offer in pair.puts["m"]:
            if offer.step <= sent.step and bit_of(offer.event[3:], number) != was:
                was, changed = not was, offer
        return self.why_offer(changed.step, drive, on) if changed and was == on else "no cause is seen"

    def why_offer(self, at: int, drive: str, on: bool) -> str:
        """Why the application's answer changed: by what its inputs changed before this cycle."""
        first = last = at
        while first > 0 and self.steps[first].words[0] == "offer":
            first -= 1
        while last + 1 < len(self.steps) and self.steps[last].words[0] == "offer":
            last += 1
        begun = self.steps[first].words[0]
        if begun == "app":
            return f"another application runs ({self.by(first)})"
        under = {"i" + drive[1:], *self.net.bits_under(self.wires.get(drive, "i" + drive[1:]))}  # of mirror and the net
        cycles = (first, last) if begun == "t" else (last,)
        changed = [change for step in cycles for change in self.inputs_at(step, under)]
        fitting = [change for change in changed if change[2] == on] or changed
        fitting = [change for change in fitting if change[0] in self.stops] or fitting
        why: dict[str, dict[str, None]] = {}  # what happened, and to which inputs
        for name, what in (self.why_input(*change) for change in fitting):
            why.setdefault(what, {})[name] = None
        found = (f"{' and '.join(names)} {what}" for what, names in why.items())
        return ", and ".join(found) or "a time of the application passed"

    def inputs_at(self, step: int, bits: set[str]) -> Iterator[tuple[str, Entry, bool]]:
        """Which of these input bits changed at a step."""
        for bit in sorted(bits, key=place_of):
            link, number = place_of(bit)
            for at, entry in self.masters.get(step, []):
                if at == link and entry.bit(number) != bool(entry.before and entry.before.bit(number)):
                    yield bit, entry, entry.bit(number)

    def why_input(self, bit: str, entry: Entry, on: bool) -> tuple[str, str]:
        """What changed at a master with an input bit, and how."""
        link, number = place_of(bit)
        pair = self.pairs[link]
        if entry.did.startswith("reset"):
            return f"connection {link}", f"is down: {self.why_reset(pair, entry)}"
        if is_first(entry):
            return f"connection {link}", f"came up with {bit} on"
        name, what = bit, "rose" if on else "fell"
        if entry.did == "took FailSafeData":
            name, what = f"the slave of connection {link}", "sends fail-safe data"
        elif bit in self.stops:
            name, what = f"stop {bit}", "was released" if on else "was pressed"
        sent = entry.frame.sent
        said = [put.step for put in pair.puts["s"] if sent and put.step < sent.step]
        return name, f"{what} ({self.by(said[-1])})" if said else what
