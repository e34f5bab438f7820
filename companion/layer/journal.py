"""What a plant's journal means for each connection: a schedule, of which `replay` says what each end did."""
from __future__ import annotations

from dataclasses import dataclass
from typing import Any, Iterator

from layer.program import Complaint, Tool
from layer.script import Line

ENDS = {"m": "master", "s": "slave"}
PEER = {"m": "s", "s": "m"}
SCRIPT = ("t", "p", "h", "z", "n", "cut", "app")  # the first words of the steps that the script gives
RECENT = 64  # frames among which the one that comes is sought


@dataclass(frozen=True)
class Step:
    """A step of the journal: its fields, the ticks up to it, and its place on an axis of ticks."""

    words: list[str]
    tick: int
    x: float
    line: Line | None  # of the script, if it has the step

    @property
    def when(self) -> str:
        """When it was."""
        return f"tick {self.tick}" if self.x < self.tick else f"after tick {self.tick}"

    @property
    def during(self) -> str:
        """When it was, after a verb."""
        return f"in {self.when}" if self.x < self.tick else self.when


def steps_of(journal: str, script: list[Line]) -> list[Step]:
    """The steps of a journal. Those of a tick have equal shares of its unit; events between ticks stand at its end."""
    given = iter(script[1:])
    groups: list[list[str]] = [[]]  # a tick with what it did, or another event with the offers of its cycle
    for line in journal.splitlines():
        if line.split(" ")[0] in SCRIPT:
            groups.append([])
        groups[-1].append(line)
    steps, tick = [], 0
    for group in groups:
        ticked = group[:1] == ["t"]
        tick += ticked
        for at, line in enumerate(group):
            words = line.split(" ")
            x = tick - 1 + at / len(group) if ticked else tick
            steps.append(Step(words, tick, x, next(given, None) if words[0] in SCRIPT else None))
    return steps


def header_of(connection: dict[str, Any]) -> list[str]:
    """The header of the pair file of a connection, by the configuration that the program takes."""
    get, app = connection.get, connection.get("app", "")
    most, hand = get("most", 65535), get("hand", connection["watchdog"])
    pieces = [app[at : at + 512] for at in range(0, len(app), 512)]
    exact = get("rule", "any") == "exact"
    return [
        "fsoe 1 pair",
        f"lengths {connection['master_length']} {connection['slave_length']}",
        f"master {connection['id']} {connection['address']} {connection['watchdog']} {get('master_nonce', 1)}",
        *(f"app {piece}" for piece in pieces),
        f"slave {get('slave_address', connection['address'])} {hand} {most} {get('slave_nonce', 2)}",
        "rule exact" if exact else f"rule any {len(app) // 2}",
        *(f"bytes {piece}" for piece in pieces if exact),
        "go",
    ]


def events_of(number: int, steps: list[Step]) -> Iterator[tuple[int, str]]:
    """The events of a connection: for each the number of its step, and its line in a pair file."""
    for at, step in enumerate(steps):
        word, *fields = step.words
        if word == "t":
            yield from ((at, "ts"), (at, "tm"))
        elif word == "pulled" and fields[1] == str(number) and fields[2:]:  # without bytes nothing comes
            yield at, f"r{fields[0][0]} {fields[2]}"
        elif word == "n" and fields[0] == str(number):
            yield at, f"n{fields[1]} {fields[2]}"
        elif word in ("offer", "p", "h", "z") and fields[0] == str(number):
            yield at, " ".join(["pm" if word == "offer" else word + "s", *fields[1:]])


def bit_of(data: str, number: int) -> bool:
    """A bit of data in hexadecimal, False where there is none."""
    return len(data) > number // 8 * 2 and bool(int(data[number // 8 * 2 :][:2], 16) >> number % 8 & 1)


@dataclass(eq=False)
class Entry:
    """What an end did at a step, its state and outputs after it, and the frame that it sent, if it did."""

    end: str
    did: str
    state: str
    outputs: str
    sent: str
    step: int
    event: str
    before: Entry | None  # the entry of this end before it
    frame: Way | None = None  # the one that came to it

    def bit(self, number: int) -> bool:
        """A bit of the outputs."""
        return bit_of(self.outputs, number)

    def last_taken(self) -> Entry | None:
        """The entry of this session before it in which the end took a frame."""
        before = self.before
        while before and before.state != "Reset" and not before.did.startswith("took"):
            before = before.before
        return before if before and before.state != "Reset" else None


@dataclass(eq=False)
class Way:
    """What became of a frame: the entry that sent it and the one that got it, each None if there is none."""

    sent: Entry | None
    got: Entry | None
    what: str = ""  # "altered", "late", "again", "lost", "cut", "under way", "never sent"; nothing of a plain one


class Direction:
    """The frames of one end of a connection in a channel."""

    def __init__(self) -> None:
        self.sent: list[Entry] = []
        self.came: set[int] = set()
        self.newest = -1  # the newest that came

    def found(self, frame: str) -> Way:
        """Where a frame that comes is from: the next that is like it, else an earlier one, as it was or altered."""
        recent = range(max(0, len(self.sent) - RECENT), len(self.sent))
        equal = [at for at in recent if self.sent[at].sent == frame]
        like = equal or [at for at in recent if differs_by_a_bit(self.sent[at].sent, frame)]
        if not like:
            return Way(None, None, "never sent")
        left = [at for at in like if at not in self.came]
        at = next((at for at in left if at > self.newest), (left or like)[-1])
        what = "altered" if not equal else "again" if not left else "late" if at < self.newest else ""
        self.came.add(at)
        self.newest = max(self.newest, at)
        return Way(self.sent[at], None, what)


def differs_by_a_bit(sent: str, came: str) -> bool:
    """Whether one bit of a frame was turned."""
    return len(sent) == len(came) and (int(sent, 16) ^ int(came, 16)).bit_count() == 1


class Pair:
    """A connection of a plant: what both its ends did, and what became of their frames."""

    def __init__(self, number: int, connection: dict[str, Any], steps: list[Step], tool: Tool) -> None:
        self.number, self.steps = number, steps
        events = list(events_of(number, steps))
        text = "\n".join([*header_of(connection), *(line for _, line in events), "end", ""])
        status, report = tool.ask("replay", text=text)
        *lines, _, other = report.splitlines()
        if status > 1 or len(lines) != len(events):
            raise Complaint(f"the journal isn't of this plant: replay of connection {number} ends {report[-80:]!r}")
        self.entries: list[Entry] = []
        last: dict[str, Entry | None] = {"m": None, "s": None}
        for (at, event), line in zip(events, lines):
            told, _, frame = line.partition(" > ")
            _, end, *did, state, outputs = told.split(" ")
            last[end] = Entry(end, " ".join(did), state, outputs, frame, at, event, last[end])
            self.entries.append(last[end])
        self.ends = {end: [entry for entry in self.entries if entry.end == end] for end in "ms"}
        self.puts = {end: [entry for entry in self.ends[end] if entry.event[0] in "ph"] for end in "ms"}
        self.other = None if other == "other none" else self.entries[int(other.split(" ")[1]) - 1]
        self.cuts = list(self.cut_after_each())
        self.ways = [*self.ways_from("m"), *self.ways_from("s")]

    def cut_after_each(self) -> Iterator[int | None]:
        """Which step cut the connection, after each step; None where it isn't cut."""
        cut = None
        for at, step in enumerate(self.steps):
            if step.words[:2] == ["cut", str(self.number)]:
                cut = (at if cut is None else cut) if step.words[2] == "1" else None
            yield cut

    def ways_from(self, end: str) -> Iterator[Way]:
        """What became of the frames of an end, and from where the others are that came to its peer."""
        direction = Direction()
        for entry in self.entries:
            if entry.event.startswith("r" + PEER[end]):
                entry.frame = direction.found(entry.event[3:])
                entry.frame.got = entry
                yield entry.frame
            elif entry.end == end and entry.sent and self.cuts[entry.step] is None:
                direction.sent.append(entry)
            elif entry.end == end and entry.sent:
                yield Way(entry, None, "cut")
        for at, entry in enumerate(direction.sent):
            if at not in direction.came:
                yield Way(entry, None, "lost")


def pairs_of(connections: list[dict[str, Any]], steps: list[Step], tool: Tool) -> dict[int, Pair]:
    """All connections of a plant. Frames that were sent after all that came are under way at its end."""
    pairs = {number: Pair(number, connection, steps, tool) for number, connection in enumerate(connections, 1)}
    ways = [way for pair in pairs.values() for way in pair.ways]
    newest = max((way.sent.step for way in ways if way.sent and way.got), default=-1)
    for way in ways:
        if way.what == "lost" and way.sent.step >= newest:
            way.what = "under way"
    return pairs
