"""A tested end, the proved program beside it, and a proved peer; and the frames that a hostile channel makes."""
from __future__ import annotations

from dataclasses import dataclass
from typing import Sequence

from example_node import RESET, Noted, crc_of, crcs_of, groups, layout, next_number, read_back
from layer.node import Answer, Node
from layer.program import Complaint


class Differs(Exception):
    """The first answer of the tested program that isn't that of the proved one."""

    def __init__(self, event: str, expected: str, came: str) -> None:
        self.event, self.expected, self.came = event, expected, came


@dataclass(frozen=True)
class Setting:
    """What both ends are set to, in the words of a node file."""

    name: str
    lengths: tuple[int, int]
    rule: tuple[str, ...]
    app: str = ""
    word: int | None = None
    watchdog: int = 6
    hand: int = 4
    most: int = 6

    def header(self, end: str) -> list[str]:
        """The header of a node file."""
        profile = [] if self.word is None else [f"profile {self.word}"]
        app = [f"app {self.app[at:at + 512]}" for at in range(0, len(self.app), 512)]
        own = {
            "master": [f"master 1 2 {self.watchdog} 1", *profile, *app],
            "slave": [f"slave 2 {self.hand} {self.most} 2", *profile, *self.rule],
        }
        return [f"fsoe 1 node {end}", f"lengths {self.lengths[0]} {self.lengths[1]}", *own[end], "go"]

    def sends(self, end: str) -> int:
        """The safe data bytes that an end sends."""
        return self.lengths[end == "slave"]


def altered(frame: str, place: int, mask: int) -> str:
    """A frame with a byte altered by a mask."""
    data = bytearray.fromhex(frame)
    data[place] ^= mask
    return data.hex()


class Course:
    """One run of the tested end. `frame` is the frame under way to it, as its peer sent it."""

    def __init__(
        self, tool: Sequence[str], foreign: Sequence[str], setting: Setting, end: str, patience: float
    ) -> None:
        self.setting, self.end, self.other = setting, end, "master" if end == "slave" else "slave"
        self.foreign = Node([*foreign, end], setting.header(end), patience)
        self.proved = Node([*tool, end], setting.header(end), patience)
        self.peer = Node([*tool, self.other], setting.header(self.other), patience)
        self.count = 0
        # The events and the answers of the tested end after its last Reset frame.
        self.session: list[tuple[str, Answer]] = []
        self.frame: str | None = None

    def do(self, event: str) -> Answer:
        """An event at the tested end; its answer has to be the proved program's."""
        expected, came = self.proved.ask(event), self.foreign.ask(event)
        if not expected.line.startswith(f"{self.count + 1} "):
            raise Complaint(f"the proved program answers {event!r} by {expected.line!r}")
        if came != expected:
            raise Differs(event, expected.line, came.line)
        self.count += 1
        self.state = expected.state
        self.session = [] if (expected.sent or "").startswith(f"{RESET:02x}") else [*self.session, (event, expected)]
        return expected

    def begin(self) -> None:
        """Resets both ends, the slave first; the frame under way is then the first one to the tested end."""
        if self.end == "slave":
            self.do("z")
            self.frame = self.peer.ask("z").sent
        else:
            self.peer.ask("z")
            self.answered(self.do("z"))

    def answered(self, answer: Answer) -> Answer:
        """Delivers what the tested end sent to the peer."""
        self.frame = self.peer.ask(f"d {answer.sent}").sent if answer.sent else None
        return answer

    def advance(self, count: int = 1) -> None:
        """Delivers the frame under way, and the answer, so many times."""
        for _ in range(count):
            if self.frame:
                self.answered(self.do(f"d {self.frame}"))

    def states(self) -> list[str]:
        """The state of the tested end before each delivery of a session, up to the second data frame."""
        self.begin()
        states = []
        while states[-3:] != ["Data"] * 3:
            if not self.frame:
                raise Complaint(f"a session of {self.setting.name} doesn't come to Data")
            states.append(self.state)
            self.advance()
        return states

    def notes(self) -> tuple[Noted, Noted]:
        """Number and CRC_0 of the last frame that the tested end took in its session, and of the last that it sent."""
        taken = sent = None
        for event, answer in self.session:
            if answer.did.startswith("took ") and answer.did != "took Reset":
                taken = self.noted(taken, sent, event[2:])
            if answer.sent:
                sent = self.noted(sent, taken, answer.sent)
        return taken, sent

    def noted(self, before: Noted, other: Noted, frame: str) -> tuple[int, int]:
        """Number and CRC_0 of a frame after the one before in its direction and the last one in the other."""
        command, data, crcs, connection = read_back(bytes.fromhex(frame))
        return self.number(before, other[1] if other else 0, command, data, connection), crcs[0]

    @staticmethod
    def number(noted: Noted, last: int, command: int, data: bytes, connection: int) -> int:
        """The sequence number of a frame."""
        return next_number(noted, lambda number: crc_of(0, groups(data)[0], last, connection, number, command))

    def forged(
        self,
        command: int | None = None,
        data: bytes | None = None,
        connection: int | None = None,
        ahead: int = 0,
        wrong: int | None = None,
    ) -> str:
        """The frame under way with other parts, and the CRCs that the tested end awaits.

        They may be those of a number ahead, and one of them may be wrong.
        """
        right = read_back(bytes.fromhex(self.frame))
        command, data = right[0] if command is None else command, right[1] if data is None else data
        connection = right[3] if connection is None else connection
        taken, sent = (None, None) if command == RESET else self.notes()
        last = sent[1] if sent else 0
        number = self.number(taken, last, command, data, connection) + ahead
        crcs = crcs_of(data, last, 0 if command == RESET else connection, number, command)
        if wrong is not None:
            crcs[wrong] ^= 1
        return layout(command, data, crcs, connection).hex()

    def close(self) -> None:
        """Ends all programs."""
        for node in self.foreign, self.proved, self.peer:
            node.close()
