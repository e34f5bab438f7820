"""Schedules in which copies of frames are lost, and both ends send their last frame again, as lines of a pair file.

The ticks of both ends come in turn, the master's first. In its turn an end takes the copy that came, then it ticks, and
then it sends: a new frame at once, and its last one again when it sent nothing for so many ticks.
"""
from __future__ import annotations

import itertools
from collections import Counter
from dataclasses import dataclass
from typing import Iterator

from layer.numbers import header_of, words_of
from layer.program import Complaint, Tool


@dataclass(frozen=True)
class Losses:
    """After how many ticks an end sends again, how many of 10,000 copies are lost, and how many in a row at most."""

    again: int
    lose: int
    row: int | None


@dataclass
class End:
    """What an end has to send, and whether a copy of it is on the way."""

    name: str
    due: int = -1  # the ticks until it sends; below 0 before its first frame
    is_new: bool = False  # its last frame never came
    comes: bool = False
    lost: int = 0  # in a row

    def answer(self) -> None:
        """There is a new frame to send."""
        self.due, self.is_new = 0, True

    def send(self, losses: Losses, word: int) -> None:
        """Sends a copy, which may be lost."""
        may_be_lost = losses.row is None or self.lost < losses.row
        self.comes = not (may_be_lost and word % 10_000 < losses.lose)
        self.due, self.lost = losses.again, 0 if self.comes else self.lost + 1


def events_of(number: int, losses: Losses) -> Iterator[str]:
    """The events of a number, without an end. Its words say which copies are lost."""
    words, master, slave = words_of(number), End("m"), End("s")
    master.answer()  # the first tick gives the first frame
    for own, peer in itertools.cycle(((master, slave), (slave, master))):
        if peer.comes:
            yield f"d{own.name} -1"
            if peer.is_new:
                own.answer()
            peer.comes = peer.is_new = False
        yield f"t{own.name}"
        if own.due == 0:
            own.send(losses, next(words))
        own.due -= 1


@dataclass(frozen=True)
class Seen:
    """The first entry with a reset, 0 for none; and for each end the most ticks after a taken frame up to the next."""

    reset: int
    ticks: Counter[str]


def seen_in(report: str) -> Seen:
    """What a report tells. In state Reset no session waits for a frame, so its ticks don't count."""
    reset, passed, most = 0, Counter[str](), Counter[str]()
    for line in report.splitlines()[:-2]:
        number, end, did, state, *_ = line.split(" ")
        if did == "took":
            passed[end] = 0
        elif did == "quiet" and state != "Reset":
            passed[end] += 1
            most[end] = max(most[end], passed[end])
        elif did == "reset":
            reset = reset or int(number)
    return Seen(reset, most)


def with_losses(tool: Tool, losses: Losses, events: int, watchdog: int, number: int) -> Seen:
    """What `replay` makes of the first events of a number, with this watchdog and `hand`."""
    lines = [*header_of(watchdog), *itertools.islice(events_of(number, losses), events), "end", ""]
    report = tool.ask("replay", text="\n".join(lines))[1]
    if "\nother " not in report:
        raise Complaint(f"a run ended with {report[-80:]!r}")
    return seen_in(report)
