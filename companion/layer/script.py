"""Scripts for people: comments, blank lines, `t 100` and `repeat` become the lines that the program reads."""
from __future__ import annotations

import re
from dataclasses import dataclass
from itertools import cycle, islice

from layer.program import Complaint

MOST = 2002  # lines: the program refuses what has more, and says so
COMMENT = re.compile(r"(^|\s)#.*")
COUNTED = re.compile(r"(t|repeat) ([1-9]\d{0,8})")


@dataclass(frozen=True)
class Line:
    """A line for the program, and the number of the line that it comes from."""

    text: str
    source: int

    @property
    def where(self) -> str:
        """The line, and where it stands."""
        return f"line {self.source}: {self.text}"


def expanded(text: str) -> list[Line]:
    """The lines that the program reads. Blocks of `repeat` that are open wait with their counts."""
    blocks: list[list[Line]] = [[]]
    counts: list[tuple[int, int]] = []
    for number, whole in enumerate(text.split("\n"), 1):
        line = COMMENT.sub("", whole).strip()
        word = line.partition(" ")[0]
        counted = COUNTED.fullmatch(line)
        if word == "repeat" or word == "t" and line != "t":
            if not counted:
                raise Complaint(f"line {number} of the script, {line}: after {word} comes a number from 1")
        if word == "repeat":
            counts.append((int(counted[2]), number))
            blocks.append([])
        elif line == "done":
            if not counts:
                raise Complaint(f"line {number} of the script: no repeat is open before this done")
            count, block = counts.pop()[0], blocks.pop()
            blocks[-1] += islice(cycle(block), min(count * len(block), MOST))
        elif counted:
            blocks[-1] += [Line("t", number)] * min(int(counted[2]), MOST)
        elif line:
            blocks[-1].append(Line(line, number))
    if counts:
        raise Complaint(f"line {counts[-1][1]} of the script: this repeat has no done")
    return blocks[0][:MOST]


def with_fresh_ids(lines: list[Line], connections: int) -> list[Line]:
    """Before each tick each end gets its next session id: 1 more at a master, 2 more at a slave (docs/duties.md)."""
    ends = [(f"n {number} {end}", step) for number in range(1, connections + 1) for end, step in (("m", 1), ("s", 2))]
    fresh, tick = [], 0
    for line in lines:
        if line.text == "t":
            tick += 1
            fresh += [Line(f"{end} {step * tick}", 0) for end, step in ends]
        fresh.append(line)
    if len(fresh) > MOST:
        each = len(ends) + 1
        fit = (MOST - len(lines) + tick) // each
        raise Complaint(f"with fresh ids a tick takes {each} lines of a script: {fit} ticks fit, and not {tick}")
    return fresh


def text_of(lines: list[Line]) -> str:
    """The text that the program reads."""
    return "".join(line.text + "\n" for line in lines)
