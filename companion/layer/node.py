"""A node program that runs: it gets its events line by line, and answers each with a line."""
from __future__ import annotations

import select
import subprocess
import time
from dataclasses import dataclass
from typing import Sequence

from layer.program import Complaint


@dataclass(frozen=True)
class Answer:
    """A line of a node's report."""

    line: str

    @property
    def sent(self) -> str | None:
        """The frame that was sent."""
        return self.line.partition(" > ")[2] or None

    @property
    def did(self) -> str:
        """What the end did."""
        return " ".join(self.line.partition(" > ")[0].split(" ")[1:-2])

    @property
    def state(self) -> str:
        """The state after it."""
        return self.line.partition(" > ")[0].split(" ")[-2]


class Node:
    """A node program of any maker. One that has ended, or doesn't answer in time, gives empty answers."""

    def __init__(self, command: Sequence[str], header: Sequence[str], patience: float) -> None:
        try:
            self.process = subprocess.Popen(command, stdin=subprocess.PIPE, stdout=subprocess.PIPE, bufsize=0)
        except OSError as why:
            raise Complaint(f"{command[0]} can't be run: {why.strerror}") from why
        self.patience, self.rest = patience, b""
        self.say(*header)

    def say(self, *lines: str) -> None:
        """Writes lines."""
        try:
            self.process.stdin.write("".join(line + "\n" for line in lines).encode())
        except BrokenPipeError:
            pass

    def ask(self, event: str) -> Answer:
        """The answer to an event."""
        self.say(event)
        until = time.monotonic() + self.patience
        while b"\n" not in self.rest:
            wait = max(0, until - time.monotonic())
            read = select.select([self.process.stdout], [], [], wait)[0] and self.process.stdout.read(1 << 16)
            if not read:
                return Answer("")
            self.rest += read
        line, _, self.rest = self.rest.partition(b"\n")
        return Answer(line.decode(errors="replace"))

    def close(self) -> None:
        """Ends the program."""
        self.process.kill()
        self.process.communicate()
