"""The proved programs: where they are, and how they are asked."""
from __future__ import annotations

import os
import pathlib
import subprocess
from dataclasses import dataclass

TOP = pathlib.Path(__file__).resolve().parents[2]
LAB = "the proved program that writes journals; else GATEPAST_LAB names it, else it is the one that is built here"
LAST = ("bound", "config", "conforms", "desk", "events", "frame", "other", "out", "refused", "usage:")  # of a report


class Complaint(Exception):
    """What is wrong with what was given, as a sentence for people."""


@dataclass(frozen=True)
class Tool:
    """A proved program: the one that is named, or that a variable names, or that this checkout has built."""

    given: str | None = None
    name: str = "fsoe_tool"
    variable: str = "GATEPAST_TOOL"
    option: str = "--program"

    def command(self, *words: str) -> list[str]:
        """The program with these words."""
        built = TOP / "crates" / self.name / "out" / self.name
        path = pathlib.Path(self.given or os.environ.get(self.variable) or built)
        if path.is_dir() or not os.access(path, os.X_OK):
            how = f"build it (rt run in crates/{self.name}), or name it by {self.option}"
            raise Complaint(f"no program at {path}: {how}")
        return [str(path.absolute()), *words]

    def ask(self, *words: str, text: str = "") -> tuple[int, str]:
        """The status and the report for these words and this input. A journal has no last line of its own."""
        command = self.command(*words)
        try:
            ran = subprocess.run(command, input=text.encode(), stdout=subprocess.PIPE)
        except OSError as why:
            raise Complaint(f"{command[0]} can't be run: {why.strerror}") from why
        report = ran.stdout.decode(errors="replace")
        last = report.rstrip("\n").rpartition("\n")[2]
        if words[0] != "journal" and last.split(" ")[0] not in LAST:
            wrote = f"its last line is {last[:80]!r}" if report else "it writes nothing"
            raise Complaint(f"{command[0]} gives no report of {words[0]}: {wrote}, and its status is {ran.returncode}")
        return ran.returncode, report


def lab_of(given: str | None) -> Tool:
    """The program that writes journals."""
    return Tool(given, "fsoe_lab", "GATEPAST_LAB", "--lab")


def text_of(path: str, errors: str = "strict") -> str:
    """The text of a file, or of standard input for the name -."""
    try:
        data = os.fdopen(0, "rb", closefd=False).read() if path == "-" else pathlib.Path(path).read_bytes()
        return data.decode(errors=errors)
    except OSError as why:
        raise Complaint(f"{path} can't be read: {why.strerror}") from why
    except UnicodeDecodeError as why:
        raise Complaint(f"{path} isn't text in UTF-8") from why


def write_whole(path: str, data: bytes) -> None:
    """Writes a file so that it is there whole or not at all."""
    target = pathlib.Path(path)
    part = target.with_name(target.name + ".part")
    try:
        part.write_bytes(data)
        part.replace(target)
    except OSError as why:
        part.unlink(missing_ok=True)
        raise Complaint(f"{path} can't be written: {why.strerror}") from why
