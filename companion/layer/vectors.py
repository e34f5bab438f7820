"""Writes the runs of runs/ and the frames of docs/protocol.md as JSON, with the answers of the proved program.

companion/vectors.schema.json has its form.
"""
from __future__ import annotations

import argparse
import importlib.machinery
import importlib.util
import json
import re
from types import ModuleType
from typing import Iterator

from layer.header import settings_of
from layer.program import TOP, Complaint, Tool, write_whole

HELP = "writes worked runs and frames as JSON, for other implementers"
KINDS = {"node master": "master", "node slave": "slave", "replay": None}
ENDS = {"m": "master", "s": "slave"}
MOST = 2000  # events of a run


def check_named(name: str) -> ModuleType:
    """A check of the repository; `runs` reads runs/."""
    loader = importlib.machinery.SourceFileLoader(f"{name}_check", str(TOP / "checks" / name))
    module = importlib.util.module_from_spec(importlib.util.spec_from_loader(loader.name, loader))
    loader.exec_module(module)
    return module


def frame_came(line: str, end: str, sent: dict[str, list[str]]) -> str | None:
    """The frame that an event line delivers, if it does; `sent` has those that both ends sent before."""
    word, *fields = line.split(" ")
    if word[0] in "da" and fields[0].startswith("-"):
        frame = bytearray.fromhex(sent["slave" if end == "master" else "master"][int(fields[0])])
        if word[0] == "a":
            frame[int(fields[1])] ^= int(fields[2], 16)
        return frame.hex()
    return fields[0].lower() if word[0] in "dr" else None


def events_of(lines: list[str], report: list[str], end: str | None) -> Iterator[dict]:
    """Each event of a run with its answer."""
    sent: dict[str, list[str]] = {"master": [], "slave": []}
    for line, answer in zip(lines, report):
        told, _, frame = answer.partition(" > ")
        _, *words, state, outputs = told.split(" ")
        at = end or ENDS[words.pop(0)]
        came = frame_came(line, at, sent)
        code = re.fullmatch(r"reset (?:peer|found) (..)", " ".join(words))
        yield {
            "event": line,
            "end": at,
            "received": came,
            "did": " ".join(words),
            "code": code[1] if code else None,
            "state": state,
            "outputs": outputs,
            "sent": frame or None,
        }
        sent[at] += [frame] if frame else []


def runs_of(tool: Tool) -> Iterator[dict]:
    """Each run of a node or of both ends that comes to its line `end`."""
    check = check_named("runs")
    blocks, runs = check.all_runs()
    for name, marked, cells in check.all_rows(runs):
        parts = check.parts_of(name, marked, blocks, {"file": "", **cells})
        words, text = parts["$"][0].decode("latin-1"), b"".join(parts["<"])
        if words not in KINDS or parts["="] not in ([b"0"], [b"1"]) or text.startswith(b"fsoe 2"):
            continue
        lines = text.decode().split("\n")
        first, last = lines.index("go"), lines.index("end")
        if last - first > MOST:
            continue
        report = tool.ask(*words.split(" "), text="\n".join(lines[:last]) + "\nend\n")[1].splitlines()
        rules = parts["*"][0].decode().split(", ") if parts["*"] else []
        yield {
            "name": name,
            "rules": rules,
            "command": words,
            **settings_of(lines[1:first]),
            "events": list(events_of(lines[first + 1 : last], report, KINDS[words])),
        }


def frames_of(page: str) -> Iterator[dict]:
    """The frames of the table under "Cover": its lengths and settings stand before it."""
    given = re.search(
        r"lengths (\d+) and (\d+), session ids (\d+) at the master and (\d+) at the slave, "
        r"connection id (\d+), address (\d+)",
        page,
    )
    names = ("master_length", "slave_length", "master_session_id", "slave_session_id", "connection_id", "address")
    if not given:
        raise Complaint("docs/protocol.md has no example under Cover")
    for name, data, covered, crc, frame in re.findall(
        r"^\| (the .*?) \| (.*?) \| (.*?) \| ([0-9A-F]{4})h \| `(.*?)` \|$", page, re.M
    ):
        pieces = re.findall(r"`(.*?)`", covered)
        yield {
            "name": name,
            "settings": dict(zip(names, map(int, given.groups()))),
            "data": re.search("`(.*?)`", data)[1].replace(" ", ""),
            "covered": "".join(pieces).replace(" ", ""),
            "crc": crc.lower(),
            "frame": frame.replace(" ", ""),
        }


def take(parser: argparse.ArgumentParser) -> None:
    parser.add_argument("--into", metavar="FILE", help="the file to write; else it goes to standard output")


def run(given: argparse.Namespace, tool: Tool) -> int:
    vectors = {
        "format": "gatepast vectors 1",
        "frames": list(frames_of((TOP / "docs" / "protocol.md").read_text())),
        "runs": list(runs_of(tool)),
    }
    text = json.dumps(vectors, indent=1) + "\n"
    if given.into:
        write_whole(given.into, text.encode())
    else:
        print(text, end="")
    return 0
