"""Cuts a recording at resets and starts of sessions, and has each part judged by `diagnose`.

Each frame is alone in a UDP datagram; the port tells which end sent it. tshark reads the recording.
"""
from __future__ import annotations

import argparse
import math
import pathlib
import shutil
import subprocess
from dataclasses import dataclass
from typing import Iterator

from example_node import PARAMETER, RESET, SESSION, read_back
from layer.capture import PORT, port_of
from layer.program import Complaint, Tool, write_whole

HELP = "has a recording judged, session by session"
FIELDS = ("frame.number", "udp.stream", "udp.srcport", "udp.payload")


@dataclass(frozen=True)
class Frame:
    """A frame of a recording: its number there, which end sent it, and its bytes."""

    number: int
    end: str
    data: bytes

    @property
    def is_reset(self) -> bool:
        """Whether the frame is a Reset frame."""
        return self.data[:1] == bytes([RESET])


Part = list[Frame]


def frames_of(path: str, port: int) -> dict[int, Part]:
    """The frames of each conversation of a recording."""
    if not shutil.which("tshark"):
        raise Complaint("recordings are read by tshark, which isn't there (apt-get install tshark)")
    names = [word for name in FIELDS for word in ("-e", name)]
    wanted = f"udp.port == {port} && udp.port == {port + 1} && !icmp && !icmpv6"  # an ICMP message quotes a datagram
    words = ["tshark", "-r", path, "-Y", wanted, "-T", "fields", *names]
    ran = subprocess.run(words, capture_output=True, text=True)
    if ran.returncode:
        raise Complaint(f"tshark doesn't read {path}: {ran.stderr.strip().splitlines()[-1]}")
    found: dict[int, Part] = {}
    for line in ran.stdout.splitlines():
        number, stream, source, payload = line.split("\t")
        frame = Frame(int(number), "m" if int(source) == port else "s", bytes.fromhex(payload))
        found.setdefault(int(stream), []).append(frame)
    if not found:
        raise Complaint(f"{path} has no UDP datagram between the ports {port} and {port + 1}")
    return found


def parts_of(frames: Part) -> Iterator[Part]:
    """The parts of a conversation: a Reset frame begins one, unless it is the slave's answer to the master's."""
    part: Part = []
    for frame in frames:
        if (
            part
            and frame.is_reset
            and not (frame.end == "s" and len(part) == 1 and part[0].end == "m" and part[0].is_reset)
        ):
            yield part
            part = []
        part.append(frame)
    yield part


def is_profile_two(part: Part, lengths: tuple[int, int]) -> bool:
    """Whether the handshake is one of profile Two: by the first number of the parameters, else by the session id."""
    piece = min(lengths)
    own: dict[int, list[bytes]] = {}
    for frame in part:
        if frame.end == "m" and len(frame.data) == (6 if lengths[0] == 1 else 3 + 2 * lengths[0]):
            command, data, *_ = read_back(frame.data)
            own.setdefault(command, []).append(data[:piece])
    parameters, session = b"".join(own.get(PARAMETER, [])), b"".join(own.get(SESSION, []))
    if len(parameters) >= 2:
        return parameters[:2] == b"\4\0"
    return len(own.get(SESSION, [])) > math.ceil(2 / piece) or any(session[2:4])


def why_not(part: Part, lengths: tuple[int, int]) -> str | None:
    """Why a part can't be judged, if it can't."""
    first = part[0]
    if not first.is_reset:
        return "it starts in the middle of a session"
    if first.end == "s":
        return "the slave ended a session"
    if first.data[1:2] != b"\0":
        return f"it starts with a Reset frame of code {first.data[1:2].hex()}, and only a start with 00 is judged"
    if any(not 0 < len(frame.data) < 256 for frame in part):
        return "a frame is empty or has more than 255 bytes"
    return "it has profile Two" if is_profile_two(part, lengths) else None


def judged(part: Part, text: str, tool: Tool) -> tuple[int, str]:
    """The program's status and verdict, with the recording's number of the first frame that differs."""
    status, report = tool.ask("diagnose", text=text)
    *_, before, last = ["", *report.splitlines()]
    word, _, field = last.partition(" ")
    if word == "frame":
        number, _, field = field.partition(" ")
        return status, f"differs in frame {part[int(number) - 1].number}, {field}"
    return status, f"conforms, {before}" if word == "conforms" else last


def length_of(text: str) -> int:
    """The safe data bytes of an end's frames."""
    if text != "1" and text not in map(str, range(2, 127, 2)):
        raise argparse.ArgumentTypeError(f"{text} is neither 1 nor even and from 2 to 126")
    return int(text)


def take(parser: argparse.ArgumentParser) -> None:
    parser.add_argument("recording", help="a file that tshark reads, such as pcapng")
    what = "the safe data bytes of master and slave"
    parser.add_argument("--lengths", type=length_of, nargs=2, required=True, metavar=("LM", "LS"), help=what)
    port = f"the UDP port of the master, {PORT} if it isn't given"
    parser.add_argument("--port", type=port_of, default=PORT, help=port)
    parser.add_argument("--into", metavar="FOLDER", help="the folder for the files of the parts, each a trace")


def verdicts(frames: Part, lengths: tuple[int, int], tool: Tool) -> Iterator[tuple[Part, str, int, str]]:
    """Each part of a conversation, its trace, the program's status and what is to be said of it."""
    for part in parts_of(frames):
        lines = [f"{frame.end} {frame.data.hex()}" for frame in part]
        text = "\n".join(["fsoe 1 trace", f"lengths {lengths[0]} {lengths[1]}", "go", *lines, "end", ""])
        reason = why_not(part, lengths)
        yield part, text, *((0, f"not judged: {reason}") if reason else judged(part, text, tool))


def run(given: argparse.Namespace, tool: Tool) -> int:
    if given.into and not pathlib.Path(given.into).is_dir():
        raise Complaint(f"there is no folder {given.into}")
    conversations = frames_of(given.recording, given.port)
    told = {stream: list(verdicts(frames, tuple(given.lengths), tool)) for stream, frames in conversations.items()}
    for stream, parts in told.items():
        for number, (part, text, _, verdict) in enumerate(parts, 1):
            print(f"conversation {stream} part {number}, frames {part[0].number} to {part[-1].number}: {verdict}")
            if given.into:
                write_whole(str(pathlib.Path(given.into) / f"{stream}-{number}.trace"), text.encode())
    return max(status for parts in told.values() for _, _, status, _ in parts)
