#!/usr/bin/env python3
"""One end of the profile, written from docs/protocol.md alone: example_node.py master|slave <NODE FILE

It writes the report of a node (docs/formats.md), each line at once. It is an example for other implementers, no
product: it keeps to the words of that page and is slow. It expects a node file without faults and refuses no line.
"""
from __future__ import annotations

import sys
from typing import Any, Callable, Iterator, Optional

RESET, SESSION, CONNECTION, PARAMETER, FAIL_SAFE, PROCESS = 0x2A, 0x4E, 0x64, 0x52, 0x08, 0x36
COMMANDS = {
    RESET: "Reset",
    SESSION: "Session",
    CONNECTION: "Connection",
    PARAMETER: "Parameter",
    FAIL_SAFE: "FailSafeData",
    PROCESS: "ProcessData",
}
STATES = COMMANDS | {FAIL_SAFE: "Data", PROCESS: "Data"}
DATA = (FAIL_SAFE, PROCESS)
NUMBERS = {"master": ("connection", "address", "watchdog", "nonce"), "slave": ("address", "hand", "most", "nonce")}
POLYNOMIAL = 0x139B7
Noted = Optional[tuple[int, int]]  # the number and the CRC_0 of a frame
Done = tuple[str, Optional[bytes]]  # what an end did, and the frame that it sent


class Refused(Exception):
    """A frame that fails a test, with the code."""


def low(number: int, width: int = 2) -> bytes:
    """A number as bytes, the low one first."""
    return number.to_bytes(width, "little")


def fed(value: int, bits: int) -> int:
    """A value of the CRC after so many zero bits."""
    for _ in range(bits):
        value = 2 * value ^ (POLYNOMIAL if 2 * value >= 0x10000 else 0)
    return value


TABLE = [fed(byte << 8, 8) for byte in range(256)]


def remainder(covered: bytes) -> int:
    """The CRC of some bytes, a byte at a step."""
    value = 0
    for byte in covered:
        value = value << 8 & 0xFFFF ^ TABLE[value >> 8 ^ byte]
    return value


def groups(data: bytes) -> list[bytes]:
    """The groups of safe data."""
    return [data] if len(data) == 1 else [data[at : at + 2] for at in range(0, len(data), 2)]


def crc_of(place: int, group: bytes, last: int, connection: int, number: int, command: int) -> int:
    """The CRC of a group at its place."""
    covered = low(last) + low(connection) + low(number) + bytes([command])
    return remainder(covered + (low(place) if place else b"") + group + bytes(3))


def crcs_of(data: bytes, *cover: int) -> list[int]:
    """The CRC of each group."""
    return [crc_of(place, group, *cover) for place, group in enumerate(groups(data))]


def layout(command: int, data: bytes, crcs: list[int], connection: int) -> bytes:
    """A frame of these parts."""
    return bytes([command]) + b"".join(group + low(crc) for group, crc in zip(groups(data), crcs)) + low(connection)


def frame_length(data_length: int) -> int:
    """The bytes of a frame with so many bytes of safe data."""
    return 6 if data_length == 1 else 3 + 2 * data_length


def read_back(frame: bytes) -> tuple[int, bytes, list[int], int]:
    """The command, the data, the CRCs and the connection id of a frame."""
    width = 3 if len(frame) == 6 else 4
    parts = [frame[at : at + width] for at in range(1, len(frame) - 2, width)]
    crcs = [int.from_bytes(part[-2:], "little") for part in parts]
    return frame[0], b"".join(part[:-2] for part in parts), crcs, int.from_bytes(frame[-2:], "little")


def reset_frame(code: int, length: int) -> bytes:
    """The Reset frame with a code: it is outside the chain of CRCs."""
    data = bytes([code]).ljust(length, b"\0")
    return layout(RESET, data, crcs_of(data, 0, 0, 1, RESET), 0)


def next_number(noted: Noted, crc: Callable[[int], int]) -> int:
    """The number of the frame after the noted one, if its CRC_0 under a number is crc(number)."""
    if noted is None:
        return 1
    number = noted[0] % 65535 + 1
    return number % 65535 + 1 if crc(number) == noted[1] else number


def piece(payload: bytes, k: int, length: int) -> bytes:
    """The k-th piece of a payload."""
    return payload[(k - 1) * length : k * length]


class End:
    """What both ends do. The words are those of docs/protocol.md."""

    def __init__(self, settings: dict[str, Any]) -> None:
        self.settings = settings
        self.sends, self.receives = settings["sends"], settings["receives"]
        self.piece_length = min(self.sends, self.receives)
        self.word = [low(word) for word in settings["profile"]]  # the profile word, if the profile is Two
        self.width = 4 if self.word else 2  # v
        self.offer, self.held, self.nonce = bytes(self.sends), False, settings["nonce"]
        self.age = 0
        self.begin()

    def begin(self) -> None:
        """What holds after a Reset frame was sent: there is no session yet."""
        self.state, self.outputs, self.kept = RESET, bytes(self.receives), None
        self.sent: Noted = None
        self.taken: Noted = None
        self.session_id: bytes | None = None

    def reset(self, code: int) -> bytes:
        """Ends the session, if there is one; gives the Reset frame."""
        self.begin()
        self.age = 0
        return reset_frame(code, self.sends)

    def seal(self, command: int, data: bytes) -> bytes:
        """The next frame of this end."""
        connection = 0 if command == SESSION else self.connection
        last = self.taken[1] if self.taken else 0
        number = next_number(self.sent, lambda n: crc_of(0, groups(data)[0], last, connection, n, command))
        crcs = crcs_of(data, last, connection, number, command)
        self.sent = number, crcs[0]
        self.age = 0
        return layout(command, data, crcs, connection)

    def fits(self, command: int, data: bytes, crcs: list[int], connection: int) -> bool:
        """Whether all CRCs are those that the peer makes; then number and CRC_0 are noted."""
        last = self.sent[1] if self.sent else 0
        number = next_number(self.taken, lambda n: crc_of(0, groups(data)[0], last, connection, n, command))
        self.noted = number, crcs[0]
        return crcs == crcs_of(data, last, connection, number, command)

    def padded(self, data: bytes) -> bytes:
        """A piece, as this end sends it."""
        return data.ljust(self.sends, b"\0")

    def data_frame(self) -> bytes:
        """The offer, or fail-safe data while the end is held."""
        return self.seal(FAIL_SAFE, bytes(self.sends)) if self.held else self.seal(PROCESS, self.offer)

    def session_piece(self, k: int) -> bytes:
        """A piece of the session id, which is the nonce at the first one."""
        if self.session_id is None:
            self.session_id = low(self.nonce, self.width)
        return self.padded(piece(self.session_id, k, self.piece_length))

    def verdict(self, frame: bytes) -> tuple[int, bytes]:
        """The command and the data of a frame that passes all tests after length and repeat."""
        command, data, crcs, connection = read_back(frame)
        if command not in COMMANDS:
            raise Refused(2)
        if command == RESET:
            if connection != 0:
                raise Refused(3)
            if crcs != crcs_of(data, 0, 0, 1, RESET):
                raise Refused(4)
            if any(data[1:]):
                raise Refused(7)
            return command, data
        if not self.allowed(command):
            raise Refused(1)
        if not self.is_connection(command, connection):
            raise Refused(3)
        if not self.fits(command, data, crcs, connection):
            raise Refused(4)
        self.contents(command, data, connection)
        if command == FAIL_SAFE and any(data):
            raise Refused(7)
        return command, data

    def deliver(self, frame: bytes) -> Done:
        """A frame comes."""
        if len(frame) != frame_length(self.receives):
            return "drop Length", None
        if frame == self.kept:
            return "drop Repeat", None
        try:
            command, data = self.verdict(frame)
        except Refused as refused:
            [code] = refused.args
            return ("drop InReset", None) if self.state == RESET else (f"reset found {code:02x}", self.reset(code))
        if command == RESET and self.state != RESET:
            return f"reset peer {data[0]:02x}", self.reset(0)
        if command == RESET:
            return self.reset_taken(frame, data[0])
        self.kept, self.taken = frame, self.noted
        self.outputs = data if command == PROCESS else bytes(self.receives)
        return f"took {COMMANDS[command]}", self.answer(command, data)

    def tick(self) -> Done:
        """One tick."""
        self.age += 1
        if self.state == RESET:
            return self.tick_in_reset()
        return ("reset found 05", self.reset(5)) if self.age == self.limit() else ("quiet", None)


class Master(End):
    """A master; it leads through the phases by its payloads."""

    def __init__(self, settings: dict[str, Any]) -> None:
        super().__init__(settings)
        self.connection, self.age = settings["connection"], settings["watchdog"] - 1

    def limit(self) -> int:
        """The age at which the watchdog expires."""
        return self.settings["watchdog"]

    def tick_in_reset(self) -> Done:
        """The Reset frame is sent again at each expiry."""
        return ("again", self.reset(0)) if self.age == self.limit() else ("quiet", None)

    def reset_taken(self, frame: bytes, code: int) -> Done:
        """A valid Reset frame in state Reset begins a session, if its code is 0."""
        if code != 0:
            return "drop InReset", None
        self.kept, self.count = frame, 0
        return "took Reset", self.lead(SESSION)

    def allowed(self, command: int) -> bool:
        """Whether the end may take a command in its state."""
        return STATES[command] == STATES[self.state]

    def is_connection(self, command: int, connection: int) -> bool:
        """Whether a frame has the connection id that it has to have."""
        return connection == (0 if command == SESSION else self.connection)

    def contents(self, command: int, data: bytes, _connection: int) -> None:
        """Tests that an answer has the piece that was sent."""
        if command == SESSION and any(data[len(self.last_piece) :]):
            raise Refused(7)
        if command in (CONNECTION, PARAMETER) and data != self.last_piece.ljust(self.receives, b"\0"):
            raise Refused(7)

    def payload(self, phase: int) -> bytes:
        """The payload of a phase."""
        if phase == SESSION:
            self.session_piece(1)  # the session id is fixed now
            return self.session_id
        if phase == CONNECTION:
            return low(self.connection) + low(self.settings["address"])
        app = self.settings["app"]
        return b"".join([low(self.width), low(self.limit()), *self.word, low(len(app)), app])

    def lead(self, phase: int) -> bytes:
        """Sends the next piece of the phase, else the first one of the next phase, else data."""
        self.state, self.count = phase, self.count + 1
        self.last_piece = piece(self.payload(phase), self.count, self.piece_length)
        if self.last_piece:
            return self.seal(phase, self.padded(self.last_piece))
        self.count = 0
        if phase != PARAMETER:
            return self.lead({SESSION: CONNECTION, CONNECTION: PARAMETER}[phase])
        self.state = PROCESS
        return self.data_frame()

    def answer(self, command: int, _data: bytes) -> bytes:
        """What is sent after a frame of a session was taken."""
        return self.data_frame() if command in DATA else self.lead(command)


class Slave(End):
    """A slave; it joins what comes, and tests it."""

    def begin(self) -> None:
        """Nothing is joined yet."""
        super().begin()
        self.joined, self.count, self.connection, self.watchdog = b"", 0, None, None

    def limit(self) -> int:
        """The age at which the watchdog expires."""
        return self.watchdog or self.settings["hand"]

    def tick_in_reset(self) -> Done:
        """A slave in Reset has the age 0."""
        self.age = 0
        return "quiet", None

    def reset_taken(self, _frame: bytes, _code: int) -> Done:
        """A valid Reset frame in state Reset is answered."""
        return "took Reset", self.reset(0)

    def whole(self) -> int:
        """How many bytes the payload of the state has."""
        number = len(self.settings["rule"])
        return {SESSION: self.width, CONNECTION: 4, PARAMETER: self.width + 4 + number}[self.state]

    def allowed(self, command: int) -> bool:
        """Whether the end may take a command in its state."""
        before = {SESSION: RESET, CONNECTION: SESSION, PARAMETER: CONNECTION}.get(command, PARAMETER)
        if self.state == before:
            return self.state == RESET or len(self.joined) >= self.whole()
        return STATES[self.state] == STATES[command] and (command in DATA or len(self.joined) < self.whole())

    def is_connection(self, command: int, connection: int) -> bool:
        """Whether a frame has the connection id that it has to have."""
        if command == CONNECTION and self.connection is None:
            return connection != 0
        return connection == (0 if command == SESSION else self.connection)

    def fields(self, command: int, connection: int) -> list[tuple[int, Callable[[bytes], bool], int]]:
        """The width of each field of a payload, what it may be, and the code if it isn't."""
        if command == SESSION:
            return [(self.width, lambda _: True, 0)]
        if command == CONNECTION:
            return [
                (2, lambda field: field == low(connection), 3),
                (2, lambda field: field == low(self.settings["address"]), 6),
            ]
        most, rule = self.settings["most"], self.settings["rule"]
        return [
            (2, lambda field: field == low(self.width), 8),
            (2, lambda field: 0 < int.from_bytes(field, "little") <= most, 9),
            *((2, lambda field: field == word, 9) for word in self.word),
            (2, lambda field: field == low(len(rule)), 10),
            (len(rule), lambda field: all(least <= byte <= highest for byte, (least, highest) in zip(field, rule)), 11),
        ]

    def contents(self, command: int, data: bytes, connection: int) -> None:
        """Tests the fields that are whole with this frame, and the padding."""
        if command in DATA:
            return
        before = self.joined if self.state == command else b""
        joined, at = before + data[: self.piece_length], 0
        for width, is_right, code in self.fields(command, connection):
            if len(before) < at + width <= len(joined) and not is_right(joined[at : at + width]):
                raise Refused(code)
            at += width
        if any(data[self.piece_length :]) or any(joined[at:]):
            raise Refused(7)

    def answer(self, command: int, data: bytes) -> bytes:
        """Joins what came; a handshake's answer has a piece of the session id, or what came."""
        if command in DATA:
            self.state = PROCESS
            return self.data_frame()
        if self.state != command:
            self.state, self.joined, self.count = command, b"", 0
        self.joined += data[: self.piece_length]
        self.count += 1
        if command == CONNECTION:
            self.connection = int.from_bytes(self.kept[-2:], "little")
        if command == PARAMETER and len(self.joined) >= self.whole():
            self.watchdog = int.from_bytes(self.joined[2:4], "little")
        came = self.padded(data[: self.piece_length])
        return self.seal(command, self.session_piece(self.count) if command == SESSION else came)


def rule_of(kind: str, texts: list[str]) -> list[tuple[int, int]]:
    """The lowest and the highest value of each byte."""
    data = bytes.fromhex("".join(texts))
    return [(byte, byte) for byte in data] if kind == "exact" else list(zip(data[::2], data[1::2]))


def read_header(lines: Iterator[str]) -> End:
    """The end that a node file describes."""
    kind = next(lines).split()[3]
    settings: dict[str, Any] = {"profile": [], "app": b"", "rule": []}
    texts: list[str] = []
    rule = ""
    for line in lines:
        word, *fields = line.split()
        if word == "go":
            break
        if word == "lengths":
            both = [int(field) for field in fields]
            settings["sends"], settings["receives"] = both if kind == "master" else both[::-1]
        elif word in ("master", "slave"):
            settings |= dict(zip(NUMBERS[word], map(int, fields)))
        elif word == "profile":
            settings["profile"] = [int(fields[0])]
        elif word == "app":
            settings["app"] += bytes.fromhex(fields[0])
        elif word == "rule":
            rule = fields[0]
            settings["rule"] = [(0, 255)] * int(fields[1]) if rule == "any" else []
        else:
            texts += fields
    if rule in ("exact", "ranges"):
        settings["rule"] = rule_of(rule, texts)
    return Master(settings) if kind == "master" else Slave(settings)


def done(end: End, word: str, field: str) -> Done:
    """Does an event."""
    if word == "d":
        return end.deliver(bytes.fromhex(field))
    if word == "t":
        return end.tick()
    if word == "z":
        return "reset own", end.reset(0)
    if word == "p":
        end.offer = bytes.fromhex(field)
    elif word == "h":
        end.held = field == "1"
    else:
        end.nonce = int(field)
    return "quiet", None


def main() -> None:
    """Reads a node file, and writes its report."""
    lines = (line.rstrip("\n") for line in sys.stdin)
    end, count = read_header(lines), 0
    for line in lines:
        if line == "end":
            break
        count += 1
        word, _, field = line.partition(" ")
        did, frame = done(end, word, field)
        sent = f" > {frame.hex()}" if frame else ""
        print(f"{count} {did} {STATES[end.state]} {end.outputs.hex()}{sent}", flush=True)
    print(f"events {count}", flush=True)


if __name__ == "__main__":
    main()
