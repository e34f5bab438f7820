"""What a node program is tried with: settings of both ends, and for each rule the events that show it."""
from __future__ import annotations

import itertools
import random
from typing import Callable

from example_node import COMMANDS, FAIL_SAFE, PROCESS, RESET, crc_of, read_back
from layer.course import Course, Setting, altered

LONGEST = 2 * 255  # digits of a frame that a node file can have
SETTINGS = (
    Setting("lengths 2 2", (2, 2), ("rule any 0",)),
    Setting("lengths 1 1, three parameters", (1, 1), ("rule exact", "bytes 0a0b0c"), "0a0b0c"),
    Setting("lengths 8 2, profile Two", (8, 2), ("rule any 3",), "0a0b0c", 7, 4, 6),
    Setting("lengths 4 4, profile Two, an exact rule", (4, 4), ("rule exact", "bytes ff00"), "ff00", 513),
    Setting(
        "lengths 2 4, five parameters in ranges",
        (2, 4),
        ("rule ranges", "range 0001000200030004", "range 0505"),
        "0102030405",
    ),
    Setting("lengths 1 2, profile Two", (1, 2), ("rule any 0",), "", 0),
    Setting("lengths 6 126", (6, 126), ("rule any 0",), "", None, 2, 3),
    Setting("lengths 126 126, 512 parameters", (126, 126), ("rule any 512",), "5a" * 512, None, 6, 4, 1000),
)


def points(course: Course) -> list[int]:
    """The first and the last delivery of each state, and two in Data."""
    states = course.states()
    return [
        at
        for at, state in enumerate(states)
        if at in (0, len(states) - 1) or not states[at - 1] == state == states[at + 1]
    ]


def try_at(course: Course, point: int, frames: Callable[[], list[str]]) -> None:
    """For each of the frames, a session up to the point, the frame, and the one under way. All sessions are alike."""
    course.begin()
    course.advance(point)
    for frame in frames():
        course.begin()
        course.advance(point)
        for event in (f"d {frame}", f"d {course.frame}", "t"):
            course.do(event)


def put(course: Course, end: str, draw: random.Random) -> str:
    """A put of bytes that are drawn."""
    return "p " + draw.randbytes(course.setting.sends(end)).hex()


def sessions(course: Course) -> None:
    """A handshake and data that change, after some events before the first session."""
    for event in ("t", "d 00", "h 1", "h 0", "t"):
        course.do(event)
    draw = random.Random(0)
    course.begin()
    for _ in range(40):
        course.do(put(course, course.end, draw))
        course.peer.ask(put(course, course.other, draw))
        course.advance()


def lengths(course: Course) -> None:
    """Frames that are too short or too long."""
    for point in points(course):
        try_at(course, point, lambda: [course.frame[:-2], (course.frame + "00")[:LONGEST], "2a", "00" * 255])


def repeats(course: Course) -> None:
    """The last two frames that were taken, and both with a byte altered."""
    for point in points(course):

        def frames() -> list[str]:
            came = [event[2:] for event, _ in course.session if event[0] == "d"][-2:]
            return [*came, *(altered(frame, -1, 1) for frame in came)]

        try_at(course, point, frames)


def commands(course: Course) -> None:
    """Bytes that are no command, with the right CRCs, and with another fault besides."""
    for point in points(course):
        forged = course.forged
        try_at(course, point, lambda: [forged(0), forged(0x37, connection=9), forged(0xFF, wrong=0), forged(0x2B)])


def reset_frames(course: Course) -> None:
    """Reset frames with some codes, and with each fault alone and before another one."""
    length = course.setting.sends(course.other)

    def frames() -> list[str]:
        codes = [bytes([code]).ljust(length, b"\0") for code in (0, 1, 11, 12, 255)]
        late = [bytes(length - 1) + b"\1"] if length > 1 else []
        return [
            *(course.forged(RESET, data, 0) for data in codes + late),
            *(course.forged(RESET, data, 0, wrong=-1) for data in [codes[0], *late]),
            *(course.forged(RESET, data, 1, wrong=wrong) for data in [codes[1], *late] for wrong in (None, 0)),
            course.forged(RESET, codes[0], 0, 1),
        ]

    for point in points(course):
        try_at(course, point, frames)


def allowed(course: Course) -> None:
    """Each command with the right CRCs, with another connection id, and with a wrong CRC."""
    for point in points(course):

        def frames() -> list[str]:
            others = [command for command in COMMANDS if command != RESET]
            return [
                course.forged(command, connection=connection, wrong=wrong)
                for command in others
                for connection, wrong in ((None, None), (9, None), (1, 0))
            ]

        try_at(course, point, frames)


def connections(course: Course) -> None:
    """Other connection ids with their right CRCs, and with a wrong one."""
    for point in points(course):

        def frames() -> list[str]:
            return [
                course.forged(connection=connection, wrong=wrong)
                for connection in (0, 1, 2, 256, 257)
                for wrong in (None, 0)
            ]

        try_at(course, point, frames)


def crcs(course: Course) -> None:
    """Bits turned, CRCs of other sequence numbers, and one CRC wrong."""
    for point in points(course):

        def frames() -> list[str]:
            bits = [altered(course.frame, place, 1 << place % 8) for place in range(min(len(course.frame) // 2, 12))]
            ahead = [course.forged(ahead=ahead) for ahead in (1, 2, -1)]
            return [*bits, *ahead, course.forged(wrong=0), course.forged(wrong=-1)]

        try_at(course, point, frames)


def contents(course: Course) -> None:
    """Safe data with bytes altered one by one and together, all with the right CRCs."""
    for point in range(len(course.states())):

        def frames() -> list[str]:
            command, right, *_ = read_back(bytes.fromhex(course.frame))
            length, sent = len(right), min(course.setting.lengths)
            places = [place for place in {0, 1, 2, 3, sent - 1, sent, length - 1} if place < length]
            masks = [bytes(at == place for at in range(length)) for place in places]
            masks += [right, bytes([255] * length), bytes(sent) + b"\1" * (length - sent)]
            changed = [course.forged(data=bytes(a ^ b for a, b in zip(right, mask))) for mask in masks]
            fail_safe = [bytes(length), bytes(length - 1) + b"\1"] if command == PROCESS else []
            return changed + [course.forged(FAIL_SAFE, data) for data in fail_safe]

        try_at(course, point, frames)


def watchdog(course: Course) -> None:
    """Ticks up to the limit, around frames that are dropped and one that is taken, and past the limit."""
    limit = max(course.setting.watchdog, course.setting.hand)
    for point in points(course):
        for ticks in (0, limit - 2, limit - 1, limit):
            course.begin()
            course.advance(point)
            once, late = [f"d {course.frame[2:]}", f"d {course.frame}"], [f"d {course.frame}"]
            for event in ["t"] * ticks + once + ["t"] * (limit - 2) + late + ["t"] * (limit + 3):
                course.do(event)


def offers(course: Course) -> None:
    """Offers, holds and session ids of both ends that change at each point."""
    some = iter(itertools.cycle((1, 128, 90)))
    for held, point in itertools.product("0101", points(course)):
        course.begin()
        course.do(f"n {point + 3}")
        for at in range(point + 4):
            if at == point:
                course.do(f"h {held}")
                course.do("p " + f"{next(some):02x}" * course.setting.sends(course.end))
                course.do(f"n {point + 300}")
                course.peer.ask(f"h {int(held) ^ at & 1}")
            course.advance()
        course.do("z")


def colliding(crc: Callable[[bytes], int], wanted: int) -> bytes | None:
    """The group of two bytes that has the wanted CRC: the CRCs of both bytes add up by exclusive-or."""
    firsts = {crc(bytes([first, 0])): first for first in range(256)}
    for second in range(256):
        first = firsts.get(crc(bytes([0, second])) ^ crc(bytes(2)) ^ wanted)
        if first is not None:
            return bytes([first, second])
    return None


def equal_crcs(course: Course) -> None:
    """Both ends offer the group that gives the next frame the CRC_0 of the one before, unless its number is stepped."""

    def offer(ask: Callable[[str], object], end: str, before: tuple[int, int], last: int) -> None:
        group = colliding(lambda data: crc_of(0, data, last, 1, before[0] + 1, PROCESS), before[1])
        length = course.setting.sends(end)
        if group and length > 1:
            ask("p " + group.ljust(length, b"\0").hex())

    course.states()
    for _ in range(4):
        offer(course.do, course.end, course.notes()[1], read_back(bytes.fromhex(course.frame))[2][0])
        answer = course.do(f"d {course.frame}")
        taken, sent = course.notes()
        offer(course.peer.ask, course.other, taken, sent[1])
        course.answered(answer)
    course.advance(2)


def many(course: Course) -> None:
    """The numbers of both directions pass 65,535."""
    course.begin()
    course.advance(65545)


def hostile(course: Course, seed: int) -> None:
    """A channel that loses, alters, repeats and delays frames, by chance."""
    draw, seen = random.Random(seed), []

    def deliver(frame: str) -> None:
        answer = course.do(f"d {frame}")
        if draw.random() < 0.97:
            course.answered(answer)

    for _ in range(400):
        seen += [course.frame] if course.frame else []
        act = draw.choices(
            ("on", "late", "bit", "tick", "peer ticks", "put", "hold", "id", "reset", "begin"),
            (60, 3, 3, 8, 4, 5, 3, 2, 1, 1),
        )[0]
        if act == "on":
            course.advance() if course.frame else course.begin()
        elif act in ("late", "bit") and seen:
            frame = draw.choice(seen[-4:])
            deliver(frame if act == "late" else altered(frame, draw.randrange(len(frame) // 2), 1 << draw.randrange(8)))
        elif act in ("peer ticks", "begin"):
            course.frame = course.peer.ask("z" if act == "begin" else "t").sent or course.frame
        elif act in ("put", "hold", "id"):
            ask, end = draw.choice(((course.do, course.end), (course.peer.ask, course.other)))
            events = {
                "put": put(course, end, draw),
                "hold": f"h {draw.randrange(2)}",
                "id": f"n {draw.randrange(65536)}",
            }
            ask(events[act])
        elif act in ("tick", "reset"):
            course.answered(course.do("t" if act == "tick" else "z"))


RULES = (  # what is tried, the section of the page, how, and with how many of the settings
    ("handshake and data", "payloads-and-pieces", sessions, 8),
    ("length of a frame", "verdict", lengths, 3),
    ("repeated frames", "verdict", repeats, 3),
    ("commands", "verdict", commands, 3),
    ("Reset frames", "reset-frames", reset_frames, 3),
    ("allowed commands", "readiness", allowed, 2),
    ("connection ids", "verdict", connections, 2),
    ("CRCs", "number-fits-seal", crcs, 3),
    ("equal CRCs", "number-fits-seal", equal_crcs, 8),
    ("contents", "contents", contents, 8),
    ("ticks", "step", watchdog, 3),
    ("offers, holds, session ids", "outputs", offers, 4),
)
