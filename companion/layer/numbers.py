"""The schedule of a number, as docs/formats.md says: the events that `bulk` runs, written as lines."""
from __future__ import annotations

import itertools
from typing import Iterator

MASK, MULTIPLIER, SEEDING = (1 << 64) - 1, 6364136223846793005, 11634580027462260723


def header_of(watchdog: int) -> list[str]:
    """The header of a schedule of numbers, with this watchdog and `hand`."""
    slave = f"slave 2 {watchdog} {max(1000, watchdog)} 2"
    return ["fsoe 1 pair", "lengths 2 2", f"master 1 2 {watchdog} 1", slave, "rule any 0", "go"]


HEADER = header_of(100)


def output(state: int) -> int:
    """The 32-bit word of a state of PCG32."""
    mixed, turn = (state >> 18 ^ state) >> 27 & 0xFFFFFFFF, state >> 59
    return (mixed >> turn | mixed << (-turn & 31)) & 0xFFFFFFFF


def words_of(number: int) -> Iterator[int]:
    """The words of the generator, seeded by a number as the crate `rand_pcg` does."""
    seed = []
    for _ in range(4):
        number = (number * MULTIPLIER + SEEDING) & MASK
        seed.append(output(number))
    increment = seed[2] | seed[3] << 32 | 1
    state = ((seed[0] | seed[1] << 32) + increment) & MASK
    while True:
        state = (state * MULTIPLIER + increment) & MASK
        yield output(state)


def line_of(word: int) -> str:
    """The event of a word."""
    rest, bit = word % 64, word >> 8 & 1
    altered = f"-1 {(word >> 8) % 7} {1 << (word >> 16) % 8:02x}"
    data = f"{word >> 8 & 255:02x}{word >> 16 & 255:02x}"
    rows = (
        (22, "ds -1"),
        (44, "dm -1"),
        (48, "tm"),
        (52, "ts"),
        (53, "ds -2"),
        (54, "dm -2"),
        (55, f"as {altered}"),
        (56, f"am {altered}"),
        (58, f"pm {data}"),
        (60, f"ps {data}"),
        (61, f"hm {bit}"),
        (62, f"hs {bit}"),
        (63, f"nm {word >> 16}"),
        (64, "zs" if bit else "zm"),
    )
    return next(line for limit, line in rows if rest < limit)


def events_of(number: int, count: int) -> Iterator[str]:
    """The first events of the schedule of a number."""
    turns = itertools.chain(["tm"], itertools.cycle(["ds -1", "dm -1"]))
    drawn = turns if number == 0 else itertools.chain(itertools.islice(turns, 4), map(line_of, words_of(number)))
    return itertools.islice(drawn, count)
