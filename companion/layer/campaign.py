"""Counts the schedules of numbers that end without an `other` entry, on all processors.

`bulk` runs them with ids that never change. With --fresh, `replay` runs them, too, with a fresh id for each session.
With --again copies of frames are lost, and both ends send their last frame again: runs without a reset are counted.
"""
from __future__ import annotations

import argparse
import functools
import itertools
import subprocess
from concurrent.futures import ProcessPoolExecutor
from typing import Any, Callable

from layer.losses import Losses, Seen, with_losses
from layer.numbers import HEADER, events_of
from layer.program import Complaint, Tool

HELP = "counts the schedules of numbers that end without an `other` entry, and with losses those without a reset"
WATCHDOG, LONGEST = 100, 65_535  # in ticks: the one of the schedules of numbers, and the longest that there is


def first_other(report: str) -> int:
    """The first `other` entry that a report tells of, 0 for none."""
    word, _, what = report.rstrip("\n").split("\n")[-1].partition(" ")
    if word != "other":
        raise Complaint(f"a run ended with {report[-80:]!r}")
    return 0 if what == "none" else int(what)


def with_same_ids(tool: Tool, events: int, number: int) -> int:
    """The first `other` entry of the schedule of a number."""
    return first_other(tool.ask("bulk", str(number), str(events))[1])


def with_fresh_ids(tool: Tool, events: int, number: int) -> int:
    """The same events; each end gets its next id after each reset, and where the schedule has an id of its own."""
    ids = {"m": itertools.count(2), "s": itertools.count(4, 2)}  # docs/duties.md: by 1 at the master, by 2 at the slave
    with subprocess.Popen(tool.command("replay"), stdin=subprocess.PIPE, stdout=subprocess.PIPE, text=True) as run:

        def answer(line: str) -> str:
            run.stdin.write(line + "\n")
            run.stdin.flush()
            return run.stdout.readline()

        run.stdin.write("\n".join(HEADER) + "\n")
        for line in events_of(number, events):
            if line[0] != "n" and " reset " in answer(line) or line[0] == "n":
                answer(f"n{line[1]} {next(ids[line[1]])}")
        return first_other(run.communicate("end\n")[0])


def row(name: str, found: list[int], first: int) -> str:
    """How many schedules had no such entry, and the earliest one that there was."""
    least = min(((entry, number) for number, entry in enumerate(found, first) if entry), default=None)
    earliest = f"entry {least[0]} of number {least[1]}" if least else "none"
    return f"{name:8}{len(found):>10}{found.count(0):>10}{len(found) - found.count(0):>10}  {earliest}"


def take(parser: argparse.ArgumentParser) -> None:
    parser.add_argument("first", type=int, help="the first number")
    parser.add_argument("last", type=int, help="the last number")
    parser.add_argument("--events", type=int, default=20000, help="events of each schedule, 20000 if it isn't given")
    parser.add_argument("--each", action="store_true", help="list each number whose schedule has such an entry")
    parser.add_argument("--fresh", action="store_true", help="run each schedule with fresh ids, too")
    again = "run schedules in which an end sends its last frame again when it sent nothing for N ticks"
    parser.add_argument("--again", type=int, metavar="N", help=again)
    lose = "with --again: lose so many of 10,000 copies, 1000 if it isn't given"
    parser.add_argument("--lose", type=int, metavar="RATE", help=lose)
    parser.add_argument("--row", type=int, metavar="K", help="with --again: lose at most K in a row each way")
    watchdog = f"with --again: the watchdog and `hand` in ticks, {WATCHDOG} if it isn't given"
    parser.add_argument("--watchdog", type=int, metavar="W", help=watchdog)


def over(given: argparse.Namespace, way: Callable[[int], Any]) -> list[Any]:
    """What a way to run a schedule gives for each number."""
    with ProcessPoolExecutor() as pool:
        return list(pool.map(way, range(given.first, given.last + 1), chunksize=4))


def head(name: str, entry: str) -> None:
    """Prints what the columns have."""
    print(f"{name:8}{'schedules':>10}{'without':>10}{'with':>10}  earliest {entry}")


def tell(given: argparse.Namespace, name: str, entry: str, found: list[int]) -> int:
    """Prints a row; 1 if a schedule has such an entry."""
    print(row(name, found, given.first), flush=True)
    for number, place in enumerate(found, given.first):
        if place and given.each:
            print(f"  number {number}: {entry} {place}")
    return int(any(found))


def losses_of(given: argparse.Namespace) -> tuple[Losses, int]:
    """When an end sends again and what is lost, and the watchdog."""
    lose = 1000 if given.lose is None else given.lose
    watchdog = WATCHDOG if given.watchdog is None else given.watchdog
    if given.again < 1 or not 0 <= lose <= 10_000 or (given.row or 0) < 0 or not 0 < watchdog <= LONGEST:
        raise Complaint("N goes from 1, RATE from 0 to 10,000, K from 0, and W from 1 to 65,535")
    return Losses(given.again, lose, given.row), watchdog


def with_again(given: argparse.Namespace, tool: Tool) -> int:
    """The rows of the watchdog that is given, of the least one without a reset, and of one less, as far as there is."""
    losses, watchdog = losses_of(given)

    def seen(ticks: int) -> list[Seen]:
        return over(given, functools.partial(with_losses, tool, losses, given.events, ticks))

    longest = seen(LONGEST)
    master, slave = (max(one.ticks[end] for one in longest) for end in "ms")
    least = max(master, slave) + 1
    head("watchdog", "reset")
    status = [
        tell(given, str(ticks), "reset", [one.reset for one in seen(ticks)])
        for ticks in dict.fromkeys((watchdog, least, least - 1))
        if ticks
    ]
    between = f"between two taken frames at most {master} ticks passed at the master, {slave} at the slave"
    print(f"{between}: the least watchdog without a reset is {least}")
    return status[0]


def run(given: argparse.Namespace, tool: Tool) -> int:
    if not 0 <= given.first <= given.last < 1 << 64 or not 0 < given.events <= 100_000:
        raise Complaint("numbers go from 0 to 2^64 - 1, the first one at most the last; events from 1 to 100,000")
    of_losses = [option for option in (given.lose, given.row, given.watchdog) if option is not None]
    if given.fresh if given.again is not None else of_losses:
        raise Complaint("--lose, --row and --watchdog go with --again, and --fresh without it")
    if given.again is not None:
        return with_again(given, tool)
    head("ids", "other entry")
    status = 0
    for name, way in ({"same": with_same_ids} | ({"fresh": with_fresh_ids} if given.fresh else {})).items():
        status |= tell(given, name, "other", over(given, functools.partial(way, tool, given.events)))
    return status
