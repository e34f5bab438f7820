"""Drives a node program of another maker beside the proved one, as its peer and as a hostile channel.

COMMAND gets the word master or slave after its own words.
"""
from __future__ import annotations

import argparse
import functools
import itertools
import shutil
from concurrent.futures import ProcessPoolExecutor
from dataclasses import dataclass
from typing import Callable, Iterator

from layer.course import Course, Differs, Setting
from layer.program import Complaint, Tool
from layer.rules import RULES, SETTINGS, hostile, many

HELP = "compares a node program of another maker with the proved one"
PAGE = "docs/protocol.md"
ENDS = ("slave", "master")


@dataclass(frozen=True)
class Case:
    """A rule, tried at one end with one setting."""

    rule: str
    place: str
    do: Callable[[Course], None]
    setting: Setting
    end: str


def cases_of(given: argparse.Namespace) -> Iterator[Case]:
    """All cases, those of the first setting first."""
    chance = [
        ("hostile channel", "step", functools.partial(hostile, seed=seed), 8) for seed in range(1, given.seeds + 1)
    ]
    rare = [("65,536 frames", "number-fits-seal", many, 1)] if given.long else []
    ends = (given.end,) if given.end else ENDS
    for number, setting in enumerate(SETTINGS):
        for (rule, place, do, count), end in itertools.product((*RULES, *chance, *rare), ends):
            if number < count:
                yield Case(rule, place, do, setting, end)


Result = tuple[Case, int, Differs | None]  # how many answers were as expected, and the first that wasn't


def tried(case: Case, given: argparse.Namespace, tool: Tool) -> Result:
    """Tries a case."""
    course = Course(tool.command("node"), given.command, case.setting, case.end, given.patience)
    try:
        case.do(course)
        return case, course.count, None
    except Differs as difference:
        return case, course.count, difference
    finally:
        course.close()


def results_of(given: argparse.Namespace, tool: Tool) -> Iterator[Result]:
    """The result of each case in order; with --first they end at the first answer that differs."""
    with ProcessPoolExecutor() as pool:
        for result in pool.map(functools.partial(tried, given=given, tool=tool), cases_of(given)):
            yield result
            if result[2] and given.first:
                pool.shutdown(cancel_futures=True)
                return


def difference_text(case: Case, count: int, found: Differs) -> str:
    """The first difference of a case, and where its rule stands."""
    header = " / ".join(case.setting.header(case.end)[1:-1])
    return (
        f"\n{case.rule}, {case.end}, {case.setting.name}: answer {count + 1} differs\n"
        f"  header    {header}\n  event     {found.event}\n"
        f"  expected  {found.expected}\n  came      {found.came or '(no answer)'}\n  rule      {PAGE}#{case.place}"
    )


def table(results: list[Result]) -> Iterator[str]:
    """What passed, by rule and end."""
    yield f"{'rule':28}{'slave':>16}{'master':>16}"
    for rule in dict.fromkeys(case.rule for case, *_ in results):
        cells = []
        for end in ENDS:
            own = [(count, found) for case, count, found in results if (case.rule, case.end) == (rule, end)]
            passed = f"{sum(count for count, _ in own)} passed" if own else "not tried"
            cells.append("differs" if any(found for _, found in own) else passed)
        yield f"{rule:28}{cells[0]:>16}{cells[1]:>16}"


def take(parser: argparse.ArgumentParser) -> None:
    parser.add_argument("--end", choices=ENDS, help="try this end alone")
    parser.add_argument("--seeds", type=int, default=2, help="how many hostile channels are tried for each setting")
    parser.add_argument("--first", action="store_true", help="end at the first answer that differs")
    parser.add_argument("--long", action="store_true", help="let the sequence numbers pass 65,535, too")
    parser.add_argument("--patience", type=float, default=10, metavar="SECONDS", help="how long an answer may take")
    parser.add_argument("command", nargs="+", metavar="COMMAND", help="the program and its arguments, after --")


def run(given: argparse.Namespace, tool: Tool) -> int:
    if not shutil.which(given.command[0]):
        raise Complaint(f"there is no program {given.command[0]}")
    results = list(results_of(given, tool))
    print("\n".join(table(results)))
    firsts: dict[tuple[str, str], Result] = {}
    for case, count, found in results:
        if found:
            firsts.setdefault((case.rule, case.end), (case, count, found))
    for first in firsts.values():
        print(difference_text(*first))
    return 1 if firsts else 0
