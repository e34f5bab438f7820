"""What losses cost where both ends send again: the formula of docs/dimensioning.md, and a model of its own for all losses."""
from collections import deque
from itertools import islice
from typing import NamedTuple

import pytest
from conftest import TOOL, gatepast
from hypothesis import given, strategies
from layer.losses import Losses, events_of, seen_in, with_losses
from layer.numbers import header_of

TO_DATA = ["tm", *["ds -1", "dm -1"] * 8]


class End(NamedTuple):
    """An end: in how many turns it sends, copies lost in a row, a copy on the way, a new frame, and its age."""

    name: str
    turns: int
    lost: int = 0
    comes: bool = False
    is_new: bool = False
    age: int = 0


def turns_of(own, peer, again, row):
    """What may happen in a turn of an end: the events, and whose turn is next."""
    takes = peer.comes and peer.is_new
    events = [f"d{own.name} -1"] * peer.comes + [f"t{own.name}"]
    own = own._replace(age=1 if takes else own.age + 1, is_new=takes or own.is_new, turns=own.turns - 1, comes=False)
    peer = peer._replace(comes=False, is_new=peer.is_new and not peer.comes)
    if not takes and own.turns > 0:
        yield events, (peer, own)
        return
    yield events, (peer, own._replace(turns=again, lost=0, comes=True))
    if own.lost < row:
        yield events, (peer, own._replace(turns=again, lost=own.lost + 1))


def all_turns(again, row):
    """All that can come from a master that just sent its first data frame, and what led there."""
    start = (End("m", 1, is_new=True), End("s", again))
    led, waiting = {start: (None, [])}, deque([start])
    while waiting:
        state = waiting.popleft()
        for events, after in turns_of(*state, again, row):
            if after not in led:
                led[after] = state, events
                waiting.append(after)
    return led


def events_to(state, led):
    """The events that led to a state."""
    if state is None:
        return []
    before, events = led[state]
    return events_to(before, led) + events


def resets(watchdog, events):
    return seen_in(TOOL.ask("replay", text="\n".join([*header_of(watchdog), *events, "end", ""]))[1]).reset


@pytest.mark.parametrize("row", range(4))
@pytest.mark.parametrize("again", (1, 2, 3))
def test_formula_is_tight(again, row):
    led, formula = all_turns(again, row), 2 * row * again + 2
    for name in "ms":
        age, worst = max(((end.age, state) for state in led for end in state if end.name == name), key=lambda of: of[0])
        events = TO_DATA + events_to(worst, led)
        assert age == formula - 1 and resets(formula, events) == 0
        assert resets(formula - 1, events) > 0
    seen = [with_losses(TOOL, Losses(again, 5000, row), 2000, formula, number) for number in range(1, 9)]
    assert not any(one.reset for one in seen)
    assert {end: max(one.ticks[end] for one in seen) for end in "ms"} == dict.fromkeys("ms", formula - 1)


@given(strategies.integers(0, 2**64 - 1), strategies.integers(0, 10_000), strategies.integers(0, 5))
def test_losses_in_a_row_have_their_limit(number, lose, row):
    events = list(islice(events_of(number, Losses(1, lose, row)), 300))
    assert events == list(islice(events_of(number, Losses(1, lose, row)), 300)) and events[0] == "tm"
    ticks = [event for event in events if event[0] == "t"]
    assert ticks == ["tm", "ts"] * (len(ticks) // 2) + ["tm"] * (len(ticks) % 2)
    for own, peer in ("ms", "sm"):
        sent = " ".join(events).split(f"d{own} -1")
        assert all(part.count(f"t{peer}") <= row + 1 for part in sent[1 if own == "m" else 0 :])


def test_a_copy_without_loss_comes_in_the_next_turn():
    turns = ["tm", "ds -1", "ts", "dm -1", "tm", "ds -1", "ts", "dm -1"]
    assert list(islice(events_of(5, Losses(3, 0, None)), 8)) == turns


def test_command_tells_the_least_watchdog():
    words = ("campaign", 1, 8, "--events", 2000, "--again", 1, "--lose", 5000, "--row", 1)
    status, said, _ = gatepast(*words)
    assert status == 0 and "\n4                8         8         0  none\n" in said
    between = "between two taken frames at most 3 ticks passed at the master, 3 at the slave"
    assert said.endswith(f"\n{between}: the least watchdog without a reset is 4\n")
    status, said, _ = gatepast(*words, "--watchdog", 3, "--each")
    assert status == 1 and "\n  number 8: reset " in said


def test_options_have_their_range():
    alone = [["--lose", 1], ["--row", 0], ["--watchdog", 4], ["--again", 1, "--fresh"]]
    sizes = [[0], [1, "--lose", 10_001], [1, "--lose", -1], [1, "--row", -1], [1, "--watchdog", 0]]
    starts = {"--lose, --row and --watchdog go": alone, "N goes from 1": [["--again", *words] for words in sizes]}
    for start, all_words in starts.items():
        for words in all_words:
            status, said, why = gatepast("campaign", 1, 1, *words)
            assert (status, said) == (2, "") and why.startswith(f"gatepast: {start}")
