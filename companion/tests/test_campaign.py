"""Schedules of numbers."""
from conftest import TOOL, gatepast
from hypothesis import example, given, strategies
from layer.campaign import first_other, with_fresh_ids, with_same_ids
from layer.numbers import HEADER, events_of


@given(strategies.integers(0, 2**64 - 1), strategies.integers(1, 300))
@example(0, 17)
@example(57, 80)
def test_schedules_are_those_of_bulk(number, count):
    report = TOOL.ask("replay", text="\n".join([*HEADER, *events_of(number, count), "end", ""]))[1].splitlines()
    summary = TOOL.ask("bulk", str(number), str(count))[1].splitlines()
    for name, did in (("resets", " reset "), ("drops", " drop ")):
        counts = " ".join(f"{end} {sum(f' {end[0]}{did}' in line for line in report)}" for end in ("master", "slave"))
        assert f"{name} {counts}" in summary
    assert summary[-1] == report[-1]


def test_fresh_ids_keep_old_sessions_out():
    others = [with_same_ids(TOOL, 400, number) for number in range(50, 60)]
    assert others[7] == 69 and first_other("other none") == 0
    assert not any(with_fresh_ids(TOOL, 400, number) for number in range(50, 60))


def test_numbers_have_their_range():
    most = 2**64 - 1
    for words in ([5, 4], [0, most + 1], [1, 2, "--events", 0], [1, 2, "--events", 100_001]):
        status, said, why = gatepast("campaign", *words)
        assert (status, said) == (2, "") and why.startswith("gatepast: numbers go from 0")
    assert gatepast("campaign", most, most, "--events", 4)[0] == 0
    assert "\nsame             1 " in gatepast("campaign", 1, 1, "--events", 100_000)[1]
    status, said, _ = gatepast("campaign", 57, 57, "--events", 80, "--each", "--fresh")
    assert status == 1 and "\n  number 57: other 69\nfresh " in said
