"""Refusals in words, and the warnings of a configuration."""
import itertools
import json
import re
import subprocess
import sys

import pytest
from conftest import ENVIRONMENT, TOOL, TOP, gatepast
from hypothesis import given, strategies
from layer.check import warnings
from layer.explain import expected, explained
from layer.forms import HEADER, KEYS, KINDS
from layer.net import Net
from layer.vectors import check_named
from layer.words import code_words

EXAMPLE = (TOP / "examples" / "emergency_stop.toml").read_text()


def refused_runs():
    """Words, file, input and report of each worked run that ends with a refused line or a fault of a configuration."""
    check = check_named("runs")
    blocks, runs = check.all_runs()
    for name, marked, cells in check.all_rows(runs):
        parts = check.parts_of(name, marked, blocks, {"file": "", **cells})
        last = b"".join(parts[">"][-1:]).decode("latin-1")
        if last.startswith(("refused ", "config ")) and not last.endswith("..."):
            yield name, last, *(b"".join(parts[mark]).decode("latin-1") for mark in ":<")


RUNS = list(refused_runs())


def test_each_refusal_is_explained():
    assert len(RUNS) > 300
    for name, last, configuration, text in RUNS:
        lines = explained(last, configuration if last.startswith("config") else text)
        assert last in lines[:2] and lines[-1] != last, name
        assert not re.search(r"[{}]", "".join(lines).replace(text, "")) or "{" in text, (name, lines)


LENGTHS = ["lengths 2 2"]
MASTER = ["master 1 2 100 1", "profile 7", "app 0a", "app 0b"]
SLAVE = ["slave 2 200 1000 2", "profile 7", "rule exact", "bytes 0a", "bytes 0b"]
RANGES = ["slave 2 200 1000 2", "rule ranges", "range 0001", "range 0001"]
BOTH = [*LENGTHS, *MASTER, "slave 2 200 1000 2", "profile 7", "rule any 2"]


@pytest.mark.parametrize(
    "command, first, lines",
    (
        ("node master", "fsoe 1 node master", [*LENGTHS, *MASTER]),
        ("node slave", "fsoe 1 node slave", [*LENGTHS, *SLAVE]),
        ("node slave", "fsoe 1 node slave", [*LENGTHS, *RANGES]),
        ("replay", "fsoe 1 pair", BOTH),
        ("replay", "fsoe 2 pairs", ["pair 1", *BOTH, "pair 2", *LENGTHS, "master 2 2 100 1", *SLAVE]),
        ("image", "fsoe 1 image", ["size 14 14", "slot 1 0 0", *LENGTHS, *SLAVE, "slot 2 7 7", *LENGTHS, *MASTER]),
        ("diagnose", "fsoe 1 trace", LENGTHS),
    ),
)
def test_header_lines_are_expected_where_they_may_stand(command, first, lines):
    lines = [first, *lines, "go"]
    for at in range(1, len(lines)):
        words = {form.split(" ")[0].rstrip(",") for form in expected(lines[:at], at + 1)}
        for word in HEADER:
            report = TOOL.ask(*command.split(" "), text="\n".join([*lines[:at], f"{word} x", ""]))[1]
            assert (word in words) == (not report.endswith(f"refused {at + 1} Header\n")), (lines[:at], word, report)


def test_what_cannot_be_seen_is_shown():
    assert explained("refused 3 Number", "fsoe 1 node slave\nlengths 2 2\nslave 2 200 1000 2\r\n")[0] == (
        "line 3 is: slave 2 200 1000 2\\x0d"
    )


@pytest.mark.parametrize("first", KINDS)
def test_the_command_of_a_file_is_named(first):
    command = "node master" if KINDS[first].command != "node master" else "replay"
    report = TOOL.ask(*command.split(" "), text=first + "\n")[1]
    assert explained(report, first + "\n") == [
        f"line 1 is: {first}",
        "refused 1 Header",
        f"this is a file for {KINDS[first].command}, and another command read it",
    ]


def test_what_is_not_known_of_another_input_is_told():
    start = "fsoe 1 pair\nlengths 2 2\n"
    for number, text in ((3, start), (3, start[:-1]), (9, start)):
        known = f"the input has 2 lines, so the report isn't of it: what was expected in line {number} isn't known"
        assert explained(f"refused {number} Header", text)[2:] == [known]
    assert explained("refused 3 End", start)[0] == "line 2, the last one, is: lengths 2 2"
    assert explained("refused 3 End", start)[3].startswith("expected there: master <connection id>")
    assert "the input has 2 lines" in explained("refused 4 End", start)[-1]
    other = "line 1 of the input begins no file for the program, so the report isn't of it"
    assert explained("refused 2 Word", EXAMPLE)[1:] == ["refused 2 Word", "no event begins with this word", other]


NUMBER = r"\d[\d,]*\d|\d"
RANGE = r"\d+ to \d[\d,]*\d"
PAGE = (TOP / "docs" / "formats.md").read_text()


def test_numbers_of_forms_are_those_of_the_page():
    for kind in KINDS.values():
        for word, form in [(word, HEADER[word]) for word in kind.header] + [*kind.events.items()]:
            word = word.removeprefix("<k> ")
            of_master = word[0] + "m" if word[1:] == "s" else word
            told = "\n".join(re.findall(rf"`{of_master}[` ].*(?:\n[^|\n].*)?", PAGE))
            assert set(re.findall(NUMBER, form)) <= set(re.findall(NUMBER, told)), form
    others = {"image": "2,000 events", "plant": "2,000 events", "trace": "200,000 frames", "pairs": "200,000 entries"}
    for first, kind in KINDS.items():
        assert kind.most == others.get(first.split(" ")[2], "200,000 events"), first


def test_keys_are_those_of_the_page():
    page = PAGE.partition("## The configuration of a plant")[2].partition("\n## ")[0]
    rows = re.findall(r"^\| (?:`\[+(\w+)\]+`[^|]*)?\| `(\w+)` \| ([^|]*)", page, re.M)
    found, table = {}, ""
    for name, key, value in rows:
        table = name or table
        found.setdefault(table, []).append(key)
        if ranges := re.findall(RANGE, value):
            assert re.findall(RANGE, KEYS[table][key]) == ranges, key
    assert found == {name: list(keys) for name, keys in KEYS.items()}


def test_lines_of_a_configuration_are_found():
    for line, fault, wanted in (
        ('kind = "and"\n', "Missing block 1 kind", "line 24 is: [[block]]"),
        ("address = 12\n", "Missing connection 2 address", "line 13 is: [[connection]]"),
        ("", "Range connection 2 watchdog", "line 16 is: watchdog = 5"),
        ("", "SameConn 1 2", "line 14 is: id = 2"),
        ("", "Later 3", 'line 36 is: ins = ["b2", "i1.1"]'),
        ("", "Twice 2.0", 'line 55 is: out = "o2.0"'),
        ("", "NoInput 2.0", 'line 26 is: ins = ["i1.0", "i2.0"]'),
        ("", "NoChannel", 'line 3 is: channel = "perfect"'),
    ):
        assert explained(f"config {fault}", EXAMPLE.replace(line, "", 1))[:2] == [wanted, f"config {fault}"]
    assert "zeros" in explained("config NoApp", EXAMPLE)[-1] and "hostile" in explained("config NoChannel", EXAMPLE)[-1]


def test_what_few_reports_have_is_explained():
    assert explained("refused 2 Position", "fsoe 1 image\nw 1 00")[2] == "the bytes leave the image"
    assert all(len(explained(last, None)) == 2 for last in ("desk failed", "usage: fsoe_tool"))
    for number, wanted in enumerate(("a drive's wire names", "a wire of block 1 names")):
        assert explained(f"config Later {number}", EXAMPLE)[-1].startswith(wanted)
    assert [code_words(code) for code in ("7f", "80")] == ["no code of this protocol", "device specific"]


BOUND = '\n[[bound]]\nestop = "i1.{}"\ndrive = "o2.{}"\n'


@pytest.mark.parametrize(
    "old, new, bound, wanted",
    (
        ("seed = 1", "sed = 1", "", "line 4: nobody reads sed of plant: perhaps seed is meant"),
        ("seed = 1", '"sed" = 1', "", "nobody reads sed of plant: perhaps seed is meant"),
        ("seed = 1", "seed = 1\n[[bond]]", "", "line 5: nobody reads tables bond: perhaps bound is meant"),
        ("[plant]", "seed = 1\n[plant]", "", "line 1: nobody reads seed, which is in no table"),
        (
            "address = 12",
            "address = 11\nslave_address = 12",
            "",
            "line 16: connection 2: the slave refuses the master with code 06",
        ),
        ("address = 12", "address = 11", "", "line 15: the slaves of connections 1 and 2 have one address"),
        (
            "watchdog = 5",
            "watchdog = 5\nmost = 4",
            "",
            "line 10: connection 1: the slave refuses the master with code 09",
        ),
        ('"b5"]', '"i1.1"]', "", "line 51: block 6: a stuck acknowledgement restarts by itself"),
        ('"b5"]', '"b2"]', "", "line 51: block 6: a stuck acknowledgement restarts by itself"),
        ('from = "b6"', 'from = "b1"', "", "line 56: o2.0 comes on by itself with its inputs"),
        ("", "", BOUND.format(1, 0), "line 58: bound 1: o2.0 isn't guarded by i1.1"),
        ("", "", BOUND.format(0, 1), "line 60: bound 1: nothing drives o2.1, so it is always off"),
        ('app = "net"', 'app = "zeros"', BOUND.format(0, 0), "line 60: bound 1: nothing drives o2.0"),
        ('app = "net"', 'app = "mirror"', BOUND.format(0, 0), "line 58: bound 1: o2.0 isn't guarded by i1.0"),
    ),
)
def test_warnings(tmp_path, old, new, bound, wanted):
    (tmp_path / "plant.toml").write_text(EXAMPLE.replace(old, new, 1) + bound)
    status, said, _ = gatepast("check", tmp_path / "plant.toml")
    assert status == 0 and [line[: 9 + len(wanted)] for line in said.splitlines()] == [
        "the program takes it"[: 9 + len(wanted)],
        f"warning: {wanted}",
    ]


KINDS_OF_BLOCKS = {
    "latch": 2,
    "estop": 2,
    "twohand": 2,
    "feedback": 2,
    "ondelay": 1,
    "offdelay": 1,
    "const0": 0,
    "const1": 0,
}


@strategies.composite
def nets(draw):
    """Blocks over three input bits; the drive reads the last one."""
    wires, blocks = ["i1.0", "i1.1", "i2.0"], []
    for number in range(1, draw(strategies.integers(1, 5)) + 1):
        kind = draw(strategies.sampled_from([*KINDS_OF_BLOCKS, "and", "or", "and", "or"]))
        count = KINDS_OF_BLOCKS.get(kind) if kind in KINDS_OF_BLOCKS else draw(strategies.integers(1, 3))
        ins = draw(strategies.lists(strategies.sampled_from(wires[-4:]), min_size=count, max_size=count))
        blocks.append({"kind": kind, "ins": ins, "n": draw(strategies.integers(0, 2))})
        wires.append(f"b{number}")
    return blocks


def on_ticks(folder, blocks, puts):
    """Whether the drive is on after each tick, if the bits are put so."""
    text = EXAMPLE.partition("# Bit 0")[0]
    for block in blocks:
        text += f'[[block]]\nkind = "{block["kind"]}"\nins = {json.dumps(block["ins"])}\nn = {block["n"]}\n'
    (folder / "plant.toml").write_text(f'{text}[[drive]]\nout = "o2.0"\nfrom = "b{len(blocks)}"\n')
    events = [line for put in puts for line in (f"p 1 0{put & 3}00", f"p 2 0{put >> 2}00", "t")]
    script = "\n".join(["fsoe 1 plant", *events, "end", ""])
    status, report = TOOL.ask("plant", str(folder / "plant.toml"), text=script)
    assert status == 0, report
    return [line.endswith("0100") for line in report.splitlines() if line.startswith("2 Data")]


PUTS = strategies.lists(strategies.integers(0, 7), min_size=4, max_size=12)


@given(nets(), PUTS)
def test_what_is_guarded_stays_off(tmp_path_factory, blocks, puts):
    folder, net = tmp_path_factory.getbasetemp(), Net(blocks)
    for bit, mask in (("i1.0", 6), ("i1.1", 5), ("i2.0", 3)):
        if net.guards(bit, f"b{len(blocks)}"):
            assert not any(on_ticks(folder, blocks, [put & mask for put in puts]))


def test_what_is_not_guarded_can_be_on(tmp_path):
    for kind, count in {**KINDS_OF_BLOCKS, "and": 1, "or": 2}.items():
        block = {"kind": kind, "ins": ["i1.0", "i1.1"][:count], "n": 1 if kind == "ondelay" else 50}
        for bit, mask in (("i1.0", 2), ("i1.1", 1)):
            runs = itertools.product(range(4), repeat=2)
            on = any(on_ticks(tmp_path, [block], [a, a, b, b, *[mask] * 5])[-1] for a, b in runs)
            assert on != Net([block]).guards(bit, "b1"), (kind, bit)


def test_what_is_meant_gives_no_warning():
    net = EXAMPLE.replace("watchdog = 5", "watchdog = 5\nmost = 5") + BOUND.format(0, 0)
    mirror = EXAMPLE.replace('app = "net"', 'app = "mirror"') + BOUND.format(0, 0).replace("i1", "i2")
    zeros = EXAMPLE.replace('app = "net"', 'app = "zeros"').replace('from = "b6"', 'from = "b1"')
    assert [*warnings(net, True), *warnings(mirror, True), *warnings(zeros, True)] == []


def dimensioned(*words):
    """Status, standard output and standard error of companion/dimension."""
    command = [sys.executable, TOP / "companion" / "dimension", *words]
    ran = subprocess.run(command, capture_output=True, text=True, env=ENVIRONMENT)
    return ran.returncode, ran.stdout, ran.stderr


@pytest.mark.parametrize(
    "old, new, why",
    (
        ('estop = "i1.0"', 'estop = "i0.0"', "config NoInput 0.0\n"),
        ('estop = "i1.0"', 'estop = "i1.16"', "config NoInput 1.16\n"),
        ('drive = "o2.0"', 'drive = "o3.0"', "config NoOutput 3.0\n"),
        ("watchdog = 5", "watchdog = 0", "config Range connection 1 watchdog\n"),
        ("watchdog = 5", "watchdog = -5", "config Range connection 1 watchdog\n"),
        ("watchdog = 5\n", "", "config Missing connection 1 watchdog\n"),
    ),
)
def test_no_times_are_told_of_what_the_program_refuses(tmp_path, old, new, why):
    (tmp_path / "plant.toml").write_text((EXAMPLE + BOUND.format(0, 0)).replace(old, new, 1))
    status, said, told = dimensioned(tmp_path / "plant.toml", "1")
    assert (status, said) == (3, "") and why in told and told.startswith("line ")
    status, said, told = dimensioned("--program", "/bin/true", tmp_path / "plant.toml", "1")
    assert (status, said) == (2, "") and told.startswith("dimension: /bin/true gives no report of plant")


def test_reaction_times_are_those_of_the_duties(tmp_path):
    (tmp_path / "plant.toml").write_text(EXAMPLE + BOUND.format(0, 0))
    status, said, _ = dimensioned(tmp_path / "plant.toml", "2", "--input", "10", "--late", "0.5", "--clocks", "0.01")
    others = "input 10 ms, late 1 ms, application 0 ms, output 0 ms, stopping 0 ms"
    assert status == 0 and said.splitlines() == [
        "connection 1 watchdog 5 hand 5 least 2",
        "connection 2 watchdog 5 hand 5 least 2",
        "bound i1.0 o2.0 limit 20 ticks, 40 ms",
        f"  reaction time 47.36 ms: 18 ticks 36.36 ms, {others}",
    ]


def test_what_is_refused_comes_with_the_programs_status(tmp_path):
    file = tmp_path / "plant.toml"
    file.write_text(EXAMPLE.replace("watchdog = 5", "watchdgo = 5"))
    status, said, _ = gatepast("check", file)
    assert (
        status == 3
        and said.startswith("line 6 is: [[connection]]\nconfig Missing connection 1 watchdog\n")
        and "watchdog is meant" in said
    )
    file.write_bytes(b"\xff")
    for words in (["check", file], ["check", tmp_path / "none"], ["explain", tmp_path / "none"], ["explain", "-"]):
        status, said, why = gatepast(*words)
        assert (status, said) == (2, "") and why.startswith("gatepast: ")
    file.write_text("[plant\n")
    status, said, _ = gatepast("check", file)
    assert status == 3 and said.startswith("line 1 is: [plant\nconfig Syntax\n")
    assert "no program at" in gatepast("--program", tmp_path, "check", file)[2]


def test_what_is_no_report_is_refused(tmp_path):
    """A program that answers nothing, no report, another report, or that the system can't run."""
    lines = {"nothing": "", "words": "echo all is well", "other": "echo other none", "binary": "printf '\\377'"}
    for name, text in {**{name: f"#!/bin/sh\n{line}\n" for name, line in lines.items()}, "none": "no program"}.items():
        (tmp_path / name).write_text(text)
        (tmp_path / name).chmod(0o700)
        status, said, why = gatepast("--program", tmp_path / name, "check", TOP / "examples" / "emergency_stop.toml")
        assert (status, said) == (2, "") and why.startswith("gatepast: ") and why.count("\n") == 1, name
    plant, script = TOP / "examples" / "emergency_stop.toml", TOP / "examples" / "emergency_stop.script"
    others = (["vectors"], ["campaign", 1, 2, "--fresh"], ["conform", "true"])
    for words in (["plant", plant, script], ["generate", plant], *others):
        status, _, why = gatepast("--program", "/bin/true", *words)
        assert status == 2 and re.fullmatch("gatepast: .*\n", why), words


def test_the_version_is_that_of_the_package():
    version = re.search("(?m)^Version: (.*)$", (TOP / "embed" / "gatepast.pc.in").read_text())[1]
    assert gatepast("--version") == (0, f"gatepast {version}\n", "")
