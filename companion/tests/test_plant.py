"""Scripts for people, the causes of changes in a plant, its bounds, and its chart."""
import json
import re
import shutil
import tomllib
from dataclasses import replace
from types import SimpleNamespace

import pytest
from conftest import ENVIRONMENT, TOOL, TOP, WITH_LAB, gatepast
from hypothesis import given, settings, strategies
from layer.causes import Causes, drives_of
from layer.journal import Direction, Entry, Pair, Step, Way, bit_of, header_of, steps_of
from layer.plant import ran
from layer.program import Complaint, Tool
from layer.reactions import Seen, over_seeds, presses, with_key
from layer.script import MOST, Line, expanded
from layer.vectors import check_named

EXAMPLE = TOP / "examples" / "emergency_stop.toml"
SCRIPT = (TOP / "examples" / "emergency_stop.script").read_text()
BOUND = '\n[[bound]]\nestop = "i1.0"\ndrive = "o2.0"\n'
KEYS = 'app = "0a0b"\nrule = "exact"\nhand = 7\nmost = 6\nmaster_nonce = 300\nslave_nonce = 9\n\n[[block]]'
KEYS = EXAMPLE.read_text().replace("[[block]]", KEYS, 1)
HOSTILE = EXAMPLE.read_text().replace('"perfect"', '"hostile"') + BOUND
ON = "fsoe 1 plant\np 1 0500\np 2 0100\nt 2\np 1 0300\nt 2\np 1 0500\nt 2\n"
LAB = Tool(ENVIRONMENT.get("GATEPAST_LAB"))

BLOCKS = strategies.recursive(
    strategies.sampled_from(["t", "p 1 01", "h 1 0"]) | strategies.integers(1, 4),
    lambda inner: strategies.tuples(strategies.integers(1, 3), strategies.lists(inner, max_size=4)),
    max_leaves=12,
)


def written(block):
    """A block as people write it: a line, a number of ticks, or a repetition."""
    if isinstance(block, tuple):
        return [f"repeat {block[0]}  # again", "", *(f" {line}" for part in block[1] for line in written(part)), "done"]
    return [block if isinstance(block, str) else f"t {block}"]


def meant(block):
    if isinstance(block, tuple):
        return [line for part in block[1] for line in meant(part)] * block[0]
    return [block] if isinstance(block, str) else ["t"] * block


@given(strategies.lists(BLOCKS, max_size=4))
def test_scripts_are_expanded(blocks):
    lines = [line for block in blocks for line in written(block)]
    found = expanded("\n".join(lines))
    assert [line.text for line in found] == [line for block in blocks for line in meant(block)][:MOST]
    for line in found:
        source = lines[line.source - 1].strip()
        assert source == line.text or line.text == "t" and source.startswith("t ")


@pytest.mark.parametrize(
    "script, why",
    (
        ("t 0", "line 1 of the script, t 0: after t comes a number from 1"),
        ("# a\nrepeat x\ndone", "line 2 of the script, repeat x: after repeat comes a number from 1"),
        ("repeat", "line 1 of the script, repeat: after repeat comes a number from 1"),
        ("repeat 2\nt\ndone\ndone", "line 4 of the script: no repeat is open before this done"),
        ("repeat 2\nrepeat 3\nt\ndone", "line 1 of the script: this repeat has no done"),
    ),
)
def test_what_cannot_be_expanded_is_told(tmp_path, script, why):
    page = tmp_path / "a.html"
    assert gatepast("plant", EXAMPLE, "-", "--chart", page, text=script) == (2, "", f"gatepast: {why}\n")
    assert not list(tmp_path.iterdir())


def test_a_plain_script_is_what_the_program_reads():
    assert gatepast("plant", "--plain", EXAMPLE, "-", text=SCRIPT) == (0, SCRIPT, "")
    assert [line.text for line in expanded("app a#b # c\n#t\nt# 1")] == ["app a#b", "t# 1"]
    assert len(expanded("repeat 999999999\nrepeat 999999999\ndone\nt 999999999\ndone")) == MOST


def test_frames_are_found_again():
    direction = Direction()
    sent = ("0102", "0304", "0506", "0506", "0708", "0102")
    direction.sent = [Entry("m", "again", "Reset", "00", frame, at, "tm", None) for at, frame in enumerate(sent)]
    frames = ("0102", "0306", "0708", "0506", "0506", "0506", "ff00", "06", "0102")
    ways = [direction.found(frame) for frame in frames]
    assert [way.what for way in ways] == ["", "altered", "", "late", "late", "again", "never sent", "never sent", ""]
    assert [way.sent.step for way in ways if way.sent] == [0, 1, 4, 3, 2, 3, 5]


def test_bits_are_numbered_from_the_lowest_of_the_first_byte():
    assert [number for number in range(40) if bit_of("01800a", number)] == [0, 15, 17, 19]


def test_drives_are_in_the_order_of_their_places():
    tables = {"plant": [{"app": "net"}], "bound": [{"drive": "o1.0"}, {"drive": "o2.3"}]}
    assert drives_of(tables | {"drive": [{"out": out} for out in ("o10.0", "o2.11", "o2.3")]}) == [
        "o1.0",
        "o2.3",
        "o2.11",
        "o10.0",
    ]
    assert drives_of(tables | {"plant": [{"app": "zeros"}], "drive": [{"out": "o9.0"}]}) == ["o1.0", "o2.3"]


def test_a_frame_of_another_session_was_not_taken_last():
    entry, last = None, []
    for did, state in (("took Session", "Session"), ("quiet", "Session"), ("reset own", "Reset"), ("quiet", "Reset")):
        entry = Entry("s", did, state, "00", "", 0, "ts", entry)
        last.append(entry.last_taken())
    assert [taken.did if taken else None for taken in last] == [None, "took Session", "took Session", None]


@pytest.mark.parametrize("at, when", ((0, "in tick 1"), (1, "after tick 1")))
def test_it_is_said_when_a_frame_was_sent_or_taken(at, when):
    steps = [Step(["t"], 1, 0.5, None), Step(["z", "1"], 1, 1, None), Step(["t"], 2, 1.5, None)]
    taken = Entry("m", "took ProcessData", "Data", "00", "", at, "rm", None)
    lost = Way(Entry("s", "reset own", "Reset", "00", "2a", at, "zs", None), None, "lost")
    never, last = f"a frame that the slave sent {when} never came", f"it took its last frame {when}"
    for ways, why in (([lost], never), ([], last)):
        pair, expired = SimpleNamespace(ways=ways, cuts=[None] * 3), replace(taken, step=2, before=taken)
        assert Causes({}, steps, {}).why_none_came(pair, expired) == f": {why}"


def test_an_entry_that_is_other_is_the_one_of_its_number():
    class Replay:
        def ask(self, *_, text):
            return 1, "1 s quiet Reset 00\n2 m again Reset 00 > 2a\nevents 2\nother 2\n"

    steps = steps_of("t", [Line("fsoe 1 plant", 1), Line("t", 2)])
    pair = Pair(1, tomllib.loads(EXAMPLE.read_text())["connection"][0], steps, Replay())
    assert pair.other is pair.entries[1] and pair.other.did == "again"


def test_the_header_of_a_connection_has_all_that_is_configured():
    app = "0a" * 300
    lines = header_of(tomllib.loads(KEYS)["connection"][1] | {"app": app, "slave_address": 13})
    pieces = [f"{word} {part}" for word in ("app", "bytes") for part in (app[:512], app[512:])]
    slave = ["slave 13 7 6 9", "rule exact"]
    assert lines[2:] == ["master 2 12 5 300", *pieces[:2], *slave, *pieces[2:], "go"]


PUTS = [f"p {link} 0{bits}00" for link in (1, 2) for bits in range(8)]
OTHERS = ["h {} 0", "h {} 1", "z {}", "cut {} 1", "cut {} 0", "n {} m 9", "n {} s 300"]
LINES = strategies.sampled_from(PUTS + [line.format(link) for line in OTHERS for link in (1, 2)])


@WITH_LAB
def test_the_program_of_journals_takes_no_word_more():
    usage = "usage: fsoe_lab build|crc, journal|rates <file> [<lose> <alter> <repeat> <late>]\n"
    assert LAB.ask("journal", "file", *"12345") == LAB.ask("journal") == (2, usage)


@WITH_LAB
@settings(max_examples=12)
@given(strategies.lists(strategies.integers(1, 9).map("t {}".format) | LINES, max_size=25), strategies.integers(0, 99))
def test_replay_of_a_journal_says_what_the_report_says(lines, seed):
    last = ["app mirror", "t 3", "app zeros", "t", "end"]
    script = expanded("\n".join(["fsoe 1 plant", "p 1 0500", "p 2 0100", *lines, *last]))
    for text in (EXAMPLE.read_text(), KEYS, with_key(HOSTILE, "seed", seed)):
        status, report, done = ran(TOOL, LAB, text, script)
        others = [number for number, pair in done.pairs.items() if pair.other]
        assert f"\nother {others[0] if others else 'none'}\n" in report and status == bool(others)
        assert [step.line for step in done.steps if step.line] == script[1:-1]
        shown = [line for line in report.splitlines() if line[0] in "12"]
        for at, line in enumerate(shown):
            number, *wanted = line.split(" ")
            entries = [entry for entry in done.pairs[int(number)].entries if done.steps[entry.step].x < at // 2 + 1]
            ends = {entry.end: [entry.state, entry.outputs] for entry in entries}
            assert ends["m"] + ends["s"] == wanted
        for pair in done.pairs.values():
            pulls = [entry for entry in pair.entries if entry.event.startswith("r")]
            sent = [entry for entry in pair.entries if entry.sent]
            assert [way.got for way in pair.ways if way.got] == sorted(pulls, key=lambda entry: entry.end == "m")
            assert {id(way.sent) for way in pair.ways if way.sent} == set(map(id, sent))
            if "perfect" in text:
                assert {way.what for way in pair.ways} <= {"", "cut", "under way"}


def said(tmp_path, script, text=EXAMPLE.read_text() + BOUND, *words):
    """The lines that are said of a plant."""
    (tmp_path / "plant.toml").write_text(text)
    status, told, why = gatepast("plant", tmp_path / "plant.toml", "-", *words, text=script)
    assert (status, why) == (0, "")
    return told.splitlines()


@WITH_LAB
@pytest.mark.parametrize(
    "lines, wanted",
    (
        ("p 1 0400\nt\np 1 0500\nt", "tick 7: drive o2.0 off: stop i1.0 was pressed (line 9: p 1 0400)"),
        ("p 1 0000\np 2 0000\nt", "tick 7: drive o2.0 off: stop i1.0 was pressed (line 9: p 1 0000)"),
        ("h 1 1\nt", "tick 7: drive o2.0 off: the slave of connection 1 sends fail-safe data (line 9: h 1 1)"),
        ("p 2 0000\nt", "tick 7: drive o2.0 off: i2.0 fell (line 9: p 2 0000)"),
        ("z 2\nt", "after tick 6: drive o2.0 off: its slave was reset, line 9: z 2"),
        ("z 1\nt", "tick 7: drive o2.0 off: connection 1 is down: its slave was reset, line 9: z 1"),
        ("app zeros\nt", "tick 7: drive o2.0 off: another application runs (line 9: app zeros)"),
        ("cut 2 1\nt 9", "tick 12: drive o2.0 off: its slave was reset, watchdog expired (line 9: cut 2 1)"),
        (
            "cut 2 1\nt\ncut 2 0\ncut 2 1\nt 9",
            "tick 12: drive o2.0 off: its slave was reset, watchdog expired (line 9: cut 2 1)",
        ),
        (
            "cut 2 1\ncut 2 1\nt\ncut 2 0\nt 9",
            "tick 11: drive o2.0 off: its master was reset, watchdog expired (line 9: cut 2 1)",
        ),
        (
            "cut 1 1\nt 9",
            "tick 11: drive o2.0 off: connection 1 is down: its master was reset, watchdog expired (line 9: cut 1 1)",
        ),
    ),
)
def test_a_drive_goes_off_for_a_cause(tmp_path, lines, wanted):
    found = said(tmp_path, f"{ON}{lines}\nend\n")
    assert [line for line in found if " off: " in line] == [wanted]
    assert "tick 5: drive o2.0 on: i1.2 rose (line 7: p 1 0500)" in found


@WITH_LAB
def test_a_connection_goes_down_for_a_cause_of_its_session(tmp_path):
    found = said(tmp_path, ON + "cut 2 1\nt 9\ncut 2 0\nt 9\n" * 2 + "end\n")
    assert [line for line in found if "connection 2 " in line] == [
        "tick 1: connection 2 up: both its ends are in Data",
        "tick 11: connection 2 down: its master was reset, watchdog expired (line 9: cut 2 1)",
        "tick 16: connection 2 up: both its ends are in Data",
        "tick 29: connection 2 down: its master was reset, watchdog expired (line 13: cut 2 1)",
        "tick 34: connection 2 up: both its ends are in Data",
    ]


@WITH_LAB
@pytest.mark.parametrize(
    "script, old, wanted",
    (
        ("fsoe 1 plant\nt 3\nend", "", "this shows nothing: drive o2.0 was never on"),
        (f"{ON}end", "", "this shows nothing: stop i1.0 was never pressed with drive o2.0 on"),
        (
            f"{ON}end",
            'estop = "i1.0"',
            "this shows nothing: the application doesn't guard o2.0 by i1.1, so the bound was never active",
        ),
        (
            f"{ON}p 1 0400\nt 2\nend",
            "",
            "stop i1.0 was pressed once with drive o2.0 on; it was off after 1 tick; the limit is 20",
        ),
        (
            f"{ON}cut 1 1\np 1 0400\nt 2\np 1 0500\nt\np 1 0400\nt 9\nend",
            "",
            "stop i1.0 was pressed 2 times with drive o2.0 on; it was off after 2 ticks; "
            "1 of these ended before it was off; the limit is 20",
        ),
    ),
)
def test_bounds_are_said_in_words(tmp_path, script, old, wanted):
    text = EXAMPLE.read_text() + BOUND.replace(old, 'estop = "i1.1"') if old else EXAMPLE.read_text() + BOUND
    *_, line, words = said(tmp_path, script, text)
    assert line.startswith("bound ") and line.endswith(" kept") and words.strip() == wanted


@WITH_LAB
def test_what_is_refused_is_explained(tmp_path):
    page = tmp_path / "a.html"
    status, told, _ = gatepast("plant", EXAMPLE, "-", text="fsoe 1 plant\n# all\n\nt 2\nx 1\nend\n")
    assert status == 4 and "\nline 5 of the script is: x 1\nrefused 4 Word\nno event begins with this word\n" in told
    last = "line 3 of the script is: t\nrefused 4 End\n"
    for script, told in (("", "refused 1 End\n"), ("fsoe 1 plant\n#\nt 2\n", last)):
        assert gatepast("plant", EXAMPLE, "-", text=script)[1].partition("the text ends here")[0].endswith(told)
    (tmp_path / "plant.toml").write_text(EXAMPLE.read_text().replace("watchdog = 5", "watchdog = 0"))
    status, told, _ = gatepast("plant", tmp_path / "plant.toml", "-", "--chart", page, text=SCRIPT)
    assert status == 3 and told.startswith("line 9 is: watchdog = 0\nconfig Range connection 1 watchdog\n")
    for words in (["--rates", 0, 0, 0, 0], ["--seeds", 3, 5], []):
        put = "fsoe 1 plant\nt\np 1 0z00\nend"
        (tmp_path / "bound.toml").write_text(EXAMPLE.read_text() + BOUND)
        status, told, why = gatepast("plant", tmp_path / "bound.toml", "-", *words, text=put)
        assert (status, why) == (4, "") and "line 3 of the script is: p 1 0z00\nrefused 3 Hex\n" in told
    assert "name its file, or - for standard input" in gatepast("plant", EXAMPLE)[2]
    for words in (["none.toml"], ["none.toml", "none.script"]):
        assert gatepast("plant", *words) == (2, "", "gatepast: none.toml can't be read: No such file or directory\n")
    nowhere = tmp_path / "no" / "a.html"
    for words in (["--seeds", 4, 3], ["--seeds", 0, 10_000], ["--chart", nowhere], ["--lab", tmp_path]):
        status, told, why = gatepast("plant", EXAMPLE, "-", *words, text=SCRIPT)
        assert (status, told) == (2, "") and why.startswith("gatepast: ")
    assert not page.exists()
    (tmp_path / "lab").write_text("#!/bin/sh\n")
    (tmp_path / "lab").chmod(0o700)
    status, told, why = gatepast("plant", EXAMPLE, "-", "--lab", tmp_path / "lab", text=SCRIPT)
    assert (status, told) == (2, "") and "another number of ticks" in why


@WITH_LAB
def test_seeds_are_counted():
    script = expanded("fsoe 1 plant\np 1 0500\np 2 0100\nt 3\np 1 0300\nt\np 1 0500\nt\np 1 0400\nt 30\nend")
    assert over_seeds(TOOL, EXAMPLE.read_text() + BOUND, script, range(7)) == ([], [Seen({1: 7}, 7, 245)])
    with pytest.raises(Complaint):
        over_seeds(TOOL, EXAMPLE.read_text(), expanded("fsoe 1 plant\nx\nend"), range(1))
    for text in (HOSTILE, HOSTILE.replace("seed = 1\n", "")):
        wanted = tomllib.loads(text)
        wanted["plant"]["seed"] = 9
        assert tomllib.loads(with_key(text, "seed", 9)) == wanted


@WITH_LAB
def test_rates_and_fresh_ids_are_given(tmp_path):
    perfect = said(tmp_path, SCRIPT)
    seen = "drive o2.0 was on in 5 of 8 ticks; stop i1.0 was pressed once then, and the longest reaction was 5 ticks"
    for text in (EXAMPLE.read_text() + BOUND, HOSTILE):
        assert said(tmp_path, SCRIPT, text, "--rates", 0, 0, 0, 0) == [*perfect, seen]
    assert not any("up" in line for line in said(tmp_path, SCRIPT, HOSTILE, "--rates", 0, 10000, 0, 0))
    ids = "n 1 m 1,n 1 s 2,n 2 m 1,n 2 s 2,t,n 1 m 2,n 1 s 4,n 2 m 2,n 2 s 4,t"
    script = f"fsoe 1 plant,{ids},end,".replace(",", "\n")
    assert gatepast("plant", "--plain", "--fresh", EXAMPLE, "-", text="fsoe 1 plant\nt 2\nend") == (0, script, "")
    for words, why in ((["--rates", 1, 0, 0, 10000], "together"), (["--fresh"], "400 ticks fit, and not 401")):
        status, told, complaint = gatepast("plant", EXAMPLE, "-", *words, text="fsoe 1 plant\nt 401\nend")
        assert (status, told) == (2, "") and why in complaint


@WITH_LAB
def test_seeds_with_an_other_entry_are_told(tmp_path):
    (tmp_path / "plant.toml").write_text(HOSTILE)
    for first in (46, 47):
        script = "fsoe 1 plant\np 1 0500\np 2 0100\nt 60\nend"
        words = ["--seeds", first, 47, "--chart", tmp_path / "a.html"]
        status, told, _ = gatepast("plant", tmp_path / "plant.toml", "-", *words, text=script)
        assert '"others":1}' in (tmp_path / "a.html").read_text()
        assert status == 1 and f"\nseeds {first} to 47: 1 with an other entry, the first 47\n" in told
    assert re.search(r"^other (\d): .*\n  tick [1-9]\d*: in connection \1 a frame passed", told, re.M)


def test_presses_are_seen():
    bound, on, off = {"estop": "i1.0", "drive": "o2.0"}, {2: "0100"}, {2: "0000"}
    lines = ("fsoe 1 plant", "p 1 01", "t", "h 1 1", "t", "t", "h 1 0", "p 1 00", "t", "end")
    script = [Line(text, 0) for text in lines]
    assert [(press.tick, press.off) for press in presses(bound, script, [on, on, off, on])] == [(1, 3)]
    assert [(press.tick, press.off) for press in presses(bound, script, [on, on, on, on])] == [(1, None), (3, None)]


def data_of(tmp_path, script, text=EXAMPLE.read_text() + BOUND):
    """The data of the page of a run."""
    said(tmp_path, script, text, "--chart", tmp_path / "a.html")
    return json.loads(re.search(r'type="application/json">(.*)</script>', (tmp_path / "a.html").read_text())[1])


@WITH_LAB
@pytest.mark.parametrize(
    "lines, when",
    (("z 2\nt", "after tick 6: its slave was reset, line 9: z 2"), ("h 1 1\nt", "in tick 7: the slave of connection")),
)
def test_the_page_says_first_when_a_drive_went_off(tmp_path, lines, when):
    assert data_of(tmp_path, f"{ON}{lines}\nend")["first"][0].startswith(f"Drive o2.0 went off {when}")


@WITH_LAB
def test_the_proved_limit_is_told_where_its_premises_hold(tmp_path):
    text = EXAMPLE.read_text() + BOUND
    unlike = text.replace("watchdog = 5", "watchdog = 9", 1)
    for plant, script, limits in (
        (text, f"{ON}end", (17, 20)),
        (unlike, f"{ON}end", (25, 28)),
        (text.replace('estop = "i1.0"', 'estop = "i1.1"'), f"{ON}end", (None, 20)),
        (text, f"{ON}app zeros\nend", (None, 20)),
    ):
        (bound,) = data_of(tmp_path, script, plant)["bounds"]
        assert (bound["proved"], bound["limit"]) == limits
    readme = (TOP / "README.md").read_text()
    assert "2·5 + 2·5 − 3" in readme and "2·5 + 2·5 = 20" in readme
    (tmp_path / "plant.toml").write_text(HOSTILE.replace("seed = 1", "seed = 47"))
    words = [tmp_path / "plant.toml", "-", "--chart", tmp_path / "a.html"]
    assert gatepast("plant", *words, text="fsoe 1 plant\np 1 0500\np 2 0100\nt 60\nend")[0] == 1
    assert '"limit":20,"proved":null' in (tmp_path / "a.html").read_text()


BROWSER = next(filter(None, map(shutil.which, check_named("page").BROWSERS)), None)


def words_in(page, place):
    """The text of the first element of a page that a selector finds."""
    return page.value(f"document.querySelector('{place}').textContent")


def looks_at_the_bound(page):
    """Limits, lines and arrow of a drive that is off in tick 8, after a press before tick 4."""
    assert words_in(page, ".bound .count") == "after 5; proved: 17, report: 20"
    assert "off 17 ticks after the press at the latest" in words_in(page, "#bounds")
    assert page.value("document.querySelectorAll('#lines svg').length") == 5
    assert words_in(page, "#seeds").endswith("proved: 17, report: 20")
    page.value("data.others = 1; drawSeeds()")
    assert words_in(page, "#seeds").endswith("limit 20")
    assert words_in(page, "#window") == "The chart shows all 28 ticks"
    page.value("press('Home'); for (let closer = 0; closer < 9; closer++) press('+')")
    assert re.fullmatch("The chart shows ticks 1 to [2-6] of 28: .*", words_in(page, "#window"))
    page.value("go(5)")
    tip = page.value("Number(document.querySelector('#chart .arrow').getAttribute('x2'))")
    assert tip > page.value("x(7)") > page.value("width()")
    assert "#edges" in page.value("getComputedStyle(document.querySelector('#chart .arrow')).clipPath")
    page.value("for (let wider = 0; wider < 9; wider++) press('-'); press('Home')")


def looks_at_labels(page):
    """What isn't text has a label."""
    unnamed = ":not([aria-label]):not([aria-labelledby])"
    pictures = f"svg[role=img]{unnamed}, svg:not([role]):not([aria-hidden])"
    assert page.value("document.querySelectorAll('svg[role=img]').length") == 2
    assert page.value(f"document.querySelectorAll('{pictures}').length") == 0
    named = "every((part) => /[a-z]/.test(part.textContent))"
    assert page.value(f"[...document.querySelectorAll('button{unnamed}')].{named}")


@WITH_LAB
@pytest.mark.skipif(not BROWSER, reason="there is no Chromium")
def test_the_chart_shows_what_happened(tmp_path):
    script = SCRIPT.replace("end", "p 1 0500\ncut 1 0\nt 20\nend")
    said(tmp_path, script, HOSTILE.replace("hostile", "perfect"), "--chart", tmp_path / "a.html", "--seeds", "1", "3")
    other = "fsoe 1 plant\nt 4\n# all\nx 1\nend\n"
    words = ["--seeds", 3, 5, "--chart", tmp_path / "b.html"]
    assert gatepast("plant", EXAMPLE, "-", *words, text=other)[0] == 4
    page = check_named("page").Browser(BROWSER, tmp_path / "profile")
    page.opened((tmp_path / "a.html").as_uri())
    page.look(1200, 900, "dark")
    looks_at_the_bound(page)
    looks_at_labels(page)
    why = "connection 1 is down: its master was reset, watchdog expired (line 10: cut 1 1)"
    assert words_in(page, "h1") == f"Drive o2.0 went off in tick 8: {why}"
    lanes = page.value("[...document.querySelectorAll('.lane')].map((lane) => lane.dataset.name)")
    assert lanes == ["1 master", "1 slave", "2 master", "2 slave"]
    page.value(
        "(() => { const lane = document.querySelector('.lane .state').getBoundingClientRect();"
        "const at = { clientX: lane.right + 2, clientY: lane.top + 4, bubbles: true };"
        "document.getElementById('chart').dispatchEvent(new PointerEvent('pointermove', at)); })()"
    )
    told = page.value("[...document.querySelectorAll('#told p')].map((line) => line.textContent)")
    assert told[0] == "Tick 1" and told[-1].startswith("1 master: sent a frame, took Reset, took Session")
    page.value("dispatchEvent(new KeyboardEvent('keydown', { key: 'n' }))")
    assert words_in(page, "#told p") == "Tick 3"
    for width in (360, 1600):
        page.look(width, 900, "light")
        assert page.value("document.scrollingElement.scrollWidth") <= width
    page.opened((tmp_path / "b.html").as_uri())
    assert page.value("[...document.querySelectorAll('h1 div')].map((line) => line.textContent)") == [
        "The script was refused: line 4 of the script is: x 1; no event begins with this word",
        "All else is of what ran before that line",
        "No drive was on",
    ]
    assert words_in(page, "li.refused") == "x 1" and words_in(page, "#window") == "The chart shows all 4 ticks"
    assert words_in(page, "#seeds-head") == ""
    complaints = page.complaints
    page.end()
    assert complaints == []
