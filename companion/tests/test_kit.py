"""The vectors, and the comparison with a node program of another maker."""
import json
import re
import sys

import example_node
import pytest
from conftest import COMPANION, TOOL, TOP, gatepast
from hypothesis import given, strategies
from layer.rules import RULES, SETTINGS

EXAMPLE = COMPANION / "example_node.py"
ALTERED = (  # one line each
    ("POLYNOMIAL = 0x139B7", "POLYNOMIAL = 0x11021"),
    ("    return number % 65535 + 1 if crc(number) == noted[1] else number", "    return number"),
    ('(low(place) if place else b"")', "low(place)"),
    ("        if frame == self.kept:", "        if False:"),
    (
        "            if connection != 0:\n                raise Refused(3)",
        "            if connection != 0:\n                raise Refused(4)",
    ),
    ("self.reset(5)) if self.age == self.limit()", "self.reset(5)) if self.age > self.limit()"),
    ("if any(data[self.piece_length :]) or any(joined[at:]):", "if any(data[self.piece_length :]):"),
    ("        if self.session_id is None:", "        if True:"),
    ("            return connection != 0", "            return True"),
    ("return self.watchdog or self.settings", "return self.settings"),
    ("        self.outputs = data if command == PROCESS else bytes(self.receives)", "        self.outputs = data"),
    (r'bytes([code]).ljust(length, b"\0")', r'bytes([code]).ljust(length, b"\1")'),
    (
        "        return crcs == crcs_of(data, last, connection, number, command)",
        "        return crcs[:3] == crcs_of(data, last, connection, number, command)[:3]",
    ),
    (
        "        return crcs == crcs_of(data, last, connection, number, command)",
        "        return any(crcs == crcs_of(data, last, connection, n, command) for n in (number, number + 1))",
    ),
)


def faults(schema, value, whole, at="the vectors"):
    """What is otherwise than the schema says, by the words of a schema that this one uses."""
    if "$ref" in schema:
        schema = whole["$defs"][schema["$ref"].rsplit("/", 1)[1]]
    if "anyOf" in schema:
        return [] if any(not faults(one, value, whole) for one in schema["anyOf"]) else [f"{at}: {value!r}"]
    kinds = {"object": dict, "array": list, "string": str, "integer": int, "null": type(None)}
    wanted = [schema["type"]] if isinstance(schema.get("type"), str) else schema.get("type", list(kinds))
    if not isinstance(value, tuple(kinds[kind] for kind in wanted)) or value not in schema.get("enum", [value]):
        return [f"{at}: {value!r}"]
    found = []
    if isinstance(value, dict):
        known, others = schema.get("properties", {}), schema.get("additionalProperties", {})
        found += [f"{at} has no {name}" for name in schema.get("required", []) if name not in value]
        found += [f"{at} has {name}" for name in value if name not in known and others is False]
        for name, part in value.items():
            found += faults(known.get(name, others or {}), part, whole, f"{at}.{name}")
    if isinstance(value, list):
        found += [f"{at} is short"] if len(value) < schema.get("minItems", 0) else []
        found += [
            fault
            for number, part in enumerate(value)
            for fault in faults(schema.get("items", {}), part, whole, f"{at}[{number}]")
        ]
    if isinstance(value, str) and not re.search(schema.get("pattern", ""), value):
        found.append(f"{at}: {value!r}")
    return found


@pytest.fixture(scope="module")
def vectors():
    status, text, _ = gatepast("vectors")
    assert status == 0
    return json.loads(text)


def test_vectors_are_as_their_schema_says(vectors):
    schema = json.loads((COMPANION / "vectors.schema.json").read_text())
    assert faults(schema, vectors, schema) == []
    assert faults(schema, vectors | {"runs": [{}]}, schema)
    assert {run["command"] for run in vectors["runs"]} == {"node master", "node slave", "replay"}
    assert {event["code"] for run in vectors["runs"] for event in run["events"]} >= {
        f"{code:02x}" for code in range(12)
    }


def header_of(run, end):
    """The header of a node file by what the vectors have."""
    own = run["settings"][end]
    numbers = [
        own[name]
        for name in (
            ("connection_id", "address", "watchdog", "session_id")
            if end == "master"
            else ("address", "hand", "most", "session_id")
        )
    ]
    yield f"fsoe 1 node {end}"
    yield f"lengths {run['lengths']['master']} {run['lengths']['slave']}"
    yield " ".join([end, *map(str, numbers)])
    if own["profile_word"] is not None:
        yield f"profile {own['profile_word']}"
    if end == "master":
        yield from [f"app {own['application_parameters']}"] if own["application_parameters"] else []
    else:
        rule = own["rule"]
        yield f"rule {rule['kind']}" + (f" {rule['number']}" if rule["kind"] == "any" else "")
        yield from [("bytes " if rule["kind"] == "exact" else "range ") + rule["bytes"]] if rule.get("bytes") else []
    yield "go"


def test_vectors_tell_another_implementer_enough(vectors):
    for frame in vectors["frames"]:
        assert f"{example_node.remainder(bytes.fromhex(frame['covered'])):04x}" == frame["crc"]
    for run in vectors["runs"]:
        for name in run["settings"]:
            end = example_node.read_header(iter(header_of(run, name)))
            for event in run["events"]:
                if event["end"] == name:
                    word, *fields = event["event"].split(" ")
                    word, fields = ("d", [event["received"]]) if event["received"] else (word[0], fields)
                    did, sent = example_node.done(end, word, "".join(fields))
                    told = [did, example_node.STATES[end.state], end.outputs.hex(), sent.hex() if sent else None]
                    assert told == [event[part] for part in ("did", "state", "outputs", "sent")], (run["name"], event)


def test_places_of_rules_stand_in_the_page():
    headings = re.findall(r"^## (.*)$", (TOP / "docs" / "protocol.md").read_text(), re.M)
    anchors = {re.sub(r"[^a-z0-9 -]", "", heading.lower()).replace(" ", "-") for heading in headings}
    assert {place for _, place, _, _ in RULES} <= anchors


@pytest.mark.parametrize("end", ("slave", "master"))
def test_the_proved_program_passes_at_each_end_alone(end):
    only = ["sh", "-c", f'test "$3" = {end} && exec "$@"', "sh"]
    status, said, _ = gatepast("conform", "--end", end, "--seeds", 0, "--", *only, *TOOL.command("node"))
    assert status == 0 and len(said.splitlines()) == len(RULES) + 1
    assert "differs" not in said and said.count("not tried") == len(RULES)


@pytest.mark.parametrize("old, new", ALTERED, ids=[new.strip() for _, new in ALTERED])
def test_altered_examples_are_caught(tmp_path, old, new):
    text = EXAMPLE.read_text()
    assert text.count(old) == 1
    (tmp_path / "node.py").write_text(text.replace(old, new))
    status, said, _ = gatepast("conform", "--first", "--seeds", 0, "--", sys.executable, tmp_path / "node.py")
    assert status == 1 and re.search(
        r"\n  event +\S.*\n  expected +\d.*\n  came +.*\n  rule +docs/protocol.md#[a-z-]+\n", said
    )


def test_programs_that_end_or_say_nothing_differ():
    half = "import time; print('1 reset', end='', flush=True); time.sleep(99)"
    for command in (["true"], ["cat"], ["sleep", "99"], ["yes"], [sys.executable, "-c", half]):
        status, said, _ = gatepast("conform", "--first", "--seeds", 0, "--patience", 0.1, "--", *command)
        assert status == 1 and "came" in said
    status, said, _ = gatepast("conform", "--seeds", 0, "--patience", 0.1, "--", "true")
    assert status == 1 and re.findall(r"^(.*), (slave|master), (.*): answer 1 differs$", said, re.M) == [
        (rule, end, SETTINGS[0].name) for rule, *_ in RULES for end in ("slave", "master")
    ]
    status, said, why = gatepast("conform", "--", "no-such-program")
    assert (status, said) == (2, "") and "no-such-program" in why


FRAMES = [
    line[2:] for line in (TOP / "crates" / "fsoe_tool" / "stdin").read_text().splitlines() if line.startswith("d ")
]
EVENT = strategies.one_of(
    strategies.sampled_from([f"d {frame}" for frame in FRAMES]),
    strategies.sampled_from(["t", "t", "z", "h 1", "h 0", "n 3", "p 0102"]),
    strategies.binary(min_size=1, max_size=9).map(lambda data: f"d {data.hex()}"),
)


@given(strategies.integers(0, len(FRAMES)), strategies.lists(EVENT, max_size=30))
def test_the_example_answers_as_the_program(count, events):
    lines = [
        "fsoe 1 node slave",
        "lengths 2 2",
        "slave 2 5 1000 2",
        "rule any 0",
        "go",
        *(f"d {frame}" for frame in FRAMES[:count]),
        *events,
    ]
    end = example_node.read_header(iter(lines))
    report = TOOL.ask("node", "slave", text="\n".join([*lines, "end", ""]))[1].splitlines()
    for line, answer in zip(lines[5:], report):
        did, sent = example_node.done(end, *line.partition(" ")[::2])
        assert answer.split(" ", 1)[1] == f"{did} {example_node.STATES[end.state]} {end.outputs.hex()}" + (
            f" > {sent.hex()}" if sent else ""
        )
