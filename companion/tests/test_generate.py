"""The C of a configuration compiles, and makes the calls that the configuration says."""
import functools
import json
import pathlib
import shutil
import subprocess
import tomllib

import pytest
from conftest import TOP, gatepast
from hypothesis import given, settings, strategies

pytestmark = pytest.mark.skipif(not shutil.which("gcc"), reason="there is no gcc")
EXAMPLE = TOP / "examples" / "emergency_stop.toml"
WARNINGS = ["-Wall", "-Wextra", "-Wpedantic", "-Wconversion", "-Wshadow", "-Werror", f"-I{TOP / 'embed'}"]
# The kinds in the order of their numbers in C, with the numbers of inputs that they may have
KINDS = {
    "const0": [0],
    "const1": [0],
    "and": range(1, 9),
    "or": range(1, 9),
    "latch": [2],
    "estop": [2],
    "twohand": [2],
    "ondelay": [1],
    "offdelay": [1],
    "feedback": [2],
}
NUMBER, POSITIVE = strategies.integers(0, 65535), strategies.integers(1, 65535)
LENGTH = strategies.sampled_from([1, 2, 4, 30, 126])


def compiled(*words):
    ran = subprocess.run(["gcc", "-std=c11", *WARNINGS, *map(str, words)], capture_output=True, text=True)
    assert ran.returncode == 0, ran.stderr


@functools.cache
def stand_in(folder):
    """What stands for the controller's calls."""
    compiled("-c", pathlib.Path(__file__).with_name("calls.c"), "-o", folder / "calls.o")
    return folder / "calls.o"


def made(folder, text, refused=0):
    """What the C of a configuration calls, and what plant_make then returns."""
    (folder / "plant.toml").write_text(text)
    assert gatepast("generate", folder / "plant.toml", "-o", folder / "plant.c") == (0, "", "")
    compiled(folder / "plant.c", stand_in(folder), "-o", folder / "made")
    if shutil.which("g++"):
        words = ["g++", "-std=c++11", "-fsyntax-only", *WARNINGS, "-x", "c++", folder / "plant.c"]
        ran = subprocess.run(words, capture_output=True, text=True)
        assert ran.returncode == 0, ran.stderr
    ran = subprocess.run([folder / "made", str(refused)], capture_output=True, text=True)
    return ran.stdout.splitlines(), ran.returncode


@strategies.composite
def plants(draw):
    """The text of a configuration, and the calls that it means."""
    lines, calls, inputs, outputs = ['[plant]\napp = "net"\nchannel = "hostile"'], [], [], []
    ids = strategies.lists(POSITIVE, min_size=1, max_size=4, unique=True)
    for number, conn in enumerate(draw(ids), 1):
        master, slave, address, watchdog = draw(LENGTH), draw(LENGTH), draw(NUMBER), draw(POSITIVE)
        app, nonce = draw(strategies.none() | strategies.binary(max_size=40)), draw(strategies.none() | NUMBER)
        lines += ["[[connection]]", f"slave_length = {slave}", f"id = {conn}", f"address = {address}"]
        lines += [f"watchdog = {watchdog:_}", f"master_length = {master:#x}"]
        lines += [f'app = "{app.hex().upper()}"'] if app is not None else []
        lines += [f"master_nonce = {nonce}"] if nonce is not None else []
        lines += draw(strategies.sampled_from([[], ['rule = "exact"', "slave_nonce = 9", "hand = 7", "most = 8"]]))
        nonce = 1 if nonce is None else nonce
        calls.append(f"connect {master} {slave} {conn} {address} {watchdog} 1 {nonce} 0 app {(app or b'').hex()}")
        inputs += [f"i{number}.{bit}" for bit in (0, 5, 8 * slave - 1)]
        outputs += [f"o{number}.{bit}" for bit in (0, 3, 8 * master - 1)]
    wires = inputs
    for number in range(1, draw(strategies.integers(0, 8)) + 1):
        kind, n = draw(strategies.sampled_from(list(KINDS))), draw(strategies.none() | NUMBER)
        count = draw(strategies.sampled_from(KINDS[kind]))
        ins = draw(strategies.lists(strategies.sampled_from(wires), min_size=count, max_size=count))
        lines += ["[[block]]", f"ins = {json.dumps(ins)}", f'kind = "{kind}"', f"n = {n}" if n is not None else ""]
        calls.append(" ".join(["block", str(list(KINDS).index(kind)), str(n or 0), *ins]))
        wires = [*wires, f"b{number}"]
    for out in draw(strategies.lists(strategies.sampled_from(sorted(set(outputs))), max_size=4, unique=True)):
        wire = draw(strategies.sampled_from(wires))
        lines += ["[[drive]]", f'from = "{wire}"', f"out = '{out}'"]
        calls.append(f"drive {out} {wire}")
    counts = [sum(call.startswith(kind) for call in calls) for kind in ("connect", "block", "drive")]
    return "\n".join(lines), [" ".join(map(str, ["open", *counts])), *calls, "start"]


@settings(max_examples=15)
@given(plants())
def test_the_calls_are_those_of_the_configuration(tmp_path_factory, plant):
    assert made(tmp_path_factory.getbasetemp(), plant[0]) == (plant[1], 0)


def test_the_example_is_made_as_it_stands(tmp_path):
    text = EXAMPLE.read_text()
    tables = tomllib.loads(text)
    calls, code = made(tmp_path, text)
    assert code == 0 and calls == [
        "open 2 6 1",
        "connect 2 2 1 11 5 1 1 0 app ",
        "connect 2 2 2 12 5 1 1 0 app ",
        *(f"block {list(KINDS).index(block['kind'])} 0 {' '.join(block['ins'])}" for block in tables["block"]),
        "drive o2.0 b6",
        "start",
    ]
    for number in range(1, len(calls) + 1):
        assert made(tmp_path, text, number) == (calls[:number], 77)


def test_the_largest_controller_compiles(tmp_path):
    lengths, app = "master_length = 126\nslave_length = 126", "5a" * 512
    row = f"[[connection]]\nid = {{0}}\naddress = {{0}}\nwatchdog = 9\n{lengths}\napp = '{app}'\n"
    connections = "".join(map(row.format, range(1, 65)))
    ins = ["i1.0", "i2.0", "i3.0", "i4.0", "i5.0", "i6.0", "i7.0", "i64.1007"]
    blocks = f'[[block]]\nkind = "or"\nins = {ins}\n' * 256
    outs = [f"o{number % 64 + 1}.{number // 64}" for number in range(1024)]
    drives = "".join(f'[[drive]]\nout = "{out}"\nfrom = "b256"\n' for out in outs)
    text = f'[plant]\napp = "net"\nchannel = "perfect"\n{connections}{blocks}{drives}'
    calls, code = made(tmp_path, text)
    assert code == 0 and len(calls) == 1 + 64 + 256 + 1024 + 1
    assert calls[64] == f"connect 126 126 64 64 9 1 1 0 app {app}" and calls[-2] == "drive o64.15 b256"


@pytest.mark.parametrize(
    "old, new, status, why",
    (
        ("watchdog = 5", "watchdog = 0", 3, "line 9 is: watchdog = 0\nconfig Range connection 1 watchdog\n"),
        ('"b1"]', '"b9"]', 3, 'line 31 is: ins = ["i1.2", "b9"]\nconfig Later 2\n'),
        ('app = "net"', 'app = "mirror"', 2, "gatepast: {} runs mirror: a controller in C runs the net alone\n"),
    ),
)
def test_what_is_refused_is_told(tmp_path, old, new, status, why):
    file = tmp_path / "plant.toml"
    file.write_text(EXAMPLE.read_text().replace(old, new, 1))
    ended, said, told = gatepast("generate", file, "-o", tmp_path / "plant.c")
    assert (ended, said) == (status, "") and told.startswith(why.format(file))
    assert not (tmp_path / "plant.c").exists()


def test_what_cannot_be_read_or_written_is_told(tmp_path):
    for words in ([tmp_path / "none"], [EXAMPLE, "-o", tmp_path / "no" / "plant.c"]):
        ended, said, told = gatepast("generate", *words)
        assert (ended, said) == (2, "") and told.startswith("gatepast: ")
    odd = tmp_path / "a*! b.toml"
    odd.write_text(EXAMPLE.read_text())
    assert " of a___b.toml, " in gatepast("generate", odd)[1]
