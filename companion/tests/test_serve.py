"""The server of the page: what it answers, what it refuses, how it ends; and what `plant` says and writes for it."""
import http.client
import json
import pathlib
import re
import signal
import socket
import subprocess
import sys
import threading
import time
import tomllib

import pytest
from conftest import COMPANION, ENVIRONMENT, TOOL, TOP, WITH_LAB, gatepast
from layer import serve
from layer.journal import header_of
from layer.startup import connections, needed

EXAMPLE = (TOP / "examples" / "emergency_stop.toml").read_text()
SCRIPT = (TOP / "examples" / "emergency_stop.script").read_text()
HOSTILE = EXAMPLE.replace('"perfect"', '"hostile"')
UP, NEVER = "came to Data first in tick", "connection 2 never came to Data"
ASKED = {"configuration": EXAMPLE, "script": SCRIPT, "rates": [], "fresh": False}


class Served:
    """A server in a thread of its own, of programs that are named."""

    def __init__(self, folder, program="/bin/false", lab="/bin/false"):
        self.server = serve.Server(0, serve.Runs(str(program), str(lab), str(folder)))
        threading.Thread(target=self.server.serve_forever, args=(0.05,), daemon=True).start()

    def asked(self, method="GET", place="", body=None, token=None, **headers):
        """Status, headers and text of an answer."""
        ask = http.client.HTTPConnection("127.0.0.1", self.server.server_address[1], timeout=60)
        ask.request(method, f"/{token or self.server.token}/{place}", body, headers)
        answer = ask.getresponse()
        return answer.status, dict(answer.getheaders()), answer.read().decode()

    def plant(self, asked=None):
        """Status and answer for a plant."""
        status, _, text = self.asked("POST", "plant", json.dumps(asked or ASKED))
        return status, json.loads(text) if status == 200 else text


@pytest.fixture(scope="module")
def served(tmp_path_factory):
    return Served(tmp_path_factory.mktemp("runs"))


def script_file(path, text):
    """A program for a test."""
    path.write_text(f"#!/bin/sh\n{text}\n")
    path.chmod(0o700)
    return path


def is_ended(pid):
    """Whether a process ends, or only waits for who asks how it did."""
    state = pathlib.Path(f"/proc/{pid}/stat")
    for _ in range(100):
        if not state.exists() or state.read_text().rpartition(")")[2].split()[0] == "Z":
            return True
        time.sleep(0.1)
    return False


def test_the_page_is_given_and_knows_that_it_is_served(served):
    status, headers, text = served.asked()
    page = (TOP / "docs" / "page.html").read_text()
    assert (status, text) == (200, page.replace('<html lang="en"', '<html lang="en" data-server', 1)) and text != page
    assert headers["Cache-Control"] == "no-store" and "connect-src 'self'" in headers["Content-Security-Policy"]
    assert served.server.socket.getsockname()[0] == "127.0.0.1" and len(served.server.token) >= 40


def test_what_is_not_the_pages_is_refused(served):
    own, most = served.server.host, serve.MOST
    for status, words, wanted in (
        (403, {"Host": "gatepast.example"}, f"this server is asked as {own} alone"),
        (403, {"Host": own.replace("127.0.0.1", "localhost")}, f"this server is asked as {own} alone"),
        (403, {"token": "x" * len(served.server.token)}, "the address lacks the token: open the one that"),
        (403, {"token": "%00"}, "the address lacks the token: open the one that"),
        (403, {"Origin": "http://gatepast.example"}, "another page asks"),
        (404, {"place": "../../README.md"}, "there is no such place here"),
        (404, {"place": "page.html"}, "there is no such place here"),
        (404, {"method": "POST"}, "there is no such place here"),
        (404, {"place": "plant"}, "there is no such place here"),
        (413, {"method": "POST", "place": "plant", "body": b" " * (most + 1)}, "a request has at most 1,048,576 bytes"),
        (413, {"method": "POST", "body": b"", "Content-Length": "9" * 5000}, "a request has at most 1,048,576 bytes"),
        (411, {"method": "POST", "place": "plant", "body": b"", "Content-Length": "-1"}, "a request says its length"),
        (411, {"method": "POST", "body": b"", "Transfer-Encoding": "chunked"}, "a request says its length"),
        (501, {"method": "PUT", "body": b"1"}, "Server does not support this operation"),
    ):
        came, headers, text = served.asked(**words)
        assert (came, text.count("\n")) == (status, 1) and text.startswith(wanted), words
        assert headers["Content-Type"].startswith("text/plain")
    for path in ("/", f"/{served.server.token}", "//", "/plant"):
        ask = http.client.HTTPConnection("127.0.0.1", served.server.server_address[1], timeout=60)
        ask.request("GET", path)
        assert ask.getresponse().status == (404 if served.server.token in path else 403)
    with socket.create_connection(served.server.server_address[:2]) as ask:
        ask.sendall(f"GET /\xe9/ HTTP/1.0\r\nHost: {own}\r\n\r\n".encode("latin-1"))
        assert ask.makefile().read().startswith("HTTP/1.0 403 ")


def test_what_the_page_does_not_send_is_refused(served):
    strange = ({"rates": 1}, {"rates": [1]}, {"rates": "1234"}, {"fresh": 1}, {"script": 1}, {"script": "\ud800"})
    rates = ({"rates": [0, 0, 0, rate]} for rate in (-1, 10_001, "--chart", 0.5, True))
    bodies = (json.dumps(ASKED | change).encode() for change in (*strange, *rates))
    for body in (b"", b"\xff", b"[1]", b"{}", b"[" * 100_000, *bodies):
        status, _, text = served.asked("POST", "plant", body)
        assert (status, text) == (400, "this isn't what the page of this server sends\n"), body
    assert not list(pathlib.Path(served.server.runs.folder).iterdir())


def test_one_run_is_at_a_time(served, monkeypatch):
    monkeypatch.setattr(serve, "WAIT_SECONDS", 0.1)
    with served.server.runs.turn:
        assert served.plant() == (429, "another plant is running: try again when it has ended\n")
    assert served.plant()[0] == 200


@WITH_LAB
def test_no_configuration_ends_in_a_traceback(tmp_path):
    conf = tmp_path / "plant.toml"
    lines = EXAMPLE.replace('"perfect"', '"""perfect"""')
    for text in ("plant = 1", EXAMPLE + "a = " + "[" * 5000, EXAMPLE + "a = " + "1" * 5000, "\ufeff" + EXAMPLE, lines):
        conf.write_text(text, encoding="utf-8")
        for command in (["check", conf], ["plant", conf, "-", "--rates", 1, 1, 1, 1]):
            assert "Traceback" not in gatepast(*command, text=SCRIPT)[2], text[-20:]


@pytest.mark.parametrize("what", ("", "kill -9 $PPID; "))
def test_a_run_that_takes_long_is_ended_with_all_that_it_started(tmp_path, monkeypatch, what):
    monkeypatch.setattr(serve, "RUN_SECONDS", 1.5)
    program = script_file(tmp_path / "program", f'echo $$ >"{tmp_path}/pid"; {what}exec sleep 600')
    (tmp_path / "runs").mkdir()
    one = Served(tmp_path / "runs", program)
    begun = time.monotonic()
    status, answer = one.plant()
    assert status == 200 and answer["check"]["status"] == 2 and time.monotonic() - begun < 30
    assert answer["check"]["lines"][0].startswith("a run may take 1.5 seconds here, and this one was ended")
    assert is_ended(int((tmp_path / "pid").read_text()))
    assert not list((tmp_path / "runs").iterdir())
    (tmp_path / "runs").rmdir()
    assert one.plant()[0] == 500


@WITH_LAB
def test_what_is_answered_is_what_the_commands_say(tmp_path):
    one = Served(tmp_path, ENVIRONMENT["GATEPAST_TOOL"], ENVIRONMENT["GATEPAST_LAB"])
    conf, script, chart = tmp_path / "plant.toml", tmp_path / "plant.script", tmp_path / "chart.html"
    rates = {"rates": [100, 100, 100, 100], "fresh": True}
    for asked in (
        ASKED,
        ASKED | rates,
        ASKED | {"configuration": HOSTILE},
        ASKED | {"script": "fsoe 1 plant\nt 2\nx\nend\n"},
        ASKED | {"script": "fsoe 1 plant\nt 0\nend\n"},
        ASKED | {"configuration": EXAMPLE.replace("watchdog", "watchdgo", 1)},
    ):
        status, answer = one.plant(asked)
        conf.write_text(asked["configuration"])
        script.write_text(asked["script"])
        chart.unlink(missing_ok=True)
        checked, said, _ = gatepast("check", conf)
        assert (status, answer["check"]) == (200, {"status": checked, "lines": said.splitlines()})
        if checked:
            assert answer["plant"]["lines"] == [] and "chart" not in answer
            continue
        words = ["--rates", *asked["rates"], "--fresh"] if asked["rates"] else []
        ran, said, why = gatepast("plant", conf, script, "--chart", chart, *words)
        assert answer["plant"] == {"status": ran, "lines": (said + why.removeprefix("gatepast: ")).splitlines()}
        assert answer.get("chart") == (chart.read_text() if chart.exists() else None)
        assert len(answer.get("schedules", [])) == (2 if chart.exists() else 0)


@pytest.mark.parametrize("name", (signal.SIGINT, signal.SIGTERM, signal.SIGHUP))
def test_the_server_ends_when_it_is_told_also_twice_and_during_plant(tmp_path, name):
    part, pid = tmp_path / "part", tmp_path / "pid"
    checked = 'if [ $(wc -l) = 2 ]; then printf "ticks 0\\nother none\\n"; exit 0; fi'
    program = script_file(tmp_path / "program", f'{checked}; echo $$ >"{part}"; mv "{part}" "{pid}"; exec sleep 600')
    (tmp_path / "temp").mkdir()
    words = [sys.executable, COMPANION / "gatepast", "--program", program, "serve", "--lab", program]
    environment = ENVIRONMENT | {"TMPDIR": str(tmp_path / "temp")}
    run = subprocess.Popen(words, stdout=subprocess.PIPE, stderr=subprocess.PIPE, text=True, env=environment)
    found = re.fullmatch(r"The page is at http://(127\.0\.0\.1:\d+)(/[\w-]{40,}/)\n", run.stdout.readline())
    assert run.stdout.readline() == "It answers this machine alone, and only who has this address. Ctrl-C ends it.\n"
    ask = http.client.HTTPConnection(found[1], timeout=60)
    ask.request("POST", f"{found[2]}plant", json.dumps(ASKED))
    while not pid.exists():
        time.sleep(0.05)
    busy = gatepast("--program", program, "serve", "--lab", program, "--port", found[1].split(":")[1])
    assert (busy[0], busy[1]) == (2, "") and "can't be used: Address already in use" in busy[2]
    run.send_signal(name)
    run.send_signal(name)
    assert run.wait(30) == 0 and (run.stdout.read(), run.stderr.read()) == ("", "")
    assert is_ended(int(pid.read_text())) and not list((tmp_path / "temp").iterdir())


def test_a_server_without_programs_or_of_a_strange_port_is_refused(tmp_path):
    for words in (["--program", tmp_path, "serve"], ["serve", "--lab", tmp_path / "no"]):
        status, said, why = gatepast(*words)
        assert (status, said) == (2, "") and why.startswith("gatepast: no program at ")
    for port in ("65536", "0x1", "http"):
        status, said, why = gatepast("serve", "--port", port)
        assert (status, said) == (2, "") and f"{port} isn't a port from 0 to 65535" in why


@WITH_LAB
@pytest.mark.parametrize("text, words", ((EXAMPLE, []), (HOSTILE, []), (EXAMPLE, ["--rates", 300, 300, 300, 300])))
def test_schedules_replay_as_the_connections_ran(tmp_path, text, words):
    conf, script = tmp_path / "plant.toml", "fsoe 1 plant\np 1 0500\np 2 0100\nt 30\ncut 1 1\nt 9\ncut 1 0\nt 20\nend\n"
    conf.write_text(text)
    status, _, _ = gatepast("plant", conf, "-", "--schedules", tmp_path, *words, text=script)
    tables = tomllib.loads(text)
    assert status in (0, 1)
    for number in (1, 2):
        lines = (tmp_path / f"connection_{number}.pair").read_text().splitlines()
        header = header_of(tables["connection"][number - 1])
        assert lines[: len(header)] == header and lines[-1] == "end"
        asked = "\n".join(lines) + "\n"
        replayed, report = TOOL.ask("replay", text=asked)
        assert replayed in (0, 1) and report.count("\n") == len(lines) - len(header) - 1 + 2
        events = lines[len(header) : -1]
        assert sum(event == "ts" for event in events) == 59
        came = [line for line in events if line[0] in "dar"]
        named = [line for line in came if line[0] in "da"]
        assert len(named) == len(came) if not words and text is EXAMPLE else len(named) > len(came) * 3 // 4
        if words:
            assert any(line[0] == "a" for line in events) and any(re.match("d. -[2-9]", line) for line in events)


def test_connections_are_listed():
    numbers = ([1], [2, 1], [1, 2, 3], [1, 2, 4], [9, 1, 3, 4, 5])
    wanted = ["connection 1", "connections 1 and 2", "connections 1 to 3", "connections 1, 2 and 4"]
    assert list(map(connections, numbers)) == [*wanted, "connections 1, 3 to 5 and 9"]


def test_a_drive_needs_the_connections_of_its_wire():
    tables = tomllib.loads(EXAMPLE) | {"plant": [{"app": "net"}]}
    assert needed("o2.0", tables) == {1, 2} and needed("o2.1", tables) == set()
    assert needed("o3.0", tables | {"plant": [{"app": "mirror"}]}) == {3}
    assert needed("o2.0", tables | {"plant": [{"app": "zeros"}]}) == set()


@WITH_LAB
@pytest.mark.parametrize(
    "script, wanted",
    (
        (
            "p 1 0500\np 2 0100\nt 2\np 1 0300\nt 2\np 1 0500\nt 2",
            f"connections 1 and 2 {UP} 1\ndrive o2.0 could run from tick 1 on, and went on first in tick 5",
        ),
        (
            "cut 1 1\nt 3\ncut 1 0\nt 6",
            f"connection 2 {UP} 1\nconnection 1 {UP} 6\ndrive o2.0 could run from tick 6 on, and never went on",
        ),
        ("cut 2 1\nt 3", f"connection 1 {UP} 1\n{NEVER}\ndrive o2.0 could never run: {NEVER}"),
    ),
)
def test_the_start_is_told(tmp_path, script, wanted):
    conf = tmp_path / "plant.toml"
    conf.write_text(EXAMPLE)
    status, told, _ = gatepast("plant", conf, "-", text=f"fsoe 1 plant\n{script}\nend\n")
    assert status == 0 and re.findall("^start: (.*)", told, re.M) == wanted.split("\n")


@WITH_LAB
@pytest.mark.parametrize("count, least", ((1, 2), (32, 2), (33, 3), (64, 3)))
def test_a_watchdog_that_is_shorter_than_a_round_is_told_and_expires(tmp_path, count, least):
    for watchdog in (least - 1, least):
        lines = f"address = 1\nwatchdog = {watchdog}\nmaster_length = 2\nslave_length = 2\n"
        connection = "".join(f"[[connection]]\nid = {number}\n{lines}" for number in range(1, count + 1))
        (tmp_path / "plant.toml").write_text(f'[plant]\napp = "zeros"\nchannel = "perfect"\n{connection}')
        _, told, _ = gatepast("plant", tmp_path / "plant.toml", "-", text="fsoe 1 plant\nt 20\nend\n")
        warned = f"too short, it needs {least} ticks at least: a round of {count} takes up to {least - 1}, as a tick"
        assert (warned in told) == ("warning" in told) == (watchdog < least)
        stays = told.count(" up: both its ends are in Data") == count and " down: " not in told
        assert stays == (watchdog >= least)
