"""Serves the page on this machine, and there shows plants live.

It answers this machine alone, and only who has the address that it prints. What the page sends is run by `check` and
`plant` of the companion in a folder of its own, one run at a time, and each for a limited time. Ctrl-C ends it.
"""
from __future__ import annotations

import argparse
import json
import os
import pathlib
import secrets
import signal
import subprocess
import sys
import threading
import time
import webbrowser
from contextlib import suppress
from http.server import BaseHTTPRequestHandler
from socketserver import TCPServer, ThreadingMixIn
from tempfile import TemporaryDirectory
from typing import Any

from layer.program import LAB, TOP, Complaint, Tool, lab_of

HELP = "serves the page on this machine, to see plants live"
HOST = "127.0.0.1"
PAGE = TOP / "docs" / "page.html"
HEAD = '<html lang="en"'  # of the page, which learns here that it is served
MOST = 1 << 20  # bytes of a request
DROPPED = 8 * MOST  # that are read of a larger one
RUN_SECONDS = 20
WAIT_SECONDS = RUN_SECONDS + 2  # that a request waits for another one's run
PATIENCE = 10  # seconds without a byte of a request
REFUSED = 2  # the companion's status for what was given
ENDING = (signal.SIGINT, signal.SIGTERM, signal.SIGHUP)  # Ctrl-C, kill, and the end of the terminal
POLICY = (  # scripts and styles are in the page itself, which fetches from this server alone
    "default-src 'none'; script-src 'unsafe-inline' 'wasm-unsafe-eval'; style-src 'unsafe-inline'; img-src data:; "
    "connect-src 'self'; form-action 'none'; base-uri 'none'; frame-ancestors 'none'"
)


class Refusal(Exception):
    """Why a request isn't answered: the status, and a line for people."""

    def __init__(self, status: int, why: str) -> None:
        self.status, self.why = status, why


def plant_of(body: bytes) -> dict[str, Any]:
    """What the page asks for."""
    try:
        asked = json.loads(body)
        texts = [asked["configuration"], asked["script"]]
        rates, fresh = asked["rates"], asked["fresh"]
        numbers = len(rates) in (0, 4) and all(type(rate) is int and 0 <= rate <= 10_000 for rate in rates)
        if not numbers or type(fresh) is not bool or any(type(text) is not str for text in texts):
            raise TypeError
        "".join(texts).encode()
    except (ValueError, KeyError, TypeError, RecursionError) as why:
        raise Refusal(400, "this isn't what the page of this server sends") from why
    return asked


class Runs:
    """Runs of the companion's own commands, one at a time."""

    def __init__(self, program: str, lab: str, folder: str) -> None:
        self.folder = folder
        self.environment = os.environ | {"GATEPAST_TOOL": program, "GATEPAST_LAB": lab, "PYTHONUTF8": "1"}
        self.turn = threading.Lock()
        self.running: subprocess.Popen | None = None
        self.over = False

    def stop(self) -> None:
        """Ends all that the run started, also if itself it has ended."""
        run, self.running = self.running, None
        if run:
            with suppress(OSError):  # nothing of it is left
                os.killpg(run.pid, signal.SIGKILL)

    def end(self) -> None:
        """Ends the run, and begins no other one. Its folder is removed then."""
        self.over = True
        self.stop()
        self.turn.acquire(timeout=PATIENCE)

    def said(self, folder: str, until: float, *words: str) -> dict[str, Any]:
        """Status and lines of a command."""
        command = [sys.executable, "-B", TOP / "companion" / "gatepast", *words]
        pipes = {"stdin": subprocess.DEVNULL, "stdout": subprocess.PIPE, "stderr": subprocess.STDOUT}
        environment = self.environment | {"TMPDIR": folder}  # a run that is ended removes no file of its own
        with subprocess.Popen(
            command, cwd=folder, env=environment, start_new_session=True, encoding="utf-8", errors="replace", **pipes
        ) as run:
            self.running = run
            try:
                text, _ = run.communicate(timeout=0 if self.over else max(0, until - time.monotonic()))
            except subprocess.TimeoutExpired:
                why = f"a run may take {RUN_SECONDS} seconds here, and this one was ended"
                return {"status": REFUSED, "lines": [f"{why}: take fewer ticks or connections"]}
            finally:
                self.stop()
        return {"status": run.returncode, "lines": [line.removeprefix("gatepast: ") for line in text.splitlines()]}

    def answer(self, asked: dict[str, Any]) -> dict[str, Any]:
        """What `check` says of a configuration and, if that is taken, what `plant` says and makes of the run."""
        if not self.turn.acquire(timeout=WAIT_SECONDS):
            raise Refusal(429, "another plant is running: try again when it has ended")
        try:
            with TemporaryDirectory(dir=self.folder) as folder:
                return self.answer_in(pathlib.Path(folder), asked, time.monotonic() + RUN_SECONDS)
        except OSError as why:
            raise Refusal(500, f"the plant can't be run: {why}") from why
        finally:
            self.turn.release()

    def answer_in(self, folder: pathlib.Path, asked: dict[str, Any], until: float) -> dict[str, Any]:
        """The same in a folder, until a time."""
        (folder / "plant.toml").write_text(asked["configuration"], encoding="utf-8", newline="")
        (folder / "plant.script").write_text(asked["script"], encoding="utf-8", newline="")
        check = self.said(str(folder), until, "check", "plant.toml")
        if check["status"]:
            return {"check": check, "plant": {"status": 0, "lines": []}}
        rates = ["--rates", *map(str, asked["rates"])] if asked["rates"] else []
        words = [*rates, *["--fresh"][: asked["fresh"]], "--chart", "chart.html", "--schedules", "."]
        plant = self.said(str(folder), until, "plant", "plant.toml", "plant.script", *words)
        chart = folder / "chart.html"
        if not chart.exists():
            return {"check": check, "plant": plant}
        pairs = sorted(folder.glob("connection_*.pair"), key=lambda path: int(path.stem.partition("_")[2]))
        schedules = [path.read_text(encoding="utf-8") for path in pairs]
        return {"check": check, "plant": plant, "chart": chart.read_text(encoding="utf-8"), "schedules": schedules}


class Server(ThreadingMixIn, TCPServer):
    """The server, at a port of this machine. Its address has a token that only its user knows."""

    allow_reuse_address = True
    daemon_threads = True

    def __init__(self, port: int, runs: Runs) -> None:
        super().__init__((HOST, port), Handler)
        self.host = f"{HOST}:{self.server_address[1]}"
        self.runs, self.token = runs, secrets.token_urlsafe()
        self.address = f"http://{self.host}/{self.token}/"

    def handle_error(self, _request: Any, _address: Any) -> None:
        """A browser that goes away needs no answer; all else is told."""
        if not isinstance(sys.exc_info()[1], (ConnectionError, TimeoutError)):
            print(f"gatepast: a request failed: {sys.exc_info()[1]!r}", file=sys.stderr)


class Handler(BaseHTTPRequestHandler):
    """Answers a request."""

    timeout = PATIENCE
    server: Server
    server_version, sys_version = "gatepast", ""
    error_message_format, error_content_type = "%(explain)s\n", "text/plain; charset=utf-8"

    def log_message(self, *_: Any) -> None:
        """Nothing is written for a request."""

    def place(self) -> str:
        """Which of this server's places is asked for, if the request is by its page."""
        token, slash, place = self.path.removeprefix("/").partition("/")
        if self.headers.get_all("Host") != [self.server.host]:
            raise Refusal(403, f"this server is asked as {self.server.host} alone")
        if self.headers.get("Origin", f"http://{self.server.host}") != f"http://{self.server.host}":
            raise Refusal(403, "another page asks")
        if not secrets.compare_digest(token.encode("latin-1"), self.server.token.encode()):
            raise Refusal(403, "the address lacks the token: open the one that the companion printed")
        return place if slash else "nowhere"

    def length(self) -> int:
        """How many bytes the body of a request has."""
        said = self.headers.get("Content-Length", "0")
        if "Transfer-Encoding" in self.headers or not said.isdecimal() or not said.isascii():
            raise Refusal(411, "a request says its length")
        if len(said) > len(str(MOST)) or int(said) > MOST:
            raise Refusal(413, f"a request has at most {MOST:,} bytes")
        return int(said)

    def send(self, kind: str, data: bytes) -> None:
        """Sends an answer that nobody keeps."""
        self.send_response(200)
        for name, value in (
            ("Content-Type", f"{kind}; charset=utf-8"),
            ("Content-Length", str(len(data))),
            ("Content-Security-Policy", POLICY),
            ("Cache-Control", "no-store"),
            ("Referrer-Policy", "no-referrer"),
            ("X-Content-Type-Options", "nosniff"),
        ):
            self.send_header(name, value)
        self.end_headers()
        self.wfile.write(data)

    def answer(self, places: dict[str, Any]) -> None:
        """Answers by one of the places, or says why not. The body is read, too: else the answer might be lost."""
        try:
            body = self.rfile.read(self.length())
            place = self.place()
            if place not in places:
                raise Refusal(404, "there is no such place here")
            places[place](body)
        except Refusal as refusal:
            self.send_error(refusal.status, explain=refusal.why)
            if refusal.status == 413:
                self.rfile.read(DROPPED)

    def do_GET(self) -> None:
        """The page."""
        self.answer({"": self.send_page})

    def do_POST(self) -> None:
        """A plant."""
        self.answer({"plant": self.send_plant})

    def send_page(self, _body: bytes) -> None:
        page = PAGE.read_text(encoding="utf-8")
        self.send("text/html", page.replace(HEAD, f"{HEAD} data-server", 1).encode())

    def send_plant(self, body: bytes) -> None:
        answer = self.server.runs.answer(plant_of(body))
        self.send("application/json", json.dumps(answer).encode())


def port_of(text: str) -> int:
    """A port; the system chooses one for 0."""
    if not text.isdecimal() or not text.isascii() or int(text) > 65535:
        raise argparse.ArgumentTypeError(f"{text} isn't a port from 0 to 65535")
    return int(text)


def take(parser: argparse.ArgumentParser) -> None:
    parser.add_argument("--port", type=port_of, default=0, help="the port; the system chooses one if it isn't given")
    parser.add_argument("--open", action="store_true", help="open the page in the browser")
    parser.add_argument("--lab", metavar="FILE", help=LAB)


def ended(*_: Any) -> None:
    """What the first request of the system to end does. No other one breaks off what is removed then."""
    for name in ENDING:
        signal.signal(name, signal.SIG_IGN)
    raise KeyboardInterrupt


def run(given: argparse.Namespace, tool: Tool) -> int:
    program, lab = tool.command()[0], lab_of(given.lab).command()[0]
    if not PAGE.exists():
        raise Complaint(f"no page at {PAGE}")
    try:
        for name in ENDING:
            if name != signal.SIGHUP or signal.getsignal(name) != signal.SIG_IGN:  # nohup ignores it
                signal.signal(name, ended)
        with TemporaryDirectory(ignore_cleanup_errors=True) as folder:
            serve(Runs(program, lab, folder), given.port, given.open)
    except KeyboardInterrupt:
        pass
    return 0


def serve(runs: Runs, port: int, opened: bool) -> None:
    """Answers requests until it is ended."""
    try:
        server = Server(port, runs)
    except OSError as why:
        raise Complaint(f"port {port} can't be used: {why.strerror}") from why
    with server:
        print(f"The page is at {server.address}")
        print("It answers this machine alone, and only who has this address. Ctrl-C ends it.", flush=True)
        try:
            if opened:
                webbrowser.open(server.address)
            server.serve_forever()
        finally:
            runs.end()
