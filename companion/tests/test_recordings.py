"""Captures, the dissector and the judging of recordings."""
import re
import shutil
import struct
import subprocess

import pytest
from conftest import COMPANION, TOOL, gatepast
from example_node import COMMANDS
from hypothesis import given, strategies
from layer.capture import PCAP, checksum, packets
from layer.recording import Frame, verdicts
from layer.words import WORDS

SESSION = "\n".join(
    ["fsoe 1 pair", "lengths {}", "master 1 2 100 1", "{}slave 2 100 1000 2", "{}rule any 0", "go", "tm"]
)
WITH_TSHARK = pytest.mark.skipif(not shutil.which("tshark"), reason="there is no tshark")


def report_of(events, lengths="2 2", profile=""):
    """The report of both ends over these events after the master's first tick."""
    return TOOL.ask("replay", text="\n".join([SESSION.format(lengths, profile, profile), *events, "end", ""]))[1]


def frames_in(report):
    return re.findall(r"^\d+(?: \d+)? ([ms]) .* > (.*)$", report, re.M)


def said_of(report, lengths="2 2", change=lambda frames: frames):
    """What is said of the parts of a recording of a report's frames, from number 1 on."""
    frames = [Frame(number, end, bytes.fromhex(data)) for number, (end, data) in enumerate(frames_in(report), 1)]
    return [verdict for *_, verdict in verdicts(change(frames), tuple(map(int, lengths.split(" "))), TOOL)]


@given(strategies.lists(strategies.tuples(strategies.sampled_from("ms"), strategies.binary(min_size=1, max_size=255))))
def test_captures_have_the_frames_of_a_report(frames):
    report = "".join(
        f"{number} {number % 16 + 1} {end} took Reset Reset 00 > {frame.hex()}\n"
        for number, (end, frame) in enumerate(frames, 1)
    )
    records = list(packets(report, 51000))
    assert len(records) == len(frames)
    for number, ((end, frame), record) in enumerate(zip(frames, records), 1):
        seconds, microseconds, length, whole = struct.unpack("<IIII", record[:16])
        header, udp = record[16:36], record[36:]
        assert (seconds * 1000 + microseconds // 1000, length, whole) == (number, len(record) - 16, len(record) - 16)
        assert checksum(header) == 0 and struct.unpack(">H", header[2:4]) == (length,)
        hosts = (1, 2) if end == "m" else (2, 1)
        assert header[12:20] == bytes(part for host in hosts for part in (10, 0, number % 16 + 1, host))
        ports = [50999 + host for host in hosts]
        assert struct.unpack(">HHHH", udp[:8]) == (*ports, len(udp), 0) and udp[8:] == frame


def test_a_report_without_frames_leaves_no_file(tmp_path):
    status, said, why = gatepast("pcap", "-", "--into", tmp_path / "a.pcap", text="events 0\n")
    assert (status, said) == (2, "") and "no line of a replay" in why and not list(tmp_path.iterdir())
    for into in (tmp_path / "no" / "a.pcap", tmp_path):
        status, said, why = gatepast("pcap", "-", "--into", into, text="1 m again Reset 00 > 2a\n")
        assert (status, said) == (2, "") and "can't be written" in why
        assert not [*tmp_path.iterdir(), *tmp_path.parent.glob("*.part")]


@pytest.mark.parametrize("line", ("5 999 m took", "5 0 m took", "5 17 s took"))
def test_a_line_that_replay_never_writes_is_refused(tmp_path, line):
    for frame in ("2a00", "2a0", "2a" * 65_508):
        text = f"1 m again Reset 0000 > 2a\n{line} > {frame}\n"
        status, said, why = gatepast("pcap", "-", "--into", tmp_path / "a.pcap", text=text)
        assert (status, said) == (2, "") and why.startswith(f"gatepast: replay writes no line '{line}")
        text, is_right = text.replace(line, "5 16 m took"), frame == "2a00"
        status, said, why = gatepast("pcap", "-", "--into", tmp_path / "a.pcap", text=text)
        assert (status, said) == ((0, "2 frames\n") if is_right else (2, "")) and why.count("\n") == (not is_right)


def test_a_port_leaves_room_for_the_next_one(tmp_path):
    for port in ("0", "65535", "99999", "-1", "x"):
        for words in (["pcap", "-", "--into", tmp_path / "a.pcap"], ["trace", tmp_path / "a.pcap", "--lengths", 2, 2]):
            status, said, why = gatepast(*words, "--port", port, text="1 m again Reset 0000 > 2a\n")
            assert (status, said) == (2, "") and "Traceback" not in why and "65534" in why
    words = ["pcap", "-", "--into", tmp_path / "a.pcap", "--port", "65534"]
    assert gatepast(*words, text="1 m again Reset 0000 > 2a\n") == (0, "1 frames\n", "")


def test_the_dissector_has_the_words_of_the_page():
    text = (COMPANION / "gatepast.lua").read_text()
    codes = dict(re.findall(r'^  \[0x0([0-9a-f])\] = "(.*)",$', text.partition("CODES = {")[2], re.M))
    assert {f"0{code}": words for code, words in codes.items()} == WORDS["codes"]
    commands = re.findall(r'^  \[0x(..)\] = "(\w+)",$', text.partition("CODES")[0], re.M)
    assert {int(byte, 16): name for byte, name in commands} == COMMANDS


def dissected(folder, report, names, lengths):
    """What the dissector tells of each frame of a report under these names, if it is told these lengths."""
    (folder / "a.pcap").write_bytes(PCAP + b"".join(packets(report, 52000)))
    words = ["tshark", "-X", f"lua_script:{COMPANION / 'gatepast.lua'}", "-r", folder / "a.pcap", "-T", "fields"]
    for name, number in zip(("port", "master_length", "slave_length"), (52000, *lengths.split(" "))):
        words += ["-o", f"gatepast.{name}:{number}"]
    words += [word for name in names for word in ("-e", name)]
    return [line.split("\t") for line in subprocess.run(words, capture_output=True, text=True).stdout.splitlines()]


@WITH_TSHARK
@pytest.mark.parametrize("lengths", ("1 1", "4 6"))
def test_the_dissector_reads_each_frame(tmp_path, lengths):
    report = report_of([f"pm {'ab' * int(lengths[0])}", *["ds -1", "dm -1"] * 20], lengths)
    names = [f"gatepast.{name}" for name in ("sender", "command", "code", "data", "crc", "connection")]
    said = dissected(tmp_path, report, [*names, "_ws.col.Info"], lengths)
    for line, (end, frame) in zip(said, frames_in(report), strict=True):
        sender, command, code, data, crcs, connection, info = line
        assert code == (f"0x{frame[2:4]}" if command == "0x2a" else "")
        assert info == f"{sender} {COMMANDS[int(command, 16)]} {data}"
        groups = re.findall("..?.?.?" if data[2:] else "..", data)
        again = f"{int(command, 16):02x}" + "".join(
            group + struct.pack("<H", int(crc, 16)).hex() for group, crc in zip(groups, crcs.split(","), strict=True)
        )
        assert (sender[0], again + struct.pack("<H", int(connection)).hex()) == (end, frame)


@WITH_TSHARK
@pytest.mark.parametrize("lengths, right", (("0 0", [{6, 7, 11, 255}] * 2), ("1 4", [{6}, {11}]), ("4 1", [{11}, {6}])))
def test_the_dissector_finds_wrong_lengths(tmp_path, lengths, right):
    frames = [(end, length) for length in (1, 2, 3, 5, 6, 7, 8, 9, 10, 11, 13, 255, 259) for end in (0, 1)]
    report = "".join(f"{at} {'ms'[end]} again Reset 00 > {'2a' * length}\n" for at, (end, length) in enumerate(frames))
    said = dissected(tmp_path, report, ["gatepast.length", "gatepast.command"], lengths)
    assert said == [["", "0x2a"] if length in right[end] else ["1", ""] for end, length in frames]


def test_recordings_are_judged_session_by_session():
    on, told, ended = ["ds -1", "dm -1"], "conforms, read 1 2 100 0", "not judged: the slave ended a session"
    assert said_of(report_of(on * 9)) == [told]
    assert said_of(report_of([*on * 9, "zs", "dm -1", *on * 9])) == [told, ended, told]
    assert said_of(report_of(on * 9), change=lambda frames: frames[1:])[0] == ended
    assert said_of(report_of(on * 9), change=lambda frames: frames[4:]) == [
        "not judged: it starts in the middle of a session"
    ]
    assert said_of(report_of(on * 9), change=lambda frames: [*frames, Frame(0, "m", bytes(256))])[0].endswith(
        "255 bytes"
    )
    late = said_of(report_of([*on * 3, *["tm"] * 100, *on * 9]))
    assert late[-1] == "not judged: it starts with a Reset frame of code 05, and only a start with 00 is judged"
    for lengths in ("1 1", "2 2", "4 4", "8 126"):
        for count in (12, 30):
            assert said_of(report_of(on * count, lengths, "profile 7\n"), lengths) == ["not judged: it has profile Two"]


@WITH_TSHARK
def test_what_differs_is_told_by_the_number_in_the_recording(tmp_path):
    report = report_of([*["ds -1", "dm -1"] * 9, "zs"])
    (tmp_path / "a.report").write_text(report)
    assert gatepast("pcap", tmp_path / "a.report", "--into", tmp_path / "a.pcap") == (0, "20 frames\n", "")
    capture, last = (tmp_path / "a.pcap").read_bytes(), bytes.fromhex(frames_in(report)[-2][1])
    (tmp_path / "a.pcap").write_bytes(capture.replace(last, last[:3] + bytes([last[3] ^ 1]) + last[4:]))
    subprocess.run(["tshark", "-r", tmp_path / "a.pcap", "-F", "pcapng", "-w", tmp_path / "a.pcapng"], check=True)
    status, said, _ = gatepast("trace", tmp_path / "a.pcapng", "--lengths", 2, 2, "--into", tmp_path)
    assert status == 1 and said.splitlines() == [
        "conversation 0 part 1, frames 1 to 19: differs in frame 19, Crc 0",
        "conversation 0 part 2, frames 20 to 20: not judged: the slave ended a session",
    ]
    for line in ("true", "echo other none"):
        (tmp_path / "program").write_text(f"#!/bin/sh\n{line}\n")
        (tmp_path / "program").chmod(0o700)
        said, why = gatepast("--program", tmp_path / "program", "trace", tmp_path / "a.pcap", "--lengths", 2, 2)[1:]
        assert "conforms" not in said and "Traceback" not in why
    assert (tmp_path / "0-1.trace").read_text().startswith("fsoe 1 trace\nlengths 2 2\ngo\nm 2a0000")
    assert gatepast("trace", tmp_path / "a.pcap", "--lengths", 2, 3)[:2] == (2, "")
    status, said, why = gatepast("trace", COMPANION / "gatepast.lua", "--lengths", 2, 2)
    assert (status, said) == (2, "") and why.startswith("gatepast: tshark")


@WITH_TSHARK
def test_a_datagram_that_icmp_quotes_is_left_out(tmp_path):
    report = report_of(["ds -1", "dm -1"] * 9)
    records = list(packets(report, 51000))
    packet = records[3][16:]  # the answer says that it can't be delivered
    message = struct.pack(">BBHI", 3, 3, 0, 0) + packet
    message = message[:2] + struct.pack(">H", checksum(message + b"\0" * (len(message) % 2))) + message[4:]
    start = struct.pack(">BBHHHBB", 0x45, 0, 20 + len(message), 0, 0, 64, 1)
    header = start + struct.pack(">H", checksum(start + bytes(2) + packet[16:20] + packet[12:16]))
    quoting = header + packet[16:20] + packet[12:16] + message
    record = struct.pack("<IIII", 0, 4500, len(quoting), len(quoting)) + quoting
    (tmp_path / "a.pcap").write_bytes(PCAP + b"".join([*records[:4], record, *records[4:]]))
    told = f"conversation 0 part 1, frames 1 to {len(records) + 1}: conforms, read 1 2 100 0\n"
    assert gatepast("trace", tmp_path / "a.pcap", "--lengths", 2, 2) == (0, told, "")
