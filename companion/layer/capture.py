"""Writes the frames of a report of `replay` as a capture.

Each frame is alone in a UDP datagram over IPv4, and its time is the number of the event in ms. The report has the
frames that were sent, not what the channel made of them.
"""
from __future__ import annotations

import argparse
import ipaddress
import re
import struct
from typing import Iterator

from layer.program import Complaint, Tool, text_of, write_whole

HELP = "writes the frames of a report as a capture for Wireshark"
PORT = 51000  # of the master; the slave has the next one
PAIRS, LONGEST = 16, 65_507  # pairs of a run, and bytes for which a datagram has room
PCAP = struct.pack("<IHHiIII", 0xA1B2C3D4, 2, 4, 0, 0, 65535, 228)  # the packets are IPv4
ENTRY = re.compile(r"(\d{1,6})(?: (\d+))? ([ms]) .* > ([0-9a-f]+)")


def checksum(header: bytes) -> int:
    """The checksum of an IPv4 header."""
    total = sum(struct.unpack(f">{len(header) // 2}H", header))
    total = (total & 0xFFFF) + (total >> 16)
    return ~(total + (total >> 16)) & 0xFFFF


def datagram(pair: int, end: str, frame: bytes, port: int) -> bytes:
    """A frame in UDP and IPv4: the ends of pair k are 10.0.k.1 and 10.0.k.2."""
    places = [(ipaddress.IPv4Address(f"10.0.{pair}.{host}").packed, port + host - 1) for host in (1, 2)]
    (source, source_port), (target, target_port) = places if end == "m" else places[::-1]
    udp = struct.pack(">HHHH", source_port, target_port, 8 + len(frame), 0) + frame
    start, addresses = struct.pack(">BBHHHBB", 0x45, 0, 20 + len(udp), 0, 0, 64, 17), source + target
    return start + struct.pack(">H", checksum(start + bytes(2) + addresses)) + addresses + udp


def packets(report: str, port: int) -> Iterator[bytes]:
    """The records of a capture."""
    for line in report.splitlines():
        if found := ENTRY.fullmatch(line):
            pair, digits = int(found[2] or 1), found[4]
            if not 0 < pair <= PAIRS or len(digits) % 2 or len(digits) > 2 * LONGEST:
                why = f"pairs go from 1 to {PAIRS}, and a byte of a frame has two digits"
                raise Complaint(f"replay writes no line {line[:80]!r}: {why}")
            packet = datagram(pair, found[3], bytes.fromhex(digits), port)
            seconds, rest = divmod(int(found[1]), 1000)
            yield struct.pack("<IIII", seconds, rest * 1000, len(packet), len(packet)) + packet


def port_of(text: str) -> int:
    """The port of the master."""
    if not re.fullmatch("[1-9][0-9]{0,4}", text) or int(text) > 65534:
        raise argparse.ArgumentTypeError(f"{text} isn't from 1 to 65534: the slave's port is the next one")
    return int(text)


def take(parser: argparse.ArgumentParser) -> None:
    parser.add_argument("report", help="the report of a replay, or - for standard input")
    parser.add_argument("--into", required=True, metavar="FILE", help="the capture to write")
    port = f"the UDP port of the master, {PORT} if it isn't given"
    parser.add_argument("--port", type=port_of, default=PORT, help=port)


def run(given: argparse.Namespace, _tool: Tool) -> int:
    records = list(packets(text_of(given.report), given.port))
    if not records:
        raise Complaint(f"{given.report} has no line of a replay with a frame")
    write_whole(given.into, PCAP + b"".join(records))
    print(f"{len(records)} frames")
    return 0
