"""Writes the controller of a plant's configuration as C: tables, and a call that makes it.

The program has to take the configuration, and to run its net. The channel, the bounds and what the slaves are set to
aren't the controller's, and aren't written.
"""
from __future__ import annotations

import argparse
import pathlib
import re
import sys
from typing import Any, Iterator

from layer.check import LOADED, judged
from layer.program import Complaint, Tool, write_whole
from layer.toml_lines import read, tables_of

HELP = "writes the controller of a plant's configuration as C"
KINDS = {"twohand": "TWO_HAND", "ondelay": "ON_DELAY", "offdelay": "OFF_DELAY"}  # others have their own names in C
Rows = list[dict[str, Any]]

HEAD = """\
/*
 * The controller of {name}, written by gatepast generate, which isn't proved: compare each row with that file.
 *
 * plant_make makes the controller in a handle that GP_CONTROLLER_IN set, and starts it. A region of
 * GP_REGION_UNITS({counts}) units is enough; size is its bytes. It returns GP_OK, or the first answer that isn't. The session ids are those of the file: before the first tick give each connection a fresh one by
 * gp_controller_nonce.
 */
#include <gatepast_controller.h>

uint8_t plant_make(gp_controller *controller, gp_unit *region, size_t size, gp_fault *fault);
"""
CONNECT = """\
    for (size_t at = 0; at < sizeof connections / sizeof connections[0]; at++) {
        const struct connection *row = &connections[at];
        answer = gp_controller_connect(controller, &row->set, row->app, row->app_len, &number);
        if (answer != GP_OK) return answer;
    }
"""
BLOCK = """\
    for (size_t at = 0; at < sizeof blocks / sizeof blocks[0]; at++) {
        const struct block *row = &blocks[at];
        answer = gp_controller_block(controller, row->kind, row->n, row->inputs, row->inputs_len, &number);
        if (answer != GP_OK) return answer;
    }
"""
DRIVE = """\
    for (size_t at = 0; at < sizeof drives / sizeof drives[0]; at++) {
        answer = gp_controller_drive(controller, &drives[at].output, &drives[at].from);
        if (answer != GP_OK) return answer;
    }
"""


def place(text: str) -> tuple[int, ...]:
    """The numbers in the text of a bit or a wire, as i1.0 or b1."""
    return tuple(map(int, text[1:].split(".")))


def wire(text: str) -> str:
    """A wire in C."""
    return f"GP_INPUT({', '.join(map(str, place(text)))})" if text[0] == "i" else f"GP_BLOCK({place(text)[0]})"


def bytes_of(connections: Rows) -> Iterator[str]:
    """The application parameters. A pointer leads to a byte also where there are none."""
    told = [(number, bytes.fromhex(row.get("app", ""))) for number, row in enumerate(connections, 1)]
    if not all(app for _, app in told):
        yield "static const uint8_t no_app[1] = {0};"
    for number, app in told:
        if app:
            yield f"static const uint8_t app_{number}[{len(app)}] = {{"
            digits = [f"0x{byte:02x}" for byte in app]
            yield from (f"    {', '.join(digits[at : at + 16])}," for at in range(0, len(digits), 16))
            yield "};"


def connections_in_c(connections: Rows) -> Iterator[str]:
    """The table of the connections."""
    yield from bytes_of(connections)
    yield "static const struct connection {"
    yield "    gp_master_settings set; /* master_len, slave_len, conn, address, watchdog, profile, nonce, word */"
    yield "    const uint8_t *app;"
    yield "    size_t app_len;"
    yield f"}} connections[{len(connections)}] = {{"
    for number, row in enumerate(connections, 1):
        lengths, app_len = f"{row['master_length']}, {row['slave_length']}", len(row.get("app", "")) // 2
        set_to = f"{lengths}, {row['id']}, {row['address']}, {row['watchdog']}, 1, {row.get('master_nonce', 1)}, 0"
        yield f"    {{{{{set_to}}}, {f'app_{number}' if app_len else 'no_app'}, {app_len}}}, /* connection {number} */"
    yield "};"


def blocks_in_c(blocks: Rows) -> Iterator[str]:
    """The table of the blocks."""
    yield "static const struct block {"
    yield "    uint8_t kind;"
    yield "    uint16_t n;"
    yield "    uint16_t inputs_len;"
    yield "    gp_wire inputs[GP_MOST_INPUTS];"
    yield f"}} blocks[{len(blocks)}] = {{"
    for number, row in enumerate(blocks, 1):
        kind, ins = KINDS.get(row["kind"], row["kind"].upper()), row["ins"]
        wires = ", ".join(map(wire, ins)) or "{0, 0}"
        yield f"    {{GP_{kind}, {row.get('n', 0)}, {len(ins)}, {{{wires}}}}}, /* b{number} */"
    yield "};"


def drives_in_c(drives: Rows) -> Iterator[str]:
    """The table of the drives."""
    yield "static const struct drive {"
    yield "    gp_bit output;"
    yield "    gp_wire from;"
    yield f"}} drives[{len(drives)}] = {{"
    for row in drives:
        yield f"    {{{{{', '.join(map(str, place(row['out'])))}}}, {wire(row['from'])}}}, /* {row['out']} */"
    yield "};"


def source_of(name: str, tables: dict[str, Rows]) -> str:
    """The C source of a configuration that the program takes."""
    blocks, drives = tables.get("block", []), tables.get("drive", [])
    parts = [connections_in_c(tables["connection"])]
    parts += [blocks_in_c(blocks)] if blocks else []
    parts += [drives_in_c(drives)] if drives else []
    counts = f"{len(tables['connection'])}, {len(blocks)}, {len(drives)}"
    body = "".join((CONNECT, BLOCK if blocks else "", DRIVE if drives else ""))
    return "\n".join(
        [
            HEAD.format(name=re.sub(r"[^\w.-]", "_", name, flags=re.ASCII), counts=counts),
            *(line for part in parts for line in (*part, "")),
            "uint8_t plant_make(gp_controller *controller, gp_unit *region, size_t size, gp_fault *fault) {",
            f"    static const gp_most most = {{{counts}}};",
            "    uint16_t number = 0;",
            "    uint8_t answer = gp_controller_open(controller, region, size, &most);",
            "    if (answer != GP_OK) return answer;",
            body + "    return gp_controller_start(controller, fault);",
            "}",
            "",
        ]
    )


def take(parser: argparse.ArgumentParser) -> None:
    parser.add_argument("configuration", metavar="CONF", help="the configuration of a plant, a TOML file")
    parser.add_argument("-o", "--into", metavar="FILE", help="the file to write; else it goes to standard output")


def run(given: argparse.Namespace, tool: Tool) -> int:
    status, text, said = judged(given.configuration, tool)
    if status != LOADED:
        print("\n".join(said), file=sys.stderr)
        return status
    tables = tables_of(read(text))
    app = tables["plant"][0]["app"]
    if app != "net":
        raise Complaint(f"{given.configuration} runs {app}: a controller in C runs the net alone")
    source = source_of(pathlib.PurePath(given.configuration).name, tables)
    if given.into:
        write_whole(given.into, source.encode())
    else:
        print(source, end="")
    return 0
