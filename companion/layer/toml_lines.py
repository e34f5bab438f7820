"""Where the tables and keys of a configuration stand in its text."""
from __future__ import annotations

import re
import tomllib
from typing import Any

from layer.program import Complaint

TABLE = re.compile(r"\s*(\[\[?)\s*([\w-]+)\s*\]\]?\s*(?:#.*)?")
KEY = re.compile(r"\s*([\w-]+)\s*=")
Place = tuple[str, int, str]  # a table, its number from 1, and a key of it or the empty text for the table


def scanned(text: str) -> dict[Place, int]:
    """The line of each table and key, if each stands at the head of a line."""
    found: dict[Place, int] = {}
    counts: dict[str, int] = {}
    table = ""
    for number, line in enumerate(text.split("\n"), 1):
        if opened := TABLE.fullmatch(line.rstrip("\r")):
            table = opened[2]
            counts[table] = counts.get(table, 0) + 1
            found[table, counts[table], ""] = number
        elif key := KEY.match(line):
            found.setdefault((table, counts.get(table, 1), key[1]), number)
    return found


def read(text: str) -> dict[str, Any]:
    """The document of a configuration, if Python's reader takes it: deep arrays and long numbers it doesn't."""
    try:
        return tomllib.loads(text.removeprefix("\ufeff"))
    except (ValueError, RecursionError) as why:
        raise Complaint(f"Python's reader says: {why}") from why


def tables_of(document: dict[str, Any]) -> dict[str, list[dict[str, Any]]]:
    """The tables of each name; a key outside all tables is one of the table without a name."""
    tables: dict[str, list[dict[str, Any]]] = {}
    for name, value in document.items():
        if isinstance(value, dict):
            tables[name] = [value]
        elif isinstance(value, list) and value and all(isinstance(part, dict) for part in value):
            tables[name] = value
        else:
            tables.setdefault("", [{}])[0][name] = value
    return tables


def lines_of(text: str) -> dict[Place, int]:
    """The line of each table and key; none where the text is written in another way, such as tables in braces."""
    try:
        tables = tables_of(read(text))
    except Complaint:
        return scanned(text)
    keys = {
        (name, number, key) for name, found in tables.items() for number, table in enumerate(found, 1) for key in table
    }
    found = scanned(text)
    return found if keys == {place for place in found if place[2]} else {}
