"""Explains the last line of a report: why a line or a configuration is refused, and what was expected there."""
from __future__ import annotations

import argparse
import re
from typing import Iterator

from layer.forms import FAULTS, HEADER, KEYS, KINDS, NEXT, TABLES, Kind
from layer.program import Complaint, Tool, text_of
from layer.toml_lines import lines_of, read
from layer.words import WORDS

HELP = "says in words why a line or a configuration is refused"
WORDS_OF_IMAGES = {"Position": "the bytes leave the image"}
WITHOUT_FORM = ("Long", "NoNewline", "TooMany")  # causes that aren't about the words of the line
LONG = 100  # digits of a line that are shown


def shown(where: str, line: str) -> str:
    """A line as people can see it, also a carriage return or a tab in it."""
    seen = "".join(letter if letter.isprintable() else f"\\x{ord(letter):02x}" for letter in line[:LONG])
    return f"{where} is: {seen}{' ...' if len(line) > LONG else ''}"


def next_header_lines(kind: Kind, before: list[str]) -> list[str]:
    """The forms of the header lines that may come after these."""
    if len(before) == 1:
        return [HEADER[kind.header[0]]]
    last = before[-1].split(" ")
    word = " ".join(last[:2]) if last[0] == "rule" else last[0]
    end = next((line.split(" ")[0] for line in reversed(before) if line.startswith(("master ", "slave "))), "")
    after = list(NEXT.get(word, ()))
    if word == "lengths":
        ends = [word for word in ("master", "slave", "go") if word in kind.header]
        after = ends[:2] if "slot" in kind.header else ends[:1]
    if word == "profile":
        after = ["app"] if end == "master" else ["rule"]
    if end == "master" and word in ("master", "profile", "app"):
        after += ["slave"] if "rule" in kind.header and "slot" not in kind.header else ["slot", "go"]
    if end == "slave" and word not in ("slave", "profile", "lengths", "slot", "pair"):
        after += ["slot", "pair", "go"]
    return [HEADER[word] for word in after if word in kind.header]


def expected(lines: list[str], number: int) -> list[str]:
    """The forms of the lines that may stand at this place."""
    kind = KINDS.get(lines[0]) if lines else None
    if kind is None or number == 1:
        return [f"{first}, for {of.command}" for first, of in KINDS.items()]
    before = lines[: number - 1]
    if kind.header and "go" not in before:
        return next_header_lines(kind, before)
    words = lines[number - 1].split(" ") if number <= len(lines) else [""]
    key = f"<k> {' '.join(words[1:2])}" if words[0].isdigit() else words[0]
    return [kind.events[key]] if key in kind.events else list(kind.events.values())


def why_refused(number: int, cause: str, lines: list[str]) -> str:
    """Why a line is refused."""
    first = lines[0] if lines and lines[0] in KINDS else ""
    if first and number == 1 and cause == "Header":
        return f"this is a file for {KINDS[first].command}, and another command read it"
    words = WORDS_OF_IMAGES if first == "fsoe 1 image" else {}
    why = words.get(cause) or WORDS["causes"][cause]
    most = KINDS[first].most if first else "too many"
    return why.replace("“{first}”", f"“{first}”" if first else "one of the program's").replace("{most}", most)


def why_unknown(number: int, cause: str, lines: list[str], count: int) -> str:
    """Why it isn't known what was expected in a line of an input with so many lines, if it isn't."""
    if number > 1 and lines[0] not in KINDS:
        return "line 1 of the input begins no file for the program, so the report isn't of it"
    if number > count + (cause == "End"):
        return f"the input has {count} lines, so the report isn't of it: what was expected in line {number} isn't known"
    return ""


def refusal(last: str, number: int, cause: str, text: str | None, where: str) -> Iterator[str]:
    """What a refused line is, by the report and in words, and what was expected there."""
    lines = text.split("\n") if text is not None else []
    count = len(lines) - (lines[-1:] == [""])
    unknown = why_unknown(number, cause, lines, count) if lines else ""
    if number <= count:
        yield shown(where or f"line {number}", lines[number - 1])
    elif cause == "End" and 0 < count == number - 1:
        yield shown(where or f"line {count}, the last one,", lines[count - 1])
    yield last
    yield why_refused(number, cause, lines)
    is_other_file = number == 1 and lines[:1] and lines[0] in KINDS
    has_form = lines and not unknown and not is_other_file and cause not in WITHOUT_FORM
    forms = expected(lines, number) if has_form else []
    if unknown:
        yield unknown
    elif len(forms) == 1:
        yield f"expected there: {forms[0]}"
    elif forms:
        yield "expected there:"
        yield from ("  " + form for form in forms)


def bit_line(text: str, letter: str, bit: str) -> int | None:
    """The last line that names an input bit or an output bit."""
    named = [number for number, line in enumerate(text.split("\n"), 1) if f'"{letter}{bit}"' in line.partition("#")[0]]
    return named[-1] if named else None


def syntax_fault(text: str) -> str:
    """What Python's reader of TOML says of a text; nothing if it takes it."""
    try:
        read(text)
    except Complaint as why:
        return str(why)
    return ""


def fault_line(word: str, rest: list[str], text: str) -> int | None:
    """The line of the configuration that a fault is about, as far as it can be told."""
    places = lines_of(text)
    if word == "Syntax":
        found = re.search(r"at line (\d+)", syntax_fault(text))
        return int(found[1]) if found else None
    if word in ("Missing", "Kind", "Range"):
        number = int(rest[1]) if len(rest) == 3 else 1
        return places.get((rest[0], number, rest[-1])) or places.get((rest[0], number, ""))
    if word == "SameConn":
        return places.get(("connection", int(rest[1]), "id"))
    if word in ("Arity", "Later"):
        return places.get(("block", int(rest[0]), "ins"))
    if word in ("NoInput", "NoOutput", "Twice"):
        return bit_line(text, "i" if word == "NoInput" else "o", rest[0])
    return places.get(("plant", 1, {"NoApp": "app", "NoChannel": "channel"}.get(word, "")))


def form_of(word: str, rest: list[str]) -> str | None:
    """What was expected in place of a fault."""
    if word in ("NoApp", "NoChannel"):
        return KEYS["plant"]["app" if word == "NoApp" else "channel"]
    if word not in ("Missing", "Kind", "Range"):
        return None
    return KEYS[rest[0]][rest[-1]] if len(rest) > 1 else TABLES[rest[0]]


def fault(last: str, text: str | None) -> Iterator[str]:
    """What a configuration's fault is about, what it is, and what was expected there."""
    _, word, *rest = last.split(" ")
    number = fault_line(word, rest, text) if text is not None else None
    if number and word != "TooLong":
        yield shown(f"line {number}", text.split("\n")[number - 1].strip())
    yield last
    if word == "Later" and rest == ["0"]:
        yield "a drive's wire names a block that doesn't exist"
    else:
        yield FAULTS[word].format(*" ".join(rest).replace(".", " ").split(" "))
    if word == "Syntax" and text is not None and syntax_fault(text):
        yield syntax_fault(text)
    if form := form_of(word, rest):
        yield f"expected there: {form}"


def explained(report: str, text: str | None, where: str = "") -> list[str]:
    """The line that is refused, the last line of a report and what it says; nothing where nothing is refused.

    The line is one of the text, unless `where` names it.
    """
    last = report.rstrip("\n").split("\n")[-1]
    if found := re.fullmatch(r"refused ([1-9]\d*) (\w+)", last):
        if found[2] in WORDS["causes"]:
            return list(refusal(last, int(found[1]), found[2], text, where))
    if last.startswith("config ") and last.split(" ")[1] in FAULTS:
        return list(fault(last, text))
    if last == "desk failed":
        return [last, "the file isn't there, or a read of it failed"]
    if last.startswith("usage: "):
        return [last, "the words after the program's name name no command, or not all that it needs"]
    return []


def take(parser: argparse.ArgumentParser) -> None:
    parser.add_argument("report", help="the report, or - for standard input")
    parser.add_argument("input", nargs="?", help="what the command read: its input, or the configuration of a plant")


def run(given: argparse.Namespace, _tool: Tool) -> int:
    text = text_of(given.input, errors="replace") if given.input else None
    lines = explained(text_of(given.report), text)
    if not lines:
        raise Complaint(f"{given.report} ends with no refused line and no fault of a configuration")
    print("\n".join(lines))
    return 0
