"""The header of a node file and of a pair file, as values."""
from __future__ import annotations

NAMES = {
    "master": ("connection_id", "address", "watchdog", "session_id"),
    "slave": ("address", "hand", "most", "session_id"),
}


def settings_of(lines: list[str]) -> dict:
    """The lengths and the settings of each end in the lines from the second one to before `go`."""
    found: dict = {"lengths": {}, "settings": {}}
    own: dict = {}
    for line in lines:
        word, *fields = line.split(" ")
        if word == "lengths":
            found["lengths"] = dict(zip(("master", "slave"), map(int, fields)))
        elif word in NAMES:
            own = found["settings"][word] = dict(zip(NAMES[word], map(int, fields))) | {"profile_word": None}
            own |= {"application_parameters": ""} if word == "master" else {}
        elif word == "profile":
            own["profile_word"] = int(fields[0])
        elif word == "app":
            own["application_parameters"] += fields[0].lower()
        elif word == "rule":
            own["rule"] = {"kind": fields[0]} | ({"number": int(fields[1])} if fields[1:] else {"bytes": ""})
        else:  # bytes or range
            own["rule"]["bytes"] += fields[0].lower()
    return found
