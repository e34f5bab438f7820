"""The forms of the lines that the program reads, and of the keys of a configuration, as docs/formats.md has them."""
from __future__ import annotations

from dataclasses import dataclass

HEADER = {
    "lengths": "lengths <lm> <ls>: the safe data bytes that master and slave send, each 1, or even and from 2 to 126",
    "master": "master <connection id> <address> <watchdog> <session id>: at most 65,535 each; id and watchdog aren't 0",
    "slave": "slave <address> <hand> <most> <session id>: at most 65,535 each; hand and most aren't 0",
    "profile": "profile <word>: profile Two, which a session id above 65,535 needs; the word is at most 65,535",
    "app": "app <hex>: application parameters, 1 to 256 bytes a line and 512 in all",
    "rule": "rule any <n> with n at most 512, or rule exact, or rule ranges",
    "bytes": "bytes <hex>: 1 to 256 bytes a line and 512 in all",
    "range": "range <hex>: pairs of a low and a high byte, 1 to 128 a line and 512 in all",
    "size": "size <in> <out>: the bytes of both images, 1 to 4,096 each",
    "slot": "slot <k> <at_in> <at_out>: its number, from 1 in order, and the places of its frames inside the images",
    "pair": "pair <k>: its number, from 1 in order, at most 16",
    "go": "go",
}
NODE = {
    "d": "d <hex>: a frame of 1 to 255 bytes comes",
    "t": "t: one tick",
    "p": "p <hex>: these bytes, as many as the end sends, are offered",
    "h": "h 0 or h 1: the end sends its offer, or fail-safe data",
    "n": "n <id>: the id of each session that begins from now on",
    "z": "z: a local reset",
    "end": "end",
}
AT_BOTH = {
    "d": "d{0} -<j>: the j-th newest frame of the {1} comes, j from 1 to 64",
    "a": "a{0} -<j> <place> <mask>: the same with the byte at this place, from 0, altered by two hexadecimal digits",
    "r": "r{0} <hex>: a frame of 1 to 255 bytes comes",
    "t": "t{0}: one tick",
    "p": "p{0} <hex>: these bytes, as many as the end sends, are offered",
    "h": "h{0} 0 or h{0} 1: the end sends its offer, or fail-safe data",
    "n": "n{0} <id>: the id of each session that begins from now on",
    "z": "z{0}: a local reset",
}
PAIR = {
    word + end: form.format(end, peer)
    for end, peer in (("m", "slave"), ("s", "master"))
    for word, form in AT_BOTH.items()
}
IMAGE = {
    "w": "w <at> <hex>: 1 to 256 bytes are written into the input image from this place on",
    "s": "s: a sample",
    "t": "t: one tick of each slot",
    "p": "p <k> <hex>: the end of slot k offers these bytes, as many as it sends",
    "h": "h <k> 0 or h <k> 1: the end of slot k sends its offer, or fail-safe data",
    "n": "n <k> <id>: the id of each session of slot k that begins from now on",
    "z": "z <k>: a local reset at slot k",
    "end": "end",
}
SCRIPT = {
    "t": "t: one tick",
    "p": "p <k> <hex>: slave k offers these bytes, as many as it sends",
    "h": "h <k> 0 or h <k> 1: slave k sends its offer, or fail-safe data",
    "z": "z <k>: a local reset of slave k",
    "n": "n <k> m <id> or n <k> s <id>: the id, at most 65,535, of each session of that end that begins from now on",
    "cut": "cut <k> 1 or cut <k> 0: frames of connection k are lost from now on, or not any more",
    "app": "app <name>: another application runs from now on",
    "end": "end",
}
TRACE = {"m": "m <hex>: the master sent this frame", "s": "s <hex>: the slave did", "end": "end"}
PAIRS = {"t": "t: one tick of all", "end": "end"} | {f"<k> {word}": f"<k> {form}" for word, form in PAIR.items()}


@dataclass(frozen=True)
class Kind:
    """A kind of input: its command, the first words of its header lines, its events, and how many of these may come."""

    command: str
    header: tuple[str, ...]
    events: dict[str, str]
    most: str = "200,000 events"


END = ("lengths", "master", "slave", "profile", "app", "rule", "bytes", "range")
KINDS = {
    "fsoe 1 node master": Kind("node master", ("lengths", "master", "profile", "app", "go"), NODE),
    "fsoe 1 node slave": Kind("node slave", ("lengths", "slave", "profile", "rule", "bytes", "range", "go"), NODE),
    "fsoe 1 pair": Kind("replay", (*END, "go"), PAIR | {"end": "end"}),
    "fsoe 2 pairs": Kind("replay", ("pair", *END, "go"), PAIRS, "200,000 entries"),
    "fsoe 1 image": Kind("image", ("size", "slot", *END, "go"), IMAGE, "2,000 events"),
    "fsoe 1 trace": Kind("diagnose", ("lengths", "go"), TRACE, "200,000 frames"),
    "fsoe 1 plant": Kind("plant", (), SCRIPT, "2,000 events"),
}
NEXT = {  # the header lines that may come after one, as far as the kind has them
    "size": ("slot",),
    "slot": ("lengths",),
    "pair": ("lengths",),
    "master": ("profile", "app"),
    "app": ("app",),
    "slave": ("profile", "rule"),
    "rule exact": ("bytes",),
    "rule ranges": ("range",),
    "bytes": ("bytes",),
    "range": ("range",),
}
CONNECTION = {
    "id": "1 to 65,535, which no other connection has",
    "address": "0 to 65,535",
    "watchdog": "in ticks, 1 to 65,535",
    "master_length": "the safe data bytes that the master sends: 1, or even and from 2 to 126",
    "slave_length": "the safe data bytes that the slave sends: 1, or even and from 2 to 126",
    "app": "a text of 0 to 512 bytes in hexadecimal",
    "rule": 'the text "any" or "exact"',
    "slave_address": "0 to 65,535",
    "hand": "in ticks, 1 to 65,535",
    "most": "in ticks, 1 to 65,535",
    "master_nonce": "0 to 65,535",
    "slave_nonce": "0 to 65,535",
}
KEYS = {
    "plant": {
        "app": 'the text "net", or the name of an application: "zeros" or "mirror"',
        "channel": 'the name of a channel: "perfect" or "hostile"; with --rates of the companion "rates"',
        "seed": "a number from 0 to 9,223,372,036,854,775,807",
    },
    "connection": CONNECTION,
    "block": {
        "kind": "a text: const0, const1, and, or, latch, estop, twohand, ondelay, offdelay or feedback",
        "ins": 'an array of wires, each an input bit as "i1.0" or a block as "b1"',
        "n": "0 to 65,535",
    },
    "drive": {"out": 'an output bit, as "o1.0"', "from": 'a wire: an input bit as "i1.0" or a block as "b1"'},
    "bound": {"estop": 'an input bit, as "i1.0"', "drive": 'an output bit, as "o1.0"'},
}
TABLES = {
    "plant": "one table [plant]",
    "connection": "1 to 64 tables [[connection]]",
    "block": "at most 256 tables [[block]]",
    "drive": "at most 1,024 tables [[drive]]",
    "bound": "at most 16 tables [[bound]]",
}
FAULTS = {  # of a configuration; {0} and {1} are what comes after the word
    "TooLong": "the file has more than 262,144 bytes",
    "Syntax": "the file isn't a TOML document in UTF-8, or a number in it doesn't fit 64 bits",
    "TooMany": "there are more tables of one name than may be",
    "Missing": "a table or a key that has to be there isn't",
    "Kind": "the value is of another kind",
    "Range": "the value is outside its range, or the text not in its form",
    "SameConn": "connections {0} and {1} have one id",
    "Arity": "block {0} may not have so many inputs",
    "Later": "a wire of block {0} names this block itself, a later one or none",
    "NoInput": "the slave of connection {0} sends no such bit, or there is no such connection",
    "NoOutput": "the master of connection {0} sends no such bit, or there is no such connection",
    "Twice": "two drives set this bit",
    "NoApp": "no application has this name",
    "NoChannel": "no channel has this name",
}
