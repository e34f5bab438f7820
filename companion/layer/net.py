"""What the wires of a configuration rest on, as docs/protocol.md has it under "Function blocks"."""
from __future__ import annotations

from typing import Any

# Which inputs guard a block of a kind: it is guarded if one of them is. An `and` is by any of its inputs, an `or` by all
# together, and a kind that isn't named here by none.
GUARDING = {
    "latch": [1],
    "estop": [0],
    "twohand": [0, 1],
    "ondelay": [0],
    "feedback": [0],
}


class Net:
    """The blocks of a configuration that the program takes. A wire reads an input bit or an earlier block."""

    def __init__(self, blocks: list[dict[str, Any]]) -> None:
        self.blocks = blocks
        self.bits: dict[str, set[str]] = {}
        self.kinds: dict[str, set[str]] = {}
        for number, block in enumerate(blocks, 1):
            self.bits[f"b{number}"] = set().union(*map(self.bits_under, block["ins"]))
            self.kinds[f"b{number}"] = {block["kind"]}.union(*map(self.kinds_under, block["ins"]))

    def bits_under(self, wire: str) -> set[str]:
        """The input bits on which a wire rests."""
        return self.bits.get(wire, {wire})

    def kinds_under(self, wire: str) -> set[str]:
        """The kinds of the blocks on which a wire rests."""
        return self.kinds.get(wire, set())

    def guards(self, bit: str, wire: str) -> bool:
        """Whether a wire is false in each cycle in which the input bit is."""
        guarded = {bit}
        for number, block in enumerate(self.blocks, 1):
            kind, by = block["kind"], [name in guarded for name in block["ins"]]
            if kind in ("and", "or"):
                is_guarded = any(by) if kind == "and" else all(by)
            else:
                is_guarded = kind == "const0" or any(by[at] for at in GUARDING.get(kind, ()))
            if is_guarded:
                guarded.add(f"b{number}")
        return wire in guarded
