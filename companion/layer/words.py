"""The texts that the page has, too."""
from __future__ import annotations

import json

from layer.program import TOP

WORDS = json.loads((TOP / "page" / "src" / "words.json").read_text())


def code_words(code: str) -> str:
    """What a code of a reset means, in two digits."""
    return WORDS["codes"].get(code) or ("device specific" if int(code, 16) >= 0x80 else "no code of this protocol")
