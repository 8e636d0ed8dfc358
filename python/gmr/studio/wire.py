"""Answers with columns of numbers, as bytes: a text of JSON, and after it the columns of which it speaks.

The first four bytes are the length of the JSON, little end first. It ends with blanks, so that what follows begins at a
multiple of eight, as each column does. In the JSON a column is `{"type", "at", "count"}`: the narrowest type that holds
its numbers, where it begins after the JSON, and how many numbers it has; or `{"from", "count"}`, a run in order."""
import json
from typing import Any

import numpy as np

from gmr.view.scene import narrowed, run_of

Json = dict[str, Any]


def to_bytes(answer: Json) -> tuple[bytes, bool]:
    """The bytes of an answer, whose columns are arrays; and whether there are columns. Without any it is JSON alone."""
    parts: list[bytes] = []
    size = 0

    def put(column: object) -> Json:
        nonlocal size
        if not isinstance(column, np.ndarray):
            raise TypeError(f"an answer has no {type(column).__name__}")
        run = run_of(column)
        if run is not None:
            return run
        name, held = narrowed(column)
        parts.append(held.tobytes() + bytes(-held.nbytes % 8))
        size += len(parts[-1])
        return {"type": name, "at": size - len(parts[-1]), "count": len(held)}

    text = json.dumps(answer, ensure_ascii=False, separators=(",", ":"), default=put).encode("utf-8", "replace")
    if not parts:
        return text, False
    text += b" " * (-(len(text) + 4) % 8)
    return b"".join([len(text).to_bytes(4, "little"), text, *parts]), True


def read_text(data: bytes) -> Json:
    """The JSON of an answer's bytes that has columns."""
    length = int.from_bytes(data[:4], "little")
    found: Json = json.loads(data[4:4 + length])
    return found
