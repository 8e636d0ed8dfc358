"""What maps, their texts and their arrays are made of: embeddings, values, limits, and the head of a map's text."""
import re
from typing import NamedTuple

WIDTHS = {"int": 1, "vec2": 2, "vec3": 3, "rgb": 3}
MOST_DARTS, MOST_NAME = 1_048_576, 16_777_216
LEAST_NUMBER, MOST_NUMBER = -(2**63), 2**63 - 1

BLANK = r"[ \t\r\n]"
EMBED = rf"embed{BLANK}+([A-Za-z][A-Za-z0-9_]*){BLANK}*<([0-9 \t\r\n]*)>{BLANK}*(int|vec2|vec3|rgb)(?![A-Za-z0-9_])"
HEAD = re.compile(
    rf"{BLANK}*gmap{BLANK}+([0-9]+){BLANK}*dim{BLANK}+([0-9]+){BLANK}*((?:{EMBED}{BLANK}*)*)"
    rf"(?:next{BLANK}+([0-9]+){BLANK}*)?darts{BLANK}+([0-9]+)(?![0-9])"
)

Value = int | tuple[int, ...]


class Embed(NamedTuple):
    """An embedding of a map's schema: its name, its labels in ascending order, and its kind."""

    name: str
    labels: tuple[int, ...]
    kind: str
