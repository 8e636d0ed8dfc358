"""What a request asks for, field by field. What isn't as it has to be is said in one line, and nothing is done."""
import json
import re
from typing import Any

from gmr.errors import Fault
from gmr.maps import LEAST_NUMBER, MOST_NAME, MOST_NUMBER, WIDTHS, Value

Json = dict[str, Any]
NAME = re.compile(r"[A-Za-z][A-Za-z0-9_]{0,31}", re.ASCII)
MOST_DARTS_NAMED = 100_000


class Unclear(Fault):
    """A request that asks for nothing that there is, in one line."""


def read_body(data: bytes) -> Json:
    """The object that a body is."""
    try:
        body = json.loads(data.decode("utf-8"))
        json.dumps(body, ensure_ascii=False).encode("utf-8")     # half of a pair of UTF-16 is no letter
    except (ValueError, RecursionError):
        raise Unclear("the body is no JSON") from None
    if not isinstance(body, dict):
        raise Unclear("the body is no object")
    return body


def text_in(body: Json, field: str, default: str | None = None) -> str:
    """A text."""
    value = body.get(field, default)
    if not isinstance(value, str):
        raise Unclear(f"{field} is to be a text")
    return value


def name_in(body: Json, field: str) -> str:
    """A name as books have them."""
    value = text_in(body, field)
    if not NAME.fullmatch(value):
        raise Unclear(f"{field} is to be a name: a letter, then letters, digits and _, at most 32")
    return value


def number_in(body: Json, field: str, least: int, most: int) -> int:
    """A whole number between two."""
    value = body.get(field)
    if not isinstance(value, int) or isinstance(value, bool) or not least <= value <= most:
        raise Unclear(f"{field} is to be a whole number from {least} to {most}")
    return value


def is_whole(value: object) -> bool:
    """Whether a value is a whole number."""
    return isinstance(value, int) and not isinstance(value, bool)


def numbers_in(body: Json, field: str, most: int = MOST_NAME) -> list[int]:
    """Whole numbers from 0 up to below a bound, as the names of darts."""
    value = body.get(field)
    if not isinstance(value, list) or len(value) > MOST_DARTS_NAMED:
        raise Unclear(f"{field} are to be numbers")
    if not all(is_whole(one) and 0 <= one < most for one in value):
        raise Unclear(f"{field} are to be whole numbers from 0 to {most - 1}")
    return value


def values_in(body: Json, field: str, kinds: list[str]) -> list[Value]:
    """A value for each kind: a number, a truth, or a list of two or three numbers."""
    value = body.get(field)
    if not isinstance(value, list) or len(value) != len(kinds):
        raise Unclear(f"{field} are to be {len(kinds)} values")
    return [value_of(one, kind) for one, kind in zip(value, kinds)]


def value_of(value: object, kind: str) -> Value:
    """A value of a kind."""
    if kind == "bool":
        if not isinstance(value, bool):
            raise Unclear("a bool is to be true or false")
        return value
    parts = value if isinstance(value, list) else [value]
    if len(parts) != WIDTHS[kind] or not all(is_whole(part) and LEAST_NUMBER <= part <= MOST_NUMBER for part in parts):
        raise Unclear(f"a value of the kind {kind} has {WIDTHS[kind]} whole numbers of 64 bits")
    return parts[0] if kind == "int" else tuple(parts)


def write_value(value: Value) -> str:
    """A value as scripts write it."""
    if isinstance(value, bool):
        return "true" if value else "false"
    return str(value) if isinstance(value, int) else f"({' '.join(map(str, value))})"
