"""The rows of binary files in the Stanford format, PLY."""
from typing import Any, NamedTuple

import numpy as np
from numpy.typing import NDArray

from gmr.mesh.decimals import Decimals, Whole, shorten
from gmr.mesh.model import Unfit


class Property(NamedTuple):
    """A property of an element: its name, its type, and that of its length where it is a list."""

    name: str
    code: str
    length: str | None


class Element(NamedTuple):
    """An element of the head: its name, how many there are, and their properties."""

    name: str
    rows: int
    properties: list[Property]


class Column(NamedTuple):
    """The numbers of a property of all rows one after another, and how many each row has where it is a list."""

    numbers: Decimals | Whole
    sizes: Whole | None


def read_binary_table(body: bytes, place: int, element: Element, order: str) -> tuple[dict[str, Column], int]:
    """The columns of an element, and the place after its rows; Unfit where the file ends before."""
    if not element.rows or not element.properties:
        none = {item.name: Column(np.empty(0, np.int64), np.empty(0, np.int64)) for item in element.properties}
        return none, place
    try:
        first = read_lengths(body, place, element, order)
        table = read_alike(body, place, element, order, first)
        return table or read_row_by_row(body, place, element, order)
    except (IndexError, ValueError):
        raise Unfit(f"PLY tells of {element.rows} elements {element.name} and has fewer: it is cut off") from None


def read_lengths(body: bytes, place: int, element: Element, order: str) -> list[int]:
    """How many numbers each property of the first row has."""
    found = []
    for item in element.properties:
        count = 1
        if item.length:
            kind = np.dtype(order + item.length)
            count = int(np.frombuffer(body, kind, 1, place)[0])
            place += kind.itemsize
        if count < 0:
            raise ValueError
        found.append(count)
        place += count * np.dtype(item.code).itemsize
    return found


def read_alike(
    body: bytes, place: int, element: Element, order: str, counts: list[int]
) -> tuple[dict[str, Column], int] | None:
    """The columns where every row has lists as long as those of the first, else None."""
    fields: list[tuple[str, str, tuple[int, ...]]] = []
    for number, (item, count) in enumerate(zip(element.properties, counts)):
        fields += [(f"length{number}", order + item.length, ())] if item.length else []
        fields.append((f"value{number}", order + item.code, (count,)))
    form = np.dtype(fields)
    if place + form.itemsize * element.rows > len(body):
        if any(item.length for item in element.properties):
            return None
        raise ValueError
    rows = np.frombuffer(body, form, element.rows, place)
    table = {}
    for number, (item, count) in enumerate(zip(element.properties, counts)):
        if item.length and (rows[f"length{number}"] != count).any():
            return None
        sizes = np.full(element.rows, count, np.int64) if item.length else None
        table[item.name] = Column(as_numbers(rows[f"value{number}"].ravel(), item), sizes)
    return table, place + form.itemsize * element.rows


def read_row_by_row(body: bytes, place: int, element: Element, order: str) -> tuple[dict[str, Column], int]:
    """The columns where lists are of several lengths."""
    parts: list[list[NDArray[Any]]] = [[] for _ in element.properties]
    kinds = [(np.dtype(order + item.code), np.dtype(order + item.length) if item.length else None)
             for item in element.properties]
    for _ in range(element.rows):
        for part, (kind, length) in zip(parts, kinds):
            count = 1
            if length is not None:
                count = int(np.frombuffer(body, length, 1, place)[0])
                place += length.itemsize
            if count < 0 or place + count * kind.itemsize > len(body):
                raise ValueError
            part.append(np.frombuffer(body, kind, count, place) if count else np.empty(0, kind))
            place += count * kind.itemsize
    table = {}
    for item, part in zip(element.properties, parts):
        sizes = np.fromiter(map(len, part), np.int64, len(part)) if item.length else None
        table[item.name] = Column(as_numbers(np.concatenate(part), item), sizes)
    return table, place


def as_numbers(values: NDArray[Any], item: Property) -> Decimals | Whole:
    """Numbers of a file: fractions as the shortest decimals that stand for them."""
    if item.code.startswith("f"):
        return shorten(values.astype(np.float64), single=item.code == "f4")
    return values.astype(np.int64)
