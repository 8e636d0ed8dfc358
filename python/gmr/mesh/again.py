"""What the certificate reads again of other formats than OBJ and OFF: PLY by itself, and others by their parsers."""
import io
import re
import struct
from collections.abc import Callable, Sequence
from pathlib import Path
from typing import Any

import numpy as np

from gmr.mesh.formats import read_mesh  # the parsers of other formats

Array = Any  # of numpy
TYPES = "char uchar short ushort int uint float double int8 uint8 int16 uint16 int32 uint32 float32 float64".split()
CODES = dict(zip(TYPES, "bBhHiIfd" * 2))
ORDERS = {"ascii": "", "binary_little_endian": "<", "binary_big_endian": ">"}
WANTED = {"vertex": ("x", "y", "z"), "face": ("vertex_indices", "vertex_index")}
SINGLE, DOUBLE = 2.0**-24, 2.0**-53  # how far numbers of 32 and 64 bits may be from the decimals that stand for them
Parts = tuple[Array, Callable[[int], Sequence[Any]], float, Array, Array, Array]


def read_other(path: Path, parsed: Any) -> Parts:
    """What a file has, as the certificate's `Read` wants it; `parsed` is what a parser has read of it."""
    if path.suffix.lower() == ".ply":
        points, faces, blur = read_ply(path.read_bytes())
        floats = np.array([list(map(float, point)) for point in points]).reshape(-1, 3)
        return floats, points.__getitem__, blur, *join(faces), None
    mesh: Any = parsed or read_mesh(path, drops=True)
    cells = getattr(mesh, "cells", ())
    corners, sizes = join([face for cell in cells for face in cell.faces]) if cells else (mesh.corners, mesh.sizes)
    return (mesh.places.floats(), lambda row: [mesh.places.fraction((row, axis)) for axis in range(3)],
            0.0 if parsed else DOUBLE, corners, sizes,
            np.array([number for number, cell in enumerate(cells) for _ in cell.faces]) if cells else None)


def join(faces: Sequence[Sequence[Any]]) -> tuple[Array, Array]:
    """The corners of faces, those of one after those of another, and how many each has."""
    return np.array([int(corner) for face in faces for corner in face], int), np.array(list(map(len, faces)), int)


def read_ply(data: bytes) -> tuple[list[list[Any]], list[list[Any]], float]:
    """The points and the faces of a file, number by number, a text's as words; and how far points may be off."""
    parts = re.split(rb"end_header(?:\r\n|\r|[^\n]*\n)", data, maxsplit=1)
    head = parts[0].decode("latin-1").replace("\r", "\n")
    order = ORDERS[head.split("format", 1)[1].split()[0]]
    body: Any = io.BytesIO(parts[1]) if order else iter(parts[1].decode("latin-1").split())
    found: dict[str, list[list[Any]]] = {}
    blur = 0.0
    for element in re.split(r"^element", head, flags=re.MULTILINE)[1:]:
        (name, count), *told = [line.split() for line in element.split("\n") if line.strip()]
        props = [line for line in told if line[0] == "property"]
        codes = [[order and order + CODES[word] for word in prop[1:-1] if word != "list"] for prop in props]
        rows = [take_row(body, codes) for _ in range(int(count) if props else 0)]
        at = [place for one in WANTED.get(name, ()) for place, prop in enumerate(props) if prop[-1] == one]
        found[name] = [[number for place in at for number in row[place]] for row in rows]
        blur = SINGLE if name == "vertex" and codes[at[0]][0][1:] == "f" else blur
    return found["vertex"], found["face"], blur


def take_row(body: Any, codes: list[list[str]]) -> list[list[Any]]:
    """The numbers of the properties of a row; where these have two codes, the first is that of how many there are."""
    return [[take(body, code[-1]) for _ in range(int(take(body, code[0])) if code[1:] else 1)] for code in codes]


def take(body: Any, code: str) -> Any:
    """The next number of a binary file by its code of `struct`, or the next word."""
    if not code:
        return next(body)
    data = body.read(struct.calcsize(code))
    return struct.unpack(code, data)[0] if len(data) == struct.calcsize(code) else next(iter(()))
