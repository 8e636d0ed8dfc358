"""Meshes in the Stanford format, PLY, as text or binary: read with their colours, and written as text."""
from pathlib import Path
from typing import NamedTuple

import numpy as np

from gmr.mesh.decimals import Decimals, Whole, parse_words, shorten, stack
from gmr.mesh.model import Surface, Unfit, mix_colours
from gmr.mesh.ply_rows import Column, Element, Property, read_binary_table
from gmr.mesh.printed import print_faces, print_points
from gmr.mesh.texts import Words, parse_whole, show_words, spread

TYPES = {
    "char": "i1", "int8": "i1", "uchar": "u1", "uint8": "u1", "short": "i2", "int16": "i2", "ushort": "u2",
    "uint16": "u2", "int": "i4", "int32": "i4", "uint": "u4", "uint32": "u4", "float": "f4", "float32": "f4",
    "double": "f8", "float64": "f8",
}
ORDERS = {"ascii": "", "binary_little_endian": "<", "binary_big_endian": ">"}
CORNERS = ("vertex_indices", "vertex_index")
CHANNELS = ("red", "green", "blue")
Table = dict[str, Column]


class Head(NamedTuple):
    """What a file tells before its rows: the order of bytes, empty for text, its elements, and how many lines it is."""

    order: str
    elements: list[Element]
    lines: int
    remarks: int  # lines before its elements that are none of PLY, as where the word comment is left out


def read_ply(path: Path) -> Surface:
    """The surface of a file. Points and faces are counted from 0, and all but points, faces and colours passed over."""
    data = path.read_bytes()
    text, mark, body = data.partition(b"end_header")
    if not data.startswith(b"ply") or not mark:
        raise Unfit("this is no PLY: it doesn't begin with ply, or its head has no end")
    end, body = take_line(body)
    head = read_head(text.decode("ascii", "replace"))
    check_head(head.elements)
    tables, lines = read_binary(body, head) if head.order else read_text(body, head)
    surface = make_surface(tables)
    if lines:
        surface.lines, surface.point_lines = lines.get("face"), lines.get("vertex")
    edges = next((element.rows for element in head.elements if element.name == "edge"), 0)
    passed = {"lines": edges, "remarks": head.remarks}
    surface.passed = {name: count for name, count in passed.items() if count}
    return surface


def take_line(body: bytes) -> tuple[bytes, bytes]:
    """The rest of a line that ends with one of the three ends of lines, and what stands after it."""
    for end in (b"\r\n", b"\n", b"\r"):
        if body.startswith(end):
            return end, body[len(end):]
    line, end, rest = body.partition(b"\n")
    if line.strip() or not end:
        raise Unfit("this is no PLY: its head has no end")
    return end, rest


def read_head(text: str) -> Head:
    """What the head of a file tells."""
    order: str | None = None
    elements: list[Element] = []
    remarks = 0
    lines = text.replace("\r\n", "\n").replace("\r", "\n").split("\n")
    for words in filter(None, map(str.split, lines[1:])):
        try:
            if words[0] == "format":
                order = ORDERS[words[1]]
            elif words[0] == "element":
                elements.append(Element(words[1], int(words[2]) if words[2].isascii() else int("?"), []))
            elif words[:2] == ["property", "list"]:
                elements[-1].properties.append(Property(words[4], TYPES[words[3]], TYPES[words[2]]))
            elif words[0] == "property":
                elements[-1].properties.append(Property(words[2], TYPES[words[1]], None))
            elif words[0] not in ("comment", "obj_info"):
                if elements or order is None:
                    raise KeyError
                remarks += 1
            if words[0] == "element" and (elements[-1].rows < 0 or "_" in words[2]):
                raise KeyError
        except (IndexError, KeyError, ValueError):
            raise Unfit(f"PLY has a line in its head that isn't understood: {' '.join(words)}") from None
    if order is None:
        raise Unfit("this is no PLY: its head doesn't tell its format")
    return Head(order, elements, len(lines), remarks)


def check_head(elements: list[Element]) -> None:
    """Unfit where the head doesn't tell of points and faces."""
    names = {element.name: [item.name for item in element.properties] for element in elements}
    lists = {item.name for element in elements if element.name == "face" for item in element.properties if item.length}
    if not {"x", "y", "z"} <= set(names.get("vertex", [])):
        raise Unfit("PLY has no points with x, y and z")
    if not lists & set(CORNERS):
        raise Unfit("PLY has no faces with the points at their corners")


def read_text(body: bytes, head: Head) -> tuple[dict[str, Table], dict[str, Whole]]:
    """The columns of each element of a text, and the lines on which its rows stand."""
    words = Words(body, b"")
    words.lines += head.lines
    tables: dict[str, Table] = {}
    lines: dict[str, Whole] = {}
    place = 0
    for element in head.elements:
        behind = place + (element.rows if element.properties else 0)
        if behind > len(words):
            raise Unfit(f"PLY tells of {element.rows} elements {element.name} and has {len(words) - place}: "
                        "it is cut off")
        lines[element.name] = words.lines[place:behind]
        tables[element.name] = read_text_table(words, np.arange(place, behind), element)
        place = behind
    if place < len(words):
        line = f"on line {words.lines[place]}: {show_words(words.row(place)[:8])}"
        raise Unfit(f"PLY has more after the last element that its head tells of, {line}")
    return tables, lines


def read_text_table(words: Words, rows: Whole, element: Element) -> Table:
    """The columns of an element: of numbers, or of lists of them."""
    table: Table = {}
    at = words.rows[rows]
    ends = at + words.sizes[rows]
    try:
        for item in element.properties:
            check_places(at, ends)
            if item.length is None:
                table[item.name] = Column(cast_words(words, at, item), None)
                at = at + 1
            else:
                sizes, wrong = words.whole(at)
                if wrong is not None or (sizes < 0).any():
                    raise ValueError
                check_places(at + sizes, ends)
                table[item.name] = Column(cast_words(words, spread(at + 1, sizes), item), sizes)
                at = at + 1 + sizes
        if (at != ends).any():
            raise ValueError
    except ValueError:
        raise Unfit(tell_wrong_row(words, rows, element)) from None
    return table


def check_places(places: Whole, ends: Whole) -> None:
    """ValueError where a word isn't in its row."""
    if (places >= ends).any():
        raise ValueError


def tell_wrong_row(words: Words, rows: Whole, element: Element) -> str:
    """The line for the first row that isn't as the head tells."""
    for index, number in enumerate(rows.tolist()):
        row, line, place = words.row(number), words.lines[number], 0
        for item in element.properties:
            count = 1
            if item.length:
                size, wrong = parse_whole(row[place: place + 1])
                count = int(size[0]) if wrong is None and len(size) else -1
                place += 1
            part = row[place: place + max(count, 0)]
            is_wrong = not item.code.startswith("f") and parse_whole(part)[1] is not None
            if is_wrong or count < 0 or place + count > len(row) or parse_words(part)[1].any():
                return f"{element.name} {index} (line {line}) isn't as the head tells: {show_words(row[:8])}"
            place += count
        if place != len(row):
            return f"{element.name} {index} (line {line}) has {len(row)} numbers, and not {place}"
    return f"{element.name} has a number that isn't as the head tells"


def cast_words(words: Words, places: Whole, item: Property) -> Decimals | Whole:
    """The numbers of words: decimals where the property has fractions, and whole ones else."""
    if item.code.startswith("f"):
        numbers, is_wrong = words.decimals(places)
        if is_wrong.any():
            raise ValueError
        return numbers
    whole, wrong = words.whole(places)
    if wrong is not None:
        raise ValueError
    return whole


def read_binary(body: bytes, head: Head) -> tuple[dict[str, Table], None]:
    """The columns of each element of a binary file."""
    tables: dict[str, Table] = {}
    place = 0
    for element in head.elements:
        tables[element.name], place = read_binary_table(body, place, element, head.order)
    if body[place:].strip():
        raise Unfit(f"PLY has {len(body) - place} bytes after the last element that its head tells of")
    return tables, None


def make_surface(tables: dict[str, Table]) -> Surface:
    """The surface of the columns of points and faces."""
    vertex, face = tables["vertex"], tables["face"]
    axes = [as_decimals(vertex[axis].numbers) for axis in "xyz"]
    places = stack(axes)
    corners = next(face[name] for name in CORNERS if name in face)
    whole = corners.numbers if isinstance(corners.numbers, np.ndarray) else corners.numbers.floats().astype(np.int64)
    assert corners.sizes is not None
    return Surface(
        places=places,
        corners=whole.astype(np.int64),
        sizes=corners.sizes,
        face_colours=read_colours(face),
        point_colours=read_colours(vertex),
    )


def as_decimals(numbers: Decimals | Whole) -> Decimals:
    """A column as decimals."""
    return numbers if isinstance(numbers, Decimals) else shorten(numbers.astype(np.float64))


def read_colours(table: Table) -> Whole | None:
    """The colours of an element, or None where it has none."""
    for channels in (CHANNELS, tuple(f"diffuse_{channel}" for channel in CHANNELS)):
        if set(channels) <= set(table):
            parts = [table[channel].numbers for channel in channels]
            if isinstance(parts[0], np.ndarray):
                found: Whole = np.clip(np.stack([np.asarray(part) for part in parts], 1), 0, 255).astype(np.int64)
                return found
            return mix_colours(np.stack([as_decimals(part).floats() for part in parts], 1))
    return None


def write_ply(path: Path, surface: Surface) -> None:
    """Writes the surface as text, with the colours that it has."""
    channels = "".join(f"property uchar {channel}\n" for channel in CHANNELS)
    most = int(surface.sizes.max(initial=0))
    head = (
        f"ply\nformat ascii 1.0\nelement vertex {len(surface.places)}\n"
        + "".join(f"property double {axis}\n" for axis in "xyz")
        + (channels if surface.point_colours is not None else "")
        + f"element face {len(surface.sizes)}\nproperty list {'uchar' if most < 256 else 'int'} int vertex_indices\n"
        + (channels if surface.face_colours is not None else "")
        + "end_header\n"
    )
    path.write_bytes(
        head.encode()
        + print_points(surface.places, tails=tell_colours(surface.point_colours))
        + print_faces(surface.corners, surface.sizes, tails=tell_colours(surface.face_colours))
    )


def tell_colours(colours: Whole | None) -> list[bytes] | None:
    """Colours as they stand after a point or a face."""
    return None if colours is None else [b" %d %d %d" % tuple(colour) for colour in colours.tolist()]
