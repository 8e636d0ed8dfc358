"""Meshes in STL, as text or binary: triangles whose corners have no numbers, read and written."""
import struct
from pathlib import Path

import numpy as np

from gmr.mesh.decimals import Decimals, Floats, Whole, shorten
from gmr.mesh.model import Surface, Unfit
from gmr.mesh.texts import parse_places, read_bytes, show_words

HEAD, FACET = 80, 50
FACET_WORDS = [b"facet", b"outer", b"vertex", b"vertex", b"vertex", b"endloop", b"endfacet"]
RECORD = np.dtype([("normal", "<f4", (3,)), ("corners", "<f4", (9,)), ("more", "<u2")])


def read_stl(path: Path) -> Surface:
    """The triangles of a file, each with three points of its own, which have no numbers. Facets are counted from 0."""
    data = path.read_bytes()
    count = struct.unpack_from("<I", data, HEAD)[0] if len(data) >= HEAD + 4 else 0
    is_text = data.lstrip()[:5].lower() == b"solid" and b"\0" not in data[:HEAD + 4]
    if len(data) == HEAD + 4 + FACET * count and count:
        rows = np.frombuffer(data, RECORD, count, HEAD + 4)
        places = shorten(rows["corners"].astype(np.float64), single=True).reshape(-1, 3)
        return make_triangles(places)
    if is_text:
        return read_text(read_bytes(path))
    if len(data) < HEAD + 4:
        raise Unfit("this is no STL: it doesn't begin with solid, and is too short for the binary form")
    raise Unfit(f"STL tells of {count} facets, which take {HEAD + 4 + FACET * count} bytes, and has {len(data)}: "
                f"it is {'cut off' if len(data) < HEAD + 4 + FACET * count else 'no STL, or has more after them'}")


def make_triangles(places: Decimals, lines: list[int] | None = None) -> Surface:
    """The surface of triangles without numbers."""
    count = len(places) // 3
    return Surface(
        places=places,
        corners=np.arange(3 * count),
        sizes=np.full(count, 3, np.int64),
        has_numbers=False,
        lines=lines,
    )


def read_text(data: bytes) -> Surface:
    """The triangles of a text: solids with facets, each a loop of three vertices."""
    rows = [(number, line.split()) for number, line in enumerate(data.replace(b"\r", b"\n").split(b"\n"), 1)]
    if b"\r\n" in data:
        rows = [(number, line.split()) for number, line in enumerate(data.split(b"\n"), 1)]
    rows = [(number, words) for number, words in rows if words]
    words: list[list[bytes]] = []
    lines: list[int] = []
    place = facet = 0
    is_open = False
    for number, row in rows:
        head = row[0].lower()
        if place == 0 and head in (b"solid", b"endsolid"):
            if is_open == (head == b"solid"):
                raise Unfit(f"line {number}: {head.decode()} stands where STL has none")
            is_open = not is_open
        elif not is_open or head != FACET_WORDS[place]:
            raise Unfit(f"line {number}: STL has {FACET_WORDS[place].decode()} here, and not {show_words(row[:6])}")
        else:
            if head == b"vertex":
                words.append(row[1:])
            elif head == b"facet":
                lines.append(number)
            place = (place + 1) % len(FACET_WORDS)
            facet += place == 0
    if is_open or place:
        raise Unfit(f"STL ends within a solid, after {facet} facets: it is cut off")
    places = parse_places(words, lambda at: f"facet {at // 3} (line {lines[at // 3]}): a vertex")
    return make_triangles(places, lines)


def write_stl(path: Path, surface: Surface) -> None:
    """Writes the surface in the binary form: polygons are cut to triangles from their first corners, and coordinates
    rounded to 32 bits."""
    triangles = cut_to_triangles(surface)
    corners = surface.places.floats()[triangles].astype(np.float32)
    rows = np.zeros(len(triangles), RECORD)
    one, two = corners[:, 1] - corners[:, 0], corners[:, 2] - corners[:, 0]
    normals: Floats = np.cross(one.astype(np.float64), two.astype(np.float64))
    lengths = np.linalg.norm(normals, axis=1, keepdims=True)
    rows["normal"] = np.divide(normals, lengths, out=np.zeros_like(normals), where=lengths > 0)
    rows["corners"] = corners.reshape(-1, 9)
    path.write_bytes(b"gmr".ljust(HEAD, b" ") + struct.pack("<I", len(rows)) + rows.tobytes())


def cut_to_triangles(surface: Surface) -> Whole:
    """The triangles of the polygons, each from the polygon's first corner."""
    begins, sizes = surface.begins, surface.sizes
    counts = np.maximum(sizes - 2, 0)
    face = np.repeat(np.arange(len(sizes)), counts)
    step = np.arange(int(counts.sum())) - np.repeat(np.cumsum(counts) - counts, counts)
    first = surface.corners[begins[face]]
    return np.stack([first, surface.corners[begins[face] + step + 1], surface.corners[begins[face] + step + 2]], 1)
