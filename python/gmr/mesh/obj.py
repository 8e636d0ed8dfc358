"""Meshes in Wavefront's OBJ: read with their polygons, and written."""
from pathlib import Path

import numpy as np

from gmr.mesh.decimals import Whole, parse_words
from gmr.mesh.model import Surface, Unfit, mix_colours
from gmr.mesh.printed import print_faces, print_points
from gmr.mesh.texts import STROKE, Words, read_bytes, show_word, spread

WHITE = (255, 255, 255)
PASSED = {"l": "lines", "p": "points"}
WORDS = set(
    b"v vn vt vp f fo l p g o s mg usemtl mtllib usemap maplib cstype deg bmat step curv curv2 surf parm trim hole "
    b"scrv sp end con bevel c_interp d_interp lod shadow_obj trace_obj ctech stech call csh".split()
)


def read_obj(path: Path) -> Surface:
    """The surface of a file. Points and faces are counted from 1; groups and curves are passed over, and so are lines
    and points, which are counted."""
    words = Words(read_bytes(path), goes_on=True)
    heads = words.heads()
    vertices, polygons = np.flatnonzero(heads == ord("v")), np.flatnonzero(heads == ord("f"))
    if not len(vertices) and not len(polygons) and not any(words.word(place) in WORDS for place in words.rows.tolist()):
        raise Unfit("this is no OBJ: no line of it begins as one of OBJ does")
    passed = {name: int((heads == ord(head)).sum()) for head, name in PASSED.items()}
    return Surface(
        places=words.points(vertices, 1, lambda index: f"line {words.lines[vertices[index]]}: a point"),
        corners=read_corners(words, polygons, np.searchsorted(vertices, polygons)),
        sizes=words.sizes[polygons] - 1,
        first=1,
        lines=words.lines[polygons],
        point_lines=words.lines[vertices],
        passed={name: count for name, count in passed.items() if count},
        point_colours=read_point_colours(words, vertices),
        face_colours=read_paints(words, polygons, path.parent) if b"mtllib" in words.data else None,
    )


def read_corners(words: Words, polygons: Whole, before: Whole) -> Whole:
    """The corners of the statements `f`: each is a point's number, whatever stands after a stroke; negative ones count
    back from the last point before it."""
    sizes = words.sizes[polygons] - 1
    places = spread(words.rows[polygons] + 1, sizes)
    ends = words.ends[places]
    strokes = np.append(np.flatnonzero(words.letters == STROKE), len(words.letters))
    if len(strokes) > 1:
        ends = np.minimum(ends, strokes[np.searchsorted(strokes, words.begins[places])])
    whole, wrong = words.whole(places, ends)
    if wrong is not None:
        told = f"has a corner {show_word(words.word(places[wrong]))}, which is no number of a point"
        raise Unfit(tell_corner(words, polygons, wrong, told))
    corners = np.where(whole > 0, whole - 1, np.repeat(before, sizes) + whole)
    is_wrong = (whole == 0) | (corners < 0)
    if is_wrong.any():
        worst = int(np.argmax(is_wrong))
        raise Unfit(tell_corner(words, polygons, worst, f"has the corner {whole[worst]}, and there is no such point"))
    return corners


def tell_corner(words: Words, polygons: Whole, corner: int, told: str) -> str:
    """The line for a corner of a face."""
    face = int(np.searchsorted(np.cumsum(words.sizes[polygons] - 1), corner, side="right"))
    return f"line {words.lines[polygons[face]]}: face {face + 1} {told}"


def read_point_colours(words: Words, vertices: Whole) -> Whole | None:
    """The colours that stand after points, white where one has none; None where no point has one."""
    coloured = np.flatnonzero(words.sizes[vertices] >= 7)
    if not len(coloured):
        return None
    parts, is_wrong = words.decimals((words.rows[vertices[coloured]][:, None] + np.arange(4, 7)).ravel())
    if is_wrong.any():
        raise Unfit(f"point {coloured[int(np.argmax(is_wrong)) // 3] + 1} has a colour that isn't three numbers")
    found = np.full((len(vertices), 3), 255, np.int64)
    found[coloured] = mix_colours(parts.floats().reshape(-1, 3))
    return found


def read_paints(words: Words, polygons: Whole, folder: Path) -> Whole | None:
    """The colours that materials give to faces, white where none does; None where no face has one."""
    palette: dict[bytes, tuple[int, ...]] = {}
    used: list[tuple[int, bytes]] = [(-1, b"")]
    lengths = words.ends[words.rows] - words.begins[words.rows]
    for row in np.flatnonzero(lengths == len(b"mtllib")).tolist():
        head, *name = words.row(row)
        if head == b"mtllib":
            palette.update(read_materials(folder / b" ".join(name).decode("utf-8", "replace")))
        elif head == b"usemtl":
            used.append((row, b" ".join(name)))
    paints = [palette.get(name) for _, name in used]
    at = np.searchsorted([row for row, _ in used], polygons) - 1
    if not any(paints[one] for one in np.unique(at).tolist()):
        return None
    found: Whole = np.array([one or WHITE for one in paints], np.int64)[at]
    return found


def read_materials(path: Path) -> dict[bytes, tuple[int, ...]]:
    """The diffuse colour of each material of a library; none where the library isn't there."""
    try:
        words = Words(read_bytes(path))
    except (OSError, ValueError):
        return {}
    found: dict[bytes, tuple[int, ...]] = {}
    name = b""
    for head, *rest in map(words.row, range(len(words))):
        if head == b"newmtl":
            name = b" ".join(rest)
        elif head == b"Kd" and len(rest) == 3:
            parts, is_wrong = parse_words(rest)
            if not is_wrong.any():
                found[name] = tuple(mix_colours(parts.floats()).tolist())
    return found


def write_obj(path: Path, surface: Surface) -> None:
    """Writes the surface. OBJ has no colours of its own, so none are written."""
    points = print_points(surface.places, b"v ")
    path.write_bytes(points + print_faces(surface.corners + 1, surface.sizes, b"f "))
