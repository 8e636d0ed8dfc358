"""Maps as meshes: their faces as polygons, and their cells by their types."""
from __future__ import annotations

from collections.abc import Iterable, Sequence
from typing import NamedTuple

import numpy as np

from gmr.arrays import Arrays, least_of_orbits
from gmr.mesh.decimals import Whole
from gmr.mesh.model import (
    CELL_FACES, POLYHEDRON, Bools, Cell, Polygon, Surface, Unfit, Volume, make_cell, make_polyhedron,
)
from gmr.mesh.scale import Frame, unscale_points
from gmr.mesh.surface import FEWEST_CORNERS
from gmr.mesh.volume import KINDS, name_faces


class Taken(NamedTuple):
    """A mesh of a map: its faces begin at these rows of darts, those of cells one after another, and each row lies at
    the point of this number."""

    mesh: Surface | Volume
    starts: Whole
    vertices: Whole


def number_vertices(given: Arrays) -> tuple[Whole, Whole]:
    """The number of the vertex at which each dart lies, and the least dart of each, all as rows."""
    least = least_of_orbits(list(given.alpha[1:]), len(given.names))
    leads = np.nonzero(least == np.arange(len(least)))[0]
    return np.searchsorted(leads, least), leads


def walk_faces(given: Arrays, starts: Whole) -> tuple[Whole, Whole]:
    """The darts at the corners of faces, from their starts on, one after another, and how many each face has.

    Unfit where a face isn't closed.
    """
    along, around = given.alpha[0], given.alpha[1]
    faces, at = np.arange(len(starts)), starts
    sizes = np.zeros(len(starts), np.int64)
    owners, darts = [], []
    while len(faces):
        owners.append(faces)
        darts.append(at)
        sizes[faces] += 1
        end = along[at]
        follower = around[end]
        is_open = (end == at) | (follower == end)
        if is_open.any():
            first = int(np.argmax(is_open))
            label = 0 if end[first] == at[first] else 1
            names = given.names[[starts[faces[first]], end[first]]]
            raise Unfit(f"the face of dart {names[0]} isn't closed: dart {names[1]} is free along {label}")
        goes_on = follower != starts[faces]
        faces, at = faces[goes_on], follower[goes_on]
    order = np.argsort(np.concatenate(owners), kind="stable") if owners else np.empty(0, np.int64)
    return (np.concatenate(darts)[order] if darts else order), sizes


def lead_darts(given: Arrays, labels: Sequence[int], faces: Whole) -> Bools:
    """The darts of each component that have the colour of its least one, where neighbours differ in colour, or all
    where there are no two colours. `faces` has the least dart of each dart's face."""
    rows = np.arange(len(given.names))
    starts = np.nonzero(faces == rows)[0]
    corners, _ = walk_faces(given, starts)
    colour = np.zeros(len(rows), bool)
    colour[corners] = True
    others = [given.alpha[label] for label in labels if label > 1]
    if given.dimension == 2 and all((colour[step] != colour)[step != rows].all() for step in others):
        return colour
    # Each dart twice, once in each colour: where both lie in one component, there are no two colours.
    count = len(rows)
    steps = []
    for label in labels:
        step = given.alpha[label]
        is_free = step == rows
        crossed = np.where(is_free, rows, step + count), np.where(is_free, rows + count, step)
        steps.append(np.concatenate(crossed))
    least = least_of_orbits(steps, 2 * count)
    one, two = least[:count], least[count:]
    return np.less_equal(one, two)


def list_faces(given: Arrays) -> Whole:
    """The dart at which each face begins, the least leading one, in order. Over dimension 2 a face has one side."""
    count = len(given.names)
    labels = [label for label in range(given.dimension + 1) if label != 2]
    faces = least_of_orbits([given.alpha[label] for label in labels], count)
    flat = least_of_orbits(list(given.alpha[:2]), count) if given.dimension > 2 else faces
    leading = np.nonzero(lead_darts(given, range(given.dimension + 1), flat))[0]
    _, firsts = np.unique(faces[leading], return_index=True)
    found: Whole = leading[np.sort(firsts)]
    return found


def pick_points(given: Arrays, leads: Whole) -> Whole:
    """The points of the vertices, of the first embedding of kind vec3 or vec2 over them; Unfit where there is none."""
    labels = tuple(range(1, given.dimension + 1))
    embed = next((one for one in given.embeds if one.labels == labels and one.kind in ("vec3", "vec2")), None)
    if embed is None:
        raise Unfit(f"the map has no points: no embedding <{' '.join(map(str, labels))}> of kind vec3 or vec2")
    return given.values[embed.name][leads]


def pick_colours(given: Arrays, labels: Iterable[int], darts: Whole) -> Whole | None:
    """The darts' colours in the first embedding of kind rgb over at least the labels; None where there is none."""
    for embed in given.embeds:
        if embed.kind == "rgb" and set(labels) <= set(embed.labels):
            return given.values[embed.name][darts]
    return None


def take_surface(given: Arrays, frame: Frame) -> Taken:
    """The faces of a map as polygons, over the points of its vertices in the order of their least darts.

    Faces turn one way where the surface can be oriented, that of the least dart; each begins at its least such dart.
    """
    vertices, leads = number_vertices(given)
    whole = pick_points(given, leads)
    starts = list_faces(given)
    corners, sizes = walk_faces(given, starts)
    small = sizes < FEWEST_CORNERS
    if small.any():
        first = int(np.argmax(small))
        name = given.names[starts[first]]
        raise Unfit(f"the face of dart {name} has {sizes[first]} corners, and a polygon has three or more")
    mesh = Surface(
        places=unscale_points(whole, frame),
        corners=vertices[corners],
        sizes=sizes,
        face_colours=pick_colours(given, (0, 1), starts),
        point_colours=pick_colours(given, range(1, given.dimension + 1), leads),
    )
    return Taken(mesh, starts, vertices)


class Rows(NamedTuple):
    """A map of dimension 3 as lists, by rows of darts: neighbours, names, vertices, and the points of these."""

    alpha: list[list[int]]
    names: list[int]
    vertices: list[int]
    points: list[list[int]]


def take_volume(given: Arrays, frame: Frame) -> Taken:
    """The cells of a map of dimension 3, each by its type or, where it has none, as a polyhedron of its faces.

    Points are those of its vertices, in the order of their least darts. Unfit where a cell isn't closed.
    """
    vertices, leads = number_vertices(given)
    whole = pick_points(given, leads)
    rows = Rows(given.alpha.tolist(), given.names.tolist(), vertices.tolist(), whole.tolist())
    first = least_of_orbits(list(given.alpha[:3]), len(given.names))
    order = np.argsort(first, kind="stable")
    begins = np.nonzero(np.concatenate([[True], np.diff(first[order]) != 0]))[0]
    cells: list[Cell] = []
    starts: list[int] = []
    for orbit in np.split(order, begins[1:]):
        cell, at = take_cell(rows, orbit.tolist())
        cells.append(cell)
        starts += at
    mesh = Volume(places=unscale_points(whole, frame), cells=cells)
    return Taken(mesh, np.array(starts, np.int64), vertices)


def take_cell(rows: Rows, orbit: list[int]) -> tuple[Cell, list[int]]:
    """The cell of the darts of an orbit over 0, 1 and 2, and the darts at which its faces begin.

    A cell with a type begins at the least dart of its base, and is turned round where it would be inside out.
    """
    walks = list_face_corners(rows, orbit)
    faces = [tuple(rows.vertices[dart] for dart in face) for face in walks]
    kind = KINDS.get(tuple(sorted(map(len, faces))))
    if kind:
        size = len(CELL_FACES[kind][0])
        base = next(face[0] for face in walks if len(face) == size)
        found = trace_cell(rows, kind, base)
        if len(set(found.corners)) == len(found.corners) and name_faces(found.faces) == name_faces(faces):
            if is_inside_out(found, rows.points):
                found = trace_cell(rows, kind, rows.alpha[0][base])
            return found, [find_start(rows, walks, face) for face in found.faces]
    return make_polyhedron(faces), [face[0] for face in walks]


def find_start(rows: Rows, walks: list[list[int]], face: Polygon) -> int:
    """The dart at the first corner of a face that leads to its second one."""
    wanted = sorted(face)
    for walk in walks:
        for dart in walk:
            for one in (dart, rows.alpha[1][dart]):
                if (rows.vertices[one], rows.vertices[rows.alpha[0][one]]) == face[:2] and \
                        sorted(rows.vertices[at] for at in walk) == wanted:
                    return one
    raise Unfit("a cell has no dart at a corner of a face")


def list_face_corners(rows: Rows, orbit: list[int]) -> list[list[int]]:
    """The darts at the corners of each face of a cell, from its least dart on; Unfit where the cell isn't closed."""
    across = rows.alpha[2]
    free = next((dart for dart in orbit if across[dart] == dart), None)
    if free is not None:
        names = rows.names[orbit[0]], rows.names[free]
        raise Unfit(f"the cell of dart {names[0]} isn't closed: dart {names[1]} is free along 2")
    seen: set[int] = set()
    found = []
    for dart in orbit:
        if dart not in seen:
            corners = trace_polygon(rows, dart)
            if len(corners) < FEWEST_CORNERS:
                line = f"the face of dart {rows.names[dart]} has {len(corners)} corners"
                raise Unfit(f"{line}, and a polygon has three or more")
            seen.update(corners, map(rows.alpha[0].__getitem__, corners))
            found.append(corners)
    return found


def trace_polygon(rows: Rows, dart: int) -> list[int]:
    """The darts at the corners of the dart's face in their order, from it on; Unfit where the face isn't closed."""
    along, around = rows.alpha[0], rows.alpha[1]
    corners, at = [], dart
    while True:
        corners.append(at)
        end = along[at]
        follower = around[end]
        if end == at or follower == end:
            names, label = (rows.names[dart], rows.names[end]), 0 if end == at else 1
            raise Unfit(f"the face of dart {names[0]} isn't closed: dart {names[1]} is free along {label}")
        at = follower
        if at == dart:
            return corners


def trace_cell(rows: Rows, kind: str, dart: int) -> Cell:
    """The cell of the type whose base is the dart's face, from the dart on: the base, then what lies above it."""
    along, around, across = rows.alpha[:3]
    base = trace_polygon(rows, dart)
    above = [along[around[across[corner]]] for corner in base]
    tops = above if kind in ("wedge", "hexahedron") else above[:1]
    return make_cell(kind, [rows.vertices[corner] for corner in (*base, *tops)])


def is_inside_out(cell: Cell, points: list[list[int]]) -> bool:
    """Whether the base of a cell turns clockwise for who looks at it from its top."""
    size = len(CELL_FACES[cell.kind][0])
    start, *others = [(*points[cell.corners[place]], 0)[:3] for place in (0, 1, size - 1, size)]
    (a, b, c), (d, e, f), (g, h, i) = [[x - y for x, y in zip(other, start)] for other in others]
    return a * (e * i - f * h) - b * (d * i - f * g) + c * (d * h - e * g) < 0


def count_untyped(cells: Iterable[Cell]) -> int:
    """How many cells have no type."""
    return sum(cell.kind == POLYHEDRON for cell in cells)
