"""What stands between a mesh's file and a map: surfaces of polygons, and volumes of cells, as a file has them."""
from __future__ import annotations

from collections.abc import Iterable, Sequence
from dataclasses import dataclass, field
from itertools import chain
from typing import Any, NamedTuple

import numpy as np
from numpy.typing import NDArray

from gmr.errors import Fault
from gmr.maps import Embed
from gmr.mesh.decimals import Decimals, Whole, shorten

Point = tuple[float, float, float]
Colour = tuple[int, int, int]
Polygon = tuple[int, ...]  # the indices of its corners' points, from 0
Bools = NDArray[np.bool_]

# The faces of a cell of each type, by the places of its corners in the order of VTK and Gmsh.
CELL_FACES: dict[str, tuple[Polygon, ...]] = {
    "tetra": ((0, 1, 2), (0, 1, 3), (1, 2, 3), (2, 0, 3)),
    "pyramid": ((0, 1, 2, 3), (0, 1, 4), (1, 2, 4), (2, 3, 4), (3, 0, 4)),
    "wedge": ((0, 1, 2), (0, 1, 4, 3), (1, 2, 5, 4), (2, 0, 3, 5), (3, 4, 5)),
    "hexahedron": ((0, 1, 2, 3), (0, 1, 5, 4), (1, 2, 6, 5), (2, 3, 7, 6), (3, 0, 4, 7), (4, 5, 6, 7)),
}
POLYHEDRON = "polyhedron"  # a cell that is told by its faces alone


class Unfit(Fault, ValueError):
    """A mesh, or a map, that the other can't hold: one plain line that says where."""


class Cell(NamedTuple):
    """A cell of a volume: its type, its corners in the order of that type, and its faces."""

    kind: str
    corners: Polygon
    faces: tuple[Polygon, ...]


def make_cell(kind: str, corners: Sequence[int]) -> Cell:
    """The cell of a type of CELL_FACES with these corners."""
    faces = tuple(tuple(corners[place] for place in face) for face in CELL_FACES[kind])
    return Cell(kind, tuple(corners), faces)


def make_polyhedron(faces: Iterable[Sequence[int]]) -> Cell:
    """The cell that has these faces."""
    kept = [tuple(face) for face in faces]
    return Cell(POLYHEDRON, tuple(sorted({corner for face in kept for corner in face})), tuple(kept))


@dataclass(kw_only=True)
class Mesh:
    """The points of a mesh, and how its file counts.

    Points are counted from `first`, as the file does, and so are faces or cells, but where `point_names` and `names`
    have what the file calls them; `lines` and `point_lines` are the lines of the file where they stand. Where points
    have no numbers in the file, as in STL, `has_numbers` is false, and a point is told by its place.
    """

    places: Decimals  # n x 3
    first: int = 0
    has_numbers: bool = True
    names: Sequence[int] | Whole | None = None
    point_names: Sequence[int] | Whole | None = None
    lines: Sequence[int] | Whole | None = None
    point_lines: Sequence[int] | Whole | None = None
    passed: dict[str, int] = field(default_factory=dict)  # what the file has and no face or cell is, as lines

    @property
    def points(self) -> list[Point]:
        """The points, as numbers of 64 bits."""
        return [(x, y, z) for x, y, z in self.places.floats().tolist()]

    def tell_point(self, index: int) -> str:
        """A point as a reader finds it in the file."""
        if not self.has_numbers:
            return f"({tell_point_line(self.points[index])})"
        return str(index + self.first if self.point_names is None else self.point_names[index])

    def tell_points(self, indices: Iterable[int]) -> str:
        """Points as a reader finds them in the file."""
        return " ".join(map(self.tell_point, indices))

    def tell_element(self, index: int) -> str:
        """A face or cell as a reader finds it in the file: by its number, and the line where it stands."""
        name = str(index + self.first if self.names is None else self.names[index])
        return name if self.lines is None else f"{name} (line {self.lines[index]})"

    def tell_place(self, index: int) -> str:
        """A point by its number, and the line where it stands."""
        name = self.tell_point(index)
        return name if self.point_lines is None else f"{name} (line {self.point_lines[index]})"


@dataclass(kw_only=True)
class Surface(Mesh):
    """A mesh of polygons, with the colours that its file has for faces or points.

    The corners of all faces stand in one array one after another, and `sizes` tells how many each face has.
    """

    corners: Whole
    sizes: Whole
    face_colours: Whole | None = None  # faces x 3
    point_colours: Whole | None = None  # points x 3

    @classmethod
    def of(cls, points: Sequence[Sequence[float]], faces: Sequence[Sequence[int]], **more: Any) -> Surface:
        """The surface of points and faces as lists have them."""
        for name in ("face_colours", "point_colours"):
            if more.get(name) is not None:
                more[name] = np.array(more[name], np.int64).reshape(-1, 3)
        return cls(places=place_points(points), corners=flatten(faces), sizes=sizes_of(faces), **more)

    @property
    def faces(self) -> list[Polygon]:
        """The faces, each the indices of its corners' points."""
        corners, ends = self.corners.tolist(), np.cumsum(self.sizes).tolist()
        return [tuple(corners[begin:end]) for begin, end in zip([0, *ends], ends)]

    @property
    def begins(self) -> Whole:
        """Where the corners of each face begin."""
        return np.cumsum(self.sizes) - self.sizes

    def face(self, index: int) -> Polygon:
        """One of the faces."""
        begin = int(self.begins[index])
        return tuple(self.corners[begin: begin + int(self.sizes[index])].tolist())


@dataclass(kw_only=True)
class Volume(Mesh):
    """A mesh of cells."""

    cells: list[Cell]

    @classmethod
    def of(cls, points: Sequence[Sequence[float]], cells: Sequence[Cell], **more: Any) -> Volume:
        """The volume of points and cells as lists have them."""
        return cls(places=place_points(points), cells=list(cells), **more)


class Paint(NamedTuple):
    """Colours as an embedding of a map: its name and labels, and the colours of faces, points or cells in order."""

    name: str
    labels: tuple[int, ...]
    colours: Whole

    def embed(self) -> Embed:
        """The embedding of a schema."""
        return Embed(self.name, self.labels, "rgb")


def place_points(points: Sequence[Sequence[float]]) -> Decimals:
    """Points of numbers of 64 bits, each as the shortest decimal that stands for it."""
    return shorten(np.array(points, np.float64).reshape(-1, 3))


def flatten(faces: Sequence[Sequence[int]]) -> Whole:
    """The corners of faces one after another."""
    return np.fromiter(chain.from_iterable(faces), np.int64)


def sizes_of(faces: Sequence[Sequence[Any]]) -> Whole:
    """How many corners each face has."""
    return np.fromiter(map(len, faces), np.int64, len(faces))


def next_corners(sizes: Whole) -> Whole:
    """The place of the next corner in its face, for the corners of faces one after another."""
    ends = np.cumsum(sizes)
    following = np.arange(1, int(ends[-1]) + 1 if len(ends) else 1)
    filled = sizes > 0
    following[ends[filled] - 1] = (ends - sizes)[filled]
    return following


def tell_number(number: float) -> str:
    """A number as files have it: the shortest text that stands for it, without a point where it is whole."""
    text = repr(number)
    return text[:-2] if text.endswith(".0") else text


def tell_point_line(point: Sequence[float]) -> str:
    """The three coordinates of a point, with one blank between them."""
    return " ".join(map(tell_number, point))


def tell_more(count: int) -> str:
    """How many more elements a refusal is true of, beside the first."""
    return f", and so it is with {count - 1} more" if count > 1 else ""


def mix_colours(parts: NDArray[np.float64]) -> Whole:
    """Colours of fractions from 0 to 1 as numbers from 0 to 255; any other number counts as the nearer of these."""
    found: Whole = np.rint(255 * np.clip(np.nan_to_num(parts), 0.0, 1.0)).astype(np.int64)
    return found
