"""Volumes of cells as maps of dimension 3."""
from __future__ import annotations

from collections.abc import Callable, Iterable, Sequence
from dataclasses import replace
from typing import NamedTuple

import numpy as np

from gmr.mesh.decimals import Whole
from gmr.mesh.mapped import Mapped
from gmr.mesh.model import CELL_FACES, Cell, Polygon, Unfit, Volume, flatten, next_corners, sizes_of, tell_more
from gmr.mesh.surface import CUT, DROP, FEWEST_CORNERS, Done, Wish, check_size, tell_one_place

FREE = -1
KINDS = {tuple(sorted(map(len, faces))): kind for kind, faces in CELL_FACES.items()}  # by the sizes of a cell's faces


class Sides(NamedTuple):
    """The faces of all cells one after another: their corners, and the first dart of each."""

    faces: list[Polygon]
    corners: list[int]
    begins: list[int]


def make_volume_map(volume: Volume, points: Whole) -> Mapped:
    """The map of a volume, its points scaled: two darts for each side of each face of a cell, in the order of the file.

    Faces of a cell are joined along 2, and cells that share a face along 3; other faces stay free along 3. Unfit tells
    why a volume has no map: a cell with a point twice or two at one place, an edge of a cell with other than two of
    its faces, a face of more than two cells, and two cells that have the corners of one face in another order.
    """
    return map_volume(volume, points, Wish())[0]


def map_volume(volume: Volume, points: Whole, wish: Wish) -> tuple[Mapped, Volume, Done]:
    """The map, the volume that it is of, and what was done to the one that was given."""
    volume, done = check_cells(volume, points, wish)
    if not volume.cells:
        raise Unfit("it has no cells" + (" that aren't degenerate" if done.told else ""))
    faces = [face for cell in volume.cells for face in cell.faces]
    sizes = sizes_of(faces)
    check_size(2 * int(sizes.sum()))
    corners = flatten(faces)
    sides = Sides(faces, corners.tolist(), (2 * (np.cumsum(sizes) - sizes)).tolist())
    following = next_corners(sizes)
    count = 2 * len(corners)
    around = np.empty(count, np.int64)
    around[1::2] = 2 * following
    around[2 * following] = np.arange(1, count, 2)
    ends = np.empty(count, np.int64)
    ends[0::2], ends[1::2] = corners, corners[following]
    joined, cut = join_faces(volume, sides, ends.tolist(), wish)
    if cut:
        done.told["cut"] = cut
    alpha = np.stack([np.arange(count) ^ 1, around, np.array(join_edges(volume, count)), np.array(joined)])
    cells = np.repeat(np.arange(len(volume.cells)), [2 * sum(map(len, cell.faces)) for cell in volume.cells])
    return Mapped(3, alpha, ends, points, cells), volume, done


def check_cells(volume: Volume, points: Whole, wish: Wish) -> tuple[Volume, Done]:
    """The volume without cells that are degenerate, where that is wished; else Unfit at the first of them."""
    count = len(volume.places)
    for index, cell in enumerate(volume.cells):
        if cell.corners and not 0 <= min(cell.corners) <= max(cell.corners) < count:
            name = volume.tell_element(index)
            raise Unfit(f"cell {name} has a corner that is none of the {count} points")
    places: list[tuple[int, ...]] = [tuple(point) for point in points.tolist()]
    faults = [(index, find_fault(volume, cell, places)) for index, cell in enumerate(volume.cells)]
    wrong = [(index, fault) for index, fault in faults if fault]
    if not wrong:
        return volume, Done()
    if not wish.drop:
        index, fault = wrong[0]
        raise Unfit(fault(volume, index, len(wrong)))
    gone = {index for index, _ in wrong}
    kept = [index for index in range(len(volume.cells)) if index not in gone]
    names = [volume.names[index] if volume.names is not None else index + volume.first for index in kept]
    left = replace(volume, cells=[volume.cells[index] for index in kept], names=names)
    is_left = np.repeat([index not in gone for index in range(len(volume.cells))],
                        [sum(map(len, cell.faces)) for cell in volume.cells])
    return left, Done(is_left, {"dropped": len(gone)})


Fault = Callable[[Volume, int, int], str]


def tell(what: str) -> Fault:
    """What is told of a cell with a fault."""
    return lambda volume, index, count: f"cell {volume.tell_element(index)} {what}{tell_more(count)}: {DROP}"


def find_fault(volume: Volume, cell: Cell, places: Sequence[tuple[int, ...]]) -> Fault | None:
    """Why a cell is degenerate, or None."""
    if not cell.faces:
        return tell("has no faces")
    for points in (cell.corners, *cell.faces):
        if len(set(points)) < len(points):
            twice = next(point for point in points if points.count(point) > 1)
            return tell(f"has the point {volume.tell_point(twice)} twice")
    if any(len(face) < FEWEST_CORNERS for face in cell.faces):
        return tell("has a face with fewer than three corners")
    if len(set(name_faces(cell.faces))) < len(cell.faces):
        return tell("has two faces of the same points")
    at = {places[corner]: corner for corner in cell.corners}
    if len(at) < len(cell.corners):
        first = next(corner for corner in cell.corners if at[places[corner]] != corner)
        both = (first, at[places[first]])
        return lambda volume, index, count: tell_one_place(volume, f"cell {volume.tell_element(index)}", both, count)
    edges: dict[tuple[int, int], int] = {}
    for face in cell.faces:
        for begin, end in zip(face, face[1:] + face[:1]):
            edge = (begin, end) if begin < end else (end, begin)
            edges[edge] = edges.get(edge, 0) + 1
    wrong = next((edge for edge, count in edges.items() if count != 2), None)
    if wrong:
        what = "one face alone" if edges[wrong] == 1 else "more than two faces"
        return tell(f"has {what} at the edge of the points {volume.tell_points(wrong)}")
    return None


def join_edges(volume: Volume, count: int) -> list[int]:
    """The neighbours along 2, from face to face of one cell, each of whose edges has two faces."""
    across, dart = [FREE] * count, 0
    for cell in volume.cells:
        waits: dict[tuple[int, int], int] = {}
        for face in cell.faces:
            for begin, end in zip(face, face[1:] + face[:1]):
                lower, edge = (dart, (begin, end)) if begin < end else (dart + 1, (end, begin))
                other = waits.setdefault(edge, lower)
                if other != lower:
                    across[lower], across[other] = other, lower
                    across[lower ^ 1], across[other ^ 1] = other ^ 1, lower ^ 1
                dart += 2
    return across


def join_faces(volume: Volume, sides: Sides, ends: list[int], wish: Wish) -> tuple[list[int], int]:
    """The neighbours along 3, from cell to cell, and how many faces are left open that can't be joined; Unfit at a
    face of more than two cells, or of another order, where that isn't wished."""
    found = list(range(len(ends)))
    groups: dict[Polygon, list[int]] = {}
    for index, face in enumerate(sides.faces):
        groups.setdefault(tuple(sorted(face)), []).append(index)
    crowded = [key for key, group in groups.items() if len(group) > 2]
    pairs = [(key, group) for key, group in groups.items() if len(group) == 2]
    matched = [(key, match_faces(sides, ends, *group)) for key, group in pairs]
    crooked = [key for key, darts in matched if darts is None]
    if crowded and not wish.cut:
        names = " ".join(volume.tell_element(cell) for cell in cells_at(volume, crowded[0]))
        told = volume.tell_points(sides.faces[groups[crowded[0]][-1]])
        raise Unfit(f"the face of the points {told} has more than two cells: {names}{tell_more(len(crowded))}: {CUT}")
    if crooked and not wish.cut:
        names = " and ".join(volume.tell_element(cell) for cell in cells_at(volume, crooked[0]))
        line = f"the cells {names} have the points {volume.tell_points(crooked[0])} round a face in another order"
        raise Unfit(f"{line}{tell_more(len(crooked))}: {CUT}")
    for _, darts in matched:
        for one, two in darts or ():
            found[one], found[two] = two, one
    return found, len(crowded) + len(crooked)


def match_faces(sides: Sides, ends: list[int], one: int, two: int) -> list[tuple[int, int]] | None:
    """The pairs of darts of two faces of the same points, side by side; None where the points go round otherwise."""
    size = len(sides.faces[one])
    begin, other = sides.begins[one], sides.begins[two]
    there = {(ends[dart], ends[dart ^ 1]): dart for dart in range(other, other + 2 * size)}
    pairs = [(dart, there.get((ends[dart], ends[dart ^ 1]), FREE)) for dart in range(begin, begin + 2 * size)]
    return None if any(dart == FREE for _, dart in pairs) else pairs


def cells_at(volume: Volume, key: Polygon) -> list[int]:
    """The cells that have a face of these points."""
    return [at for at, cell in enumerate(volume.cells) if any(tuple(sorted(face)) == key for face in cell.faces)]


def name_faces(faces: Iterable[Polygon]) -> list[Polygon]:
    """Faces as they can be compared, whatever their order and where they begin."""
    return sorted(tuple(sorted(face)) for face in faces)
