"""Points that lie at one place, or nearly, become one point."""
from __future__ import annotations

from dataclasses import replace

import numpy as np
from numpy.typing import NDArray

from gmr.mesh.decimals import Whole
from gmr.mesh.model import Cell, Mesh, Surface, Volume, make_cell, make_polyhedron
from gmr.mesh.scale import first_alike

NEAR = [(x, y, z) for x in (-1, 0, 1) for y in (-1, 0, 1) for z in (-1, 0, 1)]


def weld_alike(mesh: Mesh) -> Whole:
    """For each point the first one at the same place in the file."""
    return first_alike(np.concatenate([mesh.places.digits, mesh.places.powers], axis=1))[0]


def weld_near(mesh: Mesh, points: Whole, distance: float) -> Whole:
    """For each point the one that it becomes: the first one that is kept within the distance, in the file's units,
    or at the same place of the map."""
    alike, firsts = first_alike(points)
    if distance <= 0:
        return alike
    leaders = np.arange(len(points))
    leaders[firsts] = lead_points(mesh.places.floats()[firsts], firsts, distance)
    return leaders[alike]


def lead_points(places: NDArray[np.float64], numbers: Whole, distance: float) -> Whole:
    """For each place the number of the first one that is kept within the distance; one that has none is kept."""
    boxes: dict[tuple[int, int, int], list[int]] = {}
    bins: list[tuple[int, int, int]] = [(x, y, z) for x, y, z in np.floor(places / distance).astype(np.int64).tolist()]
    rows = places.tolist()
    found = list(range(len(rows)))
    limit = (distance * (1 + 1e-12)) ** 2
    for here, (box, place) in enumerate(zip(bins, rows)):
        near = [one for step in NEAR for one in boxes.get((box[0] + step[0], box[1] + step[1], box[2] + step[2]), ())]
        kept = min((one for one in near if sum((a - b) ** 2 for a, b in zip(rows[one], place)) <= limit), default=here)
        if kept == here:
            boxes.setdefault(box, []).append(here)
        found[here] = kept
    return numbers[np.array(found, np.int64)]


def apply_weld(mesh: Surface | Volume, leaders: Whole) -> Surface | Volume:
    """The mesh with the points that others become at their corners."""
    if (leaders == np.arange(len(leaders))).all():
        return mesh
    if isinstance(mesh, Surface):
        is_there = (mesh.corners >= 0) & (mesh.corners < len(leaders))
        return replace(mesh, corners=np.where(is_there, leaders[mesh.corners * is_there], mesh.corners))
    numbers = dict(enumerate(leaders.tolist()))
    return replace(mesh, cells=[rename_cell(cell, numbers) for cell in mesh.cells])


def rename_cell(cell: Cell, numbers: dict[int, int]) -> Cell:
    """A cell with other points at its corners; those that aren't there stay."""
    if cell.kind != "polyhedron":
        return make_cell(cell.kind, [numbers.get(corner, corner) for corner in cell.corners])
    return make_polyhedron([numbers.get(corner, corner) for corner in face] for face in cell.faces)
