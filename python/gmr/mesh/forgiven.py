"""What the certificate checks of what an import was asked to forgive: points that became others, and what was left
out."""
from collections.abc import Iterator
from typing import Any, NamedTuple

import numpy as np

Array = Any  # of numpy
FEWEST_FACES = 4


class Corners(NamedTuple):
    """The corners of faces, those of one face together: its number, the point, and the place of the next corner."""

    owner: Array
    point: Array
    after: Array


def check_leaders(spots: Array, leaders: Array, distance: float) -> Iterator[str]:
    """Points that became others are so near to these, in units of the map, or at one place of it."""
    far = np.linalg.norm(spots - spots[leaders], axis=1) > distance * (1 + 1e-9) + 1.8
    if far.any() or (leaders[leaders] != leaders).any():
        yield f"point {int(np.argmax(far))} became another one that is further away"


def check_left(spots: Array, whole: Corners, left: Corners, cells: Array) -> Iterator[str]:
    """Faces and cells that were left out are degenerate; and of others only corners that are where the next one is,
    and spikes: the rest has the same sides, where those don't count along which a face goes there and back."""
    place = np.unique(np.rint(spots), axis=0, return_inverse=True)[1].ravel()
    if cells is not None:
        yield from check_cells(place, whole, cells, np.setdiff1d(cells, cells[left.owner]))
        return
    most = len(spots)
    sides, rest = list_sides(place, whole, most), list_sides(place, left, most)
    is_gone = ~np.isin(sides // most**2, left.owner)
    if not np.array_equal(sides[~is_gone], rest):
        yield "corners were left out that aren't where the next one is, and are no spikes"
    begins, counts = np.unique(sides[is_gone] // most, return_counts=True)
    wrong = np.setdiff1d(begins // most, begins[counts > 1] // most)
    if len(wrong):
        yield f"face {wrong[0]} isn't degenerate, and was left out"


def list_sides(place: Array, corners: Corners, most: int) -> Array:
    """A number for each side of faces, by its places, without those along which a face goes there and back."""
    owner, begin, end = corners.owner, place[corners.point], place[corners.point[corners.after]]
    keys = np.concatenate([(owner * most + begin) * most + end, (owner * most + end) * most + begin])
    sides, group = np.unique(keys, return_inverse=True)
    net = np.bincount(group.ravel(), np.repeat([1, -1], len(owner)), len(sides)).astype(np.int64)
    return sides.repeat(np.maximum(net, 0))


def check_cells(place: Array, corners: Corners, cells: Array, gone: Array) -> Iterator[str]:
    """Cells that are gone have fewer than four faces, a face with a point twice, two points at one place, or an edge of
    other than two faces."""
    cell, begin, end = cells[corners.owner], place[corners.point], place[corners.point[corners.after]]
    most, count = len(place), int(cells.max()) + 1
    is_odd = np.bincount(cells, minlength=count) < FEWEST_FACES
    points, places = (np.bincount(np.unique(cell * most + one) // most) for one in (corners.point, begin))
    is_odd |= points != places
    twice, counts = np.unique(corners.owner * most + corners.point, return_counts=True)
    is_odd[cells[twice[counts > 1] // most]] = True
    low, high = np.minimum(begin, end), np.maximum(begin, end)
    edges, counts = np.unique((cell * most + low) * most + high, return_counts=True)
    is_odd[edges[counts != 2] // most**2] = True
    if not is_odd[gone].all():
        yield f"cell {gone[np.argmin(is_odd[gone])]} isn't degenerate, and was left out"
