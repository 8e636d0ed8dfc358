"""How far cells may be from a place at least and at most, of all cells at once by numpy's arrays."""
from typing import Any

import numpy as np
from numpy.typing import NDArray

Floats = NDArray[np.float64]


def far_from_segments(ones: Floats, twos: Floats, place: Floats) -> Floats:
    """The distance of a place from each segment between points (n x 3)."""
    ways, starts = twos - ones, place - ones
    squares = (ways * ways).sum(axis=1)
    shares = np.clip((starts * ways).sum(axis=1) / np.where(squares > 0, squares, 1.0), 0.0, 1.0)
    found: Floats = np.linalg.norm(starts - shares[:, None] * ways, axis=1)
    return found


def list_near(points: Floats, owners: NDArray[np.int64], place: Floats) -> Any:
    """The cells, by the least rows that own the points (n x 3), that may be nearest to a place, ascending: those whose
    boxes aren't further than the nearest cell's corners."""
    order = np.argsort(owners, kind="stable")
    begins = np.nonzero(np.concatenate([[True], np.diff(owners[order]) != 0]))[0]
    ordered = points[order]
    low, high = np.minimum.reduceat(ordered, begins), np.maximum.reduceat(ordered, begins)
    least = np.linalg.norm(np.maximum(0.0, np.maximum(low - place, place - high)), axis=1)
    most = np.linalg.norm(ordered - place, axis=1).min()
    return owners[order[begins[least <= most * (1 + 1e-9) + 1e-9]]]
