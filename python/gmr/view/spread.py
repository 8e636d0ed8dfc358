"""Where the vertices of a large map without points lie in space: so that darts few steps apart are near each other.

The steps from some vertices far apart to all others are counted, and places are chosen whose distances are like these
numbers: Brandes and Pich's pivot scaling. It takes a time that grows with the map as its number of darts does."""
from typing import TYPE_CHECKING

import numpy

if TYPE_CHECKING:
    from numpy.typing import NDArray

    Whole = NDArray[numpy.int64]
    Real = NDArray[numpy.float64]

PIVOTS, AXES, GAP = 12, 3, 1.3


def spread(vertices: "Whole", ends: "Whole", parts: "Whole") -> "Real":
    """The place of each vertex, three coordinates: `vertices` has the vertex of each dart, `ends` the dart at the other
    end of its edge, and `parts` the connected part of each dart. Parts stand side by side in rows."""
    count = int(vertices.max()) + 1
    begins, near = neighbours_of(vertices, vertices[ends], count)
    part_of = numpy.zeros(count, numpy.int64)
    part_of[vertices] = parts
    places = numpy.zeros((count, AXES))
    total = int(parts.max()) + 1
    columns = int(numpy.ceil(numpy.sqrt(total)))
    for part in range(total):
        chosen = numpy.flatnonzero(part_of == part)
        own = scale(steps_from_pivots(begins, near, chosen, count))
        own /= 2 * (numpy.abs(own).max() or 1.0)
        own[:, :2] += (part % columns * GAP, -(part // columns) * GAP)
        places[chosen] = own
    return places


def neighbours_of(ones: "Whole", others: "Whole", count: int) -> "tuple[Whole, Whole]":
    """The neighbours of all vertices in one list, and where those of each begin in it."""
    pairs = numpy.unique(numpy.stack([ones, others]), axis=1)
    begins = numpy.searchsorted(pairs[0], numpy.arange(count + 1))
    return begins, pairs[1]


def steps_from(begins: "Whole", near: "Whole", start: int, count: int) -> "Whole":
    """How many edges lie between a vertex and each other one, -1 where no way leads."""
    steps = numpy.full(count, -1)
    steps[start] = 0
    front, far = numpy.array([start]), 0
    while len(front):
        far += 1
        sizes = begins[front + 1] - begins[front]
        offsets = numpy.arange(sizes.sum()) - numpy.repeat(numpy.cumsum(sizes) - sizes, sizes)
        reached = numpy.unique(near[numpy.repeat(begins[front], sizes) + offsets])
        front = reached[steps[reached] < 0]
        steps[front] = far
    return steps


def steps_from_pivots(begins: "Whole", near: "Whole", chosen: "Whole", count: int) -> "Real":
    """For each chosen vertex the steps to some of them, each as far as can be from those before it."""
    columns = [steps_from(begins, near, int(chosen[0]), count)[chosen]]
    least = columns[0]
    while len(columns) < min(PIVOTS, len(chosen)) and least.max() > 0:
        columns.append(steps_from(begins, near, int(chosen[least.argmax()]), count)[chosen])
        least = numpy.minimum(least, columns[-1])
    found: "Real" = numpy.stack(columns, axis=1).astype(float)
    return found


def scale(steps: "Real") -> "Real":
    """Places whose distances are like the steps: the axes along which these differ most."""
    squares: "Real" = steps * steps
    centred: "Real" = -0.5 * (squares - squares.mean(axis=0) - squares.mean(axis=1, keepdims=True) + squares.mean())
    _, axes = numpy.linalg.eigh(centred.T @ centred)
    found = numpy.zeros((len(steps), AXES))
    kept = centred @ axes[:, ::-1][:, :AXES]
    found[:, :kept.shape[1]] = kept
    return found
