"""A surface as a drawing walks over it: what its darts share, its borders, where it is cut, and which way it turns.

A dart is a triangle whose corners 0, 1 and 2 are its vertex and the middles of its edge and its face, and whose side I
lies across from corner I."""
from collections.abc import Iterator, Sequence
from typing import Any, NamedTuple

from gmr.draw.model import Neighbour, orbits

Node = tuple[int, int]  # one of the seven spots of a Spot by its number, and the least dart that has it
Step = tuple[int, int, int]  # a dart, a side of it, and the corner before that side


class Spot(NamedTuple):
    """The corners of a dart, the middles of its sides, and its heart: as nodes, or as places."""

    vertex: Any
    edge: Any
    face: Any
    side0: Any
    side1: Any
    side2: Any
    heart: Any


def nodes_of(darts: Sequence[int], neighbour: Neighbour) -> dict[int, Spot]:
    """The nodes of each dart: where darts share one, it is the same."""
    over = [orbits(darts, neighbour, labels) for labels in ((1, 2), (0, 2), (0, 1), (0,), (1,), (2,), ())]
    firsts = [{dart: orbit[0] for orbit in found for dart in orbit} for found in over]
    return {dart: Spot(*enumerate(first[dart] for first in firsts)) for dart in darts}


def boundaries(darts: Sequence[int], neighbour: Neighbour) -> Iterator[list[Step]]:
    """The walks along the free sides."""
    seen: set[tuple[int, int]] = set()
    for start in ((dart, side) for side in (2, 1, 0) for dart in darts if neighbour(dart, side) == dart):
        walk: list[Step] = []
        (dart, side), corner = start, 0 if start[1] else 1
        while (dart, side) not in seen:
            seen.add((dart, side))
            walk.append((dart, side, corner))
            corner = 3 - side - corner
            side = 3 - side - corner
            while neighbour(dart, side) != dart:
                dart, side = neighbour(dart, side), 3 - side - corner
        if walk:
            yield walk


def unfold(darts: Sequence[int], alpha: Sequence[dict[int, int]], closing: object) -> set[int]:
    """The darts along whose edges a surface is cut: faces are joined to a net, and if it is closing then what meets."""
    glued: set[int] = set()

    def neighbour(dart: int, label: int) -> int:
        return dart if label == 2 and dart not in glued else alpha[label][dart]

    def glue(dart: int) -> None:
        glued.update(half for one in (dart, alpha[0][dart]) for half in (one, alpha[2][one]))

    faces = orbits(darts, neighbour, (0, 1))
    face_of = {dart: face[0] for face in faces for dart in face}
    darts_of = {face[0]: face for face in faces}
    reached = dict.fromkeys([face_of[darts[0]]])
    waiting = list(reached)
    for here in waiting:
        for dart in darts_of[here]:
            across = face_of[alpha[2][dart]]
            if across not in reached:
                glue(dart)
                reached[across] = None
                waiting.append(across)
    while closing:
        walk = next(boundaries(darts, neighbour))
        steps = list(zip(walk, walk[1:] + walk[:1])) if len(walk) > 4 else []
        closing = [one for (one, *at), (two, *_) in steps if at == [2, 1] and alpha[2][one] == two != one]
        for dart in closing[:1]:
            glue(dart)
    return {dart for dart in darts if dart not in glued and alpha[2][dart] != dart}


def turned_left(walk: Sequence[Step], neighbour: Neighbour) -> dict[int, bool]:
    """For each dart whether its vertex, edge and face are passed in the direction of the boundary."""
    left: dict[int, bool] = {}
    waiting = [(walk[0][0], walk[0][1] != 1)]
    while waiting:
        dart, way = waiting.pop()
        if dart not in left:
            left[dart] = way
            waiting += [(neighbour(dart, label), not way) for label in range(3) if neighbour(dart, label) != dart]
    return left


def corners_of(
    face: Sequence[int], nodes: dict[int, Spot], left: dict[int, bool], neighbour: Neighbour, with_edges: bool = False
) -> list[Node]:
    """The corners of a face in the direction of the boundary, with the middles of edges where that is said. Where the
    face isn't closed, its middle is one of them."""
    ends = [dart for dart in face if dart in (neighbour(dart, 0), neighbour(dart, 1))]
    first = last = dart = min(ends or face)
    label = begin = 1 if neighbour(first, 0) == first else 0
    passed = [nodes[first].edge] if begin else []
    for _ in face:
        passed.append(nodes[dart].vertex)
        if with_edges and label == 0 and neighbour(dart, 0) != dart:
            passed.append(nodes[dart].edge)
        last, dart, label = dart, neighbour(dart, label), 1 - label
    if ends:
        passed += [nodes[last].edge] * (neighbour(last, 0) == last != first) + [nodes[last].face]
    corners = [node for at, node in enumerate(passed) if node != passed[at - 1]]
    return corners if left[first] == (begin == 0) else corners[::-1]
