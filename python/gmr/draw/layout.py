"""Lays out a surface that has no points: a closed one round one of its faces, or cut to a net. Places are complex."""
import cmath
import math
from collections import defaultdict
from collections.abc import Mapping, Sequence, Set
from functools import cache
from typing import NamedTuple

import numpy as np

from gmr.draw.model import orbits
from gmr.draw.surface import Node, Spot, Step, boundaries, corners_of, nodes_of, turned_left, unfold

Layout = dict[Node, complex]
Outline = tuple[int, list[complex]]  # a dart of a face, and the face's corners
Polygons = Mapping[Node, Sequence[Node]]  # the corners of each face by its middle


class Sheet(NamedTuple):
    """A part of a map that is laid out: the spots of its darts, the outlines of its faces, the darts whose edges are
    cut, which darts turn left, the darts that stand outside round a closed surface, and those of faces seen from
    within, through others."""

    spots: dict[int, Spot]
    outlines: list[Outline]
    cut: set[int]
    left: dict[int, bool]
    outer: set[int]
    back: frozenset[int] = frozenset()

    def moved(self, by: complex) -> "Sheet":
        """The sheet at another place."""
        spots = {dart: Spot(*(place + by for place in spot)) for dart, spot in self.spots.items()}
        return self._replace(spots=spots, outlines=[(dart, [it + by for it in one]) for dart, one in self.outlines])

    def turned(self, turn: complex, middle: complex) -> "Sheet":
        """The sheet turned round a place."""
        spots = {dart: Spot(*(middle + (it - middle) * turn for it in spot)) for dart, spot in self.spots.items()}
        outlines = [(dart, [middle + (it - middle) * turn for it in one]) for dart, one in self.outlines]
        return self._replace(spots=spots, outlines=outlines)

    def box(self) -> tuple[complex, complex]:
        """The least and the greatest coordinates of its darts."""
        places = [place for spot in self.spots.values() for place in (*spot[:2], *spot[3:])]
        low = complex(min(it.real for it in places), min(it.imag for it in places))
        return low, complex(max(it.real for it in places), max(it.imag for it in places))

    def middle(self) -> complex:
        """The middle of its box."""
        return sum(self.box()) / 2


class Disc(NamedTuple):
    """A surface opened so that it lies in the plane: the nodes of its darts, the darts within, those of the face that
    lies outside, those whose edges are cut, the walk along its border, which darts turn left, the corners of its
    faces by their middles, and whether it is a line."""

    nodes: dict[int, Spot]
    inner: list[int]
    outer: set[int]
    cut: set[int]
    walk: list[Step]
    left: dict[int, bool]
    polygons: Polygons
    is_line: bool

    def own(self) -> dict[int, Spot]:
        """The nodes of the darts within."""
        return {dart: self.nodes[dart] for dart in self.inner}


def area(corners: Sequence[complex]) -> float:
    """The area of a polygon, below 0 where it is walked clockwise."""
    return sum((one.conjugate() * two).imag for one, two in zip(corners, [*corners[1:], *corners[:1]])) / 2


def height(vertex: complex, edge: complex, place: complex, *_: complex) -> float:
    """How far a place is from an edge, below 0 where the three are passed clockwise."""
    return 2 * area([vertex, edge, place]) / (abs(edge - vertex) or 1)


@cache
def regular(count: int) -> tuple[complex, ...]:
    """The corners of a regular polygon with edges of length 1, the first edge below and from left to right."""
    radius, turn = 0.5 / math.sin(math.pi / count), -math.pi / 2 - math.pi / count
    return tuple(cmath.rect(radius, turn + 2 * math.pi * at / count) for at in range(count))


def relaxed(ring: Layout, pairs: set[tuple[Node, Node]]) -> Layout:
    """Places within a ring, each amid those it is paired with (Tutte, How to Draw a Graph, 1963)."""
    free = sorted({node for pair in pairs for node in pair} - ring.keys())
    at = {node: row for row, node in enumerate(free)}
    weights, amid = np.eye(len(free)) * 1e-12, np.zeros(len(free), np.complex128)
    for one, two in {(min(pair), max(pair)) for pair in pairs}:
        for here, other in ((one, two), (two, one)):
            if here in at:
                weights[at[here], at[here]] += 1
                if other in at:
                    weights[at[here], at[other]] -= 1
                else:
                    amid[at[here]] += ring[other]
    return ring | dict(zip(free, np.linalg.solve(weights, amid).tolist()))


def ring_places(walk: Sequence[Step], nodes: dict[int, Spot], size: float, is_line: bool) -> Layout:
    """Places on an outer polygon of this area for what a boundary passes; on a circle for less than three corners."""
    steps = [node for dart, side, at in walk for node in (nodes[dart][at], nodes[dart][3 + side])]
    straight = [side == walk[at - 1][1] == 2 and (is_line or corner == 1) for at, (_, side, corner) in enumerate(walk)]
    corners = [2 * at for at, is_straight in enumerate(straight) if not is_straight]
    if len(corners) < 3:
        radius = max(math.sqrt(size / math.pi), len(steps) / 16)
        return {node: cmath.rect(radius, math.pi + 2 * math.pi * at / len(steps)) for at, node in enumerate(steps)}
    polygon = [place * math.sqrt(size / area(regular(len(corners)))) for place in regular(len(corners))]
    place: Layout = {}
    for at, (one, two) in enumerate(zip(corners, corners[1:] + [corners[0] + len(steps)])):
        begin, way = polygon[at], polygon[(at + 1) % len(polygon)] - polygon[at]
        place.update({steps[step % len(steps)]: begin + way * (step - one) / (two - one) for step in range(one, two)})
    return place


def straightened(layout: Layout, nodes: dict[int, Spot], polygons: Polygons) -> Layout:
    """The layout with what lies between vertices: edges straight, and faces round their middles."""
    ends: dict[Node, set[Node]] = defaultdict(set)
    for spot in nodes.values():
        ends[spot.edge].add(spot.vertex)
    middles = [*ends.items(), *((face, corners) for face, corners in polygons.items() if face not in corners)]
    layout.update({node: sum(layout[it] for it in sorted(of)) / len(of) for node, of in middles if len(of) > 1})
    return with_sides(layout, nodes)


def with_sides(layout: Layout, nodes: dict[int, Spot]) -> Layout:
    """The layout with the middles of the sides of darts, and their hearts."""
    for spot in nodes.values():
        one, two, three = layout[spot.vertex], layout[spot.edge], layout[spot.face]
        layout.update({spot.side2: (one + two) / 2, spot.side1: (one + three) / 2, spot.side0: (two + three) / 2})
        layout[spot.heart] = (one + two + 2 * three) / 4
    return layout


def bent_layout(ring: Layout, disc: Disc) -> Layout:
    """A layout on a fine grid, in which edges are bent: for what has no straight ones."""
    grid = ((0, 5), (5, 1), (1, 3), (3, 2), (2, 4), (4, 0), *((at, 6) for at in range(6)))
    return relaxed(ring, {(spot[one], spot[two]) for spot in disc.own().values() for one, two in grid})


def faces_to_open(darts: Sequence[int], alpha: Sequence[dict[int, int]]) -> list[list[int]]:
    """The faces of a surface, those first round which it is best laid out: with neighbours along 3, and large."""
    faces = orbits(darts, lambda dart, label: alpha[label][dart], (0, 1))
    return sorted(faces, key=lambda one: (-sum(alpha[3][it] != it for it in one), -len(one)))


def open_up(
    darts: Sequence[int], alpha: Sequence[dict[int, int]], dimension: int, face: Sequence[int], outside: Set[int]
) -> Disc | None:
    """A connected surface, opened so that it lies in the plane: at this face where the genus is 0 and it is closed, or
    where the face stood outside before, so that holes lie within; or cut to a net where the face is empty or there is
    a handle; or None where it can't be opened at this face."""
    cut: set[int] = set()
    outer: set[int] = set()

    def joined(dart: int, label: int) -> int:
        return dart if label == 2 and dart in cut else alpha[label][dart]

    def neighbour(dart: int, label: int) -> int:
        return dart if (dart in outer) != (joined(dart, label) in outer) else joined(dart, label)

    walks, sides = list(boundaries(darts, joined)), ((0, 1), (0, 2), (1, 2), (0,), (1,), (2,))
    euler = len(darts) + sum((2 * len(labels) - 3) * len(orbits(darts, joined, labels)) for labels in sides)
    if euler + len(walks) != 2 or not face:
        cut.update(unfold(darts, alpha, bool(face)))
    elif not walks or outside >= {*face} and not any(alpha[2][dart] in face for dart in face):
        outer.update(face)
    inner, nodes = [dart for dart in darts if dart not in outer], nodes_of(darts, joined)
    walks = list(boundaries(inner, neighbour))
    walks = [walk for walk in walks if not outer or any(alpha[2][dart] in outer for dart, *_ in walk)]
    if outer and (len(walks) != 1 or any(alpha[2][dart] in outer for dart in outer)):
        return None
    walk = max(walks, key=lambda steps: sum(side == 2 for _, side, _ in steps))
    left = turned_left(walk, neighbour)
    drawn = [one for one in orbits(darts, joined, (0, 1)) if one[0] not in outer]
    polygons = {nodes[one[0]].face: corners_of(one, nodes, left, neighbour) for one in drawn}
    is_line = dimension == 1 and any(side < 2 for _, side, _ in walk)
    return Disc(nodes, inner, outer, cut, walk, left, polygons, is_line)


def ring_size(disc: Disc) -> float:
    """The area of the outer polygon: of a line, or round faces, of which one lies outside where it is round."""
    if disc.is_line:
        return area(regular(3)) * len(disc.nodes) ** 2 / 4
    sizes = (area(regular(len(corners))) if len(corners) > 2 else 0.4 for corners in disc.polygons.values())
    return sum(sizes) * (1.5 if disc.outer else 1)


def sheet_of(
    disc: Disc, layout: Layout, is_bent: bool, is_mirrored: bool, alpha: Sequence[dict[int, int]], dimension: int
) -> Sheet:
    """The sheet of a surface whose nodes have places."""
    for spot in (disc.nodes[dart] for dart in sorted(disc.outer)):
        middle = outer_middle(disc, layout)
        beyond = ((spot.side0, spot.edge), (spot.side1, spot.vertex), (spot.heart, spot.side2), (spot.face, None))
        layout.update({node: middle + 1.5 * (layout[of] - middle) if of else middle for node, of in beyond})
    spots = {dart: Spot(*(layout[node] for node in disc.nodes[dart])) for dart in disc.nodes}
    if is_bent:
        outlines = [(dart, [spots[dart][at] for at in (0, 5, 1, 2)]) for dart in disc.inner]
    else:
        outlines = [(face, outline_of(disc, layout, face, alpha)) for _, face in disc.polygons]
    left = {dart: disc.left[dart] != is_mirrored for dart in disc.inner}
    left |= {dart: not left[alpha[2][dart]] for dart in disc.outer}
    return Sheet(spots, outlines if dimension > 1 else [], disc.cut, left, disc.outer)


def outer_middle(disc: Disc, layout: Layout) -> complex:
    """The middle of what a closed surface is laid out within."""
    places = [layout[disc.nodes[dart].vertex] for dart in sorted(disc.outer)]
    return sum(places) / len(places)


def outline_of(disc: Disc, layout: Layout, face: int, alpha: Sequence[dict[int, int]]) -> list[complex]:
    """The outline of a face, with the middles of those of its edges that are bent."""
    own = next(one for one in orbits([face], lambda dart, label: alpha[label][dart], (0, 1)))
    passed = corners_of(own, disc.nodes, disc.left, lambda dart, label: alpha[label][dart], with_edges=True)
    places = [layout[node] for node in passed]
    turns = zip(places, [*places[1:], places[0]], [places[-1], *places[:-1]])
    return [here for here, after, before in turns if abs(area([before, here, after])) > 1e-6]
