"""The sheets of a map that has points: all of it where its points are, or each volume apart in dimension 3."""
from collections.abc import Iterable, Sequence

from gmr.draw.layout import Layout, Sheet, area, straightened
from gmr.draw.model import Model, Neighbour, orbits
from gmr.draw.surface import Spot, corners_of, nodes_of


def flat_points(it: Model) -> dict[int, complex]:
    """The point of each dart in the plane, the third coordinate going to the right and up."""
    return {dart: complex(x + 0.42 * z, y + 0.34 * z) for dart, (x, y, z) in it.points.items()}


def unit_of(models: Iterable[Model]) -> float:
    """The mean length of edges between points. Maps side by side have one, so that what is scaled looks so."""
    flats = [(it.alpha[0], flat_points(it)) for it in models]
    lengths = [abs(place - flat[ends[dart]]) for ends, flat in flats for dart, place in flat.items()]
    return sum(lengths) / (len(lengths) or 1) or 1


def sheets_at_points(it: Model, unit: float) -> list[Sheet]:
    """The parts of a map with points that are drawn apart, where the points are in edges of this length."""
    alpha = [*it.alpha, *[{dart: dart for dart in it.alpha[0]}] * 3][:4]

    def neighbour(dart: int, label: int) -> int:
        return alpha[label][dart]

    darts = sorted(alpha[0])
    parts = orbits(darts, neighbour, (0, 1, 2)) if it.dimension == 3 else [darts] * bool(darts)
    flat = {dart: place / unit for dart, place in flat_points(it).items()}
    return [lay_at_points(it, part, neighbour, flat) for part in parts]


def lay_at_points(it: Model, darts: Sequence[int], neighbour: Neighbour, flat: dict[int, complex]) -> Sheet:
    """Darts of a map where their points are."""
    layout: Layout = {}
    nodes, faces = nodes_of(darts, neighbour), orbits(darts, neighbour, (0, 1))
    for face, middle in ((face, sum(flat[dart] for dart in face) / len(face)) for face in faces):
        layout.update({nodes[dart].edge: 0.7 * flat[dart] + 0.3 * middle for dart in face})
        layout.update({nodes[dart].vertex: flat[dart] for dart in face} | {nodes[face[0]].face: middle})
    polygons = {nodes[face[0]].face: corners_of(face, nodes, dict.fromkeys(face, True), neighbour) for face in faces}
    straightened(layout, nodes, polygons)
    spots = {dart: Spot(*(layout[node] for node in nodes[dart])) for dart in darts}
    outlines = [(face, [layout[node] for node in corners]) for (_, face), corners in polygons.items()]
    outlines = [(face, one if area(one) > 0 else one[::-1]) for face, one in outlines if it.dimension > 1]
    left = {dart: area(spot[:3]) > 0 for dart, spot in spots.items()}
    return Sheet(spots, outlines, set(), left, set(), back_of(it, darts, neighbour, left))


def back_of(it: Model, darts: Sequence[int], neighbour: Neighbour, left: dict[int, bool]) -> frozenset[int]:
    """The darts of the faces that are seen from within, through those before them: where a surface with two sides turns
    its other side. None where it turns one side everywhere, or has but one."""
    sides = {darts[0]: left[darts[0]]}
    waiting = [darts[0]]
    for dart in waiting:
        for near in (neighbour(dart, label) for label in range(3)):
            if near not in sides:
                sides[near] = not sides[dart]
                waiting.append(near)
    if any(sides[dart] == sides[other] for dart in sides for other in (neighbour(dart, label) for label in range(3))
           if dart != other):
        return frozenset()
    one, two = ([dart for dart in sides if (sides[dart] == left[dart]) == side] for side in (True, False))
    depths = [sum(it.points[dart][2] for dart in part) / (len(part) or 1) for part in (one, two)]
    return frozenset(max(zip(depths, (one, two)))[1] if one and two else ())
