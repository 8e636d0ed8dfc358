"""How far cells of a map lie from a place: corners, edges, polygons and volumes between the points of a map."""
import math
from collections.abc import Iterable, Mapping, Sequence
from itertools import groupby, pairwise

from gmr.maps import Map

Place = tuple[float, float, float]
Alpha = Sequence[Mapping[int, int]]  # the neighbour of each dart by label


def place_of(numbers: Sequence[float]) -> Place:
    """Two or three numbers as a place in space."""
    x, y, z = (*numbers, 0.0)[:3]
    return (x, y, z)


def minus(one: Place, two: Place) -> Place:
    """The way from the second place to the first."""
    return (one[0] - two[0], one[1] - two[1], one[2] - two[2])


def dot(one: Place, two: Place) -> float:
    """The product that is 0 where ways are at right angles."""
    return one[0] * two[0] + one[1] * two[1] + one[2] * two[2]


def cross(one: Place, two: Place) -> Place:
    """The way at right angles to both."""
    return (one[1] * two[2] - one[2] * two[1], one[2] * two[0] - one[0] * two[2], one[0] * two[1] - one[1] * two[0])


def mean(places: Sequence[Place]) -> Place:
    """The middle of places."""
    x, y, z = (math.fsum(numbers) / len(places) for numbers in zip(*places))
    return (x, y, z)


def to_segment(place: Place, one: Place, two: Place) -> float:
    """The distance from a place to a segment."""
    way, start = minus(two, one), minus(place, one)
    share = max(0.0, min(1.0, dot(start, way) / (dot(way, way) or 1.0)))
    return math.dist(place, (one[0] + share * way[0], one[1] + share * way[1], one[2] + share * way[2]))


def normal_of(corners: Sequence[Place]) -> Place:
    """A way at right angles to a polygon, as long as twice its area; for one that isn't plane, the mean way."""
    ways = [minus(corner, corners[0]) for corner in corners]
    parts = [cross(one, two) for one, two in pairwise(ways)]
    x, y, z = (math.fsum(numbers) for numbers in zip((0.0, 0.0, 0.0), *parts))
    return (x, y, z)


def holds_within(place: Place, corners: Sequence[Place], normal: Place) -> bool:
    """Whether a place lies above or below the inside of a polygon, seen along its normal."""
    drop = max(range(3), key=lambda axis: abs(normal[axis]))
    across, along = (axis for axis in range(3) if axis != drop)
    # Without the axis that the normal follows most, the polygon keeps its shape best; the place moves along the normal.
    by = dot(minus(place, mean(corners)), normal) / dot(normal, normal)
    x, y = (place[axis] - by * normal[axis] for axis in (across, along))
    is_within = False
    for one, two in zip(corners, (*corners[1:], corners[0])):
        if (one[along] > y) != (two[along] > y):
            meets = one[across] + (y - one[along]) / (two[along] - one[along]) * (two[across] - one[across])
            is_within ^= x < meets
    return is_within


def to_polygon(place: Place, corners: Sequence[Place]) -> float:
    """The distance from a place to a polygon, its inside included."""
    ends = (*corners[1:], corners[0])
    rim = min(to_segment(place, one, two) for one, two in zip(corners, ends))
    normal = normal_of(corners)
    if rim and any(normal) and holds_within(place, corners, normal):
        return min(rim, abs(dot(minus(place, mean(corners)), normal)) / math.hypot(*normal))
    return rim


def turns_round(place: Place, polygons: Iterable[Sequence[Place]]) -> float:
    """How often polygons that are walked alike close round a place: 1 or -1 inside of a closed surface, 0 outside."""
    total = 0.0
    for corners in polygons:
        middle = minus(mean(corners), place)
        ways = [minus(corner, place) for corner in corners]
        for one, two in zip(ways, ways[1:] + ways[:1]):
            a, b, c = math.hypot(*middle), math.hypot(*one), math.hypot(*two)
            below = a * b * c + dot(middle, one) * c + dot(one, two) * a + dot(two, middle) * b
            total += 2 * math.atan2(dot(middle, cross(one, two)), below)
    return total / (4 * math.pi)


def rim_of(alpha: Alpha, dart: int, first: int = 0) -> list[int]:
    """The darts round the dart's face, from the dart on along the label `first`, 0 or 1, and then by turns. Where the
    face is open, they begin at the end to which the walk the other way leads."""
    start, label = dart, 1 - first
    while alpha[label][start] != start:
        start, label = alpha[label][start], 1 - label
        if start == dart:
            break
    rim, label = [start], 1 - label
    while (near := alpha[label][rim[-1]]) not in (start, rim[-1]):
        rim.append(near)
        label = 1 - label
    return rim


def corners_from(alpha: Alpha, points: Mapping[int, Place], dart: int, first: int = 0) -> list[Place]:
    """The points round the dart's face, in the order of `rim_of`, none twice after itself."""
    passed = [point for point, _ in groupby(points[one] for one in rim_of(alpha, dart, first))]
    return passed[:-1] if len(passed) > 1 and passed[-1] == passed[0] else passed


def sides_of(alpha: Alpha, dart: int) -> tuple[dict[int, int], bool]:
    """For each dart of the surface of a dart on which side it lies, 0 or 1, so that neighbours lie on different ones;
    and whether they all do and none is free: then the surface is closed and has two sides."""
    side, waiting, is_closed = {dart: 0}, [dart], True
    for here in waiting:
        for label in range(3):
            near = alpha[label][here]
            if near not in side:
                side[near] = 1 - side[here]
                waiting.append(near)
            is_closed &= side[near] != side[here]
    return side, is_closed


def distance_to(it: Map, points: dict[int, Place], dimension: int, cell: list[int], place: Place) -> float:
    """The distance from a place to a cell, 0 where it lies on it or within."""
    if dimension == 0:
        return math.dist(place, points[cell[0]])
    if dimension == 1:
        return to_segment(place, points[cell[0]], points[it.alpha[0][cell[0]]])
    if dimension == 2:
        return to_polygon(place, corners_from(it.alpha, points, cell[0]))
    side, _ = sides_of(it.alpha, cell[0])
    faces = it.orbits((0, 1), it.orbit((0, 1, 2), cell[0]))
    polygons = [corners_from(it.alpha, points, face[0], side[face[0]]) for face in faces]
    if abs(turns_round(place, polygons)) > 0.5:
        return 0.0
    return min(to_polygon(place, corners) for corners in polygons)
