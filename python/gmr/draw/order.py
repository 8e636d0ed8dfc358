"""In which order polygons in space are drawn, so that what is nearer covers what is behind it.

Places are as the picture has them: to the right, upwards, and towards the one who looks."""
import heapq
from collections.abc import Iterator, Sequence
from typing import NamedTuple

from gmr.distances import Place, dot, mean, minus, normal_of, place_of

MOST_COMPARED = 8000


class Polygon(NamedTuple):
    """A polygon with its plane, turned towards the one who looks, and the box in which it lies."""

    corners: Sequence[Place]
    middle: Place
    normal: Place
    low: Place
    high: Place
    slack: float  # how far its corners may lie from a plane and still count as on it


def polygon_of(corners: Sequence[Place]) -> Polygon:
    """What is known of a polygon."""
    normal = normal_of(corners)
    if normal[2] < 0:
        normal = minus((0.0, 0.0, 0.0), normal)
    low, high = (place_of([which(numbers) for numbers in zip(*corners)]) for which in (min, max))
    slack = 1e-4 * max(minus(high, low))
    return Polygon(corners, mean(corners), normal, low, high, slack)


def back_to_front(all_corners: Sequence[Sequence[Place]]) -> list[int]:
    """The numbers of polygons in the order in which they are drawn: by how near their middles are, but where one of two
    that overlap in the picture lies behind the other's plane, that one first. Of very many only the middles count."""
    polygons = [polygon_of(corners) for corners in all_corners]
    depths = [polygon.middle[2] for polygon in polygons]
    order = sorted(range(len(polygons)), key=depths.__getitem__)
    if len(polygons) > MOST_COMPARED:
        return order
    before: list[int] = [0] * len(polygons)
    behind: list[list[int]] = [[] for _ in polygons]
    for one, two in overlapping(polygons):
        far, near = (one, two) if is_behind(polygons[one], polygons[two]) else (two, one)
        behind[far].append(near)
        before[near] += 1
    return sorted_by(order, depths, before, behind)


def sorted_by(order: Sequence[int], depths: Sequence[float], before: list[int], behind: list[list[int]]) -> list[int]:
    """The numbers in an order in which each comes when all before it have come, the furthest first. Where each waits
    for another, the furthest comes all the same."""
    ready = [(depths[one], one) for one in order if not before[one]]
    heapq.heapify(ready)
    waiting, drawn = iter(order), [False] * len(order)
    found: list[int] = []
    while len(found) < len(order):
        here = heapq.heappop(ready)[1] if ready else next(one for one in waiting if not drawn[one])
        if drawn[here]:
            continue
        drawn[here] = True
        found.append(here)
        for near in behind[here]:
            before[near] -= 1
            if not before[near] and not drawn[near]:
                heapq.heappush(ready, (depths[near], near))
    return found


def overlapping(polygons: Sequence[Polygon]) -> Iterator[tuple[int, int]]:
    """The pairs of polygons that overlap in the picture."""
    active: list[int] = []
    for here in sorted(range(len(polygons)), key=lambda one: polygons[one].low[0]):
        it = polygons[here]
        active = [other for other in active if polygons[other].high[0] > it.low[0]]
        for other in active:
            that = polygons[other]
            if that.low[1] < it.high[1] and it.low[1] < that.high[1] and not (parts(it, that) or parts(that, it)):
                yield other, here
        active.append(here)


def parts(it: Polygon, that: Polygon) -> bool:
    """Whether an edge of the first polygon parts the two in the picture, as one does where both are convex."""
    slack = it.slack + that.slack
    for one, two in zip(it.corners, (*it.corners[1:], it.corners[0])):
        x, y = one[1] - two[1], two[0] - one[0]
        length = (x * x + y * y) ** 0.5
        if length > slack:
            own = [x * corner[0] + y * corner[1] for corner in it.corners]
            other = [x * corner[0] + y * corner[1] for corner in that.corners]
            if max(own) <= min(other) + slack * length or max(other) <= min(own) + slack * length:
                return True
    return False


def is_behind(it: Polygon, that: Polygon) -> bool:
    """Whether the first of two polygons that overlap lies behind the second."""
    if it.high[2] <= that.low[2] or that.high[2] <= it.low[2]:
        return bool(it.high[2] <= that.low[2])
    for plane, other, is_other_behind in ((that, it, True), (it, that, False)):
        length = dot(plane.normal, plane.normal) ** 0.5
        slack = (plane.slack + other.slack) * length
        heights = [dot(minus(corner, plane.middle), plane.normal) for corner in other.corners]
        if plane.normal[2] > 1e-6 * length and (max(heights) <= slack or min(heights) >= -slack):
            return bool(is_other_behind == (max(heights) <= slack))
    return bool(it.middle[2] < that.middle[2])
