"""Surfaces of polygons as maps of dimension 2."""
from __future__ import annotations

from dataclasses import dataclass, field, replace

import numpy as np

from gmr.maps import MOST_DARTS
from gmr.mesh.decimals import Whole
from gmr.mesh.mapped import Mapped
from gmr.mesh.model import Bools, Mesh, Surface, Unfit, next_corners, tell_more

FEWEST_CORNERS = 3
MOST_TOLD = 10  # elements that a line of a refusal names
DROP, CUT, WELD = "--drop leaves it out", "--cut leaves it open", "--weld 0 --drop mends it"
TAKE = "--drop leaves it out, and --cut takes it as it is"


@dataclass
class Wish:
    """What is forgiven of a mesh: whether degenerate elements are left out and crowded edges or faces left open."""

    drop: bool = False
    cut: bool = False


@dataclass
class Done:
    """What was done to a mesh so that it has a map: which corners of its faces are left, None where all are, and how
    many corners, edges and faces were touched."""

    left: Bools | None = None
    told: dict[str, int] = field(default_factory=dict)


def make_surface_map(surface: Surface, points: Whole) -> Mapped:
    """The map of a surface, its points scaled: two darts for each side of a face, in the order of the file.

    The k-th side of a face leads from its k-th corner to the next. Its first dart lies at the one, the second at the
    other. Faces that share an edge are joined along it, and other sides stay free along 2. Unfit tells why a surface
    has no map: a face with fewer than three corners, with a point twice, or with a side of no length, and an edge of
    more than two faces.
    """
    return map_surface(surface, points, Wish())[0]


def map_surface(surface: Surface, points: Whole, wish: Wish) -> tuple[Mapped, Surface, Done]:
    """The map, the surface that it is of, and what was done to the one that was given."""
    check_corners(surface)
    surface, done = drop_faces(surface, points, wish) if wish.drop else (surface, Done())
    if not len(surface.sizes):
        raise Unfit("it has no faces" + (" that aren't degenerate" if len(done.told) else ""))
    check_size(2 * len(surface.corners))
    check_faces(surface, points, wish)
    across, crowded = join_sides(surface)
    if len(crowded):
        if not wish.cut:
            raise Unfit(tell_crowded_edge(surface, crowded))
        done.told["cut"] = len(np.unique(edge_keys(surface)[crowded]))
    following = next_corners(surface.sizes)
    count = 2 * len(surface.corners)
    around = np.empty(count, np.int64)
    around[1::2] = 2 * following
    around[2 * following] = np.arange(1, count, 2)
    ends = np.empty(count, np.int64)
    ends[0::2], ends[1::2] = surface.corners, surface.corners[following]
    faces = np.repeat(np.arange(len(surface.sizes)), 2 * surface.sizes)
    return Mapped(2, np.stack([np.arange(count) ^ 1, around, across]), ends, points, faces), surface, done


def check_size(count: int) -> None:
    """Unfit where a map can't have `count` darts."""
    # With so few darts, neither the names nor the bytes of a map's file come near their own limits.
    if count > MOST_DARTS:
        raise Unfit(f"it needs {count} darts, and a map has at most {MOST_DARTS}")


def face_of_corner(surface: Surface, place: int) -> int:
    """The face to which a corner belongs."""
    return int(np.searchsorted(np.cumsum(surface.sizes), place, side="right"))


def check_corners(surface: Surface) -> None:
    """Unfit where there are no faces, or one has a corner that isn't there."""
    if not len(surface.sizes):
        raise Unfit("it has no faces")
    count = len(surface.places)
    is_wrong = (surface.corners < 0) | (surface.corners >= count)
    if is_wrong.any():
        worst = int(np.argmax(is_wrong))
        name = surface.tell_element(face_of_corner(surface, worst))
        line = f"face {name} has the corner {surface.corners[worst] + surface.first}, and there is no such point"
        raise Unfit(line + tell_more(int(is_wrong.sum())))


def doubled_corners(surface: Surface, points: Whole) -> tuple[Bools, Bools]:
    """Which corners are the same point as the next one of their face, and which lie at the same place."""
    following = surface.corners[next_corners(surface.sizes)]
    is_same = surface.corners == following
    return is_same, (points[surface.corners] == points[following]).all(axis=1)


def repeated_faces(surface: Surface) -> Bools:
    """Which faces come to a point twice."""
    faces = np.repeat(np.arange(len(surface.sizes)), surface.sizes)
    keys = np.sort(faces * max(1, len(surface.places)) + surface.corners)
    found = np.zeros(len(surface.sizes), bool)
    found[keys[1:][keys[1:] == keys[:-1]] // max(1, len(surface.places))] = True
    return found


def check_faces(surface: Surface, points: Whole, wish: Wish) -> None:
    """Unfit where a face has too few corners, a point twice, or a side whose corners lie at one place."""
    small = surface.sizes < FEWEST_CORNERS
    if small.any():
        first = int(np.argmax(small))
        line = f"face {surface.tell_element(first)} has {surface.sizes[first]} corners, and a polygon has three or more"
        raise Unfit(f"{line}{tell_more(int(small.sum()))}: {DROP}")
    twice = repeated_faces(surface)
    if twice.any() and not wish.cut:
        first = int(np.argmax(twice))
        face = surface.face(first)
        point = next(corner for corner in face if face.count(corner) > 1)
        line = f"face {surface.tell_element(first)} has the point {surface.tell_point(point)} twice"
        raise Unfit(f"{line}{tell_more(int(twice.sum()))}: {TAKE}")
    is_same, is_one = doubled_corners(surface, points)
    if is_one.any():
        first = int(np.argmax(is_one))
        face_number = face_of_corner(surface, first)
        both = int(surface.corners[first]), int(surface.corners[next_corners(surface.sizes)[first]])
        raise Unfit(tell_one_place(surface, f"face {surface.tell_element(face_number)}", both, int(is_one.sum())))


def tell_one_place(mesh: Mesh, element: str, corners: tuple[int, int], count: int) -> str:
    """The line for two corners of an element at one place: in the file, or once they are scaled."""
    one, two = corners
    is_same = (mesh.places.digits[one] == mesh.places.digits[two]).all()
    is_same &= (mesh.places.powers[one] == mesh.places.powers[two]).all()
    names = mesh.tell_points(corners if mesh.has_numbers or not is_same else corners[:1])
    if is_same:
        what = f"has two corners at {names}" if not mesh.has_numbers else f"has the points {names} at one place"
        return f"{element} {what}{tell_more(count)}: {WELD}"
    line = f"{element} has the points {names} at one place when they are scaled"
    return f"{line}{tell_more(count)}: give a greater --scale, or {WELD}"


def edge_keys(surface: Surface) -> Whole:
    """A number for the edge of each side, the same for both directions."""
    ends = surface.corners[next_corners(surface.sizes)]
    found: Whole = np.minimum(surface.corners, ends) * len(surface.places) + np.maximum(surface.corners, ends)
    return found


def join_sides(surface: Surface) -> tuple[Whole, Whole]:
    """The neighbours along 2 where an edge has two sides, and the sides of edges that have more, in groups."""
    keys = edge_keys(surface)
    order = np.argsort(keys, kind="stable")
    ordered = keys[order]
    starts = np.nonzero(np.concatenate([[True], ordered[1:] != ordered[:-1]]))[0]
    sizes = np.diff(np.append(starts, len(keys)))
    one, two = order[starts[sizes == 2]], order[starts[sizes == 2] + 1]
    ends = surface.corners[next_corners(surface.sizes)]
    flip_one, flip_two = (surface.corners[side] > ends[side] for side in (one, two))
    # The lower dart of a side lies at the lesser of its points: the first one, or where the side goes down the second.
    across = np.arange(2 * len(keys))
    lower_one, lower_two = 2 * one + flip_one, 2 * two + flip_two
    for here, there in ((lower_one, lower_two), (lower_one ^ 1, lower_two ^ 1)):
        across[here], across[there] = there, here
    return across, order[np.repeat(sizes > 2, sizes)]


def tell_crowded_edge(surface: Surface, crowded: Whole) -> str:
    """The line for an edge of more than two faces, the one whose third face comes first in the file."""
    keys = edge_keys(surface)[crowded]
    starts = np.nonzero(np.concatenate([[True], keys[1:] != keys[:-1]]))[0]
    first = int(starts[np.argmin(crowded[starts + 2])])
    sides = crowded[keys == keys[first]]
    ends = sorted(divmod(int(keys[first]), len(surface.places)))
    faces = [surface.tell_element(face_of_corner(surface, int(side))) for side in sides]
    line = f"the edge of the points {surface.tell_points(ends)} has {len(sides)} faces: {tell_some(faces)}"
    return f"{line}{tell_more(len(starts))}: {CUT}"


def tell_some(words: list[str]) -> str:
    """The words, or the first of them where they are many."""
    return " ".join(words[:MOST_TOLD]) + (" .." if len(words) > MOST_TOLD else "")


def drop_faces(surface: Surface, points: Whole, wish: Wish) -> tuple[Surface, Done]:
    """The surface without doubled corners, spikes, and faces that are degenerate then."""
    is_same, is_one = doubled_corners(surface, points)
    faces = np.repeat(np.arange(len(surface.sizes)), surface.sizes)
    suspect = np.zeros(len(surface.sizes), bool)
    suspect[faces[is_same | is_one]] = True
    suspect |= repeated_faces(surface) | (surface.sizes < FEWEST_CORNERS)
    numbers = np.nonzero(suspect)[0].tolist()
    if not numbers:
        return surface, Done()
    begins = surface.begins.tolist()
    faces_left = {number: mend_face(corners_of(surface, begins, number), points) for number in numbers}
    is_left, gone, less = np.ones(len(surface.corners), bool), [], 0
    for number, (places, face) in faces_left.items():
        is_gone = len(face) < FEWEST_CORNERS or (not wish.cut and len(set(face)) < len(face))
        gone += [number] if is_gone else []
        less += not is_gone and len(face) < surface.sizes[number]
        is_left[begins[number]: begins[number] + surface.sizes[number]] = False
        is_left[[begins[number] + place for place in places if not is_gone]] = True
    told = {name: count for name, count in (("dropped", len(gone)), ("mended", int(less))) if count}
    return leave_corners(surface, is_left), Done(is_left, told)


def corners_of(surface: Surface, begins: list[int], number: int) -> tuple[int, ...]:
    """The corners of a face."""
    return tuple(surface.corners[begins[number]: begins[number] + int(surface.sizes[number])].tolist())


def mend_face(face: tuple[int, ...], points: Whole) -> tuple[list[int], list[int]]:
    """The corners of a face that stay, by their places in it and as points: those that are where the next one is are
    taken out, and so are spikes, whose ends are one point."""
    places, corners = list(range(len(face))), list(face)
    at = 0
    while len(corners) > 1 and at < len(corners):
        here, after, last = corners[at], corners[(at + 1) % len(corners)], corners[at - 1]
        if here == after or (points[here] == points[after]).all() or (after == last and len(corners) > 2):
            del corners[at], places[at]
            at = max(0, at - 2)
        else:
            at += 1
    return places, corners


def leave_corners(surface: Surface, is_left: Bools) -> Surface:
    """The surface with some of its corners alone, and without the faces that have none of them."""
    faces = np.repeat(np.arange(len(surface.sizes)), surface.sizes)
    sizes = np.bincount(faces[is_left], minlength=len(surface.sizes))
    kept = np.flatnonzero(sizes)
    names = kept + surface.first if surface.names is None else np.asarray(surface.names)[kept]
    return replace(
        surface,
        corners=surface.corners[is_left],
        sizes=sizes[kept],
        names=names,
        lines=None if surface.lines is None else np.asarray(surface.lines)[kept],
        face_colours=None if surface.face_colours is None else surface.face_colours[kept],
    )
