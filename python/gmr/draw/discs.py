"""Places for a surface that is opened to a disc: its faces nearly regular, and what was there before where it was."""
from collections import Counter, defaultdict
from collections.abc import Mapping, Sequence

import numpy as np
from numpy.typing import NDArray

from gmr.draw.layout import Disc, Layout, area, bent_layout, regular, relaxed, ring_places, ring_size, straightened
from gmr.draw.layout import with_sides
from gmr.draw.settle import MOST_FREE, Floats, Plan, energy_of, settle, shape_of
from gmr.draw.surface import Node, Spot

Goals = Mapping[Node, tuple[complex, float]]  # where vertices would lie, and how strongly
CENTRE: Node = (7, 0)  # the middle of the ring round which a closed surface is laid out
HELD, LOOSE, NET = 5000.0, 20.0, 0.05  # the most that goals pull: first, where that bends too much, and in nets
TOLERABLE = 9.0  # the mean energy of a triangle up to which nothing is too bent
STAGES = ((0.002, 40), (0.02, 40), (0.2, 40), (1.0, 100))  # how strongly goals pull in turn, and for how many rounds


def place_disc(disc: Disc, goals: Goals, is_mirrored: bool) -> tuple[Layout, float, bool]:
    """Places for the nodes of a disc, the energy, and whether its edges are bent on a fine grid because nothing better
    was found."""
    ring = ring_places(disc.walk, disc.nodes, ring_size(disc), disc.is_line)
    sought = {node: (place.conjugate() if is_mirrored else place, pull) for node, (place, pull) in goals.items()}
    found, energy = (None, 0.0) if disc.is_line else settled(disc, ring, sought)
    if disc.is_line:
        layout, is_bent = straightened(first_places(disc, ring, False), disc.own(), disc.polygons), False
    elif found:
        layout, is_bent = found, False
    else:
        layout, is_bent = settled_finely(disc, turned(bent_layout(ring, disc), sought), sought), True
    if not sought and not (is_bent and disc.outer):
        layout = levelled(layout, disc)
    return {node: place.conjugate() if is_mirrored else place for node, place in layout.items()}, energy, is_bent


def fits_mirrored(disc: Disc, goals: Goals, is_likely: bool) -> bool:
    """Whether goals are met better by a layout that is mirrored; where both are as good, what is likely."""
    if len(goals) < 3 or disc.is_line:
        return is_likely
    ring = ring_places(disc.walk, disc.nodes, ring_size(disc), disc.is_line)
    layout = first_places(disc, ring, False)
    misses = []
    for is_mirrored in (False, True):
        sought = {node: (place.conjugate() if is_mirrored else place, 1.0) for node, (place, _) in goals.items()}
        laid = turned(layout, sought)
        misses.append(sum(abs(laid[node] - place) for node, (place, _) in sought.items() if node in laid))
    if min(misses) < 0.7 * max(misses):
        return misses[1] < misses[0]
    return is_likely


def levelled(layout: Layout, disc: Disc) -> Layout:
    """A layout turned so that the edge at which its border begins is level."""
    spot = disc.nodes[disc.walk[0][0]]
    level = layout[spot.edge] - layout[spot.vertex]
    turn = abs(level) / level if abs(level) > 1e-9 else 1
    turn = -turn if disc.left[disc.walk[0][0]] and (level * turn).real < 0 else turn
    return {node: place * turn for node, place in layout.items()}


def first_places(disc: Disc, ring: Layout, is_fine: bool) -> Layout:
    """Places within the ring at which no face is turned over, where that can be."""
    pairs = {(spot.vertex, other) for spot in disc.own().values() for other in (spot.edge, spot.face)}
    if is_fine:
        pairs |= {(spot.edge, spot.face) for spot in disc.own().values()}
    return relaxed(ring, pairs)


def turned(layout: Layout, goals: Goals) -> Layout:
    """A layout turned and moved so that what has goals comes near to them."""
    known = [(layout[node], goal, pull) for node, (goal, pull) in sorted(goals.items()) if node in layout]
    if not known:
        return layout
    total = sum(pull for *_, pull in known)
    middle = sum(place * pull for place, _, pull in known) / total
    aim = sum(goal * pull for _, goal, pull in known) / total
    turn = sum((goal - aim) * (place - middle).conjugate() * pull for place, goal, pull in known)
    turn = turn / abs(turn) if abs(turn) > 1e-6 else 1
    return {node: aim + (place - middle) * turn for node, place in layout.items()}


def bent_edges(disc: Disc) -> set[Node]:
    """The edges that can't be straight, since others have the same ends."""
    ends: dict[Node, set[Node]] = defaultdict(set)
    for spot in disc.own().values():
        ends[spot.edge].add(spot.vertex)
    counts = Counter(frozenset(of) for of in ends.values())
    return {edge for edge, of in ends.items() if len(of) < 2 or counts[frozenset(of)] > 1}


def settled(disc: Disc, ring: Layout, goals: Goals) -> tuple[Layout | None, float]:
    """Places with straight edges at which faces are nearly regular and goals nearly met, and the energy; or None."""
    if any(len(set(corners)) < 2 for corners in disc.polygons.values()):
        return None, 0.0
    bent = bent_edges(disc)
    edges = {spot.edge for spot in disc.own().values()}
    for loose, is_fine in ((bent, bool(bent)), (edges, True)):
        start = turned(first_places(disc, ring, is_fine), goals)
        if disc.outer:
            start[CENTRE] = sum(start[node] for node in ring) / len(ring)
        free = free_nodes(disc, loose)
        if len(free) > MOST_FREE:
            return None, 0.0
        places = rows_of([start[node] for node in free])
        if energy_of(plan_of(disc, ring, free, loose, {}), places)[0] < float("inf"):
            tried = [held(disc, ring, free, loose, goals, NET if disc.cut else HELD, places)]
            if goals and not disc.cut and (tried[0][1] > TOLERABLE or dents_of(disc, tried[0][0])):
                tried.append(held(disc, ring, free, loose, goals, LOOSE, places))
            scores = [energy + 2 * dents_of(disc, layout) + 0.5 * at for at, (layout, energy) in enumerate(tried)]
            best = scores.index(min(scores))
            return with_sides(tried[best][0], disc.own()), scores[best]
    return None, 0.0


def held(
    disc: Disc, ring: Layout, free: Sequence[Node], bent: set[Node], goals: Goals, most: float, places: Floats
) -> tuple[Layout, float]:
    """Places that are settled with goals that pull more and more strongly, up to a most, and the mean energy of a
    triangle."""
    soft = {node: (goal, min(pull, most)) for node, (goal, pull) in goals.items()}
    plan = plan_of(disc, ring, free, bent, soft)
    is_goal = np.arange(len(plan.strengths)) < len(plan.strengths) - count_pulled(disc, bent)
    for share, rounds in STAGES if goals else STAGES[-1:]:
        places, _ = settle(plan._replace(strengths=np.where(is_goal, share, 1.0) * plan.strengths), places, rounds)
    layout = dict(zip([*free, *followers(disc, free)], (complex(x, y) for x, y in plan.follows @ places)))
    return layout, energy_of(plan._replace(strengths=0 * plan.strengths), places)[0] / len(plan.triangles)


def count_pulled(disc: Disc, bent: set[Node]) -> int:
    """How many edges are pulled to be straight."""
    amid = leaders(disc)
    return sum(len(amid[edge]) > 1 for edge in bent)


def dents_of(disc: Disc, layout: Layout) -> int:
    """How many corners of faces, and of the border round a closed surface, aren't convex."""
    outlines = [[layout[node] for node in corners] for face, corners in disc.polygons.items() if face not in corners]
    if disc.outer:
        outlines.append([layout[disc.nodes[dart][corner]] for dart, _, corner in disc.walk])
    return sum(area([before, here, after]) < -0.02 for one in outlines if len(one) > 3
               for before, here, after in zip(one, [*one[1:], one[0]], [*one[2:], *one[:2]]))


def rows_of(places: Sequence[complex]) -> Floats:
    """Places as rows of two numbers."""
    return np.array([(place.real, place.imag) for place in places]).reshape(-1, 2)


def free_nodes(disc: Disc, bent: set[Node]) -> list[Node]:
    """The nodes whose places are sought; the others follow from them."""
    corners = {node for corners in disc.polygons.values() for node in corners}
    return sorted({spot.vertex for spot in disc.own().values()} | corners | bent | ({CENTRE} if disc.outer else set()))


def followers(disc: Disc, free: Sequence[Node]) -> list[Node]:
    """The nodes that lie amid others: edges amid their ends, and faces amid their corners."""
    own = disc.own().values()
    return sorted({node for spot in own for node in (spot.edge, spot.face)} - set(free))


def leaders(disc: Disc) -> dict[Node, set[Node]]:
    """Amid which nodes an edge or a face lies."""
    found: dict[Node, set[Node]] = defaultdict(set)
    for spot in disc.own().values():
        found[spot.edge].add(spot.vertex)
        found[spot.face] |= {spot.vertex, spot.edge}
    return found


def plan_of(disc: Disc, ring: Layout, free: Sequence[Node], bent: set[Node], goals: Goals) -> Plan:
    """What is settled: each dart is a triangle of its vertex, its edge and its face."""
    at = {node: row for row, node in enumerate(free)}
    amid, late = leaders(disc), followers(disc, free)
    follows = np.zeros((len(free) + len(late), len(free)))
    follows[np.arange(len(free)), np.arange(len(free))] = 1
    for row, node in enumerate(late, len(free)):
        known = [at[other] for other in sorted(amid[node]) if other in at]
        follows[row, known] = 1 / len(known)
    at |= {node: row for row, node in enumerate(late, len(free))}
    triangles, corners = triangles_of(disc, ring)
    rows = np.array([[at[node] for node in one] for one in triangles])
    pulls, aims, strengths = pulls_of(disc, at, len(free), bent, goals)
    return Plan(follows, rows, shape_of(corners), pulls, aims, strengths)


def triangles_of(disc: Disc, ring: Layout) -> tuple[list[tuple[Node, Node, Node]], Floats]:
    """The triangles of the darts, and of the ring where it is round, each with the places that it would have."""
    triangles: list[tuple[Node, Node, Node]] = []
    wanted: list[Floats] = []
    ideals = {face: ideal_of(corners, face, disc.own()) for face, corners in disc.polygons.items()}
    for dart, spot in disc.own().items():
        triangles.append((spot.vertex, spot.edge, spot.face))
        ideal = ideals[spot.face]
        flat = [0, complex(0.5, -0.2 if disc.left[dart] else 0.2), 0.5]
        wanted.append(rows_of([ideal[node] for node in triangles[-1]] if ideal else flat))
    if disc.outer:
        passed = [disc.nodes[dart][corner] for dart, _, corner in disc.walk]
        for one, two in zip(passed, [*passed[1:], passed[0]]):
            triangles.append((one, two, CENTRE))
            wanted.append(rows_of([ring[one], ring[two], 0]))
    return triangles, np.array(wanted)


def ideal_of(corners: Sequence[Node], face: Node, nodes: Mapping[int, Spot]) -> Layout:
    """The places of a face that is regular, with edges of length 1; nothing for one of two corners."""
    if len(corners) < 3:
        return {}
    ideal = ideal_of_open(corners, face) or dict(zip(corners, regular(len(corners))))
    ends: dict[Node, set[Node]] = defaultdict(set)
    for spot in (spot for spot in nodes.values() if spot.face == face):
        ends[spot.edge].add(spot.vertex)
    for edge, of in ends.items():
        ideal.setdefault(edge, sum(ideal[node] for node in of) / len(of))
    ideal.setdefault(face, 0j)
    return ideal


def ideal_of_open(corners: Sequence[Node], face: Node) -> Layout:
    """The places of the corners of a face that lacks the middle of one edge, or is open at one vertex: they are those
    of the face that would be closed, so that vertices stay where it is opened; nothing for other faces."""
    begin = corners.index(face) if face in corners else 0
    middle, *passed = [*corners[begin:], *corners[:begin]]
    if middle == face and len(passed) > 3 and all(kind == 0 for kind, _ in passed):
        polygon = regular(len(passed) - 1)
        opened = [0.8 * polygon[0] + 0.2 * polygon[1], *polygon[1:], 0.8 * polygon[0] + 0.2 * polygon[-1]]
        return dict(zip(passed, opened)) | {face: 0j}
    vertices = passed[1:-1]
    if middle != face or len(vertices) < 3 or [kind for kind, _ in passed] != [1, *[0] * len(vertices), 1]:
        return {}
    polygon = regular(len(vertices))
    first, last = polygon[0], polygon[-1]
    ends = {passed[0]: 0.6 * first + 0.4 * last, passed[-1]: 0.4 * first + 0.6 * last}
    return dict(zip(vertices, polygon)) | ends | {face: 0j}


def pulls_of(
    disc: Disc, at: Mapping[Node, int], count: int, bent: set[Node], goals: Goals
) -> tuple[Floats, Floats, NDArray[np.float64]]:
    """What is pulled: vertices to their goals, and edges that may be bent to the middles of their ends."""
    amid = leaders(disc)
    rows, aims, strengths = [], [], []
    for node, (goal, pull) in sorted(goals.items()):
        if at.get(node, count) < count:
            rows.append({at[node]: 1.0})
            aims.append(goal)
            strengths.append(pull)
    for edge in sorted(bent):
        if edge in at and len(amid[edge]) > 1:
            rows.append({at[edge]: 1.0} | {at[end]: -1 / len(amid[edge]) for end in amid[edge]})
            aims.append(0j)
            strengths.append(4.0)
    pulls = np.zeros((len(rows), count))
    for row, parts in enumerate(rows):
        pulls[row, list(parts)] = list(parts.values())
    return pulls, rows_of(aims), np.array(strengths)


def settled_finely(disc: Disc, start: Layout, goals: Goals) -> Layout:
    """Places on the fine grid, from a start at which nothing is turned over: edges as straight as they can be."""
    own = disc.own()
    free = sorted({node for spot in own.values() for node in spot})
    if len(free) > MOST_FREE:
        return start
    at = {node: row for row, node in enumerate(free)}
    rows, shapes = [], []
    for dart, spot in own.items():
        count = max(3, len(disc.polygons[spot.face]))
        flat = with_sides({spot.vertex: 0j, spot.edge: 0.5 + 0j, spot.face: regular_middle(count)}, {dart: spot})
        for one, two in ((0, 5), (5, 1), (1, 3), (3, 2), (2, 4), (4, 0)):
            rows.append([at[spot[one]], at[spot[two]], at[spot.heart]])
            corners = [flat[spot[one]], flat[spot[two]], flat[spot.heart]]
            shapes.append(rows_of(corners if disc.left[dart] else [place.conjugate() for place in corners]))
    pulls, aims, strengths = fine_pulls(disc, at, goals)
    plan = Plan(np.eye(len(free)), np.array(rows), shape_of(np.array(shapes)), pulls, aims, strengths)
    places, _ = settle(plan, rows_of([start[node] for node in free]), 300)
    return start | dict(zip(free, (complex(x, y) for x, y in places)))


def regular_middle(count: int) -> complex:
    """The middle of a regular polygon whose first edge goes from 0 to 1."""
    return complex(0.5, -regular(count)[0].imag)


def fine_pulls(disc: Disc, at: Mapping[Node, int], goals: Goals) -> tuple[Floats, Floats, NDArray[np.float64]]:
    """What is pulled on the fine grid: vertices to their goals, and edges to lie between their ends."""
    known = sorted((node, goal, pull) for node, (goal, pull) in goals.items() if node in at)
    amid = leaders(disc)
    edges = sorted({spot.edge for spot in disc.own().values() if len(amid[spot.edge]) > 1})
    sides = sorted({(spot.side2, spot.vertex, spot.edge) for spot in disc.own().values()})
    pulls = np.zeros((len(known) + len(edges) + len(sides), len(at)))
    for row, (node, _, _) in enumerate(known):
        pulls[row, at[node]] = 1
    for row, edge in enumerate(edges, len(known)):
        pulls[row, [at[end] for end in amid[edge]]] = -1 / len(amid[edge])
        pulls[row, at[edge]] = 1
    for row, (side, one, two) in enumerate(sides, len(known) + len(edges)):
        pulls[row, [at[side], at[one], at[two]]] = (1, -0.5, -0.5)
    aims = rows_of([goal for _, goal, _ in known] + [0j] * (len(edges) + len(sides)))
    strengths = [min(pull, 2000.0) for *_, pull in known] + [20.0] * (len(edges) + len(sides))
    return pulls, aims, np.array(strengths)
