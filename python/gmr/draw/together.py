"""Where the parts of maps lie that are drawn side by side: what stays lies where it lay in the map before, and what is
new amid its neighbours. Parts are components, and volumes in dimension 3, which stand apart as exploded cells."""
from collections import Counter, defaultdict
from collections.abc import Sequence
from typing import NamedTuple

from gmr.draw.apart import Pair, set_apart
from gmr.draw.discs import Goals, fits_mirrored, place_disc, turned
from gmr.draw.layout import Disc, Sheet, faces_to_open, open_up, sheet_of
from gmr.draw.lines import OPENED, ends_of, line_along
from gmr.draw.model import Model, orbits
from gmr.draw.sheets import sheets_at_points, unit_of
from gmr.draw.surface import Node, Spot

POINTED = 4.0  # how strongly volumes with points are pulled beside those that they touch
MOST_TRIED = 3  # faces round which a closed surface is laid out to see which is best
WHOLE, MERGED, CUT, SPLIT = 5000.0, 30.0, 400.0, 2.0  # how strongly vertices are pulled to where they lay


class Past(NamedTuple):
    """What is known of the map before: the spots of its darts, which turn left, which stand outside, the least dart of
    each one's vertex, the darts of each vertex by the least one, and each one's sheet, with how many darts it has and
    by which way it was moved from its points."""

    spots: dict[int, Spot]
    left: dict[int, bool]
    outer: set[int]
    vertex_of: dict[int, int]
    darts_at: dict[int, set[int]]
    part_of: dict[int, int]
    sizes: Counter[int]
    ways: Sequence[complex]


NOTHING = Past({}, {}, set(), {}, {}, {}, Counter(), [])


def past_of(it: Model, sheets: Sequence[Sheet]) -> Past:
    """What is known of a map that is laid out."""
    spots = {dart: spot for sheet in sheets for dart, spot in sheet.spots.items()}
    left = {dart: way for sheet in sheets for dart, way in sheet.left.items()}
    vertices = orbits(sorted(spots), lambda dart, label: it.alpha[label][dart], (1, 2)[: it.dimension])
    vertex_of = {dart: orbit[0] for orbit in vertices for dart in orbit}
    outer = {dart for sheet in sheets for dart in sheet.outer}
    part_of = {dart: at for at, sheet in enumerate(sheets) for dart in sheet.spots}
    darts_at = {orbit[0]: {*orbit} for orbit in vertices}
    return Past(spots, left, outer, vertex_of, darts_at, part_of, Counter(part_of.values()), [])


def sheets_of(it: Model, unit: float) -> list[Sheet]:
    """The sheets of a map by itself, whose points are in edges of this length."""
    return sheets_at_points(it, unit) if it.points else lay_parts(it, NOTHING, None)


def lay_together(models: Sequence[Model]) -> list[list[Sheet]]:
    """The sheets of maps that are drawn side by side."""
    unit, past, found = unit_of(models), NOTHING, []
    for at, it in enumerate(models):
        if it.points:
            sheets = sheets_at_points(it, unit)
            moved = pulled_apart(it, sheets, past) if it.dimension == 3 else sheets
        else:
            later = models[at + 1] if at + 1 < len(models) else None
            moved = sheets = lay_parts(it, past, later)
        found.append(moved)
        ways = [two.middle() - one.middle() for one, two in zip(sheets, moved)]
        past = past_of(it, moved)._replace(ways=ways)
    return found


def pulled_apart(it: Model, sheets: Sequence[Sheet], past: Past) -> list[Sheet]:
    """Volumes at their points, pulled apart; those that stay as they were in the map before."""
    stays, ways = [], []
    for sheet in sheets:
        kept = Counter(past.part_of[dart] for dart in sheet.spots if dart in past.spots)
        stays.append(is_mostly(kept, len(sheet.spots), past))
        ways.append(sum(count * past.ways[old] for old, count in kept.items()) / (sum(kept.values()) or 1))
    moved = [sheet.moved(way) if is_kept else sheet for sheet, way, is_kept in zip(sheets, ways, stays)]
    return set_apart(moved, pairs_of(it, sheets), stays, POINTED)


def is_mostly(kept: Counter[int], count: int, past: Past) -> bool:
    """Whether a part of that many darts is mostly one that was there before, and that one mostly it."""
    return any(2 * shared >= max(count, past.sizes[old]) for old, shared in kept.items())


def pairs_of(it: Model, sheets: Sequence[Sheet]) -> list[Pair]:
    """The darts of two sheets that are neighbours along 3, each with the number of its sheet."""
    if it.dimension < 3:
        return []
    owner = {dart: at for at, sheet in enumerate(sheets) for dart in sheet.spots}
    return [((owner[dart], dart), (owner[other], other)) for dart, other in it.alpha[3].items()
            if dart < other and owner[dart] != owner[other]]


def lay_parts(it: Model, past: Past, later: Model | None) -> list[Sheet]:
    """The sheets of a map without points."""
    alpha = [*it.alpha, *[{dart: dart for dart in it.alpha[0]}] * 3][:4]
    parts = in_order(orbits(sorted(alpha[0]), lambda dart, label: alpha[label][dart], (0, 1, 2)), alpha, past)
    sheets: list[Sheet] = []
    stays = []
    for part in parts:
        laid = {dart: sheet for sheet in sheets for dart in sheet.spots}
        kept = Counter(past.part_of[dart] for dart in part if dart in past.spots)
        sheet = best_sheet(part, alpha, it.dimension, past, later, laid)
        near = [(dart, alpha[3][dart]) for dart in part if alpha[3][dart] in laid]
        sheets.append(sheet if kept or not near else placed_beside(sheet, near, laid))
        stays.append(is_mostly(kept, len(part), past) if it.dimension == 3 else bool(kept))
    return set_apart(sheets, pairs_of(it, sheets), stays)


def in_order(parts: list[list[int]], alpha: Sequence[dict[int, int]], past: Past) -> list[list[int]]:
    """Parts in the order in which they are laid out: those that stay, and then what is next to them."""
    waiting = sorted(parts, key=lambda part: (not set(part) & past.spots.keys(), part[0]))
    found: list[list[int]] = []
    reached: set[int] = set()
    while waiting:
        ready = (part for part in waiting if set(part) & past.spots.keys() or reached & {alpha[3][one] for one in part})
        here = next(ready, waiting[0])
        waiting.remove(here)
        found.append(here)
        reached |= set(here)
    return found


def best_sheet(
    part: Sequence[int], alpha: Sequence[dict[int, int]], dimension: int, past: Past, later: Model | None,
    laid: dict[int, Sheet]
) -> Sheet:
    """A part laid out in the best of several ways."""
    faces = sorted(faces_to_open(part, alpha), key=lambda face: (-nearness(face, past), not is_kept(face, later)))
    tried: list[tuple[bool, float, int, Sheet]] = []
    for face in faces[:MOST_TRIED]:
        disc = open_up(part, alpha, dimension, face, past.outer)
        if disc:
            tried.append(laid_out(disc, alpha, dimension, past, laid, len(tried)))
            is_first = is_kept(face, later) and not past.spots or past.outer >= set(face)
            if not disc.outer or is_first and not tried[-1][0]:
                break
    if not tried or tried[-1][3].outer and all(is_bent for is_bent, *_ in tried):
        disc = open_up(part, alpha, dimension, [], past.outer)
        if disc:
            tried.append(laid_out(disc, alpha, dimension, past, laid, len(tried)))
    return min(tried, key=lambda one: one[:3])[3]


def nearness(face: Sequence[int], past: Past) -> float:
    """How much of a face stood outside in the map before."""
    return len(past.outer & set(face)) / len(face)


def is_kept(face: Sequence[int], later: Model | None) -> bool:
    """Whether the next map has the same face."""
    if later is None or later.dimension < 2 or any(dart not in later.alpha[0] for dart in face):
        return False
    alpha = later.alpha
    return orbits(face[:1], lambda dart, label: alpha[label][dart], (0, 1)) == [sorted(face)]


def laid_out(
    disc: Disc, alpha: Sequence[dict[int, int]], dimension: int, past: Past, laid: dict[int, Sheet], at: int
) -> tuple[bool, float, int, Sheet]:
    """A disc with places: whether its edges are bent on a fine grid, its energy, its number, and the sheet."""
    goals = goals_of(disc, past)
    is_mirrored = fits_mirrored(disc, goals, votes_of(disc, alpha, past, laid) < 0)
    layout, energy, is_bent = place_disc(disc, goals, is_mirrored)
    if disc.is_line and past.spots:
        sought = {node: place for node, (place, pull) in goals.items() if pull > CUT} | ends_of(disc, alpha, past.spots)
        layout = line_along(disc, layout, sought, alpha) or turned(layout, goals)
    return is_bent, round(energy, 2), at, sheet_of(disc, layout, is_bent, is_mirrored, alpha, dimension)


def votes_of(disc: Disc, alpha: Sequence[dict[int, int]], past: Past, laid: dict[int, Sheet]) -> int:
    """How many darts more turn as they did, or against those across along 3, than don't."""
    left = disc.left | {dart: not disc.left[alpha[2][dart]] for dart in disc.outer}
    known = [(way, past.left[dart]) for dart, way in left.items() if dart in past.left]
    if not known:
        across = ((way, alpha[3][dart]) for dart, way in left.items())
        known = [(way, not laid[dart].left[dart]) for way, dart in across if dart in laid]
    return sum(1 if one == two else -1 for one, two in known)


def goals_of(disc: Disc, past: Past) -> Goals:
    """Where vertices would lie: where those lay that they have most darts of, or to the side of what they are split
    from that is theirs."""
    nodes = {dart: spot.vertex for dart, spot in disc.nodes.items() if dart in past.spots}
    shared = Counter((past.vertex_of[dart], node) for dart, node in nodes.items())
    old_sizes, new_sizes = Counter(past.vertex_of[dart] for dart in nodes), Counter(nodes.values())
    owners: dict[int, list[Node]] = defaultdict(list)
    for (old, node), count in shared.items():
        if 2 * count >= max(old_sizes[old], new_sizes[node]):
            owners[old].append(node)
    claims: dict[Node, list[complex]] = defaultdict(list)
    for old, taken in owners.items():
        if len(taken) == 1:
            claims[taken[0]].append(past.spots[old].vertex)
    found = {node: (mean_of(places), WHOLE if len(places) == 1 else MERGED) for node, places in claims.items()}
    grown = {spot.vertex for dart, spot in disc.nodes.items() if dart not in past.spots}
    for node in sorted(new_sizes.keys() - found.keys()):
        inner = [past.spots[dart] for dart, own in nodes.items() if own == node and dart not in past.outer]
        if inner:
            vertex, edge, heart = (mean_of([spot[at] for spot in inner]) for at in (0, 1, 6))
            is_on_edge = len({spot.edge for spot in inner}) == 1
            if is_on_edge:
                share = 0.75 if node in grown else OPENED
                found[node] = ((1 - share) * vertex + share * edge, CUT)
            else:
                found[node] = (0.35 * vertex + 0.4 * edge + 0.25 * heart, SPLIT)
    return found


def mean_of(places: Sequence[complex]) -> complex:
    """The place amid places."""
    return sum(places) / len(places)


def placed_beside(sheet: Sheet, near: Sequence[tuple[int, int]], laid: dict[int, Sheet]) -> Sheet:
    """A sheet beside those that it has neighbours in along 3, upright or upside down, as neighbours lie nearer."""
    own, middles = sheet.middle(), {other: laid[other].middle() for _, other in near}
    ways = [laid[other].spots[other].heart - middles[other] for _, other in near]
    way = sum(ways) / len(ways)
    way = way / abs(way) if abs(way) > 0.1 else -1j
    mirrored = (-way * way * one.conjugate() for one in ways)
    turn = sum(one * (sheet.spots[dart].heart - own).conjugate() for one, (dart, _) in zip(mirrored, near))
    turned = sheet.turned(1 if turn.real > -1e-6 else -1, own)
    size = sum(abs(it.box()[1] - it.box()[0]) for it in (sheet, laid[near[0][1]])) / 2.6
    return turned.moved(sum(middles.values()) / len(middles) + way * size - own)
