"""Where an open path lies that has no points: along what was there before, and else straight."""
from collections.abc import Mapping, Sequence

from gmr.draw.layout import Disc, Layout, straightened
from gmr.draw.surface import Node, Spot

OPENED = 0.2  # by which share of half an edge an end is drawn back where a path is opened


def ends_of(disc: Disc, alpha: Sequence[Mapping[int, int]], spots: Mapping[int, Spot]) -> dict[Node, complex]:
    """Where the ends of a path would lie that was opened: drawn back a little from where it was whole."""
    found: dict[Node, complex] = {}
    for dart, spot in disc.nodes.items():
        across = alpha[0][dart]
        if across == dart and dart in spots:
            found[spot.edge] = drawn_back(spots[dart].edge, spots[dart].vertex)
        elif alpha[1][dart] == dart and dart in spots:
            found[spot.vertex] = spots[dart].vertex
        elif dart not in spots and across in spots and alpha[1][dart] == dart:
            found[spot.vertex] = drawn_back(spots[across].edge, spots[across].vertex)
    for one in [node for node in found if sum(found[node] == place for place in found.values()) > 1]:
        dart = next(dart for dart, spot in disc.nodes.items() if spot.vertex == one)
        found[one] = drawn_back(spots[dart].vertex, spots[dart].edge)
    return found


def drawn_back(end: complex, other: complex) -> complex:
    """A place near an end, on the way to another place."""
    return end + OPENED * (other - end)


def chain_of(disc: Disc, alpha: Sequence[Mapping[int, int]]) -> list[Node]:
    """The vertices of a path in its order, with the middles of edges at which it ends."""
    dart = min(dart for dart in disc.nodes if dart in (alpha[0][dart], alpha[1][dart]))
    label = 0 if alpha[1][dart] == dart else 1
    found = [disc.nodes[dart].vertex if label == 0 else disc.nodes[dart].edge]
    for _ in disc.nodes:
        node = disc.nodes[alpha[label][dart]].vertex if label == 0 else disc.nodes[dart].vertex
        if label == 0 and alpha[0][dart] == dart:
            node = disc.nodes[dart].edge
        if node != found[-1]:
            found.append(node)
        dart, label = alpha[label][dart], 1 - label
    return found


def line_along(
    disc: Disc, straight: Layout, goals: Mapping[Node, complex], alpha: Sequence[Mapping[int, int]]
) -> Layout | None:
    """A path whose vertices are at their goals, and what is new evenly between them or beyond; nothing where that
    would fold it."""
    chain = chain_of(disc, alpha)
    known = [at for at, node in enumerate(chain) if node in goals]
    if len(known) < 2:
        return None
    places: list[complex] = []
    for at, node in enumerate(chain):
        low = max([one for one in known if one <= at], default=known[0])
        high = min([one for one in known if one >= at], default=known[-1])
        if low == high and node not in goals:
            low, high = (known[0], known[1]) if at < known[0] else (known[-2], known[-1])
        way = (goals[chain[high]] - goals[chain[low]]) / (high - low or 1)
        places.append(goals[chain[low]] + way * (at - low))
    ways = [two - one for one, two in zip(places, places[1:])]
    turns = [(two * one.conjugate()).real / (abs(one * two) or 1) for one, two in zip(ways, ways[1:])]
    if min(abs(way) for way in ways) < 0.1 or min(turns, default=1) < -0.6:
        return None
    layout = straight | dict(zip(chain, places))
    layout[disc.nodes[min(disc.nodes)].face] = beside_line(places, [straight[node] for node in chain],
                                                           straight[disc.nodes[min(disc.nodes)].face])
    return straightened(layout, disc.own(), disc.polygons)


def beside_line(places: Sequence[complex], straight: Sequence[complex], face: complex) -> complex:
    """The middle of what a path goes round; beside it where it is straight, on the side that it has."""
    middle, way = sum(places) / len(places), places[-1] - places[0]
    off = max(abs(((place - places[0]) * way.conjugate()).imag) for place in places) / (abs(way) or 1)
    if off > 0.2 * abs(way):
        return middle
    side = ((face - straight[0]) * (straight[-1] - straight[0]).conjugate()).imag
    return middle + way * (0.5j if side > 0 else -0.5j)
