"""The unfolding of a rule in a map, made whether the rule is accepted or not, and the first law that its result breaks.

It is the definition of MODEL ('Unfoldings', 'Values') taken to the letter: a difference and a union of arcs. Of an
accepted rule the result is a map; of a refused one it may be less, and this module finds where."""
from collections.abc import Iterator
from itertools import combinations
from typing import NamedTuple

from gmr.books import Node
from gmr.maps import Embed, Map, Value
from gmr.matches import Candidate, Step, steps_of

Alpha = list[dict[int, int]]


class Unfolding(NamedTuple):
    """What a rule leaves: the darts, a neighbour of each along each label where it has one, the further neighbours of
    darts that have several, the name after the new ones, and the darts of each right node by position."""
    live: set[int]
    alpha: Alpha
    further: list[tuple[int, int, int]]     # dart, label, neighbour
    next: int
    darts: dict[str, list[int]]


class Breach(NamedTuple):
    """A law that a result breaks: its word, the labels, and the darts at which it breaks, the first one first."""
    law: str
    labels: tuple[int, ...]
    darts: tuple[int, ...]


def darts_after(found: Candidate) -> dict[str, list[int]]:
    """The darts of each right node: those that it had, or new names from the next one on."""
    count, next_name = found.size(), found.map.next
    darts = {}
    for node in found.rule.nodes:
        if node.left is None:
            darts[node.name] = list(range(next_name, next_name + count))
            next_name += count
        elif node.right is not None:
            darts[node.name] = found.darts[node.name]
    return darts


def ends_of(step: Step, name: str, darts: dict[str, list[int]], turns: list[list[int]]) -> list[int]:
    """The dart to which a step of a node leads at each position."""
    if step.node is not None:
        return darts[step.node]
    return [darts[name][turned] for turned in turns[step.place or 0]]


def made_arcs(found: Candidate, darts: dict[str, list[int]]) -> Iterator[tuple[int, int, int]]:
    """The arcs of the right side, from both ends: dart, label, neighbour."""
    for node in found.rule.nodes:
        if node.right is not None:
            for label, step in steps_of(node.right, found.rule.right_links, node.name).items():
                ends = ends_of(step, node.name, darts, found.turns)
                yield from ((dart, label, end) for dart, end in zip(darts[node.name], ends))


def unfold(found: Candidate) -> Unfolding:
    """What an application at a match makes of the darts and arcs. No condition on the rule is asked for."""
    rule, amap = found.rule, found.map
    taken: list[set[int]] = [set() for _ in amap.alpha]
    for node in rule.nodes:
        if node.left is not None:
            for label in steps_of(node.left, rule.left_links, node.name):
                taken[label].update(found.darts[node.name])
    gone = {dart for node in rule.nodes if node.right is None for dart in found.darts[node.name]}
    darts = darts_after(found)
    live = (set(amap.darts) - gone).union(*darts.values())
    alpha = [{dart: near for dart, near in step.items() if dart in live and dart not in ends and near not in ends}
             for step, ends in zip(amap.alpha, taken)]
    further = []
    for dart, label, near in made_arcs(found, darts):
        if alpha[label].setdefault(dart, near) != near:
            further.append((dart, label, near))
    added = sum(1 for node in rule.nodes if node.left is None)
    return Unfolding(live, alpha, further, amap.next + added * found.size(), darts)


def map_of(result: Unfolding, amap: Map) -> Map:
    """The result as a map without values, where it is one."""
    return Map(amap.version, amap.dimension, amap.embeds, result.next, sorted(result.live), result.alpha, {})


# ---------------------------------------------------------------------- laws of neighbours
def first_breach(result: Unfolding) -> Breach | None:
    """The first law of maps that the result breaks: a dart with no neighbour, a gone one, two, or one that doesn't
    point back, and then two labels two or more apart that don't commute."""
    for dart in sorted(result.live):
        for label, step in enumerate(result.alpha):
            if dart not in step:
                return Breach("no neighbour", (label,), (dart,))
            if step[dart] not in result.live:
                return Breach("gone neighbour", (label,), (dart, step[dart]))
    if result.further:
        dart, label, near = min(result.further)
        return Breach("two neighbours", (label,), (dart, result.alpha[label][dart], near))
    for label, step in enumerate(result.alpha):
        for dart, near in sorted(step.items()):
            if step[near] != dart:
                return Breach("one way", (label,), (dart, near, step[near]))
    return first_crossing(result)


def first_crossing(result: Unfolding) -> Breach | None:
    """The first dart at which two labels two or more apart don't commute: the darts of both ways."""
    alpha = result.alpha
    pairs = [(one, other) for one, other in combinations(range(len(alpha)), 2) if other - one >= 2]
    for dart in sorted(result.live):
        for one, other in pairs:
            here, there = alpha[one][dart], alpha[other][dart]
            if alpha[other][here] != alpha[one][there]:
                return Breach("crossing", (one, other), (dart, here, alpha[other][here], there, alpha[one][there]))
    return None


# ---------------------------------------------------------------------- laws of values
def sources_of(found: Candidate, result: Unfolding, embed: Embed) -> dict[int, int]:
    """The old dart whose value each dart of the result takes over, where it takes one over: itself, or at its position
    that of the least preserved node to which right links with the embedding's labels lead."""
    sources = {dart: dart for dart in result.live if dart in found.map.alpha[0]}
    for part in right_parts(found, embed):
        kept = [node for node in part if node.left is not None]
        for node in part if kept else ():
            sources.update(zip(result.darts[node.name], result.darts[kept[0].name]) if node.left is None else ())
    return sources


def right_parts(found: Candidate, embed: Embed) -> Iterator[list[Node]]:
    """The right nodes that right links with an embedding's labels join, each part in the order of the nodes."""
    rest = [node for node in found.rule.nodes if node.right is not None]
    while rest:
        names = {rest[0].name}
        while more := {end for one, label, other in found.rule.right_links if label in embed.labels
                       for end in (one, other) if names & {one, other}} - names:
            names |= more
        yield [node for node in rest if node.name in names]
        rest = [node for node in rest if node.name not in names]


def first_value_breach(found: Candidate, result: Unfolding, embed: Embed) -> Breach | None:
    """Where the result, a map, has no value of an embedding or two of them on an orbit that no assignment decides."""
    values: dict[int, Value] = found.map.values[embed.name]
    sources = sources_of(found, result, embed)
    assigned = {dart for node in found.rule.nodes if embed.name in node.sets for dart in result.darts[node.name]}
    for orbit in map_of(result, found.map).orbits(embed.labels):
        if assigned.intersection(orbit):
            continue
        bare = [dart for dart in orbit if dart not in sources]
        if bare:
            return Breach("no value", embed.labels, (bare[0],))
        first = orbit[0]
        other = next((dart for dart in orbit if values[sources[dart]] != values[sources[first]]), None)
        if other is not None:
            return Breach("two values", embed.labels, (first, other))
    return None


def deciding_positions(found: Candidate, node: Node, embed: Embed) -> list[int]:
    """The positions at which the node's assignment decides the value of an orbit of the result: there no lesser
    node or position with an assignment to the embedding lies in the same orbit."""
    result = unfold(found)
    amap, darts = map_of(result, found.map), result.darts
    assigned = [other for other in found.rule.nodes if embed.name in other.sets]
    decided: set[int] = set()
    deciding = []
    for other in assigned[:assigned.index(node) + 1]:
        for position, dart in enumerate(darts[other.name]):
            if dart not in decided:
                decided.update(amap.orbit(embed.labels, dart))
                if other is node:
                    deciding.append(position)
    return deciding
