"""Finds the assignments of a rule: which nodes need one, and an expression for each."""
from collections.abc import Iterable, Sequence
from typing import NamedTuple

from gmr.infer.draft import Draft, Link
from gmr.infer.example import Example
from gmr.infer.terms import find_expression, row_of, terms_of
from gmr.maps import WIDTHS, Embed, Value


class Unfound(NamedTuple):
    """An assignment for which no expression was found: the embedding, the node, and the values that are wanted."""
    embed: str
    node: int
    wanted: list[Value]


MOST_POSITIONS = 600    # at which expressions are looked for
Place = tuple[Example, Draft]   # a rule as it lies in an example


def components(draft: Draft, embed: Embed) -> list[list[int]]:
    """The right nodes that right links with the embedding's labels join, each part ascending."""
    part_of: dict[int, list[int]] = {}
    for at, node in enumerate(draft.nodes):
        if node.right is not None:
            part_of.setdefault(at, [at])
            for label, step in node.right.items():
                if isinstance(step, Link) and label in embed.labels:
                    one, other = part_of[at], part_of.setdefault(step.node, [step.node])
                    if one is not other:
                        one.extend(other)
                        part_of.update(dict.fromkeys(other, one))
    return [sorted(part) for at, part in part_of.items() if at == min(part)]


def keeps_values(place: Place, part: Sequence[int], embed: Embed) -> bool:
    """Whether the orbits of a component have their values after, in one place, without an assignment."""
    example, draft = place
    kept = [at for at in part if draft.nodes[at].is_kept]
    if not kept:
        return False
    before, after = example.before.values[embed.name], example.after.values[embed.name]
    source = draft.nodes[kept[0]].darts
    for at in part:
        darts = draft.nodes[at].darts
        olds = darts if draft.nodes[at].is_kept else source
        if any(before[old] != after[dart] for old, dart in zip(olds, darts)):
            return False
    around = {dart for at in part for dart in draft.nodes[at].darts} & changing_orbits(example, embed)
    return not around


def changing_orbits(example: Example, embed: Embed) -> set[int]:
    """The darts whose orbit in the map after holds a dart that has another value than before."""
    before, after = example.before.values[embed.name], example.after.values[embed.name]
    changed = sorted(dart for dart in example.kept if before[dart] != after[dart])
    return {dart for orbit in example.after.orbits(embed.labels, changed) for dart in orbit}


def assign(places: Sequence[Place], forced: Iterable[tuple[str, int]]) -> list[Unfound]:
    """Gives the draft, which is that of each place, the assignments that it needs, and answers those that aren't found.

    Forced are the nodes whose components the program won't have without an assignment, by embedding."""
    unfound = []
    draft = places[0][1]
    for embed in places[0][0].before.embeds:
        needed = [node for name, node in forced if name == embed.name]
        terms = None
        few = [(example, thinned(lying)) for example, lying in places]
        for part in components(draft, embed):
            if set(part).isdisjoint(needed) and all(keeps_values(place, part, embed) for place in places):
                continue
            if terms is None:
                terms = terms_of([(example.before, lying) for example, lying in few], embed)
            wanted = wanted_values(few, part[0], embed)
            equations = equations_of(places, part[0], embed)
            text = find_expression(embed.kind, WIDTHS[embed.kind], row_of(wanted), terms, equations)
            if text is None:
                unfound.append(Unfound(embed.name, part[0], wanted))
            else:
                for _, lying in places:
                    lying.nodes[part[0]].sets[embed.name] = text
    return unfound


def thinned(draft: Draft) -> Draft:
    """The draft at a limited number of positions: a part of a large orbit decides which expression it is; the program
    tries the rule on all of it."""
    size = len(draft.nodes[0].darts) if draft.nodes else 0
    if size <= MOST_POSITIONS:
        return draft
    thin = draft.copy()
    for node in thin.nodes:
        node.darts = node.darts[::size // MOST_POSITIONS]
    return thin


def equations_of(places: Sequence[Place], node: int, embed: Embed) -> int:
    """How many numbers of the maps after a node's values have to meet: those of each orbit in which it lies, once."""
    orbits = sum(len(example.after.orbits(embed.labels, lying.nodes[node].darts)) for example, lying in places)
    return orbits * WIDTHS[embed.kind]


def wanted_values(places: Sequence[Place], node: int, embed: Embed) -> list[Value]:
    """The values of a node after, at all positions of all places."""
    return [example.after.values[embed.name][dart] for example, lying in places for dart in lying.nodes[node].darts]


def value_text(value: Value) -> str:
    """A value as a map's text has it."""
    return str(value) if isinstance(value, int) else f"({' '.join(map(str, value))})"
