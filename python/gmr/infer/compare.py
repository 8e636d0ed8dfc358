"""Compares two rules: whether they are the same up to names and order, and at which darts each can be applied."""
from collections.abc import Sequence
from itertools import permutations

from gmr.infer.draft import Draft, Letter, Link, Node
from gmr.infer.example import Example
from gmr.infer.fold import Broken
from gmr.infer.place import Placing, place
from gmr.maps import Map

Numbers = dict[int, int]   # for a node of one rule that of the other


# ---------------------------------------------------------------------- sameness
def are_same(one: Draft, other: Draft) -> bool:
    """Whether the rules are alike but for names, the order of nodes, and the order of a word's places."""
    if sorted(map(kind_of, one.nodes)) != sorted(map(kind_of, other.nodes)) or sorted(one.word) != sorted(other.word):
        return False
    return any(extend(one, other, places, {}) for places in permutations(range(len(one.word))))


def kind_of(node: Node) -> tuple[object, ...]:
    """What a node has that doesn't go by names and order."""
    return node.is_hook, *(sorted(steps) if steps is not None else [-1] for steps in (node.left, node.right))


def extend(one: Draft, other: Draft, places: Sequence[int], found: Numbers) -> bool:
    """Whether the nodes of one rule that are found can be completed to all of them."""
    free = next((at for at in range(len(one.nodes)) if at not in found), None)
    if free is None:
        return True
    for number in set(range(len(other.nodes))) - set(found.values()):
        longer = follow(one, other, places, found, free, number)
        if longer is not None and extend(one, other, places, longer):
            return True
    return False


def follow(one: Draft, other: Draft, places: Sequence[int], found: Numbers, at: int, number: int) -> Numbers | None:
    """The nodes that are found with this pair and all to which links lead from it, or None where something differs."""
    found = dict(found)
    pairs = [(at, number)]
    while pairs:
        at, number = pairs.pop()
        if at in found or number in found.values():
            if found.get(at) != number:
                return None
            continue
        found[at] = number
        node, image = one.nodes[at], other.nodes[number]
        if kind_of(node) != kind_of(image):
            return None
        for steps, images in ((node.left or {}, image.left or {}), (node.right or {}, image.right or {})):
            for label, step in steps.items():
                other_step = images[label]
                if isinstance(step, Link) and isinstance(other_step, Link):
                    pairs.append((step.node, other_step.node))
                elif not (isinstance(step, Letter) and isinstance(other_step, Letter)
                          and places[step.place] == other_step.place):
                    return None
    return found


# ---------------------------------------------------------------------- application
def matches(draft: Draft, before: Map, hooks: Sequence[int]) -> bool:
    """Whether the left side of the rule lies in the map at the hooks."""
    try:
        Placing(draft, before, hooks)
    except Broken:
        return False
    return True


def unfold(draft: Draft, before: Map, hooks: Sequence[int]) -> Map:
    """The map that the rule makes of a map without values at the hooks, where it matches."""
    placing = Placing(draft, before, hooks)
    families, name = placing.families, before.next
    for number, node in enumerate(draft.nodes):
        if node.left is None:
            families[number] = tuple(range(name, name + placing.size))
            name += placing.size
    alpha = [dict(step) for step in before.alpha]
    for number, node in enumerate(draft.nodes):
        for label, step in (node.right or {}).items():
            family = families[number]
            near = families[step.node] if isinstance(step, Link) else [family[at] for at in placing.turns[step.place]]
            alpha[label].update(zip(family, near))
    gone = {dart for number, node in enumerate(draft.nodes) if node.right is None for dart in families[number]}
    for ends in alpha:
        for dart in gone:
            del ends[dart]
    return Map(before.version, before.dimension, [], name, sorted(alpha[0]), alpha, {})


def makes(draft: Draft, example: Example) -> bool:
    """Whether the rule makes the map after of the map before at some hooks, but for the names of new darts."""
    number = sum(node.is_hook for node in draft.nodes)
    darts: list[int] = example.starts if number > 1 else list(example.before.darts)
    return any(lies(draft, example, hooks) for hooks in permutations(darts, number))


def lies(draft: Draft, example: Example, hooks: Sequence[int]) -> bool:
    """Whether the rule lies in the example at the hooks."""
    try:
        place(draft, example, hooks)
    except Broken:
        return False
    return True
