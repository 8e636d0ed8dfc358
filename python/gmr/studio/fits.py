"""At which darts a rule's left side lies in a map, for all darts at once, so that the page can light up those that fit.

A condition of the left side at a position speaks of that position's dart and of darts that labels lead to from it, so
it is looked up for all darts of the map together; a dart fits where the condition holds all over its walk. What a
precondition says isn't looked at. The program judges each application; this only shows where it is worth a try."""
from typing import Any

import numpy as np
import numpy.typing as npt

from gmr.books import Node, Rule
from gmr.maps import Map
from gmr.matches import find_candidate, routes_of, step_of
from gmr.views import least_of_orbits

Slots = npt.NDArray[np.int64]
Truths = npt.NDArray[np.bool_]
MOST_LOOKED_UP = 40_000_000     # darts times positions of a later hook


class Table:
    """A map's neighbours as arrays of slots; a slot is a dart's place among all darts by their names."""

    def __init__(self, it: Map) -> None:
        self.names: Slots = it.darts.view(np.ndarray)
        self.alpha: list[Slots] = list(it.alpha.rows())

    def follow(self, darts: Slots, labels: tuple[int, ...]) -> Slots:
        """Where labels lead from darts, one after another."""
        for label in labels:
            darts = self.alpha[label][darts]
        return darts

    def orbits(self, labels: tuple[int, ...]) -> Slots:
        """A slot of its orbit over the labels for each slot, the same one for all of an orbit."""
        return least_of_orbits([self.alpha[label] for label in labels], len(self.names))


def find_fitting(rule: Rule, it: Map, given: list[int]) -> list[int] | None:
    """The darts that fit as the next hook, after those that are given; None where that would take too long."""
    hooks = [node for node in rule.nodes if node.hook]
    if len(given) >= len(hooks) or not it.darts:
        return []
    table = Table(it)
    if not given:
        fits = fit_first(rule, hooks[0], table)
    else:
        count = len(find_candidate(rule_of_hooks(rule, hooks[:1]), it, given[:1]).darts[hooks[0].name])
        if count * len(it.darts) > MOST_LOOKED_UP:
            return None
        fits = fit_next(rule, it, given, table)
    found: list[int] = table.names[fits].tolist()
    return found


def fit_first(rule: Rule, hook: Node, table: Table) -> Truths:
    """At which slots the nodes lie that the first hook leads to."""
    word = tuple(label for label in hook.left or () if label is not None)
    routes = {name: route.labels for name, route in routes_of(rule).items() if route.hook == hook.name}
    here = np.arange(len(table.names))
    at = {name: table.follow(here, labels) for name, labels in routes.items()}
    holds = np.ones(len(here), dtype=np.bool_)
    for node in (node for node in rule.nodes if node.name in at):
        holds &= holds_at(rule, node, at, word, table)
    orbits = table.orbits(word)
    broken = np.zeros(len(here), dtype=np.bool_)
    broken[orbits[~holds]] = True
    broken[doubled(list(at.values()), orbits)] = True
    answer: Truths = ~broken[orbits]
    return answer


def holds_at(rule: Rule, node: Node, at: dict[str, Slots], word: tuple[int, ...], table: Table) -> Truths:
    """Whether each label that a node has on the left leads where the rule says, at the position of each slot."""
    holds = np.ones(len(table.names), dtype=np.bool_)
    for label, step in enumerate(table.alpha):
        wanted = step_of(node.left or (), rule.left_links, node.name, label)
        if wanted is None or wanted.node is not None and wanted.node not in at:
            continue
        target = at[wanted.node] if wanted.node else at[node.name][table.alpha[word[wanted.place or 0]]]
        holds &= step[at[node.name]] == target
    return holds


def doubled(nodes: list[Slots], orbits: Slots) -> Slots:
    """The orbits in which two nodes lie on one dart."""
    if len(nodes) < 2:
        return np.zeros(0, dtype=np.int64)
    keys: Slots = np.sort(np.concatenate([node * len(orbits) + orbits for node in nodes]))
    twice: Slots = keys[1:][keys[1:] == keys[:-1]] % len(orbits)
    return twice


def rule_of_hooks(rule: Rule, hooks: list[Node]) -> Rule:
    """The left side of a rule as far as these hooks lead."""
    names = {hook.name for hook in hooks}
    reached = {name for name, route in routes_of(rule).items() if route.hook in names}
    nodes = [node._replace(hook=node.name in names) for node in rule.nodes if node.name in reached]
    links = [link for link in rule.left_links if link[0] in reached and link[2] in reached]
    return rule._replace(nodes=nodes, left_links=links)


def fit_next(rule: Rule, it: Map, given: list[int], table: Table) -> Truths:
    """At which slots the nodes lie that the next hook leads to, which goes in step with the first one."""
    hooks = [node for node in rule.nodes if node.hook]
    hook = hooks[len(given)]
    known = find_candidate(rule_of_hooks(rule, hooks[:len(given)]), it, given)
    slots = {name: np.searchsorted(table.names, darts) for name, darts in known.darts.items()}
    at: dict[str, list[Any]] = {name: list(darts) for name, darts in slots.items()}
    walked = walk_in_step(hook, known.turns, known.size(), table)
    for name, route in routes_of(rule).items():
        if route.hook == hook.name:
            at[name] = [table.follow(darts, route.labels) for darts in walked]
    new = [node for node in rule.nodes if node.name in at and node.name not in slots]
    holds = are_apart([dart for darts in at.values() for dart in darts], len(table.names))
    for node in new:
        for position in range(known.size()):
            holds &= holds_there(rule, node, at, position, known.turns, table)
    return holds


def walk_in_step(hook: Node, turns: list[list[int]], count: int, table: Table) -> list[Slots]:
    """The dart of a later hook at each position, for each slot as its dart at position 0."""
    found: list[Slots | None] = [None] * count
    found[0] = np.arange(len(table.names))
    for position in range(count):
        here = found[position]
        assert here is not None
        for place, label in enumerate(hook.left or ()):
            turned = turns[place][position]
            if found[turned] is None and label is not None:
                found[turned] = table.alpha[label][here]
    return [darts for darts in found if darts is not None]


def holds_there(rule: Rule, node: Node, at: dict[str, list[Any]], position: int, turns: list[list[int]],
                table: Table) -> Truths:
    """Whether each label that a node has on the left leads where the rule says, at one position."""
    holds = np.ones(len(table.names), dtype=np.bool_)
    here = at[node.name][position]
    for label, step in enumerate(table.alpha):
        wanted = step_of(node.left or (), rule.left_links, node.name, label)
        if wanted is None or wanted.node is not None and wanted.node not in at:
            continue
        target = at[wanted.node][position] if wanted.node else at[node.name][turns[wanted.place or 0][position]]
        holds &= step[here] == target
    return holds


def are_apart(darts: list[Any], count: int) -> Truths:
    """At which slots all these darts differ; each is one slot, or a slot for each slot."""
    rows = np.sort(np.stack([np.broadcast_to(dart, (count,)) for dart in darts]), axis=0)
    apart: Truths = (rows[1:] != rows[:-1]).all(axis=0)
    return apart


def ranges_of(darts: list[int]) -> list[list[int]]:
    """Ascending names as ranges, the first and the last name of each."""
    found: list[list[int]] = []
    for dart in darts:
        if found and found[-1][1] == dart - 1:
            found[-1][1] = dart
        else:
            found.append([dart, dart])
    return found
