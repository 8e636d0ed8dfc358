"""Where the left side of a rule lies in a map, and what of it isn't met.

The program decides all of this; this module finds it again, so that a refusal can be told with its darts."""
import heapq
from typing import NamedTuple

from gmr.books import Link, Node, Rule
from gmr.maps import Map, walk


class Step(NamedTuple):
    """What a node has at a label: a link to a node, or a letter at a place of its word."""
    node: str | None
    place: int | None


class Route(NamedTuple):
    """How a node is reached: from which hook, and along which labels."""
    hook: str
    labels: tuple[int, ...]


class Candidate(NamedTuple):
    """The one place where a rule could lie in a map at given darts of its hooks."""
    rule: Rule
    map: Map
    hooks: list[Node]
    turns: list[list[int]]        # turns[place of a word][position]
    darts: dict[str, list[int]]   # darts[left node][position]
    routes: dict[str, Route]      # of each left node but the hooks

    def size(self) -> int:
        """How many positions there are."""
        return len(self.darts[self.hooks[0].name]) if self.hooks else 1

    def wanted(self, node: Node, position: int, label: int) -> int:
        """The dart to which the left side wants the node's dart to lead along a label that the node has there."""
        step = step_of(node.left or (), self.rule.left_links, node.name, label)
        assert step is not None, f"{node.name} has no {label} on the left"
        return ends_of(self, node, step)[position]


def steps_of(word: tuple[int | None, ...], links: list[Link], name: str) -> dict[int, Step]:
    """What a node with this word has at each label, on the side with these links: the first link counts before the
    first letter."""
    steps: dict[int, Step] = {}
    for one, along, other in links:
        if name in (one, other):
            steps.setdefault(along, Step(other if name == one else one, None))
    for place, label in enumerate(word):
        if label is not None:
            steps.setdefault(label, Step(None, place))
    return steps


def step_of(word: tuple[int | None, ...], links: list[Link], name: str, label: int) -> Step | None:
    """What a node with this word has at a label, on the side with these links."""
    return steps_of(word, links, name).get(label)


def routes_of(rule: Rule) -> dict[str, Route]:
    """The least route to each left node that hooks lead to: shorter ones first, then by labels, then by hooks."""
    hooks = [node.name for node in rule.nodes if node.hook]
    heap: list[tuple[int, tuple[int, ...], int, str]] = [(0, (), at, hook) for at, hook in enumerate(hooks)]
    routes: dict[str, Route] = {}
    while heap:
        length, labels, at, name = heapq.heappop(heap)
        if name in routes:
            continue
        routes[name] = Route(hooks[at], labels)
        for one, along, other in rule.left_links:
            for here, there in ((one, other), (other, one)):
                if here == name and there not in routes:
                    heapq.heappush(heap, (length + 1, (*labels, along), at, there))
    return routes


def labels_of(word: tuple[int | None, ...] | None) -> tuple[int, ...]:
    """The labels of a word, or of none."""
    return tuple(letter for letter in word or () if letter is not None)


def turns_of(around: list[int], word: tuple[int, ...], amap: Map) -> list[list[int]]:
    """To which position each position turns at each place of the word."""
    places = {dart: position for position, dart in enumerate(around)}
    return [[places[amap.alpha[label][dart]] for dart in around] for label in word]


def place_in_step(hook: Node, dart: int, turns: list[list[int]], amap: Map) -> list[int]:
    """The darts of a later hook, which goes from its dart in step with the walk that has these turns."""
    count = len(turns[0]) if turns else 1
    darts = {0: dart}
    for position in range(count):
        for row, label in zip(turns, labels_of(hook.left)):
            darts.setdefault(row[position], amap.alpha[label][darts[position]])
    return [darts[position] for position in range(count)]


def find_candidate(rule: Rule, amap: Map, hook_darts: list[int]) -> Candidate:
    """The candidate of a rule at these darts of the map, one for each hook."""
    hooks = [node for node in rule.nodes if node.hook]
    if not hooks:
        return Candidate(rule, amap, [], [], {}, {})
    word = labels_of(hooks[0].left)
    around = walk(hook_darts[0], [amap.alpha[label] for label in word])
    turns = turns_of(around, word, amap)
    darts = {hooks[0].name: around}
    for hook, dart in zip(hooks[1:], hook_darts[1:]):
        darts[hook.name] = place_in_step(hook, dart, turns, amap)
    routes = {name: route for name, route in routes_of(rule).items() if name not in darts}
    for name, route in routes.items():
        darts[name] = [follow(amap, dart, route.labels) for dart in darts[route.hook]]
    return Candidate(rule, amap, hooks, turns, darts, routes)


def follow(amap: Map, dart: int, labels: tuple[int, ...]) -> int:
    """The dart to which labels lead, one after another."""
    for label in labels:
        dart = amap.alpha[label][dart]
    return dart


def way_to(position: int, turns: list[list[int]], word: tuple[int, ...]) -> tuple[int, ...]:
    """The labels along which the walk of the word comes to a position for the first time."""
    ways: dict[int, tuple[int, ...]] = {0: ()}
    for here in range(position + 1):
        for place, label in enumerate(word):
            ways.setdefault(turns[place][here], (*ways[here], label))
    return ways[position]


def is_match(found: Candidate) -> bool:
    """Whether the left side lies in the map as the candidate has it: each left step leads where it says, and no dart
    is taken twice."""
    taken = [dart for darts in found.darts.values() for dart in darts]
    return len(set(taken)) == len(taken) and all(
        [found.map.alpha[label][dart] for dart in found.darts[node.name]] == ends_of(found, node, step)
        for node in found.rule.nodes if node.left is not None
        for label, step in steps_of(node.left, found.rule.left_links, node.name).items())


def ends_of(found: Candidate, node: Node, step: Step) -> list[int]:
    """The dart to which a left step of a node leads at each position."""
    if step.node is not None:
        return found.darts[step.node]
    return [found.darts[node.name][turned] for turned in found.turns[step.place or 0]]
