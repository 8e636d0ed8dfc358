"""Looks for a smallest map in which a refused rule, unfolded to the letter, leaves what is no map.

The left side is laid over each small orbit of its hook's word. What it says of neighbours is taken with what the laws
draw from that, and then just those neighbours are settled, in each way, on which a law hangs that the right side could
break. Where one does, the rest of the map is filled in, free where it can be, and the reference unfolding judges it."""
from collections.abc import Callable, Iterator
from functools import partial
from itertools import combinations
from typing import NamedTuple

from gmr.books import Node, Rule
from gmr.maps import Embed, Map, Value
from gmr.matches import Candidate, find_candidate, is_match, steps_of
from gmr.unfolding import Breach, Unfolding, first_breach, first_value_breach, unfold
from gmr.why.closing import OPEN, Budget, Clash, Partial
from gmr.why.shapes import Turns, shapes_of

MOST_DARTS = 64          # of a map that is looked for
MOST_POSITIONS = 4       # of an orbit, all of which are tried up to that
MORE_POSITIONS = 8       # of an orbit of two labels at most
MOST_CHOICES = 4000      # for one orbit, in one search
OF_NEIGHBOURS = frozenset(("arc-twice", "arc-missing", "arc-set", "square"))
OF_VALUES = frozenset(("no-value", "merge", "merge-along"))


class Found(NamedTuple):
    """A map and hooks at which a rule breaks a law, what comes of it, and the law."""
    candidate: Candidate
    hooks: list[int]
    result: Unfolding
    breach: Breach
    embed: Embed | None


class Search(NamedTuple):
    """What a search came to: a counterexample or None; in how many orbits the left side lies in a map, and in how many
    it lies in none; whether all was tried; and of one where it lies in none the pattern with its clash."""
    found: Found | None
    fitting: int
    clashing: int
    is_whole: bool
    clash: tuple["Pattern", Clash] | None


class Open(Exception):
    """A neighbour on which an answer hangs and that isn't settled."""

    def __init__(self, dart: int, label: int) -> None:
        super().__init__(f"dart {dart} along {label}")
        self.dart, self.label = dart, label


class Pattern:
    """A rule laid over one orbit: its left instances as darts of a map that is known in part, its added ones last."""

    def __init__(self, rule: Rule, dimension: int, turns: Turns) -> None:
        self.rule, self.labels, self.turns = rule, range(dimension + 1), turns
        self.size = len(turns[0]) if turns else 1
        self.part = Partial(dimension + 1, MOST_DARTS)
        self.first: dict[str, int] = {}                 # the dart of a node at position 0
        self.node_at: dict[int, Node] = {}              # by dart, its node
        self.left: dict[str, set[int]] = {}             # the labels that a node has on the left
        lefts = [node for node in rule.nodes if node.left is not None]
        for at, node in enumerate(lefts):
            self.first[node.name] = at * self.size
            self.left[node.name] = set(steps_of(node.left or (), rule.left_links, node.name))
        for at, node in enumerate(node for node in rule.nodes if node.left is None):
            self.first[node.name] = MOST_DARTS + at * self.size
        for node in rule.nodes:
            self.node_at.update(dict.fromkeys(self.darts(node), node))
        for _ in range(len(lefts) * self.size):
            self.part.add()

    def darts(self, node: Node) -> range:
        """The darts of a node, by position."""
        return range(self.first[node.name], self.first[node.name] + self.size)

    def lay(self) -> None:
        """Joins what the left side says; Clash where no map has that."""
        for node in self.rule.nodes:
            steps = steps_of(node.left, self.rule.left_links, node.name) if node.left is not None else {}
            for label, step in steps.items():
                for position in range(self.size):
                    self.part.join(label, self.first[node.name] + position,
                                   self.end(node, step.node, step.place, position))

    def end(self, node: Node, to: str | None, place: int | None, position: int) -> int:
        """The dart to which a step of a node leads at a position."""
        if to is not None:
            return self.first[to] + position
        return self.first[node.name] + self.turns[place or 0][position]

    def has_left(self, dart: int, label: int) -> bool:
        """Whether the dart is one of a node with a left step along the label, so that its arc there goes."""
        node = self.node_at.get(dart)
        return node is not None and node.left is not None and label in self.left[node.name]

    def old_end(self, dart: int, label: int) -> int:
        """The neighbour of a dart before; Open where that isn't settled."""
        end = self.part.near[dart][label]
        if end == OPEN:
            raise Open(dart, label)
        return end

    def ends_after(self, dart: int, label: int) -> set[int]:
        """The neighbours of a live dart in the result."""
        ends, node = set(), self.node_at.get(dart)
        if node is not None:
            step = steps_of(node.right or (), self.rule.right_links, node.name).get(label)
            if step is not None:
                ends.add(self.end(node, step.node, step.place, dart - self.first[node.name]))
        if dart < MOST_DARTS and not self.has_left(dart, label):
            end = self.old_end(dart, label)
            if not self.has_left(end, label):
                ends.add(end)
        return ends

    def is_gone(self, dart: int) -> bool:
        """Whether the dart is one of a removed node."""
        node = self.node_at.get(dart)
        return node is not None and node.right is None

    # ------------------------------------------------------------------ what can break
    def breaks_at(self, dart: int, label: int) -> bool:
        """Whether a live dart has no neighbour along a label in the result, or two, or one that is gone; of a dart
        that goes, whether one that stays is left behind."""
        if self.is_gone(dart):
            if self.has_left(dart, label):
                return False
            end = self.old_end(dart, label)
            return not self.is_gone(end) and not self.has_left(end, label)
        ends = self.ends_after(dart, label)
        return len(ends) != 1 or any(map(self.is_gone, ends)) or self.ends_after(min(ends), label) != {dart}

    def crosses_at(self, dart: int, one: int, other: int) -> bool:
        """Whether two labels don't commute at a live dart in the result."""
        ways = []
        for first, second in ((one, other), (other, one)):
            ends = self.ends_after(dart, first)
            if len(ends) != 1 or any(map(self.is_gone, ends)):
                return True
            ways.append(self.ends_after(min(ends), second))
        return ways[0] != ways[1] or len(ways[0]) != 1

    def checks(self, fault: list[str]) -> Iterator[Callable[[], bool]]:
        """All that could break, at each node and position: what the fault names first."""
        named, numbers = fault[1], [int(word) for word in fault[2:] if word.isdigit()]
        pairs = [pair for pair in combinations(self.labels, 2) if pair[1] - pair[0] >= 2]
        if len(numbers) == 2:
            pairs.sort(key=lambda pair: pair != tuple(numbers))
        for node in sorted(self.rule.nodes, key=lambda node: node.name != named):
            for dart in self.darts(node):
                for label in sorted(self.labels, key=lambda label: label not in numbers):
                    yield partial(self.breaks_at, dart, label)
        for node in sorted(self.rule.nodes, key=lambda node: node.name != named):
            for dart in self.darts(node) if node.right is not None else ():
                for one, other in pairs:
                    yield partial(self.crosses_at, dart, one, other)

    def settle(self, check: Callable[[], bool], budget: Budget) -> Iterator[None]:
        """Comes by where a check holds, with the neighbours in force on which that hangs."""
        try:
            if check():
                yield
        except Open as needed:
            for _ in self.part.try_each(needed.dart, needed.label, budget):
                yield from self.settle(check, budget)

    def map(self, embeds: list[Embed]) -> Map:
        """The whole map that the part has become. Each orbit of an embedding has a value of its own."""
        darts = list(range(len(self.part.near)))
        alpha = [{dart: self.part.near[dart][label] for dart in darts} for label in self.labels]
        bare = Map(1, len(self.labels) - 1, embeds, len(darts), darts, alpha, {})
        orbits = {embed: enumerate(bare.orbits(embed.labels)) for embed in embeds}
        values = {embed.name: {dart: own_value(embed.kind, at) for at, orbit in orbits[embed] for dart in orbit}
                  for embed in embeds}
        return Map(1, bare.dimension, embeds, bare.next, darts, alpha, values)

    def hooks(self) -> list[int]:
        """The darts of the hooks."""
        return [self.first[node.name] for node in self.rule.nodes if node.hook]


Ways = Callable[[Pattern, list[Embed], Budget], Iterator[Found]]


def own_value(kind: str, number: int) -> Value:
    """A value of a kind that goes with a number and no other."""
    if kind == "int":
        return number
    return (number, 0) if kind == "vec2" else (number, 0, 0)


def orbits_for(rule: Rule) -> Iterator[Turns]:
    """The orbits over which the left side is laid, the smallest first."""
    hook = next((node for node in rule.nodes if node.hook), None)
    word = tuple(letter for letter in (hook.left or () if hook else ()) if letter is not None)
    lefts = sum(1 for node in rule.nodes if node.left is not None)
    for turns in shapes_of(word, MORE_POSITIONS if len(word) <= 2 else MOST_POSITIONS):
        if lefts * (len(turns[0]) if turns else 1) <= MOST_DARTS:
            yield turns


def judge(pattern: Pattern, embeds: list[Embed]) -> Found | None:
    """What the reference unfolding finds broken in the map that a pattern has become, or None."""
    amap, hooks = pattern.map(embeds), pattern.hooks()
    candidate = find_candidate(pattern.rule, amap, hooks)
    if not is_match(candidate):
        return None
    result = unfold(candidate)
    breach = first_breach(result)
    if breach:
        return Found(candidate, hooks, result, breach, None)
    for embed in embeds:
        breach = first_value_breach(candidate, result, embed)
        if breach:
            return Found(candidate, hooks, result, breach, embed)
    return None


def search(rule: Rule, dimension: int, embeds: list[Embed], fault: str) -> Search:
    """Looks for a counterexample to a rule that is refused for a fault of arcs, squares or values. What breaks no law
    of neighbours may still leave two values on an orbit."""
    words = fault.split()
    if words[0] in OF_VALUES:
        return search_by(closed, rule, dimension, embeds)
    found = search_by(partial(breaking, words), rule, dimension, embeds)
    if found.found or not embeds:
        return found
    of_values = search_by(closed, rule, dimension, embeds)
    return of_values if of_values.found else found


def search_by(ways: Ways, rule: Rule, dimension: int, embeds: list[Embed]) -> Search:
    """Looks for a smallest counterexample over each small orbit, in these ways."""
    best, fitting, clashing, is_whole, clash = None, 0, 0, True, None
    for turns in orbits_for(rule):
        pattern = Pattern(rule, dimension, turns)
        if best and len(pattern.part.near) >= len(best.candidate.map.darts):
            break
        try:
            pattern.lay()
        except Clash as fault_of_part:
            clashing += 1
            if clash is None or len(clash[0].part.reasons) > len(pattern.part.reasons):
                clash = pattern, fault_of_part
            continue
        if best:
            pattern.part.most = len(best.candidate.map.darts) - 1
        fits = next(pattern.part.close(Budget(MOST_CHOICES)), pattern) is None
        fitting += fits
        found, is_short = find_smallest(lay_again(pattern) if fits else pattern, embeds, ways)
        best, is_whole = found or best, is_whole and not is_short
    return Search(best, fitting, clashing, is_whole, clash)


def find_smallest(pattern: Pattern, embeds: list[Embed], ways: Ways) -> tuple[Found | None, bool]:
    """The counterexample over an orbit with the fewest darts, and whether choices were left out: whenever there is one,
    a smaller one is looked for."""
    best = None
    while True:
        budget = Budget(MOST_CHOICES)
        found = next(ways(pattern, embeds, budget), None)
        if found is None:
            return best, budget.is_short
        best, pattern = found, lay_again(pattern)
        pattern.part.most = len(found.candidate.map.darts) - 1
        if len(pattern.part.near) > pattern.part.most:
            return best, False


def lay_again(pattern: Pattern) -> Pattern:
    """The same pattern with nothing settled but its left side."""
    fresh = Pattern(pattern.rule, len(pattern.labels) - 1, pattern.turns)
    fresh.part.most = pattern.part.most
    fresh.lay()
    return fresh


def breaking(fault: list[str], pattern: Pattern, embeds: list[Embed], budget: Budget) -> Iterator[Found]:
    """The whole maps over a pattern in which the result breaks a law of neighbours."""
    for check in pattern.checks(fault):
        for _ in pattern.settle(check, budget):
            to_close = Budget(MOST_CHOICES // 4)
            for _ in pattern.part.close(to_close):
                found = judge(pattern, embeds)
                if found:
                    yield found
                break
            budget.is_short |= to_close.is_short


def closed(pattern: Pattern, embeds: list[Embed], budget: Budget) -> Iterator[Found]:
    """The whole maps over a pattern in which the result has two values on an orbit, or none."""
    for _ in pattern.part.close(budget):
        found = judge(pattern, embeds)
        if found:
            yield found
