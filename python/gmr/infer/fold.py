"""Folds an example along an orbit: darts that the walk reaches in step become one node of a rule."""
from collections.abc import Iterable, Iterator
from copy import copy as shallow_copy

from gmr.infer.draft import Draft, Letter, Link, Node, Step, Steps
from gmr.infer.example import Example
from gmr.maps import Map, walk

MOST_NODES = 32
Family = tuple[int, ...]   # a dart for each position


class Broken(Exception):
    """Where an orbit doesn't fold, in one line."""


def places_of(steps: Steps) -> set[int]:
    """The places of the letters among the steps."""
    return {step.place for step in steps.values() if isinstance(step, Letter)}


class Fold:
    """The nodes of a rule that the darts of an example make along one orbit of the map before.

    Position p is the p-th dart of the walk from the hook along the word, and a node has a dart at each position.
    From a node along a label the way leads along a place of the word to the node itself, to another node,
    or to darts that become a new node. A step that is the same before and after is context: it is
    taken in where something hangs on it."""

    def __init__(self, example: Example, word: tuple[int, ...], hook: int | None, most: int = MOST_NODES) -> None:
        self.example, self.word, self.most = example, word, most
        alpha = example.before.alpha
        self.positions: Family = (0,) if hook is None else tuple(walk(hook, [alpha[label] for label in word]))
        place_of = {dart: position for position, dart in enumerate(self.positions)}
        self.turns = [tuple(place_of[alpha[label][dart]] for dart in self.positions)
                      for label in word if hook is not None]
        self.still = [turn == tuple(range(len(turn))) for turn in self.turns]
        self.nodes: list[Node] = []
        self.number_of: dict[Family, int] = {}   # of each node, by its darts
        self.owner: dict[int, int] = {}          # of each dart, the number of its node
        self.fresh: list[int] = []               # nodes whose changed steps aren't taken yet
        if hook is not None:
            first = self.nodes[self.add(self.positions)]
            first.is_hook = True
            first.left = {label: Letter(place) for place, label in enumerate(word)}

    def copy(self) -> "Fold":
        """The same fold, to go on from without this one."""
        fold = shallow_copy(self)
        fold.nodes = [node.copy() for node in self.nodes]
        fold.number_of, fold.owner, fold.fresh = dict(self.number_of), dict(self.owner), list(self.fresh)
        return fold

    # ------------------------------------------------------------------ families of darts
    def fault_of(self, family: Family) -> str | None:
        """Why the family is no new node, with the position, or None."""
        if len(self.nodes) >= self.most:
            return f"there would be more than {MOST_NODES} nodes, which is the most that a rule has" if (
                self.most == MOST_NODES) else "it would be no smaller than the rule in hand"
        example, seen = self.example, set()
        kind = next(darts for darts in (example.kept, example.gone, example.new) if family[0] in darts)
        for position, dart in enumerate(family):
            if dart in seen:
                return f"at position {position} lies the dart of an earlier position"
            if dart in self.owner:
                return f"at position {position} lies the dart of another node, which lies otherwise"
            if dart not in kind:
                return f"the dart at position {position} doesn't stay, go or come as the one at 0 does"
            seen.add(dart)
        return None

    def add(self, family: Family) -> int:
        """Makes a node of the family; Broken where it can't be one."""
        fault = self.fault_of(family)
        if fault:
            raise Broken(fault)
        number, first = len(self.nodes), family[0]
        left: Steps | None = None if first in self.example.new else {}
        right: Steps | None = None if first in self.example.gone else {}
        self.nodes.append(Node(family, left, right))
        self.number_of[family] = number
        self.owner.update(dict.fromkeys(family, number))
        self.fresh.append(number)
        return number

    def reached(self, number: int, side: Map, label: int) -> Family:
        """The darts to which the label leads from the node."""
        step = side.alpha[label]
        return tuple(step[dart] for dart in self.nodes[number].darts)

    def in_step(self, side: Map, start: int) -> Family:
        """The darts of a walk from the start in step with the hook's, by the same labels."""
        family = {0: start}
        for position in range(len(self.positions)):
            for label, turn in zip(self.word, self.turns):
                family.setdefault(turn[position], side.alpha[label][family[position]])
        return tuple(family[position] for position in range(len(self.positions)))

    def name_of(self, number: int) -> str:
        """The name of a node in a draft of these nodes."""
        return Draft(self.word, self.nodes).names()[number]

    # ------------------------------------------------------------------ steps
    def letter(self, family: Family, reached: Family, label: int, taken: set[int]) -> Letter | None:
        """The letter by which the label leads from the family to its own darts, at a place that isn't taken yet."""
        fitting = [
            place for place, turn in enumerate(self.turns)
            if place not in taken and (not self.still[place] or self.word[place] == label)
            and all(reached[position] == family[turned] for position, turned in enumerate(turn))
        ]
        own = [place for place in fitting if self.word[place] == label]
        return Letter((own or fitting)[0]) if fitting else None

    def known(self, number: int, side: Map, label: int, *taken: Steps) -> Step | None:
        """The step of a node along a label, where it leads to no new node; its letter's place is in none of these."""
        family, reached = self.nodes[number].darts, self.reached(number, side, label)
        letter = self.letter(family, reached, label, {place for steps in taken for place in places_of(steps)})
        if letter or reached not in self.number_of:
            return letter
        return Link(self.number_of[reached])

    def take(self, number: int, label: int, is_left: bool) -> None:
        """Takes a step of a node in; Broken where it doesn't fold."""
        node = self.nodes[number]
        side, steps = (self.example.before, node.left) if is_left else (self.example.after, node.right)
        if steps is None or label in steps:
            return
        step = self.known(number, side, label, steps)
        if step is None:
            reached = self.reached(number, side, label)
            fault = self.fault_of(reached)
            if fault:
                when = "before" if is_left else "after"
                raise Broken(f"from node {self.name_of(number)} along {label} in the map {when}, {fault}")
            step = Link(self.add(reached))
        steps[label] = step

    def must_take(self, number: int) -> Iterator[tuple[int, bool]]:
        """The steps of a node without which no rule makes the map after: the label, and whether it is on the left."""
        node = self.nodes[number]
        labels = [label for label in range(self.example.before.dimension + 1)
                  if not node.is_kept or self.is_changed(number, label)]
        for is_left in (True, False):
            if (node.left if is_left else node.right) is not None:
                yield from ((label, is_left) for label in labels)

    def is_changed(self, number: int, label: int) -> bool:
        """Whether the label leads elsewhere after than before from some dart of a node that stays."""
        return any(label in self.example.changed[dart] for dart in self.nodes[number].darts)

    def grow(self) -> None:
        """Takes all steps in that a rule must have, until no node is new; Broken where one doesn't fold."""
        while self.fresh:
            number = self.fresh.pop(0)
            for label, is_left in self.must_take(number):
                self.take(number, label, is_left)

    # ------------------------------------------------------------------ what lies further away
    def reach(self, most: int) -> None:
        """Goes on along what doesn't change, by at most `most` labels, to what differs and has no node."""
        self.grow()
        while missing := self.example.missing(self.owner):
            way = self.find_way(missing, most)
            if way is None:
                return
            for family in way:
                self.add(family)
            self.grow()

    def find_way(self, missing: set[int], most: int) -> list[Family] | None:
        """The fewest families that lead from a node, along labels that don't change, to one with missing darts."""
        before = self.example.before
        ways: list[list[Family]] = [[node.darts] for node in self.nodes if node.is_kept]
        seen = set(self.owner)
        for _ in range(most):
            longer = []
            for way in ways:
                for label in range(before.dimension + 1):
                    if any(label in self.example.changed[dart] for dart in way[-1]):
                        continue
                    reached = tuple(before.alpha[label][dart] for dart in way[-1])
                    is_kept = self.example.kept.issuperset(reached)
                    if not seen.isdisjoint(reached) or self.fault_of(reached) or not is_kept:
                        continue
                    seen.update(reached)
                    longer.append(way + [reached])
                    if not missing.isdisjoint(reached):
                        return longer[-1][1:]
            ways = longer
        return None

    # ------------------------------------------------------------------ the rule
    def take_context(self) -> None:
        """Takes each step in that is the same before and after and leads to a known node."""
        before = self.example.before
        for number, node in enumerate(self.nodes):
            if not node.is_kept:
                continue
            for label in range(before.dimension + 1):
                if self.is_changed(number, label):
                    continue
                step = node.lefts.get(label) or self.known(number, before, label, node.lefts, node.rights)
                if step is not None:
                    node.lefts[label] = node.rights[label] = step
                    node.context.add(label)

    def set_hooks(self) -> None:
        """Makes a hook of a node in each part of the left side that no link joins to one; Broken where none can be."""
        joined = self.joined_to([number for number, node in enumerate(self.nodes) if node.is_hook])
        for number, node in enumerate(self.nodes):
            if node.left is None or number in joined:
                continue
            part = sorted(self.joined_to([number]))
            able = [at for at in part if len(places_of(self.nodes[at].lefts)) == len(self.word)]
            if not able:
                raise Broken(f"nothing leads to node {self.name_of(number)} in the map before")
            chosen = min(able, key=lambda at: len(self.nodes[at].context))
            self.nodes[chosen].is_hook = True
            joined |= set(part)

    def joined_to(self, numbers: Iterable[int]) -> set[int]:
        """The left nodes that left links join to these."""
        joined, open_nodes = set(numbers), list(numbers)
        while open_nodes:
            for step in self.nodes[open_nodes.pop()].lefts.values():
                if isinstance(step, Link) and step.node not in joined:
                    joined.add(step.node)
                    open_nodes.append(step.node)
        return joined

    def draft(self) -> Draft:
        """The rule of the nodes, left ones first; Broken where a node can't be found from a hook."""
        fold = self.copy()
        fold.take_context()
        fold.set_hooks()
        for node in fold.nodes:
            if node.is_hook:
                node.context -= {label for label, step in node.lefts.items() if isinstance(step, Letter)}
        order = sorted(range(len(fold.nodes)), key=lambda number: fold.nodes[number].left is None)
        number_of = {old: new for new, old in enumerate(order)}
        nodes = [fold.nodes[old] for old in order]
        for node in nodes:
            for steps in node.sides():
                steps.update({label: Link(number_of[step.node]) for label, step in steps.items()
                              if isinstance(step, Link)})
        return Draft(self.word, nodes)
