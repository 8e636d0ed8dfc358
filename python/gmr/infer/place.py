"""Lays a rule into an example: which dart each of its nodes has at each position, at given hooks."""
from collections.abc import Sequence

from gmr.books import Letters, Link as Written, Rule
from gmr.infer.draft import Draft, Letter, Link, Node, Steps
from gmr.infer.example import Example
from gmr.infer.fold import Broken, Family
from gmr.maps import Map, walk
from gmr.matches import labels_of


def draft_of(rule: Rule) -> Draft:
    """The draft of a rule of a book, whose nodes have no darts yet."""
    number = {node.name: at for at, node in enumerate(rule.nodes)}

    def steps_of(name: str, letters: Letters | None, links: Sequence[Written]) -> Steps | None:
        """The steps of a node on a side."""
        if letters is None:
            return None
        steps: Steps = {label: Letter(place) for place, label in enumerate(letters) if label is not None}
        for one, label, other in links:
            if name in (one, other):
                steps[label] = Link(number[other if name == one else one])
        return steps

    nodes = []
    for node in rule.nodes:
        left, right = steps_of(node.name, node.left, rule.left_links), steps_of(node.name, node.right, rule.right_links)
        nodes.append(Node((), left, right, node.hook))
    word = next((node.left for node in rule.nodes if node.hook), ())
    return Draft(labels_of(word), nodes)


class Placing:
    """The families of a rule's nodes while they are found: the hooks', and what links lead to from there."""

    def __init__(self, draft: Draft, before: Map, hooks: Sequence[int]) -> None:
        self.draft = draft
        numbers = [at for at, node in enumerate(draft.nodes) if node.is_hook]
        if len(hooks) != len(numbers):
            raise Broken(f"the rule has {len(numbers)} hooks, and {len(hooks)} darts are given")
        if not all(hook in before.alpha[0] for hook in hooks):
            raise Broken("a hook is no dart of the map before")
        steps = [before.alpha[label] for label in draft.word]
        positions = tuple(walk(hooks[0], steps)) if hooks else (0,)
        place_of = {dart: at for at, dart in enumerate(positions)}
        self.turns = [tuple(place_of[step[dart]] for dart in positions) for step in steps]
        self.size = len(positions)
        self.families: dict[int, Family] = {}
        for number, hook in zip(numbers, hooks):
            self.families[number] = self.walked(before, number, "left", hook)
        self.spread(before, "left")
        self.check(before, "left")

    def walked(self, side: Map, number: int, name: str, start: int) -> Family:
        """The darts of a node that has a letter at each place, from the one at position 0 on."""
        steps = getattr(self.draft.nodes[number], name)
        label_at = {step.place: label for label, step in steps.items() if isinstance(step, Letter)}
        family = {0: start}
        for position in range(self.size):
            for place, turn in enumerate(self.turns):
                if turn[position] not in family:
                    if place not in label_at:
                        raise Broken("nothing leads to an added node")
                    family[turn[position]] = side.alpha[label_at[place]][family[position]]
        return tuple(family[position] for position in range(self.size))

    def spread(self, side: Map, name: str) -> None:
        """Follows the links of a side from the nodes that are found to the others."""
        open_nodes = [number for number in self.families if getattr(self.draft.nodes[number], name) is not None]
        while open_nodes:
            number = open_nodes.pop(0)
            for label, step in getattr(self.draft.nodes[number], name).items():
                if isinstance(step, Link) and step.node not in self.families:
                    self.families[step.node] = tuple(side.alpha[label][dart] for dart in self.families[number])
                    open_nodes.append(step.node)

    def check(self, side: Map, name: str) -> None:
        """Broken where a step between nodes that are found isn't met, or two instances share a dart."""
        for number, family in self.families.items():
            for label, step in (getattr(self.draft.nodes[number], name) or {}).items():
                if isinstance(step, Link):
                    wanted = self.families.get(step.node, ())
                else:
                    wanted = tuple(family[turned] for turned in self.turns[step.place])
                if any(side.alpha[label].get(dart) != near for dart, near in zip(family, wanted)):
                    raise Broken(f"label {label} at node {self.draft.names()[number]} leads elsewhere")
        darts = [dart for family in self.families.values() for dart in family]
        if len(set(darts)) < len(darts):
            raise Broken("two positions share a dart")

    def place_new(self, example: Example) -> None:
        """Finds the added nodes, by links or else as darts that come and that no node has."""
        self.spread(example.after, "right")
        self.check(example.after, "right")
        for number in range(len(self.draft.nodes)):
            if number not in self.families:
                self.try_new(example, number)

    def try_new(self, example: Example, number: int) -> None:
        """Finds the darts of an added node to which no link leads from what is found."""
        known = dict(self.families)
        for start in sorted(example.new.difference(*known.values())):
            self.families = dict(known)
            try:
                self.families[number] = self.walked(example.after, number, "right", start)
                self.spread(example.after, "right")
                self.check(example.after, "right")
                return
            except Broken:
                continue
        raise Broken(f"no new darts are those of node {self.draft.names()[number]}")


def place(draft: Draft, example: Example, hooks: Sequence[int]) -> Draft:
    """The draft as it lies in an example at the hooks, with all that differs there; Broken where it doesn't lie so."""
    placing = Placing(draft, example.before, hooks)
    if not all(example.after.alpha[0].keys() >= set(family) or draft.nodes[number].right is None
               for number, family in placing.families.items()):
        raise Broken("a dart that stays by the rule goes in the example")
    placing.place_new(example)
    lying = placing.draft.copy()
    for number, node in enumerate(lying.nodes):
        node.darts = placing.families[number]
        if node.right is None and not example.gone.issuperset(node.darts):
            raise Broken("a dart that goes by the rule stays in the example")
    missing = example.missing({dart for node in lying.nodes for dart in node.darts})
    if missing:
        raise Broken(f"dart {min(missing)} differs, and the rule leaves it")
    return lying
