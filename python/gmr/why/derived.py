"""What the laws of maps make of a left side, over all orbits and maps at once, and whether a rule that is refused could
break a map at all.

A step of a node leads to a node at another position, which is told by the places at which one turns to come there:
`(b, ())` is a link to b, and `(a, (0,))` the letter at place 0 of a. Where a node has two labels that commute, three
sides of a square give the fourth, in each map in which the left side lies. Two steps of one node along one label lead
to one dart: those to two nodes can't, and those to two positions do over some orbits alone. With what is found so the
conditions on arcs and squares are asked once more (`is_safe` has why that is enough)."""
from collections.abc import Iterator
from itertools import combinations
from typing import NamedTuple

from gmr.books import Letters, Link, Node, Rule
from gmr.matches import Step, labels_of, steps_of
from gmr.why.edits import node_of, with_letter, with_link

Turned = tuple[int, ...]                # places at which one turns, one after another
Steps = dict[tuple[str, int], Step]     # by node and label


class To(NamedTuple):
    """Where a step leads: to a node, at the position to which one turns."""
    node: str
    turned: Turned


class Contradiction(Exception):
    """A node would lead along a label to darts of two nodes: the left side lies in no map."""


class Derived:
    """All steps of left nodes that follow from those that a rule says, whatever the orbit is; Contradiction where none
    can be.

    `near` has them by node and label. `place_for` says what stands for a place: itself; another one, where all
    positions turn alike at the two; or None, where all turn to themselves."""

    def __init__(self, rule: Rule, dimension: int) -> None:
        self.rule, self.labels = rule, range(dimension + 1)
        hook = next((node for node in rule.nodes if node.hook), None)
        self.word = labels_of(hook.left if hook else ())
        places = range(len(self.word))
        self.place_for: dict[int, int | None] = {place: place for place in places}
        self.commuting = {(one, other) for one in places for other in places
                          if abs(self.word[one] - self.word[other]) >= 2}
        self.near: dict[tuple[str, int], To] = {}
        for node in rule.nodes:
            for label, to in self.written(node, node.left, rule.left_links).items():
                self.add(node.name, label, to)
        while any([self.add(*found) for found in list(self.fourth_sides())]):
            pass

    def written(self, node: Node, word: Letters | None, links: list[Link]) -> dict[int, To]:
        """The steps of a node that a side says, on which it has this word."""
        steps = {} if word is None else steps_of(word, links, node.name)
        return {label: To(step.node, ()) if step.node else To(node.name, self.normal((step.place or 0,)))
                for label, step in steps.items()}

    def normal(self, turned: Turned) -> Turned:
        """The one way of telling turns: twice at a place leads back, and places that commute stand in order."""
        found: list[int] = []
        for place in (self.place_for[place] for place in turned):
            if place is None:
                continue
            at = len(found)
            while at and (found[at - 1], place) in self.commuting:
                at -= 1
            if at and found[at - 1] == place:
                del found[at - 1]
                continue
            while at < len(found) and found[at] < place:
                at += 1
            found.insert(at, place)
        return tuple(found)

    def add(self, name: str, label: int, to: To) -> bool:
        """Takes a step over, at both of its ends; whether something new came of it."""
        return any([self.add_at(name, label, to), self.add_at(to.node, label, To(name, to.turned[::-1]))])

    def add_at(self, name: str, label: int, to: To) -> bool:
        """Takes a step over, at one of its ends."""
        to = To(to.node, self.normal(to.turned))
        has = self.near.setdefault((name, label), to)
        if has.node != to.node:
            raise Contradiction
        return has is to or has != to and self.bind((*has.turned, *to.turned[::-1]))

    def bind(self, turned: Turned) -> bool:
        """Takes over that these turns lead from each position to itself, where that says of a place that it can be left
        out, or of two that they are one or that they commute."""
        turned = self.normal(turned)
        if len(turned) == 4 and turned[:2] == turned[2:]:
            one, other = turned[:2]
            self.commuting |= {(one, other), (other, one)}
        elif len(turned) in (1, 2):
            goes, stays = turned[-1], turned[0] if len(turned) == 2 else None
            self.place_for = {place: stays if now == goes else now for place, now in self.place_for.items()}
        else:
            return False
        self.near = {key: To(to.node, self.normal(to.turned)) for key, to in self.near.items()}
        return True

    def fourth_sides(self) -> Iterator[tuple[str, int, To]]:
        """The fourth sides of squares of which three are known."""
        for (name, label), to in self.near.items():
            for far in self.labels:
                here, there = self.near.get((name, far)), self.near.get((to.node, far))
                if abs(far - label) >= 2 and here and there:
                    yield here.node, label, To(there.node, (*here.turned[::-1], *to.turned, *there.turned))

    def steps(self) -> Steps:
        """The steps that the left side could say and doesn't: links, and letters."""
        found = {}
        for (name, label), to in self.near.items():
            node = node_of(self.rule, name)
            if label not in steps_of(node.left or (), self.rule.left_links, name):
                if not to.turned:
                    found[name, label] = Step(to.node, None)
                elif to.node == name and len(to.turned) == 1:
                    found[name, label] = Step(None, to.turned[0])
        return found


def derive(rule: Rule, dimension: int) -> Derived | None:
    """What the laws make of a rule's left side; None where it lies in no map."""
    try:
        return Derived(rule, dimension)
    except Contradiction:
        return None


class Result:
    """Where the darts of a rule's nodes lead once it is applied, by what is known of its left side."""

    def __init__(self, derived: Derived) -> None:
        self.derived, rule = derived, derived.rule
        self.left = {node.name: derived.written(node, node.left, rule.left_links)
                     for node in rule.nodes if node.left is not None}
        self.right = {node.name: derived.written(node, node.right, rule.right_links)
                      for node in rule.nodes if node.right is not None}

    def is_cut(self, name: str, label: int) -> bool:
        """Whether the left side says the step of a left node along a label, so that its arc goes."""
        return label in self.left[name]

    def after(self, name: str, label: int) -> list[To | None]:
        """Where the darts of a right node lead: to what the right side says, and to their old neighbour where it stays.
        None stands for one of which nothing is known; it stays."""
        made = self.right[name].get(label)
        ends: list[To | None] = [made] if made else []
        if name in self.left and not self.is_cut(name, label):
            old = self.derived.near.get((name, label))
            if (old is None or not self.is_cut(old.node, label)) and old not in ends:
                ends.append(old)
        return ends

    def is_one(self, name: str, label: int) -> bool:
        """Whether the darts of a node have one neighbour along a label, which leads back; of a node that goes, whether
        it leaves no neighbour behind."""
        if name not in self.right:
            old = self.derived.near.get((name, label))
            return self.is_cut(name, label) or old is not None and (
                old.node not in self.right or self.is_cut(old.node, label))
        ends = self.after(name, label)
        if len(ends) != 1 or ends[0] is None:
            return len(ends) == 1
        end = ends[0]
        return end.node in self.right and self.after(end.node, label) == [
            To(name, self.derived.normal(end.turned[::-1]))]

    def is_as_before(self, name: str, label: int) -> bool:
        """Whether the darts of a right node keep their neighbours along a label."""
        return name in self.left and self.after(name, label) in ([None], [self.derived.near.get((name, label))])

    def closes(self, name: str, labels: tuple[int, int]) -> bool:
        """Whether two labels commute at the darts of a right node: both are as before, or the ends of both ways are
        known and one."""
        if all(self.is_as_before(name, label) for label in labels):
            return True
        ways = []
        for first, second in (labels, labels[::-1]):
            to = self.after(name, first)[0]
            on = self.after(to.node, second)[0] if to else None
            if to is None or on is None:
                return False
            ways.append(To(on.node, self.derived.normal((*to.turned, *on.turned))))
        return ways[0] == ways[1]


def is_safe(derived: Derived) -> bool:
    """Whether what is known of a left side shows that the rule breaks no law of neighbours, of whatever size the map
    is.

    Each node that is left must have just one step along each label, or one of which nothing is known, and the squares
    of right nodes must close, or their arcs be as they were. That is enough. A neighbour of which nothing is known
    keeps its arc: were it a dart of a node with a left step there, this step would lead back, and so be known. So each
    dart has one neighbour along each label. Now go from any dart along i, j, i and j. If a node's dart whose square
    closes is met on the way, one comes back to it, hence also to the dart at which one began. If none is met, all four
    arcs are old ones, and the old law leads back."""
    result, labels = Result(derived), derived.labels
    pairs = [pair for pair in combinations(labels, 2) if pair[1] - pair[0] >= 2]
    return all(result.is_one(node.name, label) for node in derived.rule.nodes for label in labels) and all(
        result.closes(name, pair) for name in result.right for pair in pairs)


def with_steps(rule: Rule, steps: Steps) -> Rule:
    """The rule with these steps written on the left, and on the right of nodes that stay and lack the label there. A
    place that has a letter already keeps it, since a word has one letter at a place."""
    for (name, label), step in steps.items():
        node = node_of(rule, name)
        words = (("left", node.left, rule.left_links), ("right", node.right, rule.right_links))
        sides = [side for side, word, links in words if word is not None and label not in steps_of(word, links, name)]
        for side in sides:
            node = node_of(rule, name)
            if step.place is None:
                rule = with_link(rule, side, (name, label, step.node or name))
            elif ((node.left if side == "left" else node.right) or ())[step.place] is None:
                rule = with_letter(rule, side, name, step.place, label)
    return rule
