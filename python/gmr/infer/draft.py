"""A rule while it is made: its nodes with the darts that they have in the example, and its text."""
from collections.abc import Iterable, Iterator
from dataclasses import dataclass, field
from typing import NamedTuple

from gmr.maps import Embed

LETTERS = "abcdefghijklmnopqrstuvwxyz"


class Letter(NamedTuple):
    """A step within a node, by the letter at a place of its word."""
    place: int


class Link(NamedTuple):
    """A step to a node, by a link."""
    node: int


Step = Letter | Link
Steps = dict[int, Step]   # by label


@dataclass
class Node:
    """A node: its dart at each position of the example, and its steps on each side on which it stands."""
    darts: tuple[int, ...]
    left: Steps | None
    right: Steps | None
    is_hook: bool = False
    context: set[int] = field(default_factory=set)     # labels of steps that are alike on both sides and may go
    sets: dict[str, str] = field(default_factory=dict)  # by embedding an expression, where `{n}` is the name of node n

    @property
    def is_kept(self) -> bool:
        """Whether the node stands on both sides."""
        return self.left is not None and self.right is not None

    @property
    def lefts(self) -> Steps:
        """Its steps on the left, where it stands there."""
        return {} if self.left is None else self.left

    @property
    def rights(self) -> Steps:
        """Its steps on the right, where it stands there."""
        return {} if self.right is None else self.right

    def sides(self) -> Iterator[Steps]:
        """The steps of each side on which the node stands."""
        yield from (steps for steps in (self.left, self.right) if steps is not None)

    def copy(self) -> "Node":
        """The same node, to be changed without this one."""
        left, right = (None if steps is None else dict(steps) for steps in (self.left, self.right))
        return Node(self.darts, left, right, self.is_hook, set(self.context), dict(self.sets))


@dataclass
class Draft:
    """A rule: the word that is walked from its first hook, and its nodes, left ones first."""
    word: tuple[int, ...]
    nodes: list[Node]

    def copy(self) -> "Draft":
        """The same draft, to be changed without this one."""
        return Draft(self.word, [node.copy() for node in self.nodes])

    def names(self) -> list[str]:
        """The names of the nodes, in their order."""
        return [LETTERS[at % 26] + (str(at // 26) if at >= 26 else "") for at in range(len(self.nodes))]

    def hooks(self) -> list[int]:
        """The hooks' darts in the example."""
        return [node.darts[0] for node in self.nodes if node.is_hook]

    def without(self, gone: set[int]) -> "Draft":
        """The draft without these nodes, to which no step leads."""
        numbers = {old: new for new, old in enumerate(at for at in range(len(self.nodes)) if at not in gone)}
        draft = Draft(self.word, [node.copy() for at, node in enumerate(self.nodes) if at not in gone])
        for node in draft.nodes:
            for steps in node.sides():
                for label, step in steps.items():
                    steps[label] = Link(numbers[step.node]) if isinstance(step, Link) else step
            fields = [f"{{{numbers.get(old, '')}}}" for old in range(len(self.nodes))]
            node.sets = {embed: value.format(*fields) for embed, value in node.sets.items()}
        return draft

    def read_nodes(self) -> set[int]:
        """The nodes that expressions read."""
        values = [value for node in self.nodes for value in node.sets.values()]
        return {at for at in range(len(self.nodes)) if any(f"{{{at}}}" in value for value in values)}

    def text(self, name: str) -> str:
        """The rule's text."""
        lines = [f"rule {name}", "left", *self._side("left"), "right", *self._side("right")]
        return "\n".join(lines) + "\n"

    def _side(self, side: str) -> Iterator[str]:
        """The lines of a side: its nodes, and then its links, each once."""
        names = self.names()
        of_side = [(at, node, getattr(node, side)) for at, node in enumerate(self.nodes)]
        standing = [(at, node, steps) for at, node, steps in of_side if steps is not None]
        for at, node, steps in standing:
            sets = [f" with {embed} = {value.format(*names)}" for embed, value in node.sets.items()]
            after = (" hook" if node.is_hook else "") if side == "left" else "".join(sets)
            yield f"{names[at]} <{' '.join(self._letters(steps))}>{after}"
        for at, _, steps in standing:
            for label, step in sorted(steps.items()):
                if isinstance(step, Link) and step.node >= at:
                    yield f"{names[at]} -{label}- {names[step.node]}"

    def _letters(self, steps: Steps) -> Iterator[str]:
        """The letters of a node's word."""
        at_place = {step.place: label for label, step in steps.items() if isinstance(step, Letter)}
        yield from (str(at_place.get(place, "_")) for place in range(len(self.word)))


def book_text(dimension: int, embeds: Iterable[Embed], rules: Iterable[str]) -> str:
    """The text of a book with these rules."""
    lines = ["book 2", f"dim {dimension}"]
    lines += [f"embed {name} <{' '.join(map(str, labels))}> {kind}" for name, labels, kind in embeds]
    return "\n".join(lines) + "\n" + "".join(rules)
