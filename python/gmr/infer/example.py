"""An example of an operation: a map before it and a map after it, and what differs between the two."""
from __future__ import annotations

from collections.abc import Container
from dataclasses import dataclass
from functools import cached_property
from typing import TYPE_CHECKING

from gmr.errors import Fault
from gmr.maps import Embed, Map

if TYPE_CHECKING:
    from gmr.infer.search import Candidate


class NoRule(Fault):
    """Why no rule comes of the example, in one plain line, and where one came close the candidate."""

    def __init__(self, line: str, candidate: Candidate | None = None) -> None:
        super().__init__(line)
        self.candidate = candidate


@dataclass(frozen=True)
class Example:
    """The map before and the map after an operation. A name that both have is a dart that stays."""
    before: Map
    after: Map

    @property
    def schema(self) -> tuple[int, list[Embed]]:
        """The dimension and the embeddings of both maps."""
        return self.before.dimension, self.before.embeds

    @cached_property
    def kept(self) -> frozenset[int]:
        """The darts that stay."""
        return frozenset(self.before.darts) & frozenset(self.after.darts)

    @cached_property
    def gone(self) -> frozenset[int]:
        """The darts that go."""
        return frozenset(self.before.darts) - self.kept

    @cached_property
    def new(self) -> frozenset[int]:
        """The darts that come."""
        return frozenset(self.after.darts) - self.kept

    @cached_property
    def changed(self) -> dict[int, frozenset[int]]:
        """For each dart that stays, the labels along which it has another neighbour after than before."""
        labels = range(self.before.dimension + 1)
        return {
            dart: frozenset(label for label in labels
                            if self.before.alpha[label][dart] != self.after.alpha[label][dart])
            for dart in self.kept
        }

    @cached_property
    def moved(self) -> frozenset[int]:
        """The darts that go, come, or stay with another neighbour: a rule has to have a node for each."""
        return self.gone | self.new | {dart for dart, labels in self.changed.items() if labels}

    @cached_property
    def revalued(self) -> frozenset[int]:
        """The darts that stay and have another value after than before."""
        return frozenset().union(*(self.revalued_of(embed.name) for embed in self.before.embeds))

    @cached_property
    def groups(self) -> list[frozenset[int]]:
        """The darts of each orbit of the map after whose value of an embedding changed: one of them needs a node."""
        return [
            frozenset(orbit) for embed in self.before.embeds
            for orbit in self.after.orbits(embed.labels, sorted(self.revalued_of(embed.name)))
        ]

    @cached_property
    def groups_at(self) -> dict[int, list[int]]:
        """For each dart the numbers of the groups in which it is."""
        groups: dict[int, list[int]] = {}
        for number, group in enumerate(self.groups):
            for dart in group:
                groups.setdefault(dart, []).append(number)
        return groups

    def revalued_of(self, name: str) -> frozenset[int]:
        """The darts that stay and have another value of the embedding after than before."""
        before, after = self.before.values[name], self.after.values[name]
        return frozenset(dart for dart in self.kept if before[dart] != after[dart])

    @cached_property
    def starts(self) -> list[int]:
        """The darts of the map before at which something differs."""
        return sorted((self.moved - self.new) | self.revalued)

    def missing(self, owned: Container[int]) -> set[int]:
        """The darts at which something differs that these don't account for."""
        missing = {dart for dart in self.moved if dart not in owned}
        for group in self.groups:
            if not any(dart in owned for dart in group):
                missing |= group
        return missing


def compare(before: Map, after: Map) -> Example:
    """The example of two maps; NoRule where they aren't of one dimension and schema, or don't differ."""
    if before.dimension != after.dimension:
        raise NoRule(f"the maps have two dimensions, {before.dimension} and {after.dimension}")
    if before.embeds != after.embeds:
        raise NoRule("the maps haven't the same embeddings")
    example = Example(before, after)
    if not example.moved and not example.revalued:
        raise NoRule("nothing differs between the maps")
    return example
