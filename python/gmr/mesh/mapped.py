"""The map of a mesh as arrays, before its text is printed."""
from __future__ import annotations

from dataclasses import dataclass, field

import numpy as np

from gmr.arrays import head_of, print_rows
from gmr.maps import Embed, Map, read_map
from gmr.mesh.decimals import Whole
from gmr.mesh.model import Paint


@dataclass
class Mapped:
    """A map whose darts are numbered from 0: their neighbours, the point at which each lies, and its face or cell.

    `columns` has for each embedding a table of values, and for each dart the row of the table that has its value.
    """

    dimension: int
    alpha: Whole  # (dimension + 1) x darts
    ends: Whole  # by dart, the point
    points: Whole  # points x 3, scaled
    elements: Whole  # by dart, the face, or in a volume the cell
    embeds: list[Embed] = field(default_factory=list)
    columns: list[tuple[Whole, Whole]] = field(default_factory=list)

    @property
    def count(self) -> int:
        """How many darts it has."""
        return self.alpha.shape[1]

    def embed_points(self, name: str = "pos", kind: str = "vec3") -> None:
        """Gives it the points of its vertices as an embedding."""
        self.embeds.append(Embed(name, tuple(range(1, self.dimension + 1)), kind))
        self.columns.append((self.points[:, : 2 if kind == "vec2" else 3], self.ends))

    def embed_paint(self, paint: Paint) -> None:
        """Gives it colours of its elements, or where their labels have no 0 of its points."""
        self.embeds.append(paint.embed())
        self.columns.append((paint.colours, self.elements if 0 in paint.labels else self.ends))

    def embed_value(self, embed: Embed, value: tuple[int, ...]) -> None:
        """Gives it the same value everywhere."""
        self.embeds.append(embed)
        self.columns.append((np.array([value], np.int64), np.zeros(self.count, np.int64)))

    def text(self) -> bytes:
        """The canonical text."""
        head = head_of(2, self.dimension, self.embeds, self.count, self.count)
        return print_rows(np.arange(self.count), self.alpha, self.columns, head)

    def map(self) -> Map:
        """The map as the other tools have it."""
        return read_map(self.text().decode())
