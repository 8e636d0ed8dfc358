"""How cells of a model are chosen: all that are asked for, or one."""
from __future__ import annotations

from abc import ABC, abstractmethod
from collections.abc import Sequence
from typing import Any

from gmr.regions import Cell, Cells, Region, Where
from gmr.maps import Map


class Choosing(ABC):
    """What has a map, whose cells can be chosen."""

    @property
    @abstractmethod
    def map(self) -> Map:
        """The map as it is now."""

    def cells(self, dimension: int, where: Where = None, **choice: Any) -> Cells:
        """The cells of a dimension that are chosen, as by `Region.cells`."""
        return Region(self.map).cells(dimension, where, **choice)

    def vertices(self, where: Where = None, **choice: Any) -> Cells:
        """The vertices that are chosen."""
        return self.cells(0, where, **choice)

    def edges(self, where: Where = None, **choice: Any) -> Cells:
        """The edges that are chosen."""
        return self.cells(1, where, **choice)

    def faces(self, where: Where = None, **choice: Any) -> Cells:
        """The faces that are chosen."""
        return self.cells(2, where, **choice)

    def volumes(self, where: Where = None, **choice: Any) -> Cells:
        """The volumes that are chosen."""
        return self.cells(3, where, **choice)

    def cell(
        self, dimension: int, where: Where = None, *, dart: int | None = None, near: Sequence[float] | None = None,
        **choice: Any,
    ) -> Cell:
        """The cell of a dart, or the first of the cells that are chosen: of those nearest to a place that with the
        least dart. ValueError where there is none."""
        if dart is not None:
            around = [label for label in range(self.map.dimension + 1) if label != dimension]
            if dart not in self.map.alpha[0] or len(around) > self.map.dimension:
                raise ValueError(f"the map has no dart {dart}, or no cells of dimension {dimension}")
            return Cell(self.map, dimension, tuple(sorted(self.map.orbit(around, dart))), dart)
        found = self.cells(dimension, where, near=near, **choice)
        if not found:
            raise ValueError(f"no cell of dimension {dimension} is such a one")
        return found[0]

    def vertex(self, where: Where = None, **choice: Any) -> Cell:
        """One vertex, as by `cell`."""
        return self.cell(0, where, **choice)

    def edge(self, where: Where = None, **choice: Any) -> Cell:
        """One edge, as by `cell`."""
        return self.cell(1, where, **choice)

    def face(self, where: Where = None, **choice: Any) -> Cell:
        """One face, as by `cell`."""
        return self.cell(2, where, **choice)

    def volume(self, where: Where = None, **choice: Any) -> Cell:
        """One volume, as by `cell`."""
        return self.cell(3, where, **choice)
