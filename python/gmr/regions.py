"""Cells of a map, chosen by what they are: on the border, free along a label, of this many corners, with a value, near
a place, or as a function in Python says."""
from __future__ import annotations

from collections.abc import Callable, Iterator, Mapping, Sequence
from functools import cached_property
from typing import Any, NamedTuple, overload

import numpy as np
from numpy.typing import NDArray

from gmr.distances import distance_to, place_of
from gmr.maps import Map, Value, group_by
from gmr.views import Names, Whole

Flags = NDArray[np.bool_]


class Cell(NamedTuple):
    """A cell of a map: its dimension, its darts, ascending, and the one of them that stands for it as a hook: the
    least, or the least that is free where such cells were chosen."""

    map: Map
    dimension: int
    darts: tuple[int, ...]
    dart: int

    def values(self, name: str) -> list[Value]:
        """The values of an embedding that it has, each once, in the order of its darts."""
        at = self.map.values[name]
        return list(dict.fromkeys(at[dart] for dart in self.darts))

    def points(self) -> list[Value]:
        """The points of its corners, each once."""
        embed = self.map.embed_over(range(1, self.map.dimension + 1), ("vec2", "vec3"))
        return self.values(embed.name) if embed else []

    def centre(self) -> tuple[float, ...]:
        """The mean of its points."""
        places = [point for point in self.points() if isinstance(point, tuple)]
        return tuple(sum(numbers) / len(places) for numbers in zip(*places))

    def corners(self) -> int:
        """How many vertices it has."""
        return len(self.map.orbits(range(1, self.map.dimension + 1), self.darts))

    def is_free(self, label: int) -> bool:
        """Whether a dart of it is free along a label."""
        return any(self.map.alpha[label][dart] == dart for dart in self.darts)

    def is_border(self) -> bool:
        """Whether a dart of it is free along the greatest label."""
        return self.is_free(self.map.dimension)

    def __repr__(self) -> str:
        return f"<cell of dimension {self.dimension} of dart {self.dart}>"


Where = str | Callable[[Cell], bool] | None


class Cells(Sequence[Cell]):
    """Cells of one dimension of a map, by ascending least darts."""

    def __init__(self, amap: Map, dimension: int, cells: Sequence[Cell], is_all: bool) -> None:
        self.map, self.dimension, self.is_all = amap, dimension, is_all
        self._cells = tuple(cells)

    @property
    def darts(self) -> list[int]:
        """The dart that stands for each cell."""
        return [cell.dart for cell in self._cells]

    @overload
    def __getitem__(self, place: int) -> Cell: ...

    @overload
    def __getitem__(self, place: slice) -> Cells: ...

    def __getitem__(self, place: int | slice) -> Cell | Cells:
        if isinstance(place, slice):
            chosen = self._cells[place]
            return Cells(self.map, self.dimension, chosen, self.is_all and len(chosen) == len(self))
        return self._cells[place]

    def __len__(self) -> int:
        return len(self._cells)

    def __repr__(self) -> str:
        return f"<{len(self)} cells of dimension {self.dimension}>"


class Region:
    """Darts of a map, all or some of them, and the cells that lie within them: those with no dart outside."""

    def __init__(self, amap: Map, darts: Sequence[int] | Whole | None = None) -> None:
        self.map = amap
        self._darts = None if darts is None else Names(darts)

    @property
    def darts(self) -> Names:
        """The darts, ascending."""
        return self.map.darts if self._darts is None else self._darts

    @cached_property
    def _is_within(self) -> Flags:
        return np.isin(self.map.darts.view(np.ndarray), self.darts.view(np.ndarray))

    def vertices(self, where: Where = None, **choice: Any) -> Cells:
        """The vertices that are chosen, as by `cells`."""
        return self.cells(0, where, **choice)

    def edges(self, where: Where = None, **choice: Any) -> Cells:
        """The edges that are chosen, as by `cells`."""
        return self.cells(1, where, **choice)

    def faces(self, where: Where = None, **choice: Any) -> Cells:
        """The faces that are chosen, as by `cells`."""
        return self.cells(2, where, **choice)

    def volumes(self, where: Where = None, **choice: Any) -> Cells:
        """The volumes that are chosen, as by `cells`."""
        return self.cells(3, where, **choice)

    def cells(
        self, dimension: int, where: Where = None, *, free: int | None = None, corners: int | None = None,
        value: Mapping[str, Value] | None = None, near: Sequence[float] | None = None, within: float | None = None,
    ) -> Cells:
        """The cells of a dimension for which all holds that is asked.

        where: 'border', with a dart that is free along the greatest label, or a function that is true of the cell.
        free: a dart is free along this label. corners: as many vertices. value: a dart has these values of embeddings.
        near: nearest to this place, in the map's numbers, or all that are at most `within` away from it.
        ValueError where the map has no such dimension, label, embedding or points.
        """
        if not 0 <= dimension <= self.map.dimension:
            raise ValueError(f"a map of dimension {self.map.dimension} has no cells of dimension {dimension}")
        if where == "border":
            free = self.map.dimension
        elif isinstance(where, str):
            raise ValueError(f"cells are chosen by 'border' or by a function, and not by {where!r}")
        leads = self.map.leads(label for label in range(self.map.dimension + 1) if label != dimension)
        kept = np.setdiff1d(leads, leads[~self._is_within])
        for flags in self._flags(free, value):
            kept = np.intersect1d(kept, leads[flags])
        if corners is not None:
            kept = np.intersect1d(kept, leads_of_corners(self.map, leads, corners))
        found = self._made(dimension, leads, kept, free)
        if near is not None:
            found = nearest(found, near, within)
        if callable(where):
            found = [cell for cell in found if where(cell)]
        return Cells(self.map, dimension, found, len(found) == len(np.unique(leads)) and free is None)

    def _flags(self, free: int | None, value: Mapping[str, Value] | None) -> Iterator[Flags]:
        """For each thing that is asked of one dart of a cell, the darts of which it holds."""
        if free is not None:
            if not 0 <= free <= self.map.dimension:
                raise ValueError(f"a map of dimension {self.map.dimension} has no label {free}")
            yield self.map.alpha(free) == self.map.darts.view(np.ndarray)
        for name, wanted in (value or {}).items():
            if name not in self.map.values:
                raise ValueError(f"the map has no embedding {name}")
            yield (self.map.values.table(name) == np.array(wanted).reshape(1, -1)).all(axis=1)

    def _made(self, dimension: int, leads: Whole, kept: Whole, free: int | None) -> list[Cell]:
        """The cells with these least darts."""
        chosen = np.isin(leads, kept)
        names = Names(self.map.darts.view(np.ndarray)[chosen])
        found = []
        for darts in group_by(leads[chosen], names):
            able = (dart for dart in darts if free is None or self.map.alpha[free][dart] == dart)
            found.append(Cell(self.map, dimension, tuple(darts), next(able)))
        return found

    def __len__(self) -> int:
        return len(self.darts)

    def __iter__(self) -> Iterator[int]:
        return iter(self.darts)

    def __contains__(self, dart: object) -> bool:
        return dart in self.darts

    def __repr__(self) -> str:
        return f"<{len(self)} darts of {self.map!r}>"


def leads_of_corners(amap: Map, leads: Whole, corners: int) -> Whole:
    """Of cells by their least darts, those that have this many vertices."""
    vertices = amap.leads(range(1, amap.dimension + 1))
    pairs = np.unique(np.stack([leads, vertices]), axis=1)
    cells, counts = np.unique(pairs[0], return_counts=True)
    return np.asarray(cells[counts == corners], dtype=np.int64)


def nearest(cells: Sequence[Cell], place: Sequence[float], within: float | None) -> list[Cell]:
    """The cells nearest to a place, several where they are equally near; or those at most `within` away."""
    if not cells:
        return []
    if cells[0].dimension > 3:
        raise ValueError("places are known of vertices, edges, faces and volumes alone")
    amap, spot = cells[0].map, place_of(place)
    points = dict(zip(amap.darts, (place_of(point) for point in amap.points.tolist())))
    distances = [distance_to(amap, points, cell.dimension, list(cell.darts), spot) for cell in cells]
    most = min(distances) if within is None else within
    return [cell for cell, distance in zip(cells, distances) if distance <= most * (1 + 1e-9) + 1e-9]
