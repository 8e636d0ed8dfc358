"""Finds darts of a map: the cells nearest to a place, the cell or another orbit of a dart, all cells of a dimension."""
from __future__ import annotations

from collections.abc import Iterable, Iterator, Sequence
from itertools import chain, repeat
from typing import Any, NamedTuple, cast

import numpy as np
from numpy.typing import NDArray

from gmr.arrays import Arrays, least_of_orbits, read_arrays
from gmr.distances import Place, distance_to, place_of, rim_of
from gmr.find.bounds import far_from_segments, list_near
from gmr.find.walks import first_of_each, walk_orbits, walk_rims
from gmr.maps import Embed, Map, Value, walk

CELLS = ("vertex", "edge", "face", "volume")
MANY = ("vertices", "edges", "faces", "volumes")
FEW, MOST_WALKED = 1000, 20_000  # darts whose orbits are walked one by one, and how far
Bools = NDArray[np.bool_]
Rows = NDArray[np.int64]


class Spot(NamedTuple):
    """A cell that is asked for by a place: the nearest one of this dimension."""

    cell: int
    place: Place


class Found(NamedTuple):
    """Darts that were found together: a cell, another orbit, or what several cells have in common."""

    name: str  # what they are
    dart: int  # the one to give for a hook
    darts: list[int]
    sizes: dict[str, int]  # how many cells of each dimension they meet
    values: dict[str, list[Value]]  # those of each embedding, each once an orbit, in the order in which they are met
    distance: float | None  # of the place that was asked for


def name_of(cell: int, count: int = 1) -> str:
    """What a cell of a dimension is called, or several of them."""
    if cell < len(CELLS):
        return (CELLS if count == 1 else MANY)[cell]
    return f"cell{'' if count == 1 else 's'} of dimension {cell}"


class Walked:
    """A map's neighbours by rows of darts, as what measures distances walks them."""

    def __init__(self, alpha: Rows) -> None:
        self.alpha = list(map(memoryview, np.ascontiguousarray(alpha)))

    def orbit(self, labels: Iterable[int], row: int) -> list[int]:
        """The rows of an orbit, in the order of a walk."""
        return walk(row, cast("list[dict[int, int]]", [self.alpha[label] for label in sorted(labels)]))

    def orbits(self, labels: Iterable[int], rows: Iterable[int]) -> list[list[int]]:
        """The orbits of rows, each ascending."""
        wanted, seen, found = tuple(labels), set[int](), []
        for row in rows:
            if row not in seen:
                orbit = sorted(self.orbit(wanted, row))
                seen.update(orbit)
                found.append(orbit)
        return found


class Places(dict[int, Place]):
    """The point of each row, made when it is asked for."""

    def __init__(self, rows: Rows) -> None:
        super().__init__()
        self.rows = rows

    def __missing__(self, row: int) -> Place:
        self[row] = place_of(self.rows[row].tolist())
        return self[row]


class Finder:
    """Answers questions about one map. Where a label `free` is given, only darts that are free along it count.

    Within, darts are told by their rows in the map's arrays; what is answered has their names."""

    def __init__(self, it: Map | Arrays, points: str | None = None, free: int | None = None) -> None:
        self.map = it if isinstance(it, Arrays) else read_arrays(it.text().encode())
        self.points_name, self.free = points, free
        self.names: Sequence[int] = memoryview(cast(Any, np.ascontiguousarray(self.map.names)))
        self.walked = Walked(self.map.alpha)
        self._least: dict[tuple[int, ...], Rows] = {}
        self._values: dict[str, list[Value]] = {}
        self.check_label(free or 0)

    def check_label(self, label: int) -> int:
        """The label or dimension of cells, which is one of the map's, or ValueError."""
        if not 0 <= label <= self.map.dimension:
            raise ValueError(f"a map of dimension {self.map.dimension} has no label and no cells of number {label}")
        return label

    def row_of(self, dart: int) -> int:
        """The row of a dart, which is one of the map's, or ValueError."""
        if 0 <= dart < len(self.names) and self.names[dart] == dart:
            return dart
        row = int(np.searchsorted(self.map.names, dart))
        if row == len(self.names) or self.names[row] != dart:
            raise ValueError(f"the map has no dart {dart}")
        return row

    def around(self, cell: int) -> tuple[int, ...]:
        """The labels along which a cell of the dimension hangs together."""
        return tuple(label for label in range(self.map.dimension + 1) if label != self.check_label(cell))

    def point_rows(self) -> Rows:
        """The points of the rows, by the embedding that was named or the first one with points on vertices."""
        kinds = ("vec2", "vec3")
        embed = next((one for one in self.map.embeds if one.labels == self.around(0) and one.kind in kinds), None)
        if self.points_name is not None:
            embed = next((one for one in self.map.embeds if one.name == self.points_name), None)
        if embed is None or embed.kind not in kinds:
            raise ValueError(f"the map has no {self.points_name or 'embedding'} of kind vec2 or vec3 for its points")
        return self.map.values[embed.name]

    def points(self) -> dict[int, Place]:
        """The point of each dart."""
        return {dart: place_of(point) for dart, point in zip(self.names, self.point_rows().tolist())}

    def least(self, labels: Iterable[int]) -> Rows:
        """For each row the least one of its orbit over the labels."""
        key = tuple(labels)
        if key not in self._least:
            steps = [self.map.alpha[label] for label in key]
            self._least[key] = least_of_orbits(steps, len(self.names))
        return self._least[key]

    def least_of(self, labels: Iterable[int], rows: Sequence[int]) -> list[int]:
        """The same of some rows: where they are few, by walks that don't go far."""
        key = tuple(labels)
        if key not in self._least and len(rows) <= FEW:
            known: dict[int, int] = {}
            for row in rows:
                if row not in known:
                    orbit = self.walk_some(key, row)
                    known.update(dict.fromkeys(orbit, min(orbit)))
                if len(known) > MOST_WALKED:
                    break
            else:
                return [known[row] for row in rows]
        return self.least(key)[list(rows)].tolist()  # type: ignore[no-any-return]

    def walk_some(self, labels: Sequence[int], row: int) -> list[int]:
        """The rows of an orbit, or more than are walked one by one."""
        steps, found, seen = [self.walked.alpha[label] for label in labels], [row], {row}
        for here in found:
            near = [step[here] for step in steps if step[here] not in seen]
            seen.update(near)
            found += dict.fromkeys(near)
            if len(found) > MOST_WALKED:
                break
        return found

    def values_of(self, name: str) -> list[Value]:
        """The values of an embedding by rows."""
        if name not in self._values:
            rows = self.map.values[name]
            self._values[name] = rows[:, 0].tolist() if rows.shape[1] == 1 else list(map(tuple, rows.tolist()))
        return self._values[name]

    def describe(self, name: str, rows: Sequence[int], distance: float | None = None) -> Found:
        """What is told of darts that were found together."""
        sizes: dict[str, int] = {}
        values: dict[str, list[Value]] = {}
        for cell in range(self.map.dimension + 1):
            sizes[name_of(cell, 2)] = len(set(self.least_of(self.around(cell), rows)))
        for embed in self.map.embeds:
            firsts = dict.fromkeys(self.least_of(embed.labels, rows))
            if len(firsts) < FEW and embed.name not in self._values:
                found = self.map.values[embed.name][list(firsts)].tolist()
                values[embed.name] = [one[0] if len(one) == 1 else tuple(one) for one in found]
            else:
                at = self.values_of(embed.name)
                values[embed.name] = [at[first] for first in firsts]
        wanted = [row for row in rows if self.is_free(row)]
        names = self.names
        return Found(name, names[min(wanted or rows)], [names[row] for row in rows], sizes, values, distance)

    def is_free(self, row: int) -> bool:
        """Whether a dart counts: it is free along the label that was given, if one was."""
        return self.free is None or self.walked.alpha[self.free][row] == row

    def counted(self, labels: tuple[int, ...]) -> Bools:
        """The rows in whose orbits over the labels a dart counts."""
        count = len(self.names)
        if self.free is None:
            return np.ones(count, bool)
        least = self.least(labels)
        has_free = np.zeros(count, bool)
        has_free[least[self.map.alpha[self.free] == np.arange(count)]] = True
        return has_free[least]

    def walk(self, cell: int, row: int) -> list[int]:
        """The rows of a cell from one of them on: round a face in the order of its corners, and else as orbits are
        walked."""
        if cell == 2 and self.map.dimension == 2:
            return rim_of(cast("list[dict[int, int]]", self.walked.alpha), row)
        rows = self.walked.orbit(self.around(cell), row)
        if cell != 2:
            return rows
        rims: dict[int, None] = {}
        for begin in rows:
            if begin not in rims:
                rims.update(dict.fromkeys(rim_of(cast("list[dict[int, int]]", self.walked.alpha), begin)))
        return list(rims)

    def cell_of(self, cell: int, dart: int) -> list[Found]:
        """The cell of a dart, in the order of a walk from it."""
        rows = self.walk(cell, self.row_of(dart))
        return [self.describe(f"{name_of(cell)} of dart {dart}", rows)] if any(map(self.is_free, rows)) else []

    def orbit_of(self, labels: Sequence[int], dart: int) -> list[Found]:
        """The orbit of a dart over labels, in the order of a walk from it."""
        rows = self.walked.orbit(sorted(set(map(self.check_label, labels))), self.row_of(dart))
        name = f"orbit <{' '.join(map(str, sorted(labels)))}> of dart {dart}"
        return [self.describe(name, rows)] if any(map(self.is_free, rows)) else []

    def all_of(self, cell: int) -> list[Found]:
        """All cells of a dimension, in the order of their least darts, each as one alone is found."""
        labels = self.around(cell)
        least = self.least(labels)
        firsts = np.flatnonzero((least == np.arange(len(least))) & self.counted(labels))
        rows, sizes = self.walk_all(cell, firsts)
        names, ends = self.map.names[rows].tolist(), np.cumsum(sizes).tolist()
        owners = np.repeat(np.arange(len(firsts)), sizes)
        counts = {name_of(number, 2): np.bincount(owners[self.firsts_in(owners, rows, self.around(number))],
                                                  minlength=len(firsts)).tolist()
                  for number in range(self.map.dimension + 1)}
        values = {embed.name: self.values_in(owners, rows, embed) for embed in self.map.embeds}
        leads = self.leads_in(rows, sizes)
        what = name_of(cell)
        return [
            Found(f"{what} of dart {names[begin]}", lead, names[begin:end], dict(zip(counts, met)),
                  dict(zip(values, had)), None)
            for begin, end, lead, met, had in zip(
                [0, *ends], ends, leads, zip(*counts.values()), zip(*values.values()) if values else repeat(()))
        ]

    def walk_all(self, cell: int, firsts: Rows) -> tuple[Rows, Rows]:
        """The rows of cells from their first ones on, each as `walk` goes, and how many each has."""
        along, around = self.map.alpha[:2]
        rows = np.arange(len(along))
        if cell != 2:
            return walk_orbits([self.map.alpha[label] for label in self.around(cell)], firsts)
        if self.map.dimension == 2 and (along != rows).all() and (around != rows).all():
            return walk_rims(along, around, firsts)
        walks = [self.walk(cell, first) for first in firsts.tolist()]
        sizes = np.fromiter(map(len, walks), np.int64, len(walks))
        return np.fromiter(chain.from_iterable(walks), np.int64, int(sizes.sum())), sizes

    def firsts_in(self, owners: Rows, rows: Rows, labels: Sequence[int]) -> Bools:
        """Which rows of cells are the first ones there of an orbit over the labels."""
        return first_of_each(owners, self.least(labels)[rows])

    def values_in(self, owners: Rows, rows: Rows, embed: Embed) -> Iterator[list[Value]]:
        """The values of an embedding of each cell, each once an orbit, in the order in which they are met."""
        is_first = self.firsts_in(owners, rows, embed.labels)
        leads, at = np.unique(self.least(embed.labels)[rows[is_first]], return_inverse=True)
        table = self.map.values[embed.name][leads].tolist()
        known: list[Value] = [one[0] if len(one) == 1 else tuple(one) for one in table]
        met = [known[place] for place in at.tolist()]
        ends = np.cumsum(np.bincount(owners[is_first], minlength=1)).tolist() if len(owners) else []
        return (met[begin:end] for begin, end in zip([0, *ends], ends))

    def leads_in(self, rows: Rows, sizes: Rows) -> list[int]:
        """The dart of each cell to give for a hook: the least one that counts."""
        if not len(rows):
            return []
        asked = rows if self.free is None else np.where(self.map.alpha[self.free][rows] == rows, rows, len(self.names))
        lead = np.minimum.reduceat(asked, np.cumsum(sizes) - sizes)
        return self.map.names[lead].tolist()  # type: ignore[no-any-return]

    def parts(self) -> list[Found]:
        """The parts of the map that hang together, in the order of their least darts."""
        labels = tuple(range(self.map.dimension + 1))
        least = self.least(labels)
        counted = np.nonzero(self.counted(labels))[0]
        order = counted[np.argsort(least[counted], kind="stable")]
        begins = np.nonzero(np.diff(least[order]))[0] + 1
        parts = [part.tolist() for part in np.split(order, begins)] if len(order) else []
        return [self.describe(f"part of dart {self.names[rows[0]]}", rows) for rows in parts]

    def nearest(self, spot: Spot, within: float | None = None) -> list[Found]:
        """The cells nearest to a place, several where they are equally near, and none that is further than `within`."""
        if spot.cell >= len(CELLS):
            raise ValueError("places are known of vertices, edges, faces and volumes alone")
        labels, points = self.around(spot.cell), self.point_rows()
        places = Places(points)
        cells = self.walked.orbits(labels, self.near_rows(spot, points, labels))
        it = cast(Map, self.walked)
        distances = [distance_to(it, places, spot.cell, cell, spot.place) for cell in cells]
        least = min(distances, default=0.0)
        if within is not None and least > within * (1 + 1e-9) + 1e-9:
            return []
        found = [cell for cell, far in zip(cells, distances) if far <= least * (1 + 1e-9) + 1e-9]
        walks = (self.walk(spot.cell, rows[0]) for rows in found)
        return [self.describe(f"{name_of(spot.cell)} of dart {self.names[rows[0]]}", rows, least) for rows in walks]

    def near_rows(self, spot: Spot, points: Rows, labels: tuple[int, ...]) -> list[int]:
        """Rows of all cells that may be nearest to a place, ascending."""
        counted = np.nonzero(self.counted(labels))[0]
        if not len(counted):
            return []
        padded = np.zeros((len(points), 3))
        padded[:, : points.shape[1]] = points
        place = np.array(spot.place)
        if spot.cell < 2:
            ends = self.map.alpha[0][counted]
            far = (far_from_segments(padded[counted], padded[ends], place) if spot.cell
                   else np.linalg.norm(padded[counted] - place, axis=1))
            return counted[far <= far.min() * (1 + 1e-6) + 1e-6].tolist()  # type: ignore[no-any-return]
        least = self.least(labels)[counted]
        return list_near(padded[counted], least, place).tolist()  # type: ignore[no-any-return]

    def common(self, spots: Sequence[Spot], within: float | None = None) -> list[Found]:
        """The darts that the cells nearest to several places have in common."""
        sets = [{dart for cell in self.nearest(spot, within) for dart in cell.darts} for spot in spots]
        rows = sorted(filter(self.is_free, map(self.row_of, set.intersection(*sets))))
        names = " and ".join(name_of(spot.cell) for spot in spots)
        return [self.describe(f"darts of that {names}", rows)] if rows else []
