"""Generalised maps: their text is read and printed, their orbits are walked, and all darts are seen as arrays."""
from __future__ import annotations

import os
import tempfile
from collections.abc import Iterable, Mapping, Sequence
from dataclasses import dataclass
from itertools import repeat
from pathlib import Path

import numpy as np
from numpy.typing import ArrayLike

from gmr import program
from gmr.arrays import Arrays, read_arrays, read_numbers
from gmr.files import write_whole
from gmr.schemas import (
    BLANK, EMBED, HEAD, LEAST_NUMBER, MOST_DARTS, MOST_NAME, MOST_NUMBER, WIDTHS, Embed, Value,
)
from gmr.views import Columns, Names, Steps, Whole, frozen, least_of_orbits

__all__ = [
    "BLANK", "EMBED", "HEAD", "LEAST_NUMBER", "MOST_DARTS", "MOST_NAME", "MOST_NUMBER", "WIDTHS", "Embed", "Map",
    "Value", "load_map", "make_values", "read_columns", "read_map", "walk",
]


@dataclass(init=False, eq=False, repr=False)
class Map:
    """A map as `gmr show` prints it. It isn't changed: what is made of it is another one.

    darts: the names, ascending, as an array. alpha: `alpha[label][dart]`, and `alpha(label)` as an array in the order
    of darts. values: `values[name][dart]`, and `values(name)` as an array, by the name of an embedding. No array of
    these can be written. next: the name that the next new dart gets.
    """

    version: int
    dimension: int
    embeds: list[Embed]
    next: int
    darts: Names
    alpha: Steps
    values: Columns

    def __init__(
        self, version: int, dimension: int, embeds: Sequence[Embed], next: int, darts: Sequence[int] | Whole,
        alpha: Sequence[dict[int, int]], values: Mapping[str, dict[int, Value]],
    ) -> None:
        """The map of dictionaries by dart, which isn't judged."""
        self.version, self.dimension, self.embeds, self.next = version, dimension, list(embeds), next
        self.darts = darts if isinstance(darts, Names) else Names(darts)
        self.alpha = alpha if isinstance(alpha, Steps) else Steps(self.darts, alpha)
        self.values = values if isinstance(values, Columns) else Columns(self.darts, values)

    @classmethod
    def of_arrays(cls, arrays: Arrays) -> Map:
        """The map of what a text has, which isn't judged."""
        names = Names(arrays.names)
        steps, columns = Steps(names, rows=frozen(arrays.alpha)), Columns(names, arrays=arrays.values)
        return cls(arrays.version, arrays.dimension, arrays.embeds, arrays.next, names, steps, columns)

    @classmethod
    def from_arrays(
        cls, alpha: ArrayLike, embeds: Sequence[Embed] = (), values: Mapping[str, ArrayLike] | None = None,
        darts: ArrayLike | None = None, next: int | None = None,
    ) -> Map:
        """The map of arrays, checked by the program: Refused where it is no map, ValueError where shapes don't agree.

        alpha: (dimension + 1) x n, the name of the neighbour of each dart along each label. embeds: the schema.
        values: for each embedding n numbers, or n x 2 or 3. darts: the n names, else 0 to n - 1. next: the name that
        the next new dart gets, else the least number above all.
        """
        made = join_arrays(np.asarray(alpha), embeds, values or {}, darts, next)
        with tempfile.TemporaryDirectory(prefix="gmr-map-") as folder:
            path = Path(folder, "made.gmap")
            path.write_bytes(made.text())
            return cls.of_arrays(read_arrays(program.put_or_refuse("show", path).encode("ascii")))

    def arrays(self) -> Arrays:
        """The map by the rows of its darts."""
        tables = {embed.name: self.values.table(embed.name) for embed in self.embeds}
        names = self.darts.view(np.ndarray)
        return Arrays(self.version, self.dimension, self.embeds, self.next, names, self.alpha.rows(), tables)

    @property
    def points(self) -> Whole:
        """The point of each dart, n x 2 or 3: the first embedding of kind vec2 or vec3 over the vertices; ValueError
        where there is none."""
        embed = self.embed_over(range(1, self.dimension + 1), ("vec2", "vec3"))
        if embed is None:
            raise ValueError("the map has no embedding of kind vec2 or vec3 over its vertices")
        return self.values(embed.name)

    def text(self) -> str:
        """The canonical text."""
        return self.arrays().text().decode("ascii")

    def save(self, path: str | os.PathLike[str]) -> None:
        """Writes the canonical text into a file, whole or not at all."""
        write_whole(path, self.arrays().text())

    def leads(self, labels: Iterable[int]) -> Whole:
        """The least dart of the orbit over labels in which each dart lies, in the order of darts."""
        rows = self.alpha.rows()
        least = least_of_orbits([rows[label] for label in labels], len(self.darts))
        return self.darts.view(np.ndarray)[least]

    def orbits(self, labels: Iterable[int], darts: Iterable[int] | None = None) -> list[list[int]]:
        """The orbits over the labels, or those that hold one of the darts: each ascending, by least darts."""
        if darts is None:
            return group_by(self.leads(labels), self.darts)
        steps = [self.alpha[label] for label in sorted(labels)]
        seen: set[int] = set()
        found = []
        for dart in darts:
            if dart not in seen:
                orbit = walk(dart, steps)
                seen.update(orbit)
                orbit.sort()
                found.append(orbit)
        found.sort()
        return found

    def orbit(self, labels: Iterable[int], dart: int) -> list[int]:
        """The orbit of the dart over the labels, in the order of the walk by ascending labels."""
        return walk(dart, [self.alpha[label] for label in sorted(labels)])

    def cells(self, dimension: int) -> list[list[int]]:
        """The cells of that dimension: the orbits over all labels but it."""
        return self.orbits(label for label in range(self.dimension + 1) if label != dimension)

    def embed_over(self, labels: Iterable[int], kinds: Iterable[str]) -> Embed | None:
        """The first embedding of one of the kinds with exactly the labels, or None."""
        wanted, allowed = tuple(sorted(labels)), tuple(kinds)
        return next((embed for embed in self.embeds if embed.labels == wanted and embed.kind in allowed), None)

    def __eq__(self, other: object) -> bool:
        return isinstance(other, Map) and self._parts() == other._parts()

    def _parts(self) -> list[object]:
        return [self.version, self.dimension, self.embeds, self.next, self.darts.tolist(), self.alpha, self.values]

    def __repr__(self) -> str:
        return f"<map of dimension {self.dimension} with {len(self.darts)} darts>"


def join_arrays(
    alpha: Whole, embeds: Sequence[Embed], values: Mapping[str, ArrayLike], darts: ArrayLike | None,
    following: int | None,
) -> Arrays:
    """The arrays of a map that isn't judged; ValueError where their shapes don't agree or a neighbour is no dart."""
    if alpha.ndim != 2 or not 2 <= len(alpha) <= 8 or alpha.dtype.kind not in "iu":
        raise ValueError("neighbours are whole numbers in an array of (dimension + 1) x n, of dimension 1 to 7")
    count = alpha.shape[1]
    names = np.arange(count) if darts is None else np.asarray(darts)
    if names.shape != (count,) or len(np.unique(names)) != count or names.dtype.kind not in "iu":
        raise ValueError(f"the names are {count} different whole numbers")
    order = np.argsort(names)
    names, alpha = names[order].astype(np.int64), alpha[:, order].astype(np.int64)
    rows = np.minimum(np.searchsorted(names, alpha), max(count - 1, 0))
    if count and (names[rows] != alpha).any():
        raise ValueError(f"a neighbour along label {int(np.argmax((names[rows] != alpha).any(axis=1)))} is no dart")
    if {embed.name for embed in embeds} != set(values):
        raise ValueError("there are values of each embedding, and of no other")
    tables = {embed.name: table_of(embed, values[embed.name], count)[order] for embed in embeds}
    least = int(names[-1]) + 1 if count else 0
    return Arrays(2, len(alpha) - 1, list(embeds), least if following is None else following, names, rows, tables)


def table_of(embed: Embed, values: ArrayLike, count: int) -> Whole:
    """The numbers of an embedding's values, a row for each dart; ValueError where there are others."""
    array = np.asarray(values)
    width = WIDTHS[embed.kind]
    if array.shape not in ((count, width), (count,) if width == 1 else (count, width)) or array.dtype.kind not in "iu":
        raise ValueError(f"the values of {embed.name} are whole numbers in an array of {count} x {width}")
    return array.astype(np.int64).reshape(count, width)


def group_by(leads: Whole, darts: Names) -> list[list[int]]:
    """The darts that have one lead, ascending, by ascending leads."""
    if not len(leads):
        return []
    order = np.argsort(leads, kind="stable")
    cuts = np.flatnonzero(np.diff(leads[order])) + 1
    sorted_darts = darts.view(np.ndarray)[order].tolist()
    edges = [0, *cuts.tolist(), len(sorted_darts)]
    return [sorted_darts[begin:end] for begin, end in zip(edges, edges[1:])]


def walk(dart: int, steps: Sequence[Mapping[int, int]]) -> list[int]:
    """The darts that the steps lead to from the dart, each once: the first new one by place, then by step."""
    found, seen = [dart], {dart}
    for reached in found:
        for step in steps:
            near = step[reached]
            if near not in seen:
                seen.add(near)
                found.append(near)
    return found


def read_map(text: str) -> Map:
    """The map that a text of either version stands for; ValueError with one plain line where it stands for none.

    What only the laws of maps forbid isn't looked for here: that is the program's part, see load_map.
    """
    return Map.of_arrays(read_arrays(text.encode("latin-1", "replace")))


def read_columns(body: str, width: int, count: int) -> list[list[int]]:
    """The numbers of the darts' rows, column by column; ValueError where there aren't that many."""
    return [column.tolist() for column in read_numbers(body.encode("latin-1", "replace"), width, count).T]


def load_map(path: str | os.PathLike[str]) -> Map:
    """The map of a file, judged by the program first: what it refuses is passed on as program.Refused."""
    return read_map(program.put_of_file("show", path))


def make_values(darts: Iterable[int], value: Value) -> dict[int, Value]:
    """The same value at each of the darts."""
    return dict(zip(darts, repeat(value)))
