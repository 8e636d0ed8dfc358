"""What a map has by dart, seen in two ways: as numpy's arrays, for all darts at once, and as dictionaries, for walks.

Each is made of the other when it is first asked for, and neither is to be changed."""
from collections.abc import Iterator, Mapping, Sequence
from typing import Any, overload

import numpy as np
from numpy.typing import NDArray

from gmr.schemas import Value

Whole = NDArray[np.int64]


class Names(np.ndarray[Any, np.dtype[np.int64]]):
    """The names of darts, ascending, as an array of whole numbers that can't be written.

    What is computed with it is an array. Its own elements come out as Python's numbers, it is true where it has any,
    and it is equal to a list that has the same ones.
    """

    def __new__(cls, darts: Sequence[int] | Whole) -> "Names":
        """The array of these names, without a copy where they are one."""
        names = np.asarray(darts, dtype=np.int64).view(cls)
        names.flags.writeable = False
        return names

    def __array_ufunc__(self, ufunc: np.ufunc, method: str, *inputs: Any, **kwargs: Any) -> Any:
        """What is computed of names are no names."""
        plain = [one.view(np.ndarray) if isinstance(one, Names) else one for one in inputs]
        return getattr(ufunc, method)(*plain, **kwargs)

    def __iter__(self) -> Iterator[int]:
        return iter(self.tolist())

    def __getitem__(self, place: Any) -> Any:
        found = super().__getitem__(place)
        return int(found) if isinstance(found, np.integer) else found

    def __contains__(self, dart: object) -> bool:
        return bool((self == dart).any()) if isinstance(dart, (int, np.integer)) else False

    def __bool__(self) -> bool:
        return len(self) > 0

    def __eq__(self, other: object) -> Any:
        if isinstance(other, (list, tuple, range)):
            return self.tolist() == list(other)
        return super().__eq__(other)

    def __ne__(self, other: object) -> Any:
        if isinstance(other, (list, tuple, range)):
            return self.tolist() != list(other)
        return super().__ne__(other)


class Steps(Sequence[dict[int, int]]):
    """The neighbours of darts: `steps[label][dart]`, and `steps(label)` as the array of them, in the order of names."""

    def __init__(self, names: Names, dicts: Sequence[dict[int, int]] = (), rows: Whole | None = None) -> None:
        """Of dictionaries, or of the rows of names at which the neighbours stand: labels x n."""
        self._names, self._rows = names, rows
        self._count = len(dicts) if rows is None else len(rows)
        self._dicts: dict[int, dict[int, int]] = dict(enumerate(dicts))
        self._arrays: dict[int, Whole] = {}

    def __call__(self, label: int) -> Whole:
        """The neighbour of each dart along a label, in the order of the darts' names; it can't be written."""
        if label not in self._arrays:
            if self._rows is not None:
                array: Whole = self._names.view(np.ndarray)[self._rows[self._at(label)]]
            else:
                step = self._dicts[self._at(label)]
                array = np.fromiter((step[dart] for dart in self._names), np.int64, len(self._names))
            self._arrays[label] = frozen(array)
        return self._arrays[label]

    def rows(self) -> Whole:
        """For each label and dart at which place of the names the neighbour stands: labels x n."""
        if self._rows is None:
            found = [np.searchsorted(self._names.view(np.ndarray), self(label)) for label in range(self._count)]
            self._rows = frozen(np.array(found, dtype=np.int64).reshape(self._count, len(self._names)))
        return self._rows

    def _at(self, label: int) -> int:
        if not -self._count <= label < self._count:
            raise IndexError(f"there is no label {label}")
        return label % self._count

    @overload
    def __getitem__(self, label: int) -> dict[int, int]: ...

    @overload
    def __getitem__(self, label: slice) -> list[dict[int, int]]: ...

    def __getitem__(self, label: int | slice) -> dict[int, int] | list[dict[int, int]]:
        if isinstance(label, slice):
            return [self[at] for at in range(self._count)[label]]
        at = self._at(label)
        if at not in self._dicts:
            self._dicts[at] = dict(zip(self._names.tolist(), self(at).tolist()))
        return self._dicts[at]

    def __len__(self) -> int:
        return self._count

    def __eq__(self, other: object) -> bool:
        return isinstance(other, Sequence) and list(self) == list(other)

    def __repr__(self) -> str:
        return repr(list(self))


class Columns(Mapping[str, dict[int, Value]]):
    """The values of darts: `columns[name][dart]`, and `columns(name)` as the array of them, in the order of names."""

    def __init__(
        self, names: Names, dicts: Mapping[str, dict[int, Value]] | None = None,
        arrays: Mapping[str, Whole] | None = None,
    ) -> None:
        """Of dictionaries, or of arrays with a row for each dart: n x the numbers of a value."""
        self._names = names
        self._arrays = {name: frozen(array) for name, array in (arrays or {}).items()}
        self._dicts = dict(dicts or {})
        self._keys = list(self._arrays) if dicts is None else list(self._dicts)

    def __call__(self, name: str) -> Whole:
        """The value of each dart, in the order of the darts' names: n numbers, or n x 2 or 3; it can't be written."""
        table = self.table(name)
        return table[:, 0] if table.shape[1] == 1 else table

    def table(self, name: str) -> Whole:
        """The numbers of the values, with a row for each dart."""
        if name not in self._arrays:
            at = self._dicts[name]
            table = np.array([at[dart] for dart in self._names], dtype=np.int64)
            self._arrays[name] = frozen(table.reshape(len(self._names), -1 if table.size else 1))
        return self._arrays[name]

    def __getitem__(self, name: str) -> dict[int, Value]:
        if name not in self._dicts:
            table = self._arrays[name]
            values = table[:, 0].tolist() if table.shape[1] == 1 else map(tuple, table.tolist())
            self._dicts[name] = dict(zip(self._names.tolist(), values))
        return self._dicts[name]

    def __iter__(self) -> Iterator[str]:
        return iter(self._keys)

    def __len__(self) -> int:
        return len(self._keys)

    def __eq__(self, other: object) -> bool:
        return isinstance(other, Mapping) and dict(self) == dict(other)

    def __repr__(self) -> str:
        return repr(dict(self))


def frozen(array: Whole) -> Whole:
    """A view of an array through which it can't be written."""
    view = array.view()
    view.flags.writeable = False
    return view


def least_of_orbits(steps: Sequence[Whole], count: int) -> Whole:
    """For each of this many rows the least row that the steps lead to from it, each step being its own way back."""
    least: Whole = np.arange(count, dtype=np.int64)
    while True:
        before = least
        for step in steps:
            least = np.minimum(least, least[step])
        least = least[least]    # what is known of the least row so far is known here too
        if np.array_equal(before, least):
            return least
