"""A large map of which few rows are looked at: its text is kept, and a row is read when it is asked for."""
import re

import numpy as np

from gmr.maps import EMBED, HEAD, WIDTHS, Embed, Map, Value, read_map
from gmr.views import Whole

LINE_END, SPACE, ZERO = b"\n 0"


class Rows:
    """The rows of a canonical text of a map, by the names of darts."""

    def __init__(self, text: str) -> None:
        head = HEAD.match(text)
        assert head is not None, "what the program prints has a head"
        self.text, self.begin, self.count = text, head.end(), int(head[8])

    def row(self, dart: int) -> list[int] | None:
        """The numbers of a dart's row after its name, or None where the map has no such dart: rows ascend by names,
        so the row is found by halving the text."""
        low, high = self.begin + 1, len(self.text)
        while low < high:
            start = self.text.rfind("\n", low - 1, (low + high) // 2) + 1
            if start < low:
                start = low
            end = self.text.find("\n", start)
            end = len(self.text) if end < 0 else end
            line = self.text[start:end]
            name = int(line[:line.index(" ")])
            if name == dart:
                return list(map(int, line.replace("(", " ").replace(")", " ").split()))[1:]
            low, high = (end + 1, high) if name < dart else (low, start)
        return None

    def names(self) -> Whole:
        """The names of all darts, ascending. Where the last one is one less than their number, none is left out."""
        if self.last() == self.count - 1:
            return np.arange(self.count, dtype=np.int64)
        text = np.frombuffer(self.text.encode("ascii"), np.uint8)
        at = np.flatnonzero(text[self.begin:] == LINE_END)[:self.count] + self.begin + 1
        names = np.zeros(len(at), np.int64)
        while (is_digit := text[at] != SPACE).any():
            names = np.where(is_digit, 10 * names + text[at] - ZERO, names)
            at = at + is_digit
        return names

    def last(self) -> int:
        """The greatest name, or -1 where there is none."""
        at = self.text.rstrip().rfind("\n")
        return int(self.text[at + 1:].split(" ", 1)[0]) if self.count else -1


class Columns:
    """The neighbours and values of a map by dart, each a dictionary that reads the row of a dart that it lacks."""

    def __init__(self, rows: Rows, dimension: int, embeds: list[Embed]) -> None:
        self.rows, self.dimension, self.embeds = rows, dimension, embeds
        self.alpha = [Neighbours(self) for _ in range(dimension + 1)]
        self.values = {embed.name: Values(self) for embed in embeds}

    def read(self, dart: int) -> bool:
        """Takes the row of a dart in; whether there is one."""
        row = self.rows.row(dart)
        if row is None:
            return False
        for step, near in zip(self.alpha, row):
            step[dart] = near
        at = self.dimension + 1
        for embed in self.embeds:
            width = WIDTHS[embed.kind]
            self.values[embed.name][dart] = row[at] if width == 1 else tuple(row[at:at + width])
            at += width
        return True


class Neighbours(dict[int, int]):
    """The neighbours along a label."""

    def __init__(self, columns: Columns) -> None:
        super().__init__()
        self.columns = columns

    def __missing__(self, dart: int) -> int:
        if not self.columns.read(dart):
            raise KeyError(dart)
        return self[dart]

    def __contains__(self, dart: object) -> bool:
        return super().__contains__(dart) or isinstance(dart, int) and self.columns.read(dart)


class Values(dict[int, Value]):
    """The values of an embedding."""

    def __init__(self, columns: Columns) -> None:
        super().__init__()
        self.columns = columns

    def __missing__(self, dart: int) -> Value:
        if not self.columns.read(dart):
            raise KeyError(dart)
        return self[dart]


def whole_of(amap: Map) -> Map:
    """The map with all its rows, whether it is lazy or not."""
    return amap.whole() if isinstance(amap, LazyMap) else amap


class LazyMap(Map):
    """A map of which rows are read when they are asked for by name. What goes over all darts reads all of them."""

    def __init__(self, text: str) -> None:
        head = HEAD.match(text)
        assert head is not None, "what the program prints has a head"
        rows = Rows(text)
        embeds = [Embed(name, tuple(sorted(map(int, labels.split()))), kind)
                  for name, labels, kind in re.findall(EMBED, head[3])]
        columns = Columns(rows, int(head[2]), embeds)
        super().__init__(int(head[1]), int(head[2]), embeds, int(head[7] or rows.last() + 1), rows.names(),
                         [*columns.alpha], {**columns.values})
        self.rows = rows

    def whole(self) -> Map:
        """The map with all its rows."""
        return read_map(self.rows.text)

    def text(self) -> str:
        """The canonical text."""
        return self.rows.text
