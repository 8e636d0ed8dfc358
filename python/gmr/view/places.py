"""Where the darts of a map without points are laid out: as `draw` lays them out, sheets in rows, or in space where
the map is large.

A dart that is laid out flat has four places: its vertex, the middle of its edge, and where each of them moves as the
dart is drawn further within its face. In space it has that of its vertex alone."""
import math
from collections.abc import Iterable, Sequence
from typing import TYPE_CHECKING, NamedTuple

import numpy

from gmr.draw.layout import Sheet
from gmr.draw.model import Model
from gmr.draw.together import sheets_of
from gmr.maps import Map
from gmr.view.spread import spread

if TYPE_CHECKING:
    from numpy.typing import NDArray

STEPS, GAP, WIDTH = 65535, 0.6, 1.6
MOST_FLAT = 1500  # darts that are laid out flat, which takes some seconds


class Places(NamedTuple):
    """The places of all darts: the least coordinates, the length of a step, in steps two coordinates of each dart's
    four places where it is flat and else three of its vertex, and by their place among the darts those that lie
    outside, round a closed surface that is laid out flat."""

    corner: tuple[float, ...]
    step: float
    numbers: list[int]
    outer: list[int]
    is_flat: bool


def lay_out(it: Map, labels: Sequence[int]) -> Places:
    """The places of the darts of a map, of which these labels are seen as 0, 1 and 2."""
    if not it.darts:
        return Places((0.0, 0.0), 1.0, [], [], True)
    if len(it.darts) > MOST_FLAT:
        return lay_in_space(it, labels[0])
    alpha = [it.alpha[label] for label in labels] + ([it.alpha[3]] if it.dimension == 3 == len(labels) else [])
    model = Model(min(it.dimension, len(alpha) - 1), alpha, {}, {}, {})
    placed: dict[int, tuple[complex, ...]] = {}
    outer: set[int] = set()
    for sheet, by in arranged(sheets_of(model, 1)):
        placed |= {dart: (spot.vertex + by, spot.edge + by, spot.side1 + by, spot.side0 + by)
                   for dart, spot in sheet.spots.items()}
        outer.update(outer_darts(sheet))
    flat = [number for dart in it.darts for place in placed[dart] for number in (place.real, place.imag)]
    return quantised(flat, 2, [at for at, dart in enumerate(it.darts) if dart in outer])


def lay_in_space(it: Map, along: int) -> Places:
    """The places of the darts of a large map, whose edges lead along this label."""
    others = [label for label in range(it.dimension + 1) if label != along]
    numbers = dict(zip(it.darts, range(len(it.darts))))
    ends = numpy.array([numbers[it.alpha[along][dart]] for dart in it.darts])
    vertices, parts = (numbered(it.orbits(labels), numbers) for labels in (others, range(it.dimension + 1)))
    places = spread(vertices, ends, parts)[vertices]
    return quantised(places.ravel().tolist(), 3, [])


def numbered(orbits: Iterable[list[int]], numbers: dict[int, int]) -> "NDArray[numpy.int64]":
    """For each dart, by its place, the number of its orbit."""
    found = numpy.zeros(len(numbers), numpy.int64)
    for number, orbit in enumerate(orbits):
        found[[numbers[dart] for dart in orbit]] = number
    return found


def outer_darts(sheet: Sheet) -> Iterable[int]:
    """The darts of a sheet that lie outside: those whose sides don't lie halfway to the middle of their face."""
    return (dart for dart, spot in sheet.spots.items()
            if abs(2 * spot.side1 - spot.vertex - (2 * spot.side0 - spot.edge)) > 1e-6)


def quantised(numbers: list[float], width: int, outer: list[int]) -> Places:
    """Coordinates, of which `width` make a place, in steps from the least ones."""
    lows = tuple(min(numbers[axis::width]) for axis in range(width))
    reach = max(max(numbers[axis::width]) - lows[axis] for axis in range(width)) or 1.0
    step = reach / STEPS
    return Places(lows, step, [round((number - lows[at % width]) / step) for at, number in enumerate(numbers)],
                  outer, width == 2)


def arranged(sheets: Sequence[Sheet]) -> Iterable[tuple[Sheet, complex]]:
    """Sheets, each with the way by which it is moved so that all stand in rows, from the left and from above."""
    boxes = [box_of(sheet) for sheet in sheets]
    area = sum((high.real - low.real + GAP) * (high.imag - low.imag + GAP) for low, high in boxes)
    limit = max(math.sqrt(area * WIDTH), *(high.real - low.real for low, high in boxes))
    x = y = row = 0.0
    for sheet, (low, high) in zip(sheets, boxes):
        wide, tall = high.real - low.real, high.imag - low.imag
        if x and x + wide > limit:
            x, y, row = 0.0, y - row - GAP, 0.0
        yield sheet, complex(x - low.real, y - high.imag)
        x, row = x + wide + GAP, max(row, tall)


def box_of(sheet: Sheet) -> tuple[complex, complex]:
    """The least and the greatest coordinates that a sheet reaches."""
    spots = sheet.spots.values()
    reach = [complex(place) for spot in spots for place in (spot.vertex, spot.edge, spot.side1, spot.side0)]
    xs, ys = [place.real for place in reach], [place.imag for place in reach]
    return complex(min(xs), min(ys)), complex(max(xs), max(ys))
