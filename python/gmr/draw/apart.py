"""Sheets set apart, so that none lies over another, and those that are neighbours near each other."""
import math
from collections.abc import Sequence
from typing import Any

import numpy as np
from numpy.typing import NDArray

from gmr import program
from gmr.draw.layout import Sheet

Pair = tuple[tuple[int, int], tuple[int, int]]  # two darts that are neighbours along 3, each after its sheet's number
Link = tuple[int, int, NDArray[np.float64]]  # two sheets, and by how far the second would lie from the first
Near = tuple[int, NDArray[np.float64], float]  # another sheet, how far one would lie from it, and how strongly
GAP, ROW = 0.35, 8.0  # between sheets, and how wide a row of them is, in edges
SWEEPS, MOST_SWEPT, MANY = 3, 40, 8  # how often each of few sheets is placed again, and from how many on in a grid
Floats = NDArray[np.float64]


def set_apart(sheets: Sequence[Sheet], pairs: Sequence[Pair], stays: Sequence[bool], pull: float = 1.0) -> list[Sheet]:
    """The sheets, apart from each other and as near as they can: in rows where none is linked to another; what stays
    lies where it lay, and what is new round it, as neighbours pull it."""
    if len(sheets) < 2:
        return [*sheets]
    boxes = [sheet.box() for sheet in sheets]
    sizes = rows_of([high - low for low, high in boxes]) + GAP
    middles = rows_of([(low + high) / 2 for low, high in boxes])
    still = np.array(stays)
    if not pairs:
        places = to_the_right(middles, sizes, stays) if any(stays) else in_rows(sizes)
        part(places, sizes, still)
    else:
        places = gathered(middles, sizes, offsets_of(sheets, middles, pairs), still, pull)
    moves = places - middles
    return [sheet.moved(complex(*move)) for sheet, move in zip(sheets, moves)]


def to_the_right(middles: Floats, sizes: Floats, stays: Sequence[bool]) -> Floats:
    """Middles of which those that don't stay come to the right of the others, side by side."""
    places = middles.copy()
    still = np.array(stays)
    end = (places + sizes / 2)[still, 0].max()
    for row in np.nonzero(~still)[0]:
        places[row] = end + sizes[row, 0] / 2, places[still, 1].mean()
        end += sizes[row, 0]
    return places


def rows_of(places: Sequence[complex]) -> Floats:
    """Places as rows of two numbers."""
    return np.array([(place.real, place.imag) for place in places]).reshape(-1, 2)


def in_rows(sizes: Floats) -> Floats:
    """Middles of boxes of these sizes, one after another in rows, downwards."""
    places, at, top, deep = np.zeros_like(sizes), 0.0, 0.0, 0.0
    for row, (wide, high) in enumerate(sizes):
        if at and at + wide > ROW:
            at, top, deep = 0.0, top - deep, 0.0
        places[row] = at + wide / 2, top - high / 2
        at, deep = at + wide, max(deep, high)
    return places


def offsets_of(sheets: Sequence[Sheet], middles: Floats, pairs: Sequence[Pair]) -> list[Link]:
    """For each two sheets with neighbours along 3: their numbers, and by how far the second would lie from the first
    for these to meet."""
    found: dict[tuple[int, int], list[Floats]] = {}
    for (one, dart), (two, other) in pairs:
        ends = rows_of([sheets[one].spots[dart].heart, sheets[two].spots[other].heart])
        way = (ends[0] - middles[one]) - (ends[1] - middles[two])
        key, way = ((one, two), way) if one < two else ((two, one), -way)
        found.setdefault(key, []).append(way)
    return [(one, two, np.mean(ways, axis=0)) for (one, two), ways in sorted(found.items())]


def gathered(
    middles: Floats, sizes: Floats, links: Sequence[Link], still: NDArray[np.bool_], pull: float
) -> Floats:
    """Places at which no box lies over another: those that stay where they are, and then one after another where its
    neighbours are near and all take little room."""
    places, near = middles.copy(), neighbours_of(links, len(middles), pull)
    part_of(places, sizes, still)
    laid = [int(at) for at in np.nonzero(still)[0]] or [max(range(len(near)), key=lambda at: len(near[at]))]
    kept, order = len(laid) if still.any() else 0, laid
    waiting = [at for at in range(len(near)) if at not in laid]
    while waiting:
        here = max(waiting, key=lambda at: (sum(one[0] in order for one in near[at]) / max(1, len(near[at])), -at))
        waiting.remove(here)
        places[here] = best_place(here, places, sizes, order, near[here])
        order = [*order, here]
    for here in (order[kept:] * SWEEPS if len(order) <= MOST_SWEPT else []):
        places[here] = best_place(here, places, sizes, [at for at in order if at != here], near[here])
    return places if kept or len(places) < MANY else on_grid(places, sizes)


def on_grid(places: Floats, sizes: Floats) -> Floats:
    """Places in rows and columns, each near where it was among all."""
    optimize: Any = program.needs("scipy.optimize", "python3-scipy")
    count, cell = len(places), sizes.max(axis=0) - GAP / 3
    columns = round(math.sqrt(1.5 * count * cell[1] / cell[0]))
    cells = np.array([(at % columns, at // columns) for at in range(count)], float)
    ways = places - places.min(axis=0)
    ways *= cells.max(axis=0) / np.maximum(ways.max(axis=0), 1e-6)
    ones, twos = optimize.linear_sum_assignment(((ways[:, None] - cells[None]) ** 2).sum(axis=2))
    found = np.zeros_like(places)
    found[ones] = cells[twos] * cell
    return found


def neighbours_of(links: Sequence[Link], count: int, pull: float) -> list[list[Near]]:
    """For each sheet those that it is linked to, by how far it would lie from them, and how strongly it is pulled."""
    found: list[list[Near]] = [[] for _ in range(count)]
    for one, two, way in links:
        found[one].append((two, -way, pull))
        found[two].append((one, way, pull))
    return found


def best_place(
    here: int, places: Floats, sizes: Floats, laid: Sequence[int], near: Sequence[Near]
) -> Floats:
    """Where a box lies best beside those that are laid: in line with two of them, or beside them."""
    own, others = sizes[here], sizes[laid]
    steps = (others[:, None] + own) / 2 * np.array([-1, 0, 1])[None, :, None] + places[laid][:, None]
    sides = [np.unique(steps[:, :, axis].round(6)) for axis in (0, 1)]
    tries = np.array([(x, y) for x in sides[0] for y in sides[1]])
    over = (others[None] + own) / 2 - np.abs(tries[:, None] - places[laid][None])
    tries = tries[~(over > 1e-4).all(axis=2).any(axis=1)]
    low, high = ((places[laid] - others / 2).min(axis=0), (places[laid] + others / 2).max(axis=0))
    reach = np.maximum(high, tries + own / 2) - np.minimum(low, tries - own / 2)
    costs = 0.6 * reach.sum(axis=1) + 0.6 * reach.max(axis=1)
    costs += 0.2 * np.linalg.norm(tries - places[laid].mean(axis=0), axis=1)
    known = [one for one in near if one[0] in laid]
    for other, way, pull in known:
        costs += pull * np.linalg.norm(places[other] + way - tries, axis=1) / len(known)
    found: Floats = tries[np.argmin(costs.round(6))]
    return found


def part(places: Floats, sizes: Floats, still: NDArray[np.bool_]) -> None:
    """Pushes boxes until none lies over another."""
    any(not push(places, sizes, still) for _ in range(4000))


def part_of(places: Floats, sizes: Floats, chosen: NDArray[np.bool_]) -> None:
    """Pushes boxes that are chosen until none lies over another of them."""
    moved = places[chosen]
    part(moved, sizes[chosen], np.ones(len(moved), bool))
    places[chosen] = moved


def push(places: Floats, sizes: Floats, still: NDArray[np.bool_]) -> bool:
    """Pushes boxes that lie over each other apart along the axis along which that is nearer, what stays only where
    both do, and says whether there were some."""
    ways = places[:, None] - places[None]
    over = (sizes[:, None] + sizes[None]) / 2 - np.abs(ways)
    ones, twos = np.nonzero(np.triu((over > 1e-4).all(axis=2), 1))
    if not len(ones):
        return False
    rows = np.arange(len(ones))
    axes = np.argmin(over[ones, twos], axis=1)
    steps = np.zeros((len(ones), 2))
    steps[rows, axes] = (over[ones, twos][rows, axes] + 2e-4) * np.where(ways[ones, twos][rows, axes] >= 0, 1, -1)
    shares = np.where(still[ones] == still[twos], 0.5, np.where(still[ones], 0.0, 1.0))[:, None]
    np.add.at(places, ones, 0.7 * steps * shares)
    np.add.at(places, twos, -0.7 * steps * (1 - shares))
    return True
