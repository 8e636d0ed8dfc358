"""Scenes for the viewer: a map as JSON, and what changes from one map to the next.

Columns of numbers are packed: the bytes of an array, little end first, in base64; the studio has other bytes in their
place, see gmr.studio.wire. A scene is

    {"dimension", "labels": the labels that play 0, 1 and 2, "names": packed, "alpha": [packed by label: the place of
     the neighbour among the darts], "embeds": [{"name", "labels", "kind", "values": packed, WIDTHS[kind] a dart}],
     "points": the embedding with the points or null, "places": null, or where darts are laid out, see packed_places,
     "next": the next name}

and changes are

    {"gone": packed names, "fresh": rows of the darts that are new, "rows": rows of those with another neighbour or
     value, "places": as above, "next": the next name}

where rows are {"names": packed, "alpha": [packed by label: names], "values": {embedding: packed}}. In "rows" a column
in which no dart has anything else is null."""
import base64
from collections.abc import Callable, Collection, Sequence
from functools import reduce
from typing import Any, NamedTuple

import numpy as np

from gmr.arrays import Arrays, Whole
from gmr.maps import Embed, Map
from gmr.view.places import lay_out

Json = dict[str, Any]
Pack = Callable[[Whole], Json]
TYPES = (("Uint8", "<u1"), ("Int8", "<i1"), ("Uint16", "<u2"), ("Int16", "<i2"), ("Uint32", "<u4"), ("Int32", "<i4"),
         ("Int64", "<i8"))


def narrowed(numbers: Whole) -> tuple[str, "np.ndarray[Any, Any]"]:
    """Whole numbers of 64 bits as the narrowest array that holds them, little end first, and the name of its type."""
    least, most = (int(numbers.min()), int(numbers.max())) if len(numbers) else (0, 0)
    for name, code in TYPES:
        bounds = np.iinfo(code)
        if bounds.min <= least and most <= bounds.max:
            break
    return name, numbers.astype(code)


def run_of(numbers: Whole) -> Json | None:
    """A run of at least three numbers in order by its first one; None where the numbers are none."""
    long = len(numbers)
    if long > 2 and numbers[-1] - numbers[0] == long - 1 and (numbers[1:] - numbers[:-1] == 1).all():
        return {"from": int(numbers[0]), "count": len(numbers)}
    return None


def pack(numbers: Sequence[int] | Whole) -> Json:
    """Whole numbers of 64 bits as the narrowest array that holds them; a run of numbers in order by its first one."""
    numbers = np.asarray(numbers, np.int64)
    run = run_of(numbers)
    if run is not None:
        return run
    name, held = narrowed(numbers)
    return {"type": name, "data": base64.b64encode(held.tobytes()).decode("ascii")}


def labels_of(it: Map, labels: Sequence[int] | None = None) -> tuple[int, ...]:
    """The labels that play 0, 1 and 2 in a picture of a map: those that are named, or else its least ones. ValueError
    where they aren't three labels of the map, or all of them in dimension 1."""
    if labels is None:
        return tuple(range(min(it.dimension, 2) + 1))
    chosen = tuple(sorted(set(labels)))
    if len(chosen) != min(it.dimension + 1, 3) or not 0 <= chosen[0] <= chosen[-1] <= it.dimension:
        raise ValueError(f"choose {min(it.dimension + 1, 3)} labels from 0 to {it.dimension}")
    return chosen


def points_of(it: Map, labels: Sequence[int]) -> Embed | None:
    """The embedding that says where vertices are: the first one of kind vec2 or vec3 over them. None where there is
    none, or where the labels of the picture don't begin with 0, so that its corners aren't vertices."""
    return it.embed_over(range(1, it.dimension + 1), ("vec2", "vec3")) if labels[0] == 0 else None


def scene_of(it: Map, labels: Sequence[int] | None = None, pack: Pack = pack) -> Json:
    """The scene of a map. Where it has no points it is laid out, as `draw` does. Above dimension 3 the labels say
    which three are seen as those of a surface."""
    chosen = labels_of(it, labels)
    points = points_of(it, chosen)
    arrays = it.arrays()
    check_involutions(arrays)
    return {
        "dimension": it.dimension,
        "labels": list(chosen),
        "names": pack(arrays.names),
        "alpha": [pack(step) for step in arrays.alpha],
        "embeds": [{"name": one.name, "labels": list(one.labels), "kind": one.kind,
                    "values": pack(arrays.values[one.name].ravel())} for one in it.embeds],
        "points": points.name if points else None,
        "places": None if points else packed_places(it, chosen, pack),
        "next": it.next,
    }


def check_involutions(it: Arrays) -> None:
    """ValueError where a neighbour doesn't point back; what else the laws of maps forbid, can be drawn."""
    for label, step in enumerate(it.alpha):
        wrong = step[step] != np.arange(len(step))
        if wrong.any():
            dart = int(it.names[np.argmax(wrong)])
            raise ValueError(f"dart {dart} has no neighbour along label {label} that points back")


def packed_places(it: Map, labels: Sequence[int], pack: Pack) -> Json:
    """Where the darts of a map without points are laid out: see gmr.view.places. `from` and `step` say where step 0 is
    and how long a step is, and `flat` whether each dart has four places in the plane or one in space."""
    found = lay_out(it, labels)
    return {"from": list(found.corner), "step": found.step, "at": pack(np.array(found.numbers, np.int64)),
            "outer": pack(np.array(found.outer, np.int64)), "flat": found.is_flat}


class Differences(NamedTuple):
    """What differs from one map to the next: the names of the darts that went; the rows of the next map that have new
    darts; those whose darts have another neighbour or value, and the labels and embeddings of which one has another."""
    gone: Whole
    fresh: Whole
    other: Whole
    labels: Collection[int]
    embeds: Collection[str]


def find_differences(before: Arrays, after: Arrays) -> Differences:
    """What differs from one map to another of the same dimension and embeddings."""
    if np.array_equal(before.names, after.names):
        every, none = np.arange(len(after.names)), np.empty(0, np.int64)
        return compare_rows(before, after, none, none, (every, every))
    old = np.minimum(np.searchsorted(before.names, after.names), max(len(before.names) - 1, 0))
    is_known = before.names[old] == after.names if len(before.names) else np.zeros(len(after.names), bool)
    is_gone = np.ones(len(before.names), bool)
    is_gone[old[is_known]] = False
    return compare_rows(before, after, before.names[is_gone], np.flatnonzero(~is_known),
                        (old[is_known], np.flatnonzero(is_known)))


def compare_rows(before: Arrays, after: Arrays, gone: Whole, fresh: Whole, both: tuple[Whole, Whole]) -> Differences:
    """What differs where these names went, these rows are new, and these have the same darts in both maps."""
    old, new = both
    steps = {label: before.names[one[old]] != after.names[two[new]]
             for label, (one, two) in enumerate(zip(before.alpha, after.alpha))}
    values = {embed.name: reduce(np.logical_or, (before.values[embed.name][old] != after.values[embed.name][new]).T)
              for embed in after.embeds}
    labels = [label for label, differs in steps.items() if differs.any()]
    embeds = [name for name, differs in values.items() if differs.any()]
    is_other = reduce(np.logical_or, [*(steps[label] for label in labels), *(values[name] for name in embeds)],
                      np.zeros(len(new), bool))
    return Differences(gone, fresh, new[is_other], labels, embeds)


def changes_between(before: Map, after: Map, labels: Sequence[int] | None = None) -> Json:
    """What changes from one map to another of the same dimension and embeddings; ValueError where these differ."""
    if (before.dimension, before.embeds) != (after.dimension, after.embeds):
        raise ValueError("maps of two dimensions, or with other embeddings, have no changes between them")
    return changes_of(find_differences(before.arrays(), after.arrays()), after, labels)


def changes_of(found: Differences, after: Map, labels: Sequence[int] | None = None, pack: Pack = pack) -> Json:
    """The changes that lead to a map by what differs."""
    chosen, arrays = labels_of(after, labels), after.arrays()
    every = range(after.dimension + 1), list(arrays.values)
    count = len(found.gone) + len(found.fresh) + len(found.other)
    return {
        "gone": pack(found.gone),
        "fresh": packed_rows(arrays, found.fresh, *every, pack),
        "rows": packed_rows(arrays, found.other, found.labels, found.embeds, pack),
        "places": packed_places(after, chosen, pack) if points_of(after, chosen) is None and count else None,
        "next": after.next,
    }


def packed_rows(it: Arrays, rows: Whole, labels: Collection[int], embeds: Collection[str], pack: Pack) -> Json:
    """Rows of a map's darts: their names, those of their neighbours along some labels, and their values of some
    embeddings."""
    return {
        "names": pack(it.names[rows]),
        "alpha": [pack(it.names[step[rows]]) if label in labels else None for label, step in enumerate(it.alpha)],
        "values": {name: pack(table[rows].ravel()) if name in embeds else None for name, table in it.values.items()},
    }
