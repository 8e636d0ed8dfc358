"""A map as pictures see it, of dimension 1 to 3: its darts, and what gives them places, colours and numbers."""
from collections.abc import Callable, Iterable, Mapping, Sequence
from itertools import product
from pathlib import Path
from typing import NamedTuple

from gmr import maps

Neighbour = Callable[[int, int], int]
Triple = tuple[int, int, int]


class Model(NamedTuple):
    """A map to draw. What no embedding gives is empty."""

    dimension: int
    alpha: Sequence[dict[int, int]]
    points: dict[int, Triple]
    colours: dict[int, Triple]
    numbers: dict[int, int]


def orbits(darts: Iterable[int], neighbour: Neighbour, labels: Iterable[int]) -> list[list[int]]:
    """The orbits over the labels, each a list of its darts in ascending order."""
    seen: set[int] = set()
    found = []
    for dart in darts:
        if dart in seen:
            continue
        orbit = [dart]
        seen.add(dart)
        for reached in orbit:
            near = {neighbour(reached, label) for label in labels} - seen
            orbit += near
            seen |= near
        found.append(sorted(orbit))
    return found


def model_of(it: maps.Map, colours: str | None = None) -> Model:
    """A map to draw: its points are those of the first embedding of kind vec2 or vec3 over vertices, its numbers those
    of the first one of kind int over edges. Its colours are those of the embedding that is named, or of the first one
    of kind rgb over faces or more."""
    labels = range(it.dimension + 1)
    if not 1 <= it.dimension <= 3:
        raise ValueError(f"maps of dimension 1, 2 and 3 are drawn, and this one is of dimension {it.dimension}")
    for label, dart in product(labels, it.darts):
        if it.alpha[label][it.alpha[label][dart]] != dart:
            raise ValueError(f"dart {dart} has no neighbour along label {label} that points back")
    points = it.embed_over(labels[1:], ("vec2", "vec3"))
    numbers = it.embed_over((0, *labels[2:]), ("int",))
    places = triples(it.values[points.name]) if points else {}
    lengths = {dart: sum(parts(value)) for dart, value in it.values[numbers.name].items()} if numbers else {}
    return Model(it.dimension, it.alpha, places, colours_of(it, colours), lengths)


def parts(value: maps.Value) -> tuple[int, ...]:
    """The numbers of a value."""
    return value if isinstance(value, tuple) else (value,)


def triples(values: Mapping[int, maps.Value]) -> dict[int, Triple]:
    """Values of two or three numbers as such of three."""
    padded = ((dart, (*parts(value), 0, 0)) for dart, value in values.items())
    return {dart: (value[0], value[1], value[2]) for dart, value in padded}


def colours_of(it: maps.Map, name: str | None) -> dict[int, Triple]:
    """The colour of each dart by the embedding of this name, or by the first one of kind rgb over faces or more. An
    embedding of another kind is shown by a scale of colours from its least value to its greatest one."""
    if name is None:
        embed = next((one for one in it.embeds if one.kind == "rgb" and {0, 1} <= {*one.labels}), None)
        return triples(it.values[embed.name]) if embed else {}
    embed = next((one for one in it.embeds if one.name == name), None)
    if embed is None:
        raise ValueError(f"the map has no embedding {name}")
    if embed.kind == "rgb":
        return triples(it.values[name])
    sizes = {dart: sum(parts(value)) for dart, value in it.values[name].items()}
    least, most = min(sizes.values(), default=0), max(sizes.values(), default=0)
    return {dart: shade((size - least) / (most - least or 1)) for dart, size in sizes.items()}


def shade(share: float) -> Triple:
    """The colour of a share from 0 to 1, from blue over yellow to red."""
    scale = ((49, 104, 168), (142, 190, 214), (250, 230, 150), (239, 138, 80), (178, 36, 46))
    at = min(int(share * (len(scale) - 1)), len(scale) - 2)
    part = share * (len(scale) - 1) - at
    red, green, blue = (round(one + part * (two - one)) for one, two in zip(scale[at], scale[at + 1]))
    return (red, green, blue)


def load_model(path: str | Path, colours: str | None = None) -> Model:
    """The map of a file, to be drawn. The program isn't asked, so that pictures need no program that is built."""
    return model_of(maps.read_map(Path(path).read_text(encoding="latin-1")), colours)
