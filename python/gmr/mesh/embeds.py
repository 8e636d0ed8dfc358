"""Embeddings that the map of a mesh is to have, as a book wants them."""
from __future__ import annotations

import re
from collections.abc import Sequence
from pathlib import Path
from typing import NamedTuple

import numpy as np

from gmr.books import load_book
from gmr.maps import LEAST_NUMBER, MOST_NUMBER, WIDTHS, Embed
from gmr.mesh.decimals import Whole
from gmr.mesh.mapped import Mapped
from gmr.mesh.model import Paint, Surface, Unfit, Volume

FORM = re.compile(
    r"\s*([A-Za-z][A-Za-z0-9_]*)\s*<([0-9\s]*)>\s*(int|vec2|vec3|rgb)\s*(?:=\s*([-0-9\s()]+?))?\s*", re.ASCII
)
EXAMPLE = "'pick <0 1> int = 0'"
WHITE = (255, 255, 255)


class Wanted(NamedTuple):
    """An embedding that is wanted, and the value that it has everywhere where the mesh has none for it."""

    embed: Embed
    value: tuple[int, ...]


class Colours(NamedTuple):
    """What is wanted of colours: those of the file as 'col', where it has them, or an embedding 'paint' as the library
    of operations has it, with the file's colours of faces or else this one."""

    is_taken: bool = False
    paint: tuple[int, ...] | None = None


def parse_embed(word: str) -> Wanted:
    """The embedding of a word as a map's text has it, with a value or none; ValueError where it is none."""
    found = FORM.fullmatch(word)
    if not found:
        raise ValueError(f"{word!r} is no embedding, which is a name, labels and a kind, as {EXAMPLE}")
    labels = tuple(sorted(map(int, found[2].split())))
    embed = Embed(found[1], labels, found[3])
    width = WIDTHS[embed.kind]
    value = tuple(map(int, re.findall(r"-?[0-9]+", found[4]))) if found[4] else (0,) * width
    most = 255 if embed.kind == "rgb" else MOST_NUMBER
    least = 0 if embed.kind == "rgb" else LEAST_NUMBER
    if len(value) != width or not all(least <= number <= most for number in value):
        raise ValueError(f"{word!r} has no value of the kind {embed.kind}, which has {width} numbers, as {EXAMPLE}")
    if len(set(labels)) < len(labels):
        raise ValueError(f"{word!r} has a label twice")
    return Wanted(embed, value)


def embed_plainly(made: Mapped, mesh: Surface | Volume, colours: Colours, wanted: Sequence[Wanted]) -> None:
    """Gives a map its points, the colours that are wanted, and other embeddings."""
    made.embed_points()
    paint = choose_paint(mesh, colours)
    if paint:
        made.embed_paint(paint)
    for one in wanted:
        if one.embed.name in {embed.name for embed in made.embeds}:
            raise Unfit(f"the map has an embedding {one.embed.name} already")
        check_labels(one.embed, made.dimension)
        made.embed_value(one.embed, one.value)


def check_labels(embed: Embed, dimension: int) -> None:
    """Unfit where an embedding has a label that the map hasn't."""
    if embed.labels and embed.labels[-1] > dimension:
        label = embed.labels[-1]
        raise Unfit(f"the embedding {embed.name} has the label {label}, and the map the dimension {dimension}")


def choose_paint(mesh: Surface | Volume, colours: Colours) -> Paint | None:
    """The colours that the mesh's map is to have."""
    if isinstance(mesh, Volume):
        return Paint("paint", (0, 1, 2), repeat(colours.paint, len(mesh.cells))) if colours.paint else None
    if colours.paint:
        plain = repeat(colours.paint, len(mesh.sizes))
        return Paint("paint", (0, 1), plain if mesh.face_colours is None else mesh.face_colours)
    if colours.is_taken and mesh.face_colours is not None:
        return Paint("col", (0, 1), mesh.face_colours)
    if colours.is_taken and mesh.point_colours is not None:
        return Paint("col", (1, 2), mesh.point_colours)
    return None


def repeat(colour: Sequence[int], count: int) -> Whole:
    """The same colour, `count` times."""
    return np.broadcast_to(np.array(colour, np.int64), (count, len(colour)))


def embed_for_book(
    made: Mapped, mesh: Surface | Volume, book: Path, colours: Colours, wanted: Sequence[Wanted]
) -> None:
    """Gives a map the embeddings of a book, in their order: the points of the mesh, its colours, the values that are
    wanted, and 0 or white where there is none."""
    schema = load_book(book)
    if schema.dimension != made.dimension:
        raise Unfit(f"{book} has the dimension {schema.dimension}, and the mesh makes a map of {made.dimension}")
    given = {one.embed.name: one for one in wanted}
    missing = [name for name in given if name not in {embed.name for embed in schema.embeds}]
    if missing:
        raise Unfit(f"{book} has no embedding {missing[0]}")
    has_points = False
    for embed in schema.embeds:
        own = given.get(embed.name)
        if own and own.embed != embed:
            raise Unfit(f"{book} has the embedding {embed.name} with other labels or of another kind")
        if own is None and not has_points and is_of_points(embed, made.dimension):
            has_points = True
            embed_places(made, embed, book)
            continue
        paint = paint_of(mesh, embed, colours) if own is None else None
        if paint:
            made.embed_paint(paint)
        else:
            made.embed_value(embed, own.value if own else WHITE if embed.kind == "rgb" else (0,) * WIDTHS[embed.kind])


def is_of_points(embed: Embed, dimension: int) -> bool:
    """Whether an embedding is one of points on vertices."""
    return embed.labels == tuple(range(1, dimension + 1)) and embed.kind in ("vec2", "vec3")


def embed_places(made: Mapped, embed: Embed, book: Path) -> None:
    """Gives a map its points as a book has them: in the plane only where all lie in it."""
    if embed.kind == "vec2" and made.points[:, 2].any():
        raise Unfit(f"{book} has points in the plane, and the mesh has such as don't lie in it: --origin moves them")
    made.embed_points(embed.name, embed.kind)


def paint_of(mesh: Surface | Volume, embed: Embed, colours: Colours) -> Paint | None:
    """The colours of a mesh for an embedding of a book, or None."""
    if embed.kind != "rgb" or isinstance(mesh, Volume):
        return None
    if embed.labels == (0, 1) and (colours.paint or mesh.face_colours is not None):
        plain = repeat(colours.paint or WHITE, len(mesh.sizes))
        return Paint(embed.name, embed.labels, plain if mesh.face_colours is None else mesh.face_colours)
    if embed.labels == (1, 2) and mesh.point_colours is not None:
        return Paint(embed.name, embed.labels, mesh.point_colours)
    return None
