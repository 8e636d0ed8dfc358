"""What the tools do, as functions: over maps and books as objects or as files."""
from __future__ import annotations

import os
import tempfile
from collections.abc import Iterator, Sequence
from contextlib import contextmanager
from io import BytesIO
from pathlib import Path
from typing import TYPE_CHECKING, NamedTuple

from gmr import program
from gmr.books import Book, load_book, read_book
from gmr.distances import place_of
from gmr.draw import flat, solid
from gmr.draw.model import Model as Drawn, model_of
from gmr.draw.solid import View
from gmr.errors import told_with
from gmr.files import write_whole
from gmr.find.finder import CELLS, Finder, Found, Spot
from gmr.infer.example import compare
from gmr.infer.inference import infer as infer_rule, write_book
from gmr.maps import Map, load_map, read_map
from gmr.why.rules import tell_rule

if TYPE_CHECKING:
    from gmr.model import Model

Name = str | os.PathLike[str]


class Counts(NamedTuple):
    """What `gmr cells` tells of a map: how many darts, cells of each dimension and components it has, how many darts
    are free along each label, and whether it can be oriented: then the darts of the first colour, else none."""

    darts: int
    cells: tuple[int, ...]
    components: int
    free: tuple[int, ...]
    is_orientable: bool
    first: tuple[int, ...]


class Inferred(NamedTuple):
    """A rule that was made of an example: a book that has it, and the script that makes the map after."""

    book: Book
    script: str


class Reason(NamedTuple):
    """Why a line of a script, or a rule of a book, is refused: its number from 1 or its name, the cause, and why."""

    place: str
    cause: str
    sentences: tuple[str, ...]


class Picture(NamedTuple):
    """A picture: its form, as 'svg', and its bytes. A notebook shows it."""

    form: str
    content: bytes

    def save(self, path: Name) -> None:
        """Writes it into a file, whole or not at all."""
        write_whole(path, self.content)

    def _repr_svg_(self) -> str | None:
        return self.content.decode("utf-8") if self.form == "svg" else None

    def _repr_png_(self) -> bytes | None:
        return self.content if self.form == "png" else None


def map_of(given: Map | Model | Name) -> Map:
    """The map of an object, a model or a file."""
    if isinstance(given, Map):
        return given
    if isinstance(given, (str, os.PathLike)):
        return load_map(given)
    return given.map


def book_of(given: Book | Name) -> Book:
    """The book of an object or a file."""
    return given if isinstance(given, Book) else load_book(given)


@contextmanager
def write_files(**texts: str) -> Iterator[dict[str, Path]]:
    """Files of texts, which are gone at the end."""
    with tempfile.TemporaryDirectory(prefix="gmr-") as folder:
        paths = {name: Path(folder, name) for name in texts}
        for name, text in texts.items():
            paths[name].write_bytes(text.encode("latin-1"))
        yield paths


def cells(given: Map | Model | Name) -> Counts:
    """The numbers of a map, as the program counts them; Refused where it takes no such map."""
    with write_files(map=map_of(given).text()) as paths:
        lines = [line.split() for line in program.put_or_refuse("cells", paths["map"]).splitlines()]
    told = {words[0]: words[1:] for words in lines}
    of_cells = tuple(int(words[2]) for words in lines if words[0] == "cells")
    free = tuple(int(words[2]) for words in lines if words[0] == "free")
    first = tuple(map(int, told.get("first", [])))
    return Counts(int(told["darts"][0]), of_cells, int(told["components"][0]), free, "first" in told, first)


def dual(given: Map | Model | Name, book: Book | Name) -> tuple[Map, Book]:
    """The duals of a map and of a book: each label i is n - i. Refused where the program takes one not."""
    with write_files(map=map_of(given).text(), book=book_of(book).text) as paths:
        text = program.put_or_refuse("dual", paths["map"], paths["book"])
    begin = text.index("\nbook ") + 1
    return read_map(text[:begin]), read_book(text[begin:])


def find(
    given: Map | Model | Name, *, cell: str | int = "vertex", near: Sequence[float] | None = None,
    of: int | None = None, orbit: tuple[Sequence[int], int] | None = None, free: int | None = None,
    within: float | None = None,
) -> list[Found]:
    """Cells of a map as `tools/find` finds them: those of a dimension nearest to a place in the map's numbers, that of
    a dart, the orbit of a dart over labels, or else all of the dimension. ValueError where the map has none such."""
    finder = Finder(map_of(given), None, free)
    dimension = CELLS.index(cell) if isinstance(cell, str) else cell
    if near is not None:
        return finder.nearest(Spot(dimension, place_of(near)), within)
    if of is not None:
        return finder.cell_of(dimension, of)
    return finder.all_of(dimension) if orbit is None else finder.orbit_of(*orbit)


def infer(
    before: Map | Model | Name, after: Map | Model | Name, *, hook: int | None = None,
    orbit: Sequence[int] | None = None, name: str = "operation",
    also: Sequence[tuple[Map | Model | Name, Map | Model | Name, Sequence[int]]] = (),
) -> Inferred:
    """A rule that makes the map after of the map before, certified by the program; NoRule where none is found.

    hook: the dart of the first hook. orbit: the labels that are walked from it. also: further examples of the same
    operation, each with the darts of its hooks."""
    example = compare(map_of(before), map_of(after))
    further = [(compare(map_of(one), map_of(other)), tuple(hooks)) for one, other, hooks in also]
    candidate = infer_rule(example, further, None if orbit is None else [tuple(orbit)], hook, name)
    return Inferred(read_book(write_book(example, candidate, name)), candidate.script(name))


def why(given: Map | Model | Name | Book, book: Book | Name | None = None, script: str = "") -> list[Reason]:
    """Why lines of a script over a map and under a book are refused, or rules of a book alone; empty where none is."""
    if book is None:
        alone = given if isinstance(given, Book) else book_of(given) if isinstance(given, (str, os.PathLike)) else None
        if alone is None:
            raise ValueError("say a map, a book and a script, or a book alone")
        return [Reason(verdict.rule, verdict.fault, tuple(tell_rule(alone.rule(verdict.rule), alone.dimension,
                                                                    verdict.fault)))
                for verdict in alone.check() if not verdict.is_accepted]
    from gmr.model import Model
    if isinstance(given, Book):
        raise ValueError("say a map, a book and a script, or a book alone")
    with write_files(map=map_of(given).text()) as paths:
        outcomes = Model.load(paths["map"], book).run_lines(script)
    return [Reason(str(outcome.begin + 1), outcome.cause, tuple(outcome.sentences))
            for outcome in outcomes if outcome.cause]


def draw(
    *given: Map | Model | Name, solid_faces: bool | None = None, names: bool | None = None,
    titles: Sequence[str | None] | None = None, colours: str | None = None, form: str = "svg",
    view: tuple[float, float] | None = None, apart: float = 0, size: float = 5, columns: int = 4,
) -> Picture:
    """A picture of maps side by side: flat, with all darts, or with `solid_faces` as faces with hidden surfaces.

    names: with the names of darts, else where there is room. colours: the embedding that colours faces. view: from how
    many degrees above and how many round. apart: by which share volumes are smaller. ValueError where a map can't be
    drawn so; Missing where matplotlib isn't installed, which draws faces."""
    drawn: list[tuple[str | None, Drawn]] = []
    for place, one in enumerate(given):
        with told_with(one) if isinstance(one, (str, os.PathLike)) else write_files():
            drawn.append((titles[place] if titles else None, model_of(map_of(one), colours)))
    if not solid_faces:
        if form != "svg":
            raise ValueError(f"a flat picture is svg, and no {form}")
        return Picture(form, flat.draw(drawn, names).encode("utf-8"))
    picture = BytesIO()
    above, turn = view or (25, -60)
    solid.draw(drawn, View(above, turn, "z", apart, 0, columns, size, names), picture, form)
    return Picture(form, picture.getvalue())
