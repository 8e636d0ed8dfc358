"""Maps, books and selections as objects: what they give, that the program judges them, and what is told."""
from pathlib import Path

import numpy as np
import pytest

import gmr

EXAMPLES = Path(__file__).resolve().parents[2] / "examples"
FLIP = EXAMPLES / "operations" / "dimension2" / "flip_edge"


@pytest.fixture(name="model", scope="module")
def load_model() -> gmr.Model:
    """A painted square, one edge of which is split: five corners, and a border all around."""
    model = gmr.Model.load(EXAMPLES / "painted.gmap", book=EXAMPLES / "points.gbook")
    model.apply("split", at=0)
    return model.now()


def test_selections(model: gmr.Model) -> None:
    """Each way to choose cells gives those of which it is true by the map's own numbers, and several together both."""
    amap = model.map
    edges, points = amap.cells(1), amap.values["pos"]
    free = [edge for edge in edges if any(amap.alpha[2][dart] == dart for dart in edge)]
    assert [list(edge.darts) for edge in model.edges()] == edges
    assert [list(edge.darts) for edge in model.edges(where="border")] == free
    assert [list(edge.darts) for edge in model.edges(free=2)] == free
    for count in range(4, 7):
        wanted = [face for face in amap.cells(2) if len(amap.orbits((1, 2), face)) == count]
        assert [list(face.darts) for face in model.faces(corners=count)] == wanted
    colour = amap.values["paint"][0]
    wanted = [face for face in amap.cells(2) if amap.values["paint"][face[0]] == colour]
    assert [list(face.darts) for face in model.faces(value={"paint": colour})] == wanted
    corner = points[0]
    assert isinstance(corner, tuple)
    assert {points[vertex.dart] for vertex in model.vertices(near=corner)} == {corner}
    assert len(model.vertices(near=corner, within=1e9)) == len(amap.cells(0))
    chosen = model.edges(where=lambda edge: edge.dart > 0, free=2)
    assert [list(edge.darts) for edge in chosen] == [edge for edge in free if edge[0] > 0]
    for make in (lambda: model.edges(where="inner"), lambda: model.edges(free=3), lambda: model.cells(3),
                 lambda: model.faces(value={"colour": 1}), lambda: model.vertex(dart=10**6)):
        with pytest.raises(ValueError):
            make()


def test_views_are_read_only(model: gmr.Model) -> None:
    """Arrays agree with the dictionaries by dart, share their room from call to call, and can't be written."""
    amap = model.map
    for view in (amap.darts, amap.alpha(0), amap.values("pos"), amap.points):
        assert isinstance(view, np.ndarray) and not view.flags.writeable
        with pytest.raises(ValueError):
            view[0] = 1
    assert np.shares_memory(amap.alpha(1), amap.alpha(1)) and np.shares_memory(amap.points, amap.values("pos"))
    assert amap.alpha(1).tolist() == [amap.alpha[1][dart] for dart in amap.darts]
    assert [tuple(point) for point in amap.points.tolist()] == [amap.values["pos"][dart] for dart in amap.darts]


def test_from_arrays(model: gmr.Model) -> None:
    """A map's arrays make the same map; what is none is refused by the program, and shapes that don't agree at once."""
    amap = model.map
    alpha = np.stack([amap.alpha(label) for label in range(3)])
    values = {embed.name: amap.values(embed.name) for embed in amap.embeds}
    made = gmr.Map.from_arrays(alpha, amap.embeds, values, amap.darts, amap.next)
    assert made.text() == amap.text()
    broken = alpha.copy()
    broken[0, 0] = broken[0, 2]
    with pytest.raises(gmr.Refused):
        gmr.Map.from_arrays(broken, amap.embeds, values, amap.darts, amap.next)
    with pytest.raises(ValueError):
        gmr.Map.from_arrays(alpha, amap.embeds, {"pos": values["pos"][1:], "paint": values["paint"]})


def test_books(model: gmr.Model) -> None:
    """A book is taken apart and joined, prints its canonical text, and is checked rule by rule."""
    book = model.book
    apart = [book.take(rule.name) for rule in book.rules]
    again = apart[0].join(*apart[1:])
    assert again.canonical() == book.canonical()
    assert "".join(rule.canonical() for rule in again.rules) in book.canonical().replace("\n\n", "\n")
    assert gmr.Book.make(2, book.embeds, [str(rule) for rule in book.rules]).canonical() == book.canonical()
    assert all(verdict.is_accepted for verdict in book.check())
    wrong = book.join("rule lone left a <0> hook right a <0 1>").check()[-1]
    assert (wrong.rule, wrong.is_accepted, wrong.fault) == ("lone", False, "word-length a") and wrong.sentences
    for make in (lambda: book.take("none"), lambda: book.join(book), lambda: gmr.Book.make(2, (), ["rule"]),
                 lambda: book.join(gmr.Book.make(3))):
        with pytest.raises(ValueError):
            make()


def test_functions(model: gmr.Model, tmp_path: Path) -> None:
    """The tools as functions, over objects and over files: cells, duals, places, reasons, pictures, rules."""
    assert gmr.cells(model).darts == len(model.map.darts)
    assert gmr.cells(EXAMPLES / "painted.gmap").cells == gmr.cells(model.first).cells
    amap, book = gmr.dual(model, model.book)
    twice = gmr.dual(amap, book)
    assert twice[0].text() == model.map.text() and twice[1].canonical() == model.book.canonical()
    assert [one.dart for one in gmr.find(model, cell="edge", free=2)] == model.edges(free=2).darts
    (reason,) = gmr.why(model, model.book, "apply split 99999")
    assert reason.cause.startswith("no-dart") and reason.sentences
    gmr.draw(model, model.first).save(tmp_path / "both.svg")
    assert (tmp_path / "both.svg").read_text(encoding="utf-8").lstrip().startswith("<")
    made = gmr.infer(FLIP / "before.gmap", FLIP / "after.gmap", name="flip")
    again = gmr.Model.load(FLIP / "before.gmap", book=made.book)
    assert all(outcome.done for outcome in again.run_lines(made.script))
    assert again.map.text() == gmr.Model.load(FLIP / "after.gmap").map.text()


def test_a_save_that_fails(tmp_path: Path) -> None:
    """A save where a folder stands is an error, and leaves nothing beside it."""
    model = gmr.Model.load(EXAMPLES / "cube.obj")
    folder = tmp_path / "there"
    folder.mkdir()
    with pytest.raises(OSError):
        model.save(folder)
    assert not list(folder.iterdir()) and sorted(tmp_path.iterdir()) == [folder]
