"""Measures of the stored pictures of the library's operations, and that before and after share one layout."""
from functools import cache
from pathlib import Path

from gmr.draw.layout import Sheet
from gmr.draw.measures import FAR, Measures, measure
from gmr.draw.model import load_model
from gmr.draw.page import HIGH, WIDE
from gmr.draw.together import lay_together

ROOT = Path(__file__).resolve().parents[2]
LIBRARY = ROOT / "examples" / "operations"
PICTURES = ROOT / "docs" / "pictures" / "operations"
MOST_CROSSINGS, NEAR = 235, 1.0


@cache
def measured() -> dict[str, Measures]:
    """The measures of each stored picture."""
    return {path.stem: measure(path.read_text(encoding="utf-8")) for path in sorted(PICTURES.glob("*.svg"))}


def test_each_operation_has_a_picture() -> None:
    """No more, and no less."""
    assert sorted(measured()) == sorted(folder.name for folder in LIBRARY.glob("*/*/"))


def test_names_stand_apart() -> None:
    """No two names touch, nor are nearer than a letter is high."""
    found = {name: one.touching for name, one in measured().items() if one.touching or one.nearest < NEAR}
    assert not found, found


def test_links_are_short() -> None:
    """No link is longer than three times the median of its label."""
    found = {name: one.longest for name, one in measured().items() if one.longest > FAR}
    assert not found, found


def test_few_links_cross() -> None:
    """So few links cross in all pictures; the ten worst are told where it is more."""
    worst = sorted(((one.crossings, name) for name, one in measured().items()), reverse=True)[:10]
    assert sum(one.crossings for one in measured().values()) <= MOST_CROSSINGS, worst


def test_pictures_fit_a_page() -> None:
    """No picture is wider or higher than a page."""
    found = {name: one[:2] for name, one in measured().items() if one.wide > WIDE or one.high > HIGH}
    assert not found, found


def laid(name: str) -> list[dict[int, tuple[complex, complex]]]:
    """Where the darts of an operation's maps lie before and after it: their vertices, and the middles of edges."""
    [folder] = LIBRARY.glob(f"*/{name}")
    sheets: list[list[Sheet]] = lay_together([load_model(folder / f"{part}.gmap") for part in ("before", "after")])
    return [{dart: spot[:2] for sheet in one for dart, spot in sheet.spots.items()} for one in sheets]


def test_what_stays_lies_where_it_lay() -> None:
    """Vertices that stay don't move by more than a twentieth of an edge, whatever is put between them."""
    for name in ("triangulate_face_2d", "split_edge_2d", "insert_edge_2d", "flip_edge", "catmull_clark", "cut_face",
                 "truncate_vertex_2d", "unsew_along_0_2d", "unsew_along_1_2d", "remove_face_2d", "cut_edge",
                 "unsew_along_1_1d", "extend_path", "truncate_vertex_3d", "sew_volumes_that_touch"):
        before, after = laid(name)
        ways = sorted(abs(after[dart][0] - before[dart][0]) for dart in before.keys() & after.keys())
        assert ways[len(ways) // 2] < 0.05, (name, ways[len(ways) // 2])
