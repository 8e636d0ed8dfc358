"""Tests of tools/mesh with the library of operations: each map is exported, imported, run, and exported once more."""
import re
from functools import cache

from gmr import maps, program
from gmr.maps import Map
from gmr.mesh.formats import read_mesh, write_mesh
from gmr.mesh.model import Unfit
from mesh import ONE, OPERATIONS, make_map, make_mesh, place, scratch

# How many operations of each book are run at least; the others' maps are empty or open, or have faces of two corners.
FEWEST_RUN = {"dimension2": 44, "dimension3": 26, "values2": 33, "values3": 16}
HOOKS = re.compile(r"(apply\s+\w+)((?:\s+\d+)*)")


def name_darts(given: Map) -> dict[tuple, int]:
    """The darts of a map by their places: those of their ends, of the face and of the volume."""
    name = given.embeds[0].name
    points = given.values[name]

    def places(labels: tuple[int, ...]) -> dict[int, frozenset]:
        return {dart: frozenset(points[at] for at in orbit) for orbit in given.orbits(labels) for dart in orbit}

    faces, volumes = places((0, 1)), places((0, 1, 2))
    named = {(points[at], points[given.alpha[0][at]], faces[at], volumes[at]): at for at in given.darts}
    if len(named) < len(given.darts):
        raise Unfit("two darts lie at the same places")
    return named


def carry(given: Map) -> tuple[Map, dict[int, int]]:
    """The map of the mesh's file of a map, with the values of that one, and its darts by those of that one."""
    placed = place(given)
    with scratch() as folder:
        path = folder / ("mesh.vtu" if given.dimension == 3 else "mesh.ply")
        write_mesh(path, make_mesh(placed, ONE, has_cells=True))
        made = make_map(read_mesh(path), ONE)
    there = name_darts(made)
    darts = {dart: there[named] for named, dart in name_darts(placed).items()}
    values = {name: {darts[at]: value for at, value in values.items()} for name, values in given.values.items()}
    return Map(made.version, made.dimension, given.embeds, made.next, made.darts, made.alpha, values), darts


def run(book: str, made: Map, script: str) -> tuple[list[str], Map]:
    """The lines of the report, without the last, and the map that is left."""
    with scratch() as folder:
        before, lines, after = folder / "before.gmap", folder / "script.gscript", folder / "after.gmap"
        before.write_text(made.text())
        lines.write_text(script)
        status, report = program.answer("run", before, OPERATIONS / f"{book}.gbook", lines, after)
        assert status in (0, 1), report
        return report.split("\n")[:-2], maps.load_map(after)


@cache
def run_book(book: str) -> int:
    """Runs each operation of a book on its map, out to a file and back in: how many were run."""
    ran = 0
    for folder in sorted(path for path in (OPERATIONS / book).iterdir() if path.is_dir()):
        given = maps.read_map((folder / "before.gmap").read_text())
        try:
            made, darts = carry(given)
        except Unfit:
            continue  # the map is no mesh
        script = HOOKS.sub(
            lambda line: line[1] + "".join(f" {darts.get(int(dart), dart)}" for dart in line[2].split()),
            (folder / "script.gscript").read_text(),
        )
        told, left = run(book, made, script)
        wanted = (folder / "report").read_text().split("\n")[:-2]
        assert told == wanted, f"{folder}: {told}"
        after = maps.read_map((folder / "after.gmap").read_text())
        assert [len(left.cells(cell)) for cell in range(left.dimension + 1)] == [
            len(after.cells(cell)) for cell in range(after.dimension + 1)
        ], folder
        export_left(left)
        ran += 1
    return ran


def export_left(left: Map) -> None:
    """Writes what is left of a run, where it is a mesh."""
    with scratch() as folder:
        try:
            write_mesh(folder / "left.ply", make_mesh(place(left), ONE, has_cells=False))
        except Unfit:
            pass


def test_operations_of_dimension_2():
    assert run_book("dimension2") >= FEWEST_RUN["dimension2"], run_book("dimension2")


def test_operations_of_dimension_3():
    assert run_book("dimension3") >= FEWEST_RUN["dimension3"], run_book("dimension3")


def test_operations_with_values_of_dimension_2():
    assert run_book("values2") >= FEWEST_RUN["values2"], run_book("values2")


def test_operations_with_values_of_dimension_3():
    assert run_book("values3") >= FEWEST_RUN["values3"], run_book("values3")
