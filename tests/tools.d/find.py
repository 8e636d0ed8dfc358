"""Tests of tools/find, on small maps of the examples."""
import json
import math
import subprocess
import sys
from pathlib import Path

from gmr import maps
from gmr.find.finder import Finder, Spot
from gmr.distances import holds_within, normal_of, to_polygon, to_segment, turns_round

ROOT = Path(__file__).resolve().parents[2]
SQUARE = "examples/painted.gmap"
HEXAHEDRA = "examples/operations/values3/hexahedra_at_middles/after.gmap"
CUBE = [[(x, y, z) for x, y in ((0, 0), (4, 0), (4, 4), (0, 4))] for z in (0, 4)]


def find(*words: str) -> tuple[int, str, str]:
    """The status of tools/find at the top of the checkout, its output, and what it says of faults."""
    done = subprocess.run([sys.executable, "tools/find", *words], cwd=ROOT, capture_output=True, text=True, check=False)
    return done.returncode, done.stdout, done.stderr


def read(name: str) -> maps.Map:
    """A map of the examples."""
    return maps.read_map((ROOT / name).read_text(encoding="latin-1"))


def equal(got, wanted) -> None:
    """Raises where two things differ."""
    if got != wanted:
        raise AssertionError(f"{got!r} comes, and not {wanted!r}")


def test_a_vertex_at_a_point_and_near_it():
    finder = Finder(read(SQUARE))
    for place, distance in (((10.0, 0.0, 0.0), 0.0), ((13.0, -4.0, 0.0), 5.0)):
        (vertex,) = finder.nearest(Spot(0, place))
        equal((vertex.dart, sorted(vertex.darts), vertex.distance), (1, [1, 2], distance))


def test_an_edge_by_a_point_off_it():
    (edge,) = Finder(read(SQUARE)).nearest(Spot(1, (5.0, 11.0, 0.0)))
    equal((edge.dart, sorted(edge.darts), edge.distance), (4, [4, 5], 1.0))


def test_cells_that_are_equally_near_are_all_found():
    edges = Finder(read(SQUARE)).nearest(Spot(1, (5.0, 5.0, 0.0)))
    equal([edge.dart for edge in edges], [0, 2, 4, 6])


def test_a_face_holds_what_lies_on_it():
    (face,) = Finder(read(SQUARE)).nearest(Spot(2, (3.0, 4.0, 7.0)))
    equal((face.darts, face.distance), (list(range(8)), 7.0))
    equal(face.values["pos"], [(0, 0), (10, 0), (10, 10), (0, 10)])


def test_a_volume_holds_what_lies_within():
    it = read(HEXAHEDRA)
    finder = Finder(it)
    points = finder.points()
    for volume in it.orbits((0, 1, 2)):
        corners = {points[dart] for dart in volume}
        middle = tuple(sum(numbers) / len(corners) for numbers in zip(*corners))
        (found,) = finder.nearest(Spot(3, middle))
        equal((found.dart, found.distance), (volume[0], 0.0))


def test_what_several_cells_have_in_common():
    status, printed, _ = find(SQUARE, "--vertex", "0", "0", "--edge", "5", "0", "--lead")
    equal((status, printed), (0, "0\n"))


def test_every_list_has_each_dart_once():
    it = read(HEXAHEDRA)
    for cell in range(4):
        found = Finder(it).all_of(cell)
        equal(sorted(dart for one in found for dart in one.darts), it.darts)
        equal([one.dart for one in found], [orbit[0] for orbit in it.cells(cell)])


def test_a_list_has_each_cell_as_it_is_found_alone():
    for name in (SQUARE, HEXAHEDRA, "examples/squares.gmap"):
        it = read(name)
        for free in (None, 2):
            finder = Finder(it, None, free)
            for cell in range(it.dimension + 1):
                alone = [one for orbit in it.cells(cell) for one in Finder(it, None, free).cell_of(cell, orbit[0])]
                equal(finder.all_of(cell), alone)
                assert all(type(dart) is int for one in alone for dart in one.darts)


def test_an_orbit_goes_as_the_program_walks():
    status, printed, _ = find(SQUARE, "--orbit", "0 1", "3", "--json")
    equal((status, json.loads(printed)[0]["darts"]), (0, [3, 2, 4, 1, 5, 0, 6, 7]))


def test_the_cell_of_a_dart():
    status, printed, _ = find(SQUARE, "--of", "3", "--cell", "1")
    wanted = "edge of dart 3: darts 3 2, vertices 2, edges 1, faces 1, pos (10 10) (10 0), paint (200 30 30)\n"
    equal((status, printed), (0, wanted))


def test_a_script_is_written():
    form = "apply move {dart} with {pos} # {number}"
    status, printed, _ = find(SQUARE, "--list", "0", "--script", form)
    lines = [f"apply move {dart} with {at} # {number}\n" for number, (dart, at) in enumerate(
        ((0, "(0 0)"), (1, "(10 0)"), (3, "(10 10)"), (5, "(0 10)")))]
    equal((status, printed), (0, "".join(lines)))


def test_only_free_darts_and_only_some_values():
    border = find("examples/squares.gmap", "--list", "1", "--free", "2", "--lead")
    equal(border[1].split(), "0 2 4 6 8 10 12 14".split())
    equal(find("examples/squares.gmap", "--list", "1", "--free", "1")[0], 1)
    equal(find(SQUARE, "--list", "2", "--where", "paint=(200 30 30)", "--lead")[1], "0\n")
    status, printed, said = find(SQUARE, "--list", "2", "--where", "paint=(1 2 3)", "--lead")
    equal((status, printed, said), (1, "", "find: nothing that was asked for is there\n"))


def test_the_parts_of_a_map_are_found():
    equal(find("examples/squares.gmap", "--parts", "--lead"), (0, "0\n8\n", ""))
    equal(Finder(read("examples/squares.gmap")).parts()[1].darts, list(range(8, 16)))


def test_places_are_scaled_and_bounded():
    words = ("--at", "0.01", "0.0101", "--scale", "1000", "--lead")
    equal(find(SQUARE, *words)[1], "3\n")
    equal(find(SQUARE, *words, "--within", "0.0002")[1], "3\n")
    equal(find(SQUARE, *words, "--within", "0.00001")[0], 1)


def test_what_cannot_be_found_is_one_line():
    equal(find("examples/torn.gmap", "--list", "2"), (1, "", "find: examples/torn.gmap: refused MAP embedding pos darts 5 6\n"))
    for words in ("--of 99", "--list 3", "--list 2 --script {x}", "--at 0 0 --points paint", "--orbit 0 x", "--orbit 7 0"):
        status, printed, said = find(SQUARE, *words.split())
        equal((status, printed, said.count("\n")), (1, "", 1))
    equal(find("examples/square.gmap", "--at", "0", "0")[0], 1)
    equal(find(SQUARE)[0], 2)
    equal(find(SQUARE, "--at", "1")[0], 2)
    equal(find("--help")[0], 0)


def test_distances_to_shapes():
    bend = [(0.0, 0.0, 0.0), (6.0, 0.0, 0.0), (6.0, 6.0, 0.0), (4.0, 6.0, 0.0), (4.0, 2.0, 0.0), (0.0, 2.0, 0.0)]
    equal(to_segment((1.0, 1.0, 0.0), bend[0], bend[1]), 1.0)
    equal([holds_within(place, bend, normal_of(bend)) for place in ((1.0, 1.0, 9.0), (1.0, 5.0, 0.0))], [True, False])
    equal([to_polygon(place, bend) for place in ((1.0, 1.0, 3.0), (2.0, 4.0, 0.0))], [3.0, 2.0])
    low, high = CUBE
    sides = [[low[at], low[at - 1], high[at - 1], high[at]] for at in range(4)]
    cube = [low, high[::-1], *(side for side in sides)]
    equal([round(abs(turns_round(place, cube))) for place in ((2.0, 2.0, 3.0), (2.0, 2.0, 5.0))], [1, 0])
    equal(math.isclose(abs(turns_round((1.0, 3.0, 1.0), cube)), 1.0), True)
