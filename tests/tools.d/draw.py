"""Tests of tools/draw, on small maps of the examples and on maps that are made here."""
import math
import re
import subprocess
import sys
import tempfile
import time
from pathlib import Path

from gmr import maps
from gmr.arrays import read_arrays
from gmr.draw import crowd
from gmr.draw.flat import draw
from gmr.draw.model import load_model, model_of
from gmr.draw.order import back_to_front
from gmr.draw.solid import View, faces_of

ROOT = Path(__file__).resolve().parents[2]
LIBRARY = ROOT / "examples" / "operations"
PICTURES = ROOT / "docs" / "pictures" / "operations"
STORED = ("dimension1/dual_1d", "dimension2/flip_edge", "dimension3/prism_3d", "values1/split_edge_at_middle_1d",
          "values2/doo_sabin_at_points", "values3/hexahedra_at_middles")


def run(*words: str | Path) -> tuple[int, bytes, str]:
    """The status of tools/draw at the top of the checkout, its output, and what it says of faults."""
    command = [sys.executable, "tools/draw", *words]
    done = subprocess.run(command, cwd=ROOT, capture_output=True, check=False)
    return done.returncode, done.stdout, done.stderr.decode()


def equal(got, wanted) -> None:
    """Raises where two things differ."""
    if got != wanted:
        raise AssertionError(f"{str(got)[:300]} comes, and not {str(wanted)[:300]}")


def cube(size: int) -> maps.Map:
    """A cube: a dart is a corner, and the axes of an edge and of the normal of a face at it."""
    flags = [(x, y, z, edge, face) for x in (0, 1) for y in (0, 1) for z in (0, 1)
             for edge in range(3) for face in range(3) if face != edge]
    number = {flag: at for at, flag in enumerate(flags)}
    alpha: list[dict[int, int]] = [{}, {}, {}]
    for (*corner, edge, face), dart in number.items():
        across = [1 - part if axis == edge else part for axis, part in enumerate(corner)]
        alpha[0][dart] = number[(*across, edge, face)]
        alpha[1][dart] = number[(*corner, 3 - edge - face, face)]
        alpha[2][dart] = number[(*corner, edge, 3 - edge - face)]
    points = {dart: (x * size, y * size, z * size) for (x, y, z, _, _), dart in number.items()}
    heights = {dart: z for dart, (_, _, z) in points.items()}
    embeds = [maps.Embed("pos", (1, 2), "vec3"), maps.Embed("height", (1, 2), "int")]
    return maps.Map(1, 2, embeds, 48, list(range(48)), alpha, {"pos": points, "height": heights})


def torus(rows: int, columns: int) -> maps.Map:
    """A torus of squares: square s has the darts 8s to 8s + 7, two to each side, as those of a grid."""
    def at(row: int, column: int) -> int:
        return 8 * ((row % rows) * columns + column % columns)

    def place(row: int, column: int) -> tuple[int, int, int]:
        turn, tilt = 2 * math.pi * row / rows, 2 * math.pi * column / columns
        wide = 1000 + 400 * math.cos(tilt)
        return round(wide * math.cos(turn)), round(wide * math.sin(turn)), round(400 * math.sin(tilt))

    alpha: list[dict[int, int]] = [{}, {}, {}]
    points = {}
    for row, column in ((row, column) for row in range(rows) for column in range(columns)):
        here, corners = at(row, column), ((0, 0), (1, 0), (1, 1), (0, 1))
        near = (at(row, column - 1) + 5, at(row + 1, column) + 7, at(row, column + 1) + 1, at(row - 1, column) + 3)
        for dart in range(8):
            down, right = corners[(dart + 1) // 2 % 4]
            alpha[0][here + dart] = here + (dart ^ 1)
            alpha[1][here + dart] = here + (dart + (1 if dart % 2 else -1)) % 8
            alpha[2][here + dart] = near[dart // 2] - dart % 2
            points[here + dart] = place((row + down) % rows, (column + right) % columns)
    darts = sorted(alpha[0])
    return maps.Map(1, 2, [maps.Embed("pos", (1, 2), "vec3")], len(darts), darts, alpha, {"pos": points})


def test_the_pictures_of_the_library_come_out_as_they_are_stored():
    """The same but for less than two pixels, by which what is settled may differ from processor to processor."""
    for folder in (LIBRARY / name for name in STORED):
        models = [(part, load_model(folder / f"{part}.gmap")) for part in ("before", "after")]
        drawn, stored = draw(models), (PICTURES / f"{folder.name}.svg").read_text(encoding="utf-8")
        number = r"-?\d+(?:\.\d+)?"
        equal(re.sub(number, "0", drawn), re.sub(number, "0", stored))
        ways = [abs(float(one) - float(two)) for one, two in zip(re.findall(number, drawn), re.findall(number, stored))]
        equal(max(ways) < 2, True)


def test_a_large_surface_is_drawn_as_triangles():
    """As many triangles as its seen faces have, back to front, in the colours of the faces."""
    it = read_arrays(torus(130, 125).text().encode())
    view = View()
    few = crowd.faces_of(it, view)
    equal(crowd.suits(it, view), True)
    try:
        crowd.MOST_LINES, most = 100, crowd.MOST_LINES
        many = crowd.faces_of(it, view)
    finally:
        crowd.MOST_LINES = most
    equal((many.faces, len(many.triangles), len(many.colours)), (len(few), 2 * len(few), 2 * len(few)))
    for at in (0, len(few) // 2, len(few) - 1):
        corners, colour = few[at].corners, few[at].colour
        equal([tuple(corner) for corner in many.triangles[2 * at].tolist()], corners[:3])
        equal([tuple(corner) for corner in many.triangles[2 * at + 1].tolist()], [corners[0], *corners[2:]])
        equal(tuple(many.colours[2 * at].tolist()), colour)


def test_names_are_written_and_left_out():
    status, printed, _ = run("examples/painted.gmap")
    texts = re.findall(r">([^<>]+)</text>", printed.decode())
    equal((status, texts), (0, [*map(str, range(8)), "α0", "α1", "α2"]))
    status, printed, _ = run("examples/painted.gmap", "--no-names")
    equal((status, re.findall(r">([^<>]+)</text>", printed.decode())), (0, ["α0", "α1", "α2"]))


def test_maps_stand_side_by_side_under_titles():
    status, printed, _ = run("examples/square.gmap", "examples/squares.gmap", "--flat")
    equal((status, re.findall(r">(squares?)</text>", printed.decode())), (0, ["square", "squares"]))
    status, printed, _ = run("examples/square.gmap", "examples/square.gmap", "--titles", "one", "two")
    equal((status, re.findall(r">(one|two)</text>", printed.decode())), (0, ["one", "two"]))


def test_hidden_faces_of_a_solid_are_left_out():
    model = model_of(cube(10))
    equal(len(faces_of(model, View())), 3)
    equal(len(faces_of(model, View(90, -90))), 1)
    equal(len(faces_of(model, View(clear=0.5))), 6)
    for axis in "xyz":
        seen = [model.points[face.dart] for face in faces_of(model, View(90, -90, axis))]
        equal([point["xyz".index(axis)] for point in seen], [10])


def test_what_is_nearer_is_drawn_over_what_is_behind_it():
    floor = [(0.0, 0.0, 0.0), (90.0, 0.0, 0.0), (90.0, 90.0, 9.0), (0.0, 90.0, 9.0)]
    below = [(1.0, 1.0, -1.0), (3.0, 1.0, -1.0), (3.0, 3.0, -1.0), (1.0, 3.0, -1.0)]
    above = [(80.0, 2.0, 1.0), (84.0, 2.0, 1.0), (84.0, 4.0, 1.0), (80.0, 4.0, 1.0)]
    beside = [(99.0, 0.0, 5.0), (95.0, 0.0, 5.0), (95.0, 9.0, 5.0)]
    equal(back_to_front([above, floor, below, beside]), [2, 1, 0, 3])
    for turn in range(3):
        rows = [[floor, below, above][(turn + at) % 3] for at in range(3)]
        equal([rows[at] for at in back_to_front(rows)], [below, floor, above])


def test_the_border_of_volumes_is_seen_or_each_of_them():
    model = load_model(LIBRARY / "values3" / "sew_volumes_midway" / "after.gmap")
    together, apart = (len(faces_of(model, View(apart=share))) for share in (0, 0.2))
    equal((together, apart), (5, 6))


def test_colours_are_those_of_an_embedding():
    model = model_of(cube(10), "height")
    colours = {model.points[dart][2]: model.colours[dart] for dart in model.alpha[0]}
    equal(colours, {0: (49, 104, 168), 10: (178, 36, 46)})
    top = faces_of(model, View(90, -90))[0]
    equal(top.colour[0] > top.colour[2], True)


def test_solids_are_drawn_in_each_form_and_again_the_same():
    with tempfile.TemporaryDirectory() as folder:
        path = Path(folder) / "cube.gmap"
        path.write_text(cube(10).text(), encoding="ascii")
        for form, begin in (("png", b"\x89PNG"), ("svg", b"<?xml"), ("pdf", b"%PDF")):
            picture = Path(folder) / f"cube.{form}"
            equal(run(path, picture, "--solid"), (0, b"", ""))
            equal(picture.read_bytes()[: len(begin)], begin)
        equal(run(path, "--solid"), (0, (Path(folder) / "cube.svg").read_bytes(), ""))


def test_two_thousand_faces_are_drawn_as_a_solid_without_names():
    with tempfile.TemporaryDirectory() as folder:
        path = Path(folder) / "torus.gmap"
        path.write_text(torus(50, 40).text(), encoding="ascii")
        began = time.monotonic()
        status, printed, _ = run(path)
        equal((status, printed.count(b"<text"), 800 < printed.count(b"<path") < 1400), (0, 0, True))
        equal(time.monotonic() - began < 90, True)


def test_what_cannot_be_drawn_is_one_line():
    for words in ("examples/square.gmap --solid", "examples/edge.gmap --solid", "examples/painted.gmap x.png",
                  "examples/broken.gmap", "examples/painted.gmap --colours none", "README.md", "none.gmap"):
        status, printed, said = run(*words.split())
        equal((words, status, printed, said.count("\n")), (words, 1, b"", 1))
    equal(run()[0], 2)
    equal(run("examples/square.gmap", "--titles", "one", "two")[0], 2)
    equal(run("--help")[0], 0)
