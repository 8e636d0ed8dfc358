"""Tests of tools/mesh: each format there and back, scales, and the command line."""
import os
import resource
import subprocess
import sys
import tempfile
from collections import Counter
from collections.abc import Iterator
from contextlib import contextmanager
from dataclasses import replace
from fractions import Fraction
from pathlib import Path

from gmr import maps, program
from gmr.arrays import read_arrays
from gmr.mesh.convert import map_mesh, take_mesh
from gmr.mesh.embeds import Colours, embed_plainly
from gmr.mesh.formats import TRIANGLES, VOLUME_FORMATS, list_written, read_mesh, write_mesh, writes_volumes
from gmr.mesh.model import Surface, Unfit, Volume, make_cell, make_polyhedron, place_points
from gmr.mesh.scale import Frame, choose_scale, read_frame, scale_points
from gmr.mesh.surface import Wish
from gmr.mesh.weld import apply_weld, weld_alike

ROOT = Path(__file__).resolve().parents[2]
TOOL = ROOT / "tools" / "mesh"
OPERATIONS = ROOT / "examples" / "operations"
ONE = Fraction(1)
FILE_COLOURS = Colours(is_taken=True)

# A house without a floor: four walls, two slopes of a roof and two gables, with a border of four edges below.
# fmt: off
HOUSE_POINTS = [
    (0, 0, 0), (4, 0, 0), (4, 6, 0), (0, 6, 0), (0, 0, 3), (4, 0, 3), (4, 6, 3), (0, 6, 3), (2, 0, 4.25), (2, 6, 4.25),
]
HOUSE_FACES = [
    (0, 1, 5, 4), (1, 2, 6, 5), (2, 3, 7, 6), (3, 0, 4, 7), (4, 5, 8), (6, 7, 9), (5, 6, 9, 8), (7, 4, 8, 9),
]
HOUSE_COLOURS = [(10 * place, 255 - place, 7) for place in range(8)]

# A hexahedron, a wedge on its side, a pyramid above it and a tetrahedron on that.
CELL_POINTS = [
    (0, 0, 0), (2, 0, 0), (2, 2, 0), (0, 2, 0), (0, 0, 2), (2, 0, 2), (2, 2, 2), (0, 2, 2), (3.5, 0, 1), (3.5, 2, 1),
    (1, 1, 3), (1, -2, 3),
]
# fmt: on
CELLS = [
    make_cell("hexahedron", range(8)),
    make_cell("wedge", (1, 5, 8, 2, 6, 9)),
    make_cell("pyramid", (4, 5, 6, 7, 10)),
    make_cell("tetra", (4, 11, 5, 10)),
]


def house(faces: list[tuple[int, ...]] = HOUSE_FACES, **more: object) -> Surface:
    """The house."""
    return Surface.of(points=HOUSE_POINTS, faces=faces, **more)


def block() -> Volume:
    """The four cells."""
    return Volume.of(points=[tuple(map(float, point)) for point in CELL_POINTS], cells=list(CELLS))


def name_polygon(places: list[tuple]) -> tuple:
    """A polygon's places, whichever way it turns and wherever it begins."""
    turns = [ways[at:] + ways[:at] for ways in (places, places[::-1]) for at in range(len(places))]
    return tuple(min(turns))


def name_elements(mesh: Surface | Volume) -> Counter:
    """The elements of a mesh by their places, whatever their order and that of the points."""
    if isinstance(mesh, Surface):
        return Counter(name_polygon([tuple(map(float, mesh.points[corner])) for corner in face]) for face in mesh.faces)
    return Counter(
        (
            cell.kind,
            frozenset(name_polygon([tuple(map(float, mesh.points[corner])) for corner in face]) for face in cell.faces),
        )
        for cell in mesh.cells
    )


def assert_same(found: Surface | Volume, wanted: Surface | Volume) -> None:
    """The meshes have the same points and elements."""
    assert sorted(tuple(map(float, point)) for point in found.points) == sorted(wanted.points), "points differ"
    assert name_elements(found) == name_elements(wanted), "elements differ"


def make_map(mesh: Surface | Volume, scale: Fraction, colours: Colours = Colours(), wish: Wish = Wish()) -> maps.Map:
    """The map of a mesh at a scale."""
    made, left, _ = map_mesh(mesh, scale_points(mesh, Frame(scale)).points, wish)
    embed_plainly(made, left, colours, ())
    return made.map()


def make_mesh(given: maps.Map, scale: Fraction, has_cells: bool) -> Surface | Volume:
    """The mesh of a map."""
    return take_mesh(read_arrays(given.text().encode()), Frame(scale), has_cells).mesh


def turn(mesh: Surface | Volume, has_cells: bool = True) -> Surface | Volume:
    """The mesh of the map of a mesh."""
    scale = choose_scale(mesh.places)
    return make_mesh(maps.read_map(make_map(mesh, scale, FILE_COLOURS).text()), scale, has_cells)


@contextmanager
def scratch() -> Iterator[Path]:
    """A folder that is there for a while."""
    with tempfile.TemporaryDirectory() as folder:
        yield Path(folder)


def run_tool(*words: object) -> subprocess.CompletedProcess:
    """What the tool does for a command line."""
    return subprocess.run([sys.executable, TOOL, *map(str, words)], capture_output=True, text=True, check=False)


def read_written(name: str, data: str | bytes) -> Surface | Volume:
    """The mesh of a file of this name with this text."""
    with scratch() as folder:
        path = folder / name
        path.write_bytes(data if isinstance(data, bytes) else data.encode())
        return read_mesh(path)


def there_and_back(suffix: str, mesh: Surface | Volume) -> Surface | Volume:
    """The mesh that is read where the map of a mesh was written."""
    with scratch() as folder:
        path = folder / f"mesh{suffix}"
        write_mesh(path, turn(mesh, writes_volumes(path)))
        return read_mesh(path)


# There and back.


def test_surfaces_there_and_back():
    for suffix in list_written():
        if suffix not in TRIANGLES:
            assert_same(there_and_back(suffix, house()), house())


def test_polygons_there_and_back():
    walls = house([(0, 1, 5, 8, 4), (2, 3, 7, 9, 6), (0, 1, 2, 3), (5, 6, 9, 8)])
    for suffix in (".obj", ".off", ".ply", ".vtk", ".vtu"):
        assert_same(there_and_back(suffix, walls), walls)


def test_volumes_there_and_back():
    for suffix in VOLUME_FORMATS:
        without = Volume.of(points=block().points[:-2], cells=CELLS[:2])
        assert_same(there_and_back(suffix, without), without)
        if suffix != ".inp":
            assert_same(there_and_back(suffix, block()), block())


def test_cells_keep_their_corners_in_order():
    found = turn(block())
    assert [cell.kind for cell in found.cells] == ["hexahedron", "wedge", "pyramid", "tetra"]
    for cell, wanted in zip(found.cells, CELLS):
        assert [found.points[at] for at in cell.corners] == [block().points[at] for at in wanted.corners], wanted.kind


def test_cells_inside_out_are_turned():
    mirrored = Volume.of(points=[(x, y, -z) for x, y, z in block().points], cells=CELLS)
    for cell, wanted in zip(turn(mirrored).cells, CELLS):
        assert cell.kind == wanted.kind
    assert_same(turn(mirrored), mirrored)


def test_polyhedra_there_and_back():
    roofed = make_polyhedron([*HOUSE_FACES, (0, 1, 2, 3)])
    both = Volume.of(points=house().points, cells=[roofed])
    assert_same(there_and_back(".vtu", both), both)
    assert name_elements(there_and_back(".vtk", both)) == name_elements(
        Surface.of(points=both.points, faces=list(roofed.faces))
    )


def test_faces_of_a_volume_as_a_surface():
    found = turn(block(), has_cells=False)
    assert Counter(map(len, found.faces)) == {4: 6 + 3 - 1, 3: 2 + 4 + 3}, "each face once"


def test_faces_keep_their_order_and_direction():
    assert turn(house()).faces == HOUSE_FACES or name_elements(turn(house())) == name_elements(house())
    found = turn(house())
    assert [[found.points[at] for at in face] for face in found.faces] == [
        [house().points[at] for at in face] for face in HOUSE_FACES
    ]


def test_faces_are_turned_one_way():
    crooked = house([*HOUSE_FACES[:2], HOUSE_FACES[2][::-1], *HOUSE_FACES[3:]])
    found = turn(crooked)
    sides = Counter(side for face in found.faces for side in zip(face, face[1:] + face[:1]))
    assert max(sides.values()) == 1, "two faces go along one side in the same direction"


def test_a_band_that_is_turned_once():
    band = Surface.of(
        points=[(0.0, 0.0, 0.0), (1.0, 0.0, 0.0), (0.0, 1.0, 0.0), (1.0, 1.0, 1.0), (5.0, 5.0, 5.0)],
        faces=[(0, 1, 2), (1, 2, 3), (2, 3, 4), (3, 4, 0), (4, 0, 1)],
    )
    assert_same(turn(band), band)


def test_stl():
    corners = [HOUSE_POINTS[at] for at in (0, 1, 4, 8)]
    facets = [(0, 1, 2), (0, 1, 3), (1, 2, 3), (2, 0, 3)]
    text = "solid s\n" + "".join(
        "facet normal 0 0 0\nouter loop\n"
        + "".join(f"vertex {' '.join(map(str, corners[at]))}\n" for at in facet)
        + "endloop\nendfacet\n"
        for facet in facets
    )
    found = read_written("solid.stl", text + "endsolid s\n")
    found = apply_weld(found, weld_alike(found))
    assert len(set(found.corners.tolist())) == 4, "corners at one place are one point"
    assert name_elements(found) == name_elements(Surface.of(points=corners, faces=facets))
    assert all(dart != across for dart, across in make_map(found, Fraction(100)).alpha[2].items()), "it is closed"


def test_two_fans_are_two_vertices():
    fans = Surface.of(
        points=[(0.0, 0.0, 0.0), (1.0, 0.0, 0.0), (0.0, 1.0, 0.0), (-1.0, 0.0, 0.0), (0.0, -1.0, 0.0)],
        faces=[(0, 1, 2), (0, 3, 4)],
    )
    made = make_map(fans, ONE)
    assert len(made.cells(0)) == 6 and turn(fans).points.count((0.0, 0.0, 0.0)) == 2


def test_the_library_of_operations_there_and_back():
    turned = 0
    for path in sorted(OPERATIONS.glob("*/*/*.gmap")):
        given = maps.read_map(path.read_text())
        if given.dimension == 1:
            continue
        try:
            mesh = make_mesh(place(given), ONE, has_cells=True)
        except Unfit:
            continue  # it has open faces or cells, or faces of two corners
        try:
            made = make_map(mesh, ONE)
        except Unfit:
            continue  # a face or cell comes to one vertex twice, or more faces share their ends than an edge has
        same = [len(made.cells(cell)) for cell in range(1, given.dimension + 1)]
        assert same == [len(given.cells(cell)) for cell in range(1, given.dimension + 1)], path
        turned += 1
    assert turned > 150, f"{turned} maps alone were turned"


def place(given: maps.Map) -> maps.Map:
    """The map with a place of its own for each vertex, on a curve of which no four points lie in a plane."""
    labels = tuple(range(1, given.dimension + 1))
    values = {}
    for number, vertex in enumerate(given.orbits(labels)):
        values.update(maps.make_values(vertex, (number, number**2, number**3)))
    return maps.Map(
        2,
        given.dimension,
        [maps.Embed("place", labels, "vec3")],
        given.next,
        given.darts,
        given.alpha,
        {"place": values},
    )


def test_points_in_the_plane_are_written_with_0():
    made = make_map(Surface.of(points=house().points, faces=[(0, 1, 2)]), ONE)
    flat = maps.Map(
        2,
        2,
        [maps.Embed("p", (1, 2), "vec2")],
        6,
        made.darts,
        made.alpha,
        {"p": {d: v[:2] for d, v in made.values["pos"].items()}},
    )
    assert make_mesh(flat, Fraction(2), False).points == [(0, 0, 0), (2, 0, 0), (2, 3, 0)]


# Scales.


def test_scales_are_chosen():
    for values, scale in (
        ((1, 2, 3), 1),
        ((0.5, 2, 3), 10),
        ((0.001, 0, 90), 1000),
        ((1 / 3, 0, 1), 10**7),
        ((1 / 3, 0, 500), 10**4),
        ((1e-9, 0, 0), 10**9),
        ((0, 0, 0), 1),
        ((1e12, 0, 0), 1),
    ):
        assert choose_scale(place_points([values])) == scale, values


def test_scales_are_told_kept_and_taken():
    with scratch() as folder:
        model, made, out = folder / "house.ply", folder / "house.gmap", folder / "out.obj"
        write_mesh(model, house(face_colours=HOUSE_COLOURS))
        said = run_tool("import", model, made, "--colours")
        assert (
            said.stdout == "imported points 10 faces 8 darts 60 scale 100 rounding 0 shared 0 unused 0 colours faces\n"
            and said.returncode == 0
        ), said
        assert made.read_text().startswith("# scale 100\ngmap 2\n") and read_frame(made).scale == 100
        assert program.put_or_refuse("show", made) == made.read_text().partition("\n")[2], "the comment is passed over"
        assert run_tool("export", made, out).stdout == "exported points 10 faces 8 scale 100\n"
        assert_same(read_mesh(out), house())
        run_tool("export", made, out, "--scale", "50")
        assert read_mesh(out).points[1] == (8, 0, 0), "a scale that is given goes first"
        said = run_tool("import", model, made, "--scale", "1/2", "--no-check")
        told = "imported points 10 faces 8 darts 60 scale 1/2 rounding 1 shared 0 unused 0\n"
        assert said.stdout == told and read_frame(made).scale == Fraction(1, 2)


def test_whole_numbers_of_any_size_are_written():
    most = 2**63 - 1
    made = make_map(Surface.of(points=[(0.0, 0.0, 0.0), (1.0, 0.0, 0.0), (0.0, 1.0, 0.0)], faces=[(0, 1, 2)]), ONE)
    made = replace(made, values={"pos": {dart: (most, *value[1:]) for dart, value in made.values["pos"].items()}})
    with scratch() as folder:
        write_mesh(folder / "far.obj", make_mesh(made, ONE, False))
        assert f"v {most} 0 0\n" in (folder / "far.obj").read_text()


# The time.

STAND_IN = """#!/bin/sh
grep -v '^#' "$2"
"""


def seconds_of(*words: object, **more: object) -> float:
    """How many seconds of a processor the tool takes for a command line."""
    began = resource.getrusage(resource.RUSAGE_CHILDREN)
    subprocess.run([sys.executable, TOOL, *map(str, words)], capture_output=True, check=True, **more)
    ended = resource.getrusage(resource.RUSAGE_CHILDREN)
    return ended.ru_utime + ended.ru_stime - began.ru_utime - began.ru_stime


def test_fifty_thousand_triangles_take_five_seconds():
    rows, columns = 250, 100
    with scratch() as folder:
        model, made, stand_in = folder / "sheet.obj", folder / "sheet.gmap", folder / "gmr"
        stand_in.write_text(STAND_IN)  # the program's own time isn't this tool's
        stand_in.chmod(0o755)
        points = [(row / 8, column / 8, row * column / 64) for row in range(rows + 1) for column in range(columns + 1)]
        corners = [row * (columns + 1) + column for row in range(rows) for column in range(columns)]
        behind = columns + 1
        halves = [((at, at + 1, at + behind), (at + 1, at + behind + 1, at + behind)) for at in corners]
        write_mesh(model, Surface.of(points=points, faces=[half for both in halves for half in both]))
        more = {"env": {**os.environ, "GMR": str(stand_in)}}
        took = seconds_of("import", model, made, **more), seconds_of("export", made, folder / "sheet.ply", **more)
        assert len(read_mesh(folder / "sheet.ply").faces) == 50_000 and max(took) < 5, took


# The command line.


def test_the_command_line():
    assert run_tool("--help").returncode == 0 and run_tool().returncode == 2
    assert (
        run_tool("import", "a.obj").returncode == 2
        and run_tool("import", "a.obj", "b.gmap", "--scale", "0").returncode == 2
    )
    said = run_tool("export", "a.gmap", "a.xyz")
    assert said.returncode == 1 and said.stderr.startswith(
        "mesh: a.gmap: a.xyz has no suffix of a format that is written: .obj .off"
    )
    said = run_tool("export", "nowhere.gmap", "a.obj")
    assert said.returncode == 1 and said.stderr == "mesh: nowhere.gmap: refused load MAP\n"
    said = run_tool("import", "nowhere.obj", "a.gmap")
    assert said.returncode == 1 and said.stderr == "mesh: nowhere.obj: there is no such file\n"
