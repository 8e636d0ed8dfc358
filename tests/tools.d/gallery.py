"""Tests of the gallery: each of its scripts is run, and its cells counted by Euler's formula and by what was done."""
import re
import subprocess
import tempfile
from collections.abc import Callable
from pathlib import Path

from gmr import maps
from gmr.mesh.formats import read_mesh
from gmr.mesh.model import Volume
from gmr.program import answer

ROOT = Path(__file__).resolve().parents[2]
GALLERY = ROOT / "examples" / "gallery"
PAGE = ROOT / "docs" / "GALLERY.md"

Counts = tuple[int, ...]  # vertices, edges, faces, and volumes in dimension 3


def subdivide_by_corners(counts: Counts, sides: int) -> Counts:
    """A quad for each corner of a face, of which there are as many as sides."""
    vertices, edges, faces = counts
    return vertices + edges + faces, 2 * edges + sides, sides


def extrude_all(counts: Counts, sides: int) -> Counts:
    """A wall for each side of each face, and a copy of each corner."""
    vertices, edges, faces = counts
    return vertices + sides, edges + 2 * sides, faces + sides


def make_jack(counts: Counts, sides: int) -> Counts:
    """All faces extruded, and then twice a quad for each corner; all faces are quads."""
    for step in (extrude_all, subdivide_by_corners, subdivide_by_corners):
        counts = step(counts, sides)
        sides = 4 * counts[2]
    return counts


def split_triangles_twice(counts: Counts, _: int) -> Counts:
    """Twice four triangles for each."""
    for _ in range(2):
        vertices, edges, faces = counts
        counts = vertices + edges, 2 * edges + 3 * faces, 4 * faces
    return counts


def chamfer(counts: Counts, sides: int) -> Counts:
    """A hexagon for each edge, between faces with corners of their own."""
    vertices, edges, faces = counts
    return vertices + sides, 4 * edges, faces + edges


def dualise(counts: Counts, _: int) -> Counts:
    """Vertices and faces change places."""
    return counts[::-1]


def put_pyramids(counts: Counts, sides: int) -> Counts:
    """A triangle for each side of a face, and a top for each."""
    vertices, edges, faces = counts
    return vertices + faces, edges + sides, sides


def truncate(counts: Counts, _: int) -> Counts:
    """Two vertices on each edge, and a face for each vertex."""
    vertices, edges, faces = counts
    return 2 * edges, 3 * edges, vertices + faces


def separate(counts: Counts, sides: int) -> Counts:
    """Faces with corners of their own, and a face for each edge and each vertex."""
    return sides, 2 * sides, sum(counts)


def split_tetrahedra(counts: Counts, sides: int) -> Counts:
    """A hexahedron for each corner of a tetrahedron; `sides` counts those of faces, each face once."""
    vertices, edges, faces, cells = counts
    return sum(counts), 2 * edges + sides + 4 * cells, sides + 6 * cells, 4 * cells


def extrude_and_star(counts: Counts, _: int) -> Counts:
    """Four faces extruded, and each hexahedron cut into six pyramids."""
    vertices, edges, faces, cells = (count + 4 * more for count, more in zip(counts, (4, 8, 5, 1)))
    return vertices + cells, edges + 8 * cells, faces + 12 * cells, 6 * cells


EULER = {"two_spheres": 4, "sphere_with_hole": 1, "torus": 0, "ball": 0, "beam": 1}  # and 2 for a sphere, as the others


def run_script(name: str, done: Callable[[Counts, int], Counts]) -> None:
    """Runs a script of the gallery, and compares what it tells and leaves."""
    with tempfile.TemporaryDirectory() as folder:
        said = subprocess.run([GALLERY / name, folder], capture_output=True, text=True, check=False)
        assert said.returncode == 0, said.stderr or said.stdout
        counted = re.findall(r"^cells ([\d ]+) euler (-?\d+)$", said.stdout, re.MULTILINE)
        counts = [tuple(map(int, cells.split())) for cells, _ in counted]
        assert {int(euler) for _, euler in counted} == {EULER.get(name, 2)}, counted
        darts = int(re.search(r"^imported .* darts (\d+) ", said.stdout, re.MULTILINE)[1])
        sides = 3 * counts[0][2] if len(counts[0]) == 4 else darts // 2
        assert counts[-1] == done(counts[0], sides), (counts[0], counts[-1], done(counts[0], sides))
        for cells in (counts[0], counts[-1]):
            assert f"| {' '.join(map(str, cells))} |" in line_of(name), f"docs/GALLERY.md has other counts than {cells}"
        left = read_mesh(next(path for path in Path(folder).glob(f"{name}.*") if path.suffix in (".ply", ".vtu")))
        assert len(left.cells if isinstance(left, Volume) else left.faces) == counts[-1][-1], "what is exported"


def line_of(name: str) -> str:
    """The line of a script in the page's table."""
    return next(line for line in PAGE.read_text().split("\n") if line.startswith(f"| [`{name}`]"))


def test_cube():
    run_script("cube", make_jack)


def test_sphere_with_hole():
    run_script("sphere_with_hole", split_triangles_twice)


def test_the_border_is_settled_as_a_curve():
    """Old vertices of a border come to an eighth, three quarters and an eighth, and new ones lie in the middle."""
    book, fan = GALLERY / "border.gbook", ROOT / "examples" / "operations" / "values2" / "loop_at_points" / "before.gmap"
    old = maps.read_map(fan.read_text())
    zeros = {"near": (0, 0, 0), "rim": (0, 0, 0), "open": 0}
    kinds = {"near": "vec3", "rim": "vec3", "open": "int"}
    embeds = [*old.embeds, *(maps.Embed(name, (), kinds[name]) for name in zeros)]
    values = {name: dict(old.values[name]) for name in ("pos", "paint")}
    values |= {name: dict.fromkeys(old.darts, zero) for name, zero in zeros.items()}
    with tempfile.TemporaryDirectory() as folder:
        before, script, after = (Path(folder, name) for name in ("before.gmap", "script.gscript", "after.gmap"))
        before.write_text(maps.Map(1, 2, embeds, old.next, list(old.darts), old.alpha, values).text())
        script.write_text("apply look_along_edges 0 apply loop_with_border 0")
        assert answer("run", before, book, script, after)[0] == 0
        new = maps.read_map(after.read_text())
    rims = [dart for dart in old.darts if old.alpha[2][dart] == dart]
    for dart in rims:
        other = next(it for it in rims if it != dart and old.values["pos"][it] == old.values["pos"][dart])
        ends = [old.values["pos"][old.alpha[0][it]] for it in (dart, other)]
        wanted = tuple((6 * here + one + two) // 8 for here, one, two in zip(old.values["pos"][dart], *ends))
        assert new.values["pos"][dart] == wanted, (dart, new.values["pos"][dart], wanted)
        middle = tuple((one + two) // 2 for one, two in zip(old.values["pos"][dart], ends[0]))
        assert new.values["pos"][new.alpha[0][dart]] == middle
    assert len(rims) == 12


def test_duck():
    run_script("duck", chamfer)


def test_monkey():
    run_script("monkey", subdivide_by_corners)


def test_two_spheres():
    run_script("two_spheres", dualise)


def test_rock():
    run_script("rock", put_pyramids)


def test_bones():
    run_script("bones", truncate)


def test_torus():
    run_script("torus", separate)


def test_ball():
    run_script("ball", split_tetrahedra)


def test_beam():
    run_script("beam", extrude_and_star)
