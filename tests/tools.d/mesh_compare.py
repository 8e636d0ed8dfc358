"""Tests of the certificate of tools/mesh: it finds what is planted, in maps and in files."""
import ast
import struct
from collections.abc import Callable
from fractions import Fraction
from pathlib import Path

import numpy as np

from gmr.arrays import read_arrays
from gmr.mesh.compare import Claims, compare
from gmr.mesh.convert import Options, compare_written, convert_mesh, take_mesh, write_import, write_map
from gmr.mesh.formats import VOLUME_FORMATS, write_mesh
from gmr.mesh.model import Surface, Unfit, Volume, make_polyhedron
from gmr.mesh.scale import Frame
from gmr.mesh.surface import Wish
from mesh import HOUSE_COLOURS, HOUSE_FACES, HOUSE_POINTS, ONE, ROOT, block, house, make_map, scratch

SCALE = Fraction(100)
UNCHECKED = Options(is_checked=False)


def compare_planted(plant: Callable[[list[str]], None], text: str | None = None) -> str | None:
    """What the certificate says of the house and a map whose lines were changed, or of another file of the house."""
    with scratch() as folder:
        model, gmap = folder / "house.obj", folder / "house.gmap"
        write_mesh(model, house())
        write_import(model, gmap, UNCHECKED)
        lines = gmap.read_text().split("\n")
        plant(lines)
        gmap.write_text("\n".join(lines))
        if text is not None:
            model.write_text(text)
        return compare(model, gmap, SCALE)


def find(lines: list[str], dart: int) -> int:
    """The place of the line of a dart."""
    return next(place for place, line in enumerate(lines) if line.startswith(f"{dart} "))


def obj(points: list[tuple], faces: list[tuple]) -> str:
    """A text in OBJ."""
    lines = [f"v {' '.join(map(str, point))}" for point in points]
    return "\n".join(lines + [f"f {' '.join(str(corner + 1) for corner in face)}" for face in faces]) + "\n"


def count_lines(tree: ast.Module, text: str) -> int:
    """The lines of a module without blank ones and docstrings."""
    told = {place for node in ast.walk(tree) if isinstance(node, ast.Expr) and isinstance(node.value, ast.Constant)
            and isinstance(node.value.value, str) for place in range(node.lineno, (node.end_lineno or 0) + 1)}
    return sum(bool(line.strip()) and place not in told for place, line in enumerate(text.split("\n"), 1))


def test_the_certificate_is_short_and_stands_alone():
    known = {
        "compare": {"gmr.arrays": {"Arrays", "read_arrays"}, "gmr.mesh.again": {"read_other"},
                    "gmr.mesh.forgiven": {"Corners", "check_leaders", "check_left"}},
        "again": {"gmr.mesh.formats": {"read_mesh"}},
        "forgiven": {},
    }
    for name, modules in known.items():
        text = (ROOT / "python" / "gmr" / "mesh" / f"{name}.py").read_text()
        tree = ast.parse(text)
        assert count_lines(tree, text) <= 150, name
        taken = {node.module: {one.name for one in node.names} for node in ast.walk(tree)
                 if isinstance(node, ast.ImportFrom) and (node.module or "").startswith("gmr")}
        assert taken == modules, (name, taken)
        assert not any(one.name.startswith("gmr") for node in ast.walk(tree) if isinstance(node, ast.Import)
                       for one in node.names), name


def test_what_is_the_same_passes():
    assert compare_planted(lambda lines: None) is None
    assert compare_planted(lambda lines: None, obj(HOUSE_POINTS, HOUSE_FACES)) is None


def test_a_face_turned_round_is_found():
    turned = [HOUSE_FACES[0][:1] + HOUSE_FACES[0][:0:-1], *HOUSE_FACES[1:]]
    assert compare_planted(lambda lines: None, obj(HOUSE_POINTS, turned)) is not None


def test_two_faces_exchanged_are_found():
    exchanged = [HOUSE_FACES[1], HOUSE_FACES[0], *HOUSE_FACES[2:]]
    assert compare_planted(lambda lines: None, obj(HOUSE_POINTS, exchanged)) is not None


def test_a_corner_left_out_is_found():
    short = [HOUSE_FACES[0][:3], *HOUSE_FACES[1:]]
    told = compare_planted(lambda lines: None, obj(HOUSE_POINTS, short))
    assert told == "face 0 has other corners in the file than in the map", told


def test_a_point_moved_by_two_units_is_found():
    def move(lines: list[str]) -> None:
        for place, line in enumerate(lines):
            lines[place] = line.replace("(200 0 425)", "(200 0 427)")

    told = compare_planted(move)
    assert told is not None and told.startswith("point 8 lies elsewhere in the map"), told
    near = [*HOUSE_POINTS[:8], (2, 0.004, 4.25), HOUSE_POINTS[9]]
    assert compare_planted(lambda lines: None, obj(near, HOUSE_FACES)) is None
    far = [*HOUSE_POINTS[:8], (2, 0.02, 4.25), HOUSE_POINTS[9]]
    assert compare_planted(lambda lines: None, obj(far, HOUSE_FACES)) is not None


def test_two_pieces_joined_are_found():
    def join(lines: list[str]) -> None:
        # The lower sides of the walls 0 and 2 are free, and are joined here.
        for one, two in ((0, 17), (1, 16), (17, 0), (16, 1)):
            place = find(lines, one)
            words = lines[place].split(" ")
            words[3] = str(two)
            lines[place] = " ".join(words)

    told = compare_planted(join)
    assert told is not None and "isn't joined as the file has it" in told, told


def test_two_pieces_parted_are_found():
    def part(lines: list[str]) -> None:
        place = find(lines, 2)
        other = int(lines[place].split(" ")[3])
        for dart in (2, 3, other, other ^ 1):
            place = find(lines, dart)
            words = lines[place].split(" ")
            words[3] = str(dart)
            lines[place] = " ".join(words)

    assert compare_planted(part) is not None


def test_large_numbers_are_compared_exactly():
    with scratch() as folder:
        model, gmap = folder / "far.obj", folder / "far.gmap"
        model.write_text("v 4503599627.370496 0 0\nv 4503599628.370497 0 0\nv 4503599627.370496 1 0\nf 1 2 3\n")
        made = write_import(model, gmap, UNCHECKED)
        assert made.frame.scale == 10**6 and compare(model, gmap, made.frame.scale) is None
        gmap.write_text(gmap.read_text().replace("4503599628370497", "4503599628370498"))
        assert compare(model, gmap, made.frame.scale) is not None


def test_claims_are_looked_at():
    with scratch() as folder:
        model, gmap = folder / "house.obj", folder / "house.gmap"
        write_mesh(model, house())
        write_mesh(folder / "less.obj", house(HOUSE_FACES[1:]))
        write_import(folder / "less.obj", gmap, UNCHECKED)
        corners = np.arange(sum(map(len, HOUSE_FACES)))
        told = compare(model, gmap, SCALE, None, Claims(left=corners >= 4))
        assert told == "face 0 isn't degenerate, and was left out", told
        told = compare(model, gmap, SCALE, None, Claims(left=corners >= 1))
        assert told == "corners were left out that aren't where the next one is, and are no spikes", told
        leaders = np.arange(len(HOUSE_POINTS))
        leaders[9] = 0
        told = compare(folder / "less.obj", gmap, SCALE, None, Claims(leaders=leaders))
        assert told == "point 9 became another one that is further away", told


def test_claims_of_cells_are_looked_at():
    with scratch() as folder:
        model, gmap = folder / "block.vtk", folder / "block.gmap"
        write_mesh(model, block())
        gmap.write_bytes(convert_mesh(model, UNCHECKED).map.text())
        owners = np.repeat(range(4), [sum(map(len, cell.faces)) for cell in block().cells])
        for number in range(4):
            told = compare(model, gmap, ONE, None, Claims(left=owners != number))
            assert told == f"cell {number} isn't degenerate, and was left out", told


def test_volumes_are_compared():
    with scratch() as folder:
        model, gmap = folder / "block.vtk", folder / "block.gmap"
        write_mesh(model, block())
        made = write_import(model, gmap, UNCHECKED)
        assert compare(model, gmap, made.frame.scale) is None
        lines = gmap.read_text().split("\n")
        joined = next(place for place, line in enumerate(lines[7:], 7) if line.split(" ")[0] != line.split(" ")[4])
        words = lines[joined].split(" ")
        words[4] = words[0]
        lines[joined] = " ".join(words)
        gmap.write_text("\n".join(lines))
        assert compare(model, gmap, made.frame.scale) is not None


def write_and_plant(path: Path, plant: Callable[[Surface], None]) -> str:
    """Why a written file isn't that of the house's map, when the mesh was changed before it was written."""
    model = path.parent / "model.obj"
    write_mesh(model, house(face_colours=HOUSE_COLOURS))
    made = convert_mesh(model, Options())
    given = read_arrays(made.map.text())
    taken = take_mesh(given, made.frame, path.suffix in VOLUME_FORMATS)
    plant(taken.mesh)
    write_mesh(path, taken.mesh)
    try:
        compare_written(path, given, made.frame, taken)
    except Unfit as unfit:
        return str(unfit)
    return ""


def test_what_is_written_is_compared():
    def turn_face(mesh: Surface) -> None:
        mesh.corners[:4] = mesh.corners[:4][::-1].copy()

    def exchange(mesh: Surface) -> None:
        mesh.corners[:8] = np.roll(mesh.corners[:8], 4)

    def move(mesh: Surface) -> None:
        mesh.places.digits[8, 2] += 2

    def part(mesh: Surface) -> None:
        mesh.corners[mesh.corners == 9] = 8

    with scratch() as folder:
        for suffix in (".obj", ".off", ".ply", ".vtk", ".stl", ".glb", ".gltf"):
            assert write_and_plant(folder / f"a{suffix}", lambda mesh: None) == "", suffix
            for plant in (turn_face, exchange, move, part):
                assert write_and_plant(folder / f"a{suffix}", plant), (suffix, plant.__name__)


def test_what_is_rounded_or_not_compared_is_told():
    roofed = Volume.of(points=house().points, cells=[make_polyhedron([*HOUSE_FACES, (0, 1, 2, 3)])])
    far = Surface.of(points=[(1e18, 0, 0), (0, 1e18, 0), (0, 0, 1)], faces=[(0, 1, 2)])
    with scratch() as folder:
        given = read_arrays(make_map(roofed, SCALE).text().encode())
        assert write_map(given, folder / "a.vtk", Frame(SCALE), True) == "points 10 cells 1 untyped 1 uncompared"
        assert write_map(given, folder / "a.vtu", Frame(SCALE), True) == "points 10 cells 1 untyped 1"
        given = read_arrays(make_map(far, ONE).text().replace(str(10**18), str(10**18 + 7)).encode())
        assert write_map(given, folder / "a.vtk", Frame(ONE), True) == "points 3 faces 1 rounding 7"
        assert write_map(given, folder / "a.ply", Frame(ONE), True) == "points 3 faces 1"


def test_binary_files_are_read_again():
    head = "ply\nformat binary_big_endian 1.0\nelement vertex 4\nproperty float x\nproperty double y\n"
    head += "property float z\nproperty uchar red\nelement face 2\nproperty uchar flag\n"
    head += "property list uchar int vertex_indices\nend_header\n"
    body = b"".join(struct.pack(">fdfB", *one, 7) for one in ((0, 0, 0), (0.1, 0.3, 0), (1, 1, 0), (0, 1, 0.7)))
    body += struct.pack(">BB3iBB4i", 1, 3, 0, 1, 2, 1, 4, 0, 2, 3, 1)
    with scratch() as folder:
        model, gmap = folder / "a.ply", folder / "a.gmap"
        model.write_bytes(head.encode() + body)
        made = write_import(model, gmap, Options(is_checked=False, wish=Wish(cut=True)))
        assert made.frame == Frame(Fraction(10)) and made.map.count == 14
        assert compare(model, gmap, Fraction(10)) is None and compare(model, gmap, Fraction(11)) is not None
