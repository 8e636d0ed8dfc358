"""Tests of tools/mesh: a mesh for each refusal, and a map for each."""
import os
import re
import subprocess
from collections.abc import Callable
from dataclasses import replace
from fractions import Fraction
from pathlib import Path

from gmr import maps, program
from gmr.mesh.formats import read_mesh, write_mesh
from gmr.mesh.model import CELL_FACES, Surface, Unfit, Volume, make_cell, make_polyhedron
from gmr.mesh.scale import Frame, choose_scale, scale_points
from mesh import (
    CELL_POINTS, HOUSE_FACES, HOUSE_POINTS, ONE, TOOL, block, house, make_map, make_mesh, place, read_written, run_tool,
    scratch,
)

SYSTEM_PYTHON = "/usr/bin/python3"      # which sees the packages of the distribution


def refusal(act: Callable[[], object]) -> str:
    """The line with which a call is refused."""
    try:
        act()
    except Unfit as unfit:
        return str(unfit)
    raise AssertionError("nothing was refused")


# What is refused of meshes.

THREE_AT_AN_EDGE = "v 0 0 0\nv 1 0 0\nv 0 1 0\nv 0 0 1\nv 0 -1 0\nf 1 2 3\nf 1 2 4\nf 1 2 5\n"


def refuse_surface(points: list[tuple], faces: list[tuple], first: int = 0) -> str:
    """The line with which a surface is refused, points and faces being counted from a first number."""
    return refusal(lambda: make_map(Surface.of(points=points, faces=faces, first=first), ONE))


def refuse_volume(cells: list, points: list[tuple] = CELL_POINTS) -> str:
    """The line with which a volume is refused."""
    return refusal(lambda: make_map(Volume.of(points=points, cells=cells), ONE))


def test_an_edge_of_three_faces_is_refused():
    with scratch() as folder:
        (folder / "three.obj").write_text(THREE_AT_AN_EDGE)
        said = run_tool("import", folder / "three.obj", folder / "three.gmap")
        line = "the edge of the points 1 2 has 3 faces: 1 (line 6) 2 (line 7) 3 (line 8): --cut leaves it open"
        assert said.stderr == f"mesh: {folder}/three.obj: {line}\n" and said.returncode == 1, said.stderr
        assert not (folder / "three.gmap").exists()


def test_degenerate_faces_are_refused():
    faces = [(0, 1, 2), (3, 4), (3, 4)]
    line = "face 1 has 2 corners, and a polygon has three or more, and so it is with 1 more: --drop leaves it out"
    assert refuse_surface(HOUSE_POINTS, faces) == line
    mend = ": --drop leaves it out, and --cut takes it as it is"
    assert refuse_surface(HOUSE_POINTS, [(0, 1, 2), (3, 4, 3)], 1) == f"face 2 has the point 4 twice{mend}"
    assert refuse_surface(HOUSE_POINTS, [(0, 1, 4, 1)]) == f"face 0 has the point 1 twice{mend}"
    assert refuse_surface(HOUSE_POINTS, [(0, 1, 99)], 1) == "face 1 has the corner 100, and there is no such point"
    assert refuse_surface(HOUSE_POINTS, []) == "it has no faces"
    mend = "--weld 0 --drop mends it"
    one_place = [(0.2, 0, 0), (0.3, 0, 0), (5, 5, 5)]
    line = f"face 0 has the points 0 1 at one place when they are scaled: give a greater --scale, or {mend}"
    assert refuse_surface(one_place, [(2, 0, 1)]) == line
    line = f"face 0 has the points 0 1 at one place: {mend}"
    assert refuse_surface([(0.2, 0, 0), (0.2, 0, 0), (5, 5, 5)], [(2, 0, 1)]) == line


def test_degenerate_cells_are_refused():
    mend = ": --drop leaves it out"
    assert refuse_volume([make_cell("tetra", (0, 1, 2, 1))]) == f"cell 0 has the point 1 twice{mend}"
    assert refuse_volume([make_cell("tetra", (0, 1, 2, 99))]) == "cell 0 has a corner that is none of the 12 points"
    flat = [(0, 0, 0), (1, 0, 0), (0, 1, 0), (0, 0, 0)]
    line = "cell 0 has the points 0 3 at one place: --weld 0 --drop mends it"
    assert refuse_volume([make_cell("tetra", range(4))], flat) == line
    assert refuse_volume([]) == "it has no cells"
    roofless = [make_polyhedron(HOUSE_FACES)]
    line = f"cell 0 has one face alone at the edge of the points 0 1{mend}"
    assert refuse_volume(roofless, HOUSE_POINTS) == line
    line = f"cell 0 has two faces of the same points{mend}"
    assert refuse_volume([make_polyhedron([(0, 1, 2), (2, 1, 0)])]) == line
    assert refuse_volume([make_polyhedron([])]) == f"cell 0 has no faces{mend}"
    crowded = [make_polyhedron([*CELL_FACES["tetra"], (0, 1, 4)])]
    assert refuse_volume(crowded) == f"cell 0 has more than two faces at the edge of the points 0 1{mend}"
    small = [make_polyhedron([*CELL_FACES["tetra"], (5, 6)])]
    assert refuse_volume(small) == f"cell 0 has a face with fewer than three corners{mend}"


def test_a_face_of_three_cells_is_refused():
    cells = [make_cell("tetra", (0, 1, 3, top)) for top in (4, 6, 10)]
    line = "the face of the points 0 1 3 has more than two cells: 0 1 2: --cut leaves it open"
    assert refuse_volume(cells) == line


def test_a_face_in_another_order_is_refused():
    cells = [make_cell("pyramid", (0, 1, 2, 3, 10)), make_cell("pyramid", (0, 2, 1, 3, 11))]
    line = "the cells 0 and 1 have the points 0 1 2 3 round a face in another order: --cut leaves it open"
    assert refuse_volume(cells) == line


def test_sizes_past_the_limits_are_refused():
    faces = [(0, 1, 2)] * 174_763
    assert refuse_surface(HOUSE_POINTS, faces) == "it needs 1048578 darts, and a map has at most 1048576"
    line = "it has 174763 faces and needs 1048578 darts or more, and a map has at most 1048576"
    head = "ply\nformat ascii 1.0\nelement vertex 3\nproperty float x\nproperty float y\nproperty float z\n"
    face = "element face 174763\nproperty list uchar int vertex_indices\nend_header\n"
    assert refusal(lambda: read_written("a.ply", head + face)) == line
    assert refusal(lambda: read_written("a.off", "OFF\n3 174763 0\n")) == line
    assert refusal(lambda: read_written("a.obj", "v 0 0 0\n" + "f 1 2 3\n" * 174_763)) == line
    data = b" " * 80 + (174_763).to_bytes(4, "little") + bytes(50 * 174_763)
    assert refusal(lambda: read_written("a.stl", data)) == line


def test_coordinates_out_of_range_are_refused():
    far = Surface.of(points=[(0.0, 0.0, 0.0), (1e19, 0.0, 0.0)], faces=[], first=1)
    line = "point 2 times 1 doesn't fit in 64 bits: give a smaller --scale, or an --origin near it"
    assert refusal(lambda: scale_points(far, Frame(ONE))) == line
    assert scale_points(far, Frame(Fraction(1, 1000))).points[1].tolist() == [10**16, 0, 0]
    for wrong in ("nan", "inf"):
        none = Surface.of(points=[(0.0, float(wrong), 0.0)], faces=[])
        assert refusal(lambda: scale_points(none, Frame(ONE))) == "point 0 has a coordinate that is no number"
        assert choose_scale(none.places) == 1


def test_files_that_stand_for_nothing_are_refused():
    cases = {
        "a.obj": ("v 0 0\n", "line 1: a point is three numbers, and not '0 0'"),
        "b.obj": ("v 0 0 0\nf 0 1 1\n", "line 2: face 1 has the corner 0, and there is no such point"),
        "c.obj": ("v 0 0 0\nf a b c\n", "line 2: face 1 has a corner 'a', which is no number of a point"),
        "d.off": ("OFF\n", "this is no OFF: its first numbers aren't those of points, faces and edges"),
        "e.off": (
            "OFF\n3 1 0\n0 0 0\n", "OFF tells of 3 points and 1 faces, and has 1 lines for them: it is cut off",
        ),
        "f.off": ("4OFF\n", "4OFF has points of another dimension than 3"),
        "g.off": ("OFF BINARY\n", "the binary form of OFF isn't read"),
        "h.off": ("OFF\n1 1 0\n0 0 0\n3 0 0\n", "face 0 (line 4) tells of 3 corners and has 2"),
        "i.ply": ("ply\nformat ascii 1.0\n", "this is no PLY: it doesn't begin with ply, or its head has no end"),
        "j.ply": (
            "ply\nformat ascii 1.0\nelement vertex 1\nproperty float x\nend_header\n0\n",
            "PLY has no points with x, y and z",
        ),
        "k.ply": (
            "ply\nformat odd 1.0\nend_header\n",
            "PLY has a line in its head that isn't understood: format odd 1.0",
        ),
        "l.stl": ("solid", "STL ends within a solid, after 0 facets: it is cut off"),
        "m.vtk": ("no", "meshio can't read it as vtk: Illegal VTK header"),
        "n.msh": ("no", "this is no MSH: it doesn't begin with $MeshFormat"),
        "o.obj": ("ply\n", "this is no OBJ: no line of it begins as one of OBJ does"),
        "p.obj": ("", "it is empty"),
        "noname": ("v", "it has no suffix that tells its format, as .obj or .ply"),
    }
    for name, (text, wanted) in cases.items():
        assert refusal(lambda: read_written(name, text)) == wanted, name
    assert refusal(lambda: read_mesh(Path("/nowhere.obj"))) == "there is no such file"


def test_strange_files_are_refused_by_what_they_are():
    with scratch() as folder:
        (folder / "a.obj").mkdir()
        os.mkfifo(folder / "b.obj")
        assert refusal(lambda: read_mesh(folder / "a.obj")) == "it is a folder, and a mesh is a file"
        line = "it is a pipe or a device, and a mesh is read from a file"
        assert refusal(lambda: read_mesh(folder / "b.obj")) == line


def test_numbers_of_other_scripts_are_refused():
    for word in ("1_0", "\u0661", "nan", "inf", "0x1", "1e", "1,5", "--1"):
        line = f"line 1: a point is three numbers, and not '{word} 0 0'"
        assert refusal(lambda: read_written("a.obj", f"v {word} 0 0\n")) == line
        text = f"OFF\n1 0 0\n0 {word} 0\n"
        line = f"point 0 (line 3) is three numbers, and not '0 {word} 0'"
        assert refusal(lambda: read_written("a.off", text)) == line
        head = "ply\nformat ascii 1.0\nelement vertex 1\nproperty float x\nproperty float y\nproperty float z\n"
        head += "element face 0\nproperty list uchar int vertex_indices\nend_header\n"
        line = f"vertex 0 (line 10) isn't as the head tells: '0 0 {word}'"
        assert refusal(lambda: read_written("a.ply", f"{head}0 0 {word}\n")) == line
    line = "line 2: face 1 has a corner '1_0', which is no number of a point"
    assert refusal(lambda: read_written("a.obj", "v 0 0 0\nf 1_0 1 1\n")) == line


def test_cells_of_other_types_are_refused():
    nodes = "".join(f"{at + 1} {at} {at * at} {at % 3}\n" for at in range(10))
    text = f"$MeshFormat\n2.2 0 8\n$EndMeshFormat\n$Nodes\n10\n{nodes}$EndNodes\n$Elements\n1\n"
    found = refusal(lambda: read_written("t.msh", text + "1 11 2 0 1 1 2 3 4 5 6 7 8 9 10\n$EndElements\n"))
    assert found == "element 1 is of the type tetra10, and cells here are tetra, pyramid, wedge, hexahedron"


# What is refused of maps.

EDGE = "gmap 1 dim 2 embed p <1 2> vec3 darts 2 0 1 0 0 (0 0 0) 1 0 1 1 (1 0 0)"
DIGON = "gmap 1 dim 2 embed p <1 2> vec2 darts 4 0 1 3 0 (0 0) 1 0 2 1 (1 0) 2 3 1 2 (1 0) 3 2 0 3 (0 0)"


def refuse_map(text: str, has_cells: bool = False) -> str:
    """The line with which a map has no mesh."""
    return refusal(lambda: make_mesh(maps.read_map(text), ONE, has_cells))


def test_maps_without_a_mesh_are_refused():
    assert refuse_map("gmap 1 dim 1 darts 0") == "it has dimension 1, and a mesh is made of a map of dimension 2 or 3"
    assert refuse_map("gmap 1 dim 2 darts 0") == "it has no darts, and a mesh has a face at least"
    assert refuse_map(DIGON.replace("<1 2>", "<1>")) == "the map has no points: no embedding <1 2> of kind vec3 or vec2"
    assert refuse_map(EDGE) == "the face of dart 0 isn't closed: dart 1 is free along 1"
    assert refuse_map(DIGON) == "the face of dart 0 has 2 corners, and a polygon has three or more"
    lone = make_map(block(), ONE)
    lone = replace(lone, alpha=[*lone.alpha[:2], {dart: dart for dart in lone.darts}, *lone.alpha[3:]])
    assert refuse_map(place(lone).text(), True) == "the cell of dart 0 isn't closed: dart 0 is free along 2"


def test_polygons_that_a_format_lacks_are_refused():
    with scratch() as folder:
        five = Surface.of(points=house().points, faces=[(0, 1, 5, 8, 4)])
        assert (
            refusal(lambda: write_mesh(folder / "five.msh", five))
            == "gmsh has no polygon of 5 corners: write .vtk, .vtu or .ply"
        )
        found = refusal(lambda: write_mesh(folder / "block.inp", block()))
        assert found == "abaqus has no pyramid, as the library writes it: write .vtk, .vtu or .msh"


# What the program says of what was written.


def test_a_map_that_the_program_refuses_is_a_fault_of_the_tool():
    fault = "a fault of this tool: in what it made for {} the program reads"
    answers = {
        "echo refused MAP text 3; exit 4": f"{fault} refused MAP text 3",
        "echo gmap 2": f"{fault} another map",
        "exit 7": "the program ended with status 7 and printed nothing",
    }
    with scratch() as folder:
        stand_in, model, made = folder / "gmr", folder / "house.obj", folder / "house.gmap"
        write_mesh(model, house())
        for does, line in answers.items():
            stand_in.write_text(f"#!/bin/sh\n{does}\n")
            stand_in.chmod(0o755)
            words = [SYSTEM_PYTHON, TOOL, "import", model, made]
            said = subprocess.run(words, capture_output=True, text=True, check=False, env={"GMR": str(stand_in)})
            assert said.returncode == 1 and said.stderr == f"mesh: {model}: {line.format(made)}\n", said.stderr
            assert sorted(path.name for path in folder.iterdir()) == ["gmr", "house.obj"], "a part of a file is left"


def test_what_is_read_is_never_written_over():
    with scratch() as folder:
        model, made = folder / "a.obj", folder / "a.gmap"
        write_mesh(model, house())
        before = model.read_bytes()
        (folder / "link.gmap").symlink_to(model)
        for out in (model, folder / "." / "a.obj", folder / "link.gmap"):
            said = run_tool("import", model, out)
            line = f"mesh: {out}: it is read, so it can't be written: name another file\n"
            assert (said.returncode, said.stderr) == (1, line) and model.read_bytes() == before, said.stderr
        (folder / "map.obj").write_text("gmap 1 dim 2 darts 0")
        said = run_tool("export", folder / "map.obj", folder / "map.obj")
        assert said.returncode == 1 and (folder / "map.obj").read_text() == "gmap 1 dim 2 darts 0"
        said = run_tool("import", model, folder / "nowhere" / "a.gmap")
        assert said.stderr == f"mesh: {folder}/nowhere/a.gmap: No such file or directory\n", said.stderr
        made.write_text("what was there")
        (folder / "bad.obj").write_text(THREE_AT_AN_EDGE)
        assert run_tool("import", folder / "bad.obj", made).returncode == 1
        assert made.read_text() == "what was there"


def test_the_program_is_looked_for_before_the_work():
    with scratch() as folder:
        (folder / "large.obj").write_text("this is no mesh\n")
        words = [SYSTEM_PYTHON, TOOL, "import", folder / "large.obj", folder / "a.gmap"]
        said = subprocess.run(words, capture_output=True, text=True, check=False, env={"GMR": str(folder / "none")})
        assert said.returncode == 1 and said.stderr.endswith(f": {folder}/none can't be run: $GMR names no program\n")


# What is missing.


def run_by(python: str, *words: object, **more: object) -> subprocess.CompletedProcess:
    """What the tool does for a command line under an interpreter that sees none of Debian's packages."""
    return subprocess.run([python, "-S", TOOL, *map(str, words)], capture_output=True, text=True, check=False, **more)


def test_what_is_missing_is_told():
    with scratch() as folder:
        (folder / "a.3ds").write_text("none")
        words = [SYSTEM_PYTHON, TOOL, "import", folder / "a.3ds", "a.gmap"]
        env = {"PATH": "/nowhere", "GMR": program.find_program()}
        said = subprocess.run(words, capture_output=True, text=True, check=False, env=env)
        line = f"mesh: {folder}/a.3ds: the program assimp is missing: apt-get install assimp-utils\n"
        assert said.returncode == 1 and said.stderr == line, said.stderr
        said = run_by(SYSTEM_PYTHON, "import", folder / "a.msh", "a.gmap")
        line = r"mesh: .*the Python module \w+ is missing: apt-get install python3-\w+.*\n"
        assert said.returncode == 1 and re.fullmatch(line, said.stderr), said.stderr


def test_another_interpreter_is_taken_where_that_one_has_the_library():
    with scratch() as folder:
        (folder / "python").symlink_to(SYSTEM_PYTHON)
        write_mesh(folder / "house.vtk", house())
        said = run_by(folder / "python", "import", folder / "house.vtk", folder / "house.gmap", "--no-check")
        assert said.stdout.startswith("imported points 10 faces 8 darts 60 scale 100 "), said.stderr
