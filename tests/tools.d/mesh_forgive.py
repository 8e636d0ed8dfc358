"""Tests of tools/mesh: what it forgives when it is asked, exact scales, embeddings, and runs from mesh to mesh."""
import os
import signal
import subprocess
import sys
from fractions import Fraction

from gmr import maps
from gmr.mesh.convert import Options, convert_mesh
from gmr.mesh.embeds import Colours, parse_embed
from gmr.mesh.formats import read_mesh, write_mesh
from gmr.mesh.model import Surface, Volume, make_cell
from gmr.mesh.scale import Frame, beside, choose_scale, read_frame, scale_points
from gmr.mesh.surface import Wish
from mesh import CELL_POINTS, HOUSE_FACES, HOUSE_POINTS, OPERATIONS, ROOT, TOOL, house, run_tool, scratch
from mesh_compare import obj
from mesh_refused import THREE_AT_AN_EDGE, refusal

POINTS = ROOT / "examples" / "points.gbook"


def convert(text: str, name: str = "a.obj", **wishes: object) -> object:
    """What becomes of a file of this text, which is compared with it."""
    from gmr.mesh.convert import write_import

    with scratch() as folder:
        (folder / name).write_text(text)
        return write_import(folder / name, folder / "a.gmap", Options(is_checked=False, **wishes))


# Scales.


def test_exact_scales_reach_two_to_the_53():
    utm = "v 500000.123456 4649776.224 0\nv 500001.5 4649776.224 0\nv 500000.123456 4649777 12.25\nf 1 2 3\n"
    made = convert(utm)
    assert made.frame.scale == 10**6 and made.told.endswith("scale 1000000 rounding 0 shared 0 unused 0")
    origin = tuple(map(Fraction, ("500000", "4649776.2", "0")))
    made = convert(utm, origin=origin)
    assert made.map.points[0].tolist() == [123456, 24000, 0] and "origin 500000 4649776.2 0" in made.told
    far = "v 4000000000000.000001 0 0\nv 1 0 0\nv 0 1 0\nf 1 2 3\n"
    assert convert(far, is_exact=True).map.points[0].tolist() == [4 * 10**18 + 1, 0, 0]
    assert convert(far).frame.scale == 1 and "rounding 1e-06 shared 0" in convert(far).told
    line = "no scale leaves all its digits within 2^62: give no --exact, or an --origin near its points"
    assert refusal(lambda: convert(far.replace("4000", "5000"), is_exact=True)) == line
    line = "the scale 10 rounds its coordinates: give a greater one, or none"
    assert refusal(lambda: convert(utm, is_exact=True, scale=Fraction(10))) == line


def test_places_that_differ_stay_apart():
    third = "0.3333333333333333333"
    text = f"v {third} 0 0\nv 0.33333331 0 0\nv 0 1 0\nv 1 1 1\nf 1 2 3\nf 1 2 4\n"
    made = convert(text)
    assert made.frame.scale == 10**8 and "rounding 3.3e-09 shared 0" in made.told, made.told
    made = convert("v 0 0 0\nv 0.25 0 0\nv 1 0 0\nv 0 1 0\nf 1 3 4\n", scale=Fraction(1))
    assert made.told.endswith("scale 1 rounding 0.25 shared 1 unused 1"), made.told


def test_the_scale_stays_with_a_map():
    with scratch() as folder:
        model, made, left = folder / "a.obj", folder / "a.gmap", folder / "left.gmap"
        model.write_text(obj(HOUSE_POINTS, HOUSE_FACES))
        assert run_tool("import", model, made, "--origin", "1", "0.5", "0").returncode == 0
        assert read_frame(made) == Frame(Fraction(100), (Fraction(1), Fraction(1, 2), Fraction(0)))
        left.write_text("\n".join(line for line in made.read_text().split("\n") if not line.startswith("#")))
        said = run_tool("export", left, folder / "b.obj").stdout
        line = "exported points 10 faces 8 scale 1, as no file tells one: --scale or --scale-of gives it\n"
        assert said == line, said
        assert run_tool("export", left, folder / "b.obj", "--scale-of", made).stdout.endswith(" scale 100\n")
        assert sorted(read_mesh(folder / "b.obj").points) == sorted(tuple(map(float, point)) for point in HOUSE_POINTS)
        assert run_tool("scale", left, "--of", made).stdout == "scale 100 origin 1 0.5 0\n"
        assert beside(left).read_text() == "scale 100\norigin 1 0.5 0\n"
        assert run_tool("export", left, folder / "c.obj").stdout.endswith(" scale 100\n")
        assert (folder / "c.obj").read_bytes() == (folder / "b.obj").read_bytes()


# What is forgiven.


def test_points_are_welded():
    soup = Surface.of(points=[HOUSE_POINTS[corner] for face in HOUSE_FACES for corner in face],
                      faces=[tuple(range(4 * at, 4 * at + 4)) for at in range(4)])
    text = obj(soup.points, soup.faces)
    assert len(convert(text).map.map().cells(0)) == 16
    made = convert(text, weld=Fraction(0))
    assert len(made.map.map().cells(0)) == 8 and " welded 20" in made.told, made.told
    moved = [(x + 0.001 * (at % 3), y, z) for at, (x, y, z) in enumerate(soup.points)]
    assert len(convert(obj(moved, soup.faces), weld=Fraction(0)).map.map().cells(0)) > 8
    assert len(convert(obj(moved, soup.faces), weld=Fraction(1, 100)).map.map().cells(0)) == 8


def test_corners_without_numbers_stay_apart_where_that_is_wished():
    with scratch() as folder:
        path = folder / "a.stl"
        write_mesh(path, house())
        assert len(convert_mesh(path, Options()).map.map().cells(0)) == 10
        assert len(convert_mesh(path, Options(is_unwelded=True)).map.map().cells(0)) == 3 * 14


def test_degenerate_faces_are_dropped():
    text = obj(HOUSE_POINTS, [*HOUSE_FACES, (0, 1), (2, 2, 3), (4, 5, 4), (0, 0, 1, 2, 3, 3)])
    made = convert(text, wish=Wish(drop=True))
    assert " faces 9 " in made.told and " dropped 3 mended 1" in made.told, made.told
    flat = "v 0 0 0\nv 1 0 0\nv 1 0 0\nv 0 1 0\nf 1 2 3\nf 1 2 3 4\n"
    made = convert(flat, wish=Wish(drop=True), weld=Fraction(0))
    assert " faces 1 darts 6 " in made.told and " dropped 1 mended 1" in made.told, made.told
    tetra = [make_cell("tetra", (0, 1, 3, 4)), make_cell("tetra", (0, 1, 3, 3))]
    with scratch() as folder:
        write_mesh(folder / "a.vtk", Volume.of(points=CELL_POINTS, cells=tetra))
        line = "cell 1 has the point 3 twice: --drop leaves it out"
        assert refusal(lambda: convert_mesh(folder / "a.vtk", Options())) == line
        made = convert_mesh(folder / "a.vtk", Options(wish=Wish(drop=True)))
        assert " cells 1 " in made.told and " dropped 1" in made.told, made.told


def test_crowded_edges_are_cut():
    made = convert(THREE_AT_AN_EDGE, wish=Wish(cut=True))
    assert " faces 3 darts 18 " in made.told and made.told.endswith(" cut 1"), made.told
    assert all(dart == across for dart, across in made.map.map().alpha[2].items())
    ring = "v 0 0 0\nv 9 0 0\nv 9 9 0\nv 0 9 0\nv 3 3 0\nv 6 3 0\nv 6 6 0\nv 3 6 0\nf 1 2 3 4 1 5 8 7 6 5\n"
    assert "has the point 1 twice" in refusal(lambda: convert(ring))
    assert " faces 1 darts 20 " in convert(ring, wish=Wish(cut=True)).told


def test_lines_and_points_are_passed_over_alike():
    text = "v 0 0 0\nv 1 0 0\nv 0 1 0\nf 1 2 3\nl 1 2\np 1\np 2\n"
    assert convert(text).told.endswith(" passed lines 1 passed points 2")
    head = "ply\nformat ascii 1.0\nelement vertex 3\nproperty float x\nproperty float y\nproperty float z\n"
    head += "element face 1\nproperty list uchar int vertex_indices\nelement edge 1\nproperty int vertex1\n"
    head += "property int vertex2\nend_header\n0 0 0\n1 0 0\n0 1 0\n3 0 1 2\n0 1\n"
    assert convert(head, "a.ply").told.endswith(" passed lines 1")


# Names.

MSH = "$MeshFormat\n2.2 0 8\n$EndMeshFormat\n$Nodes\n5\n{}$EndNodes\n$Elements\n3\n{}$EndElements\n"
INP = "*NODE\n10, 0, 0, 0\n20, 1, 0, 0\n30, 0, 1, 0\n40, 0, 0, 1\n"
INP += "*ELEMENT, TYPE=C3D4\n7, 10, 20, 30, 40\n9, 10, 20, 30, 30\n"
FACET = "facet normal 0 0 1\nouter loop\nvertex 0 0 0\nvertex 1 0 0\nvertex 0 1 0\nendloop\nendfacet\n"


def test_elements_have_the_names_of_the_file():
    nodes = "".join(f"{10 * at} {at} {at * at} {at % 3}\n" for at in range(1, 6))
    elements = "17 2 2 0 1 10 20 30\n18 2 2 0 1 10 20 40\n19 2 2 0 1 20 10 50\n"
    line = "the edge of the points 10 20 has 3 faces: 17 18 19: --cut leaves it open"
    assert refusal(lambda: convert(MSH.format(nodes, elements), "a.msh")) == line
    assert refusal(lambda: convert(INP, "a.inp")) == "cell 9 has the point 30 twice: --drop leaves it out"


def test_files_that_are_cut_off_are_refused():
    nodes = "".join(f"{10 * at} {at} {at * at} {at % 3}\n" for at in range(1, 6))
    msh = MSH.format(nodes, "17 2 2 0 1 10 20 30\n18 2 2 0 1 10 20 40\n19 2 2 0 1 20 10 50\n")
    cases = {
        "a.msh": (msh[: msh.index("19 2")], "MSH has $Elements without $EndElements: it is cut off"),
        "a.inp": (INP[: INP.rindex(",")] + "\n", "element 9 has 3 numbers, and not 4: it is cut off"),
        "b.inp": (INP[: INP.index("9, 10")].replace("*EL", "50, 7, 7, 7\n*EL"),
                  "point 50 is in no cell, as where INP is cut off: --drop leaves it out"),
        "a.off": ("OFF\n1 0 0\n0 0 0\n3 0 0 0\n",
                  "OFF tells of 1 points and 0 faces, and has more after them, on line 4: '3 0 0 0'"),
        "a.stl": (f"solid a\n{FACET}",
                  "STL ends within a solid, after 1 facets: it is cut off"),
    }
    for name, (text, wanted) in cases.items():
        told = refusal(lambda: convert(text, name))
        assert told.startswith(wanted), (name, told)


# Embeddings.


def test_embeddings_are_added():
    wanted = [parse_embed("near <> vec3"), parse_embed("pick <0 1> int = 4")]
    made = convert(obj(HOUSE_POINTS, HOUSE_FACES), embeds=wanted)
    embeds = made.map.map().embeds
    assert embeds[1:] == [maps.Embed("near", (), "vec3"), maps.Embed("pick", (0, 1), "int")]
    values = made.map.map().values
    assert set(values["pick"].values()) == {4} and set(values["near"].values()) == {(0, 0, 0)}
    for wrong in ("pick", "pick <0 1> float", "pick <0 1> int = 1 2", "c <0 1> rgb = 0 0 256", "c <0 0> int"):
        try:
            parse_embed(wrong)
        except ValueError as error:
            assert repr(wrong) in str(error)
        else:
            raise AssertionError(wrong)


def test_the_embeddings_of_a_book():
    for name, colours in (("values2", Colours()), ("values2", Colours(paint=(1, 2, 3)))):
        made = convert(obj(HOUSE_POINTS, HOUSE_FACES), book=OPERATIONS / f"{name}.gbook", colours=colours)
        wanted = maps.read_map((OPERATIONS / name / "move_vertex_2d" / "before.gmap").read_text())
        assert made.map.map().embeds == wanted.embeds
        assert set(made.map.map().values["paint"].values()) == {colours.paint or (255, 255, 255)}
    line = f"{OPERATIONS / 'values3.gbook'} has the dimension 3, and the mesh makes a map of 2"
    assert refusal(lambda: convert(obj(HOUSE_POINTS, HOUSE_FACES), book=OPERATIONS / "values3.gbook")) == line
    line = f"{POINTS} has points in the plane, and the mesh has such as don't lie in it: --origin moves them"
    assert refusal(lambda: convert(obj(HOUSE_POINTS, HOUSE_FACES), book=POINTS)) == line


# From mesh to mesh.

BOOK, CUBE = OPERATIONS / "values2.gbook", ROOT / "examples" / "cube.obj"
LIFT = "apply extrude_face_by_2d 8 with (0 0 10) (220 120 40)\napply extrude_edge_by 0 with (0 0 -10) (220 120 40)\n"


def test_a_script_runs_from_mesh_to_mesh():
    with scratch() as folder:
        model, script, out = folder / "cube.obj", folder / "a.gscript", folder / "out.ply"
        model.write_bytes(CUBE.read_bytes())
        script.write_text(LIFT)
        said = run_tool("run", model, BOOK, script, out, "--scale", "10")
        assert said.returncode == 1 and said.stdout.endswith("\nexported points 12 faces 10 scale 10\n"), said
        assert "\n2 extrude_edge_by refused no-match arc a 0 2\n" in said.stdout, said
        assert max(z for _, _, z in read_mesh(out).points) == 2
        said = run_tool("run", model, BOOK, script, folder / "left.gmap")
        assert (folder / "left.gmap.scale").read_text() == "scale 1\n", said
        assert run_tool("export", folder / "left.gmap", folder / "b.glb").stdout.endswith(" scale 1\n")
        before = out.read_bytes()
        for wrong in (model, script):
            said = run_tool("run", model, BOOK, script, wrong)
            assert said.returncode == 1 and str(wrong) in said.stderr and said.stderr.count("\n") == 1, said
            assert model.read_bytes() == CUBE.read_bytes() and script.read_text() == LIFT
        script.write_text("apply nothing 0\n")
        said = run_tool("run", model, BOOK, script, out)
        assert said.returncode == 1 and out.read_bytes() == before and "refused SCRIPT" in said.stderr, said


def test_a_script_runs_again_when_it_changes():
    with scratch() as folder:
        model, script, out = folder / "cube.obj", folder / "a.gscript", folder / "out.ply"
        model.write_bytes(CUBE.read_bytes())
        script.write_text("apply nothing 0\n")
        words = [sys.executable, TOOL, "run", model, BOOK, script, out, "--watch"]
        # A gate that a shell started in the background hands on that an interrupt is ignored.
        watching = subprocess.Popen(words, stdout=subprocess.PIPE, stderr=subprocess.DEVNULL, text=True,
                                    preexec_fn=lambda: signal.signal(signal.SIGINT, signal.SIG_DFL))
        try:
            assert "refused SCRIPT" in watching.stdout.readline() and not out.exists()
            script.write_text(LIFT)
            os.utime(script, (1, 1))
            # What it says last it says when all is done: until then an interrupt could meet it within a cleanup.
            assert any(line.startswith("exported") for line in watching.stdout) and out.exists(), "it isn't done again"
        finally:
            watching.send_signal(signal.SIGINT)
            assert watching.wait(timeout=120) == 130


def test_scales_are_chosen_for_points_of_32_bits():
    with scratch() as folder:
        write_mesh(folder / "a.stl", house())
        mesh = read_mesh(folder / "a.stl")
        assert choose_scale(mesh.places) == 100 and scale_points(mesh, Frame(Fraction(100))).rounding == 0


def test_what_is_written_in_32_bits_is_told():
    with scratch() as folder:
        model, made = folder / "a.obj", folder / "a.gmap"
        model.write_text("v 0.1 0 0\nv 1 0 0\nv 1 1 0\nv 0 1 0\nf 1 2 3 4\n")
        assert run_tool("import", model, made, "--no-check").returncode == 0
        said = run_tool("export", made, folder / "a.stl").stdout
        assert said == "exported points 4 faces 1 triangles 2 rounding 1.5e-09 scale 10\n", said


def test_wrong_words_are_told():
    for words, line in (
        (("import", "a.obj", "b.gmap", "--scale", "0"), "0 is no scale, which is a number above 0, as 1000, 0.5"),
        (("import", "a.obj", "b.gmap", "--scale", "1_0"), "1_0 is no scale"),
        (("import", "a.obj", "b.gmap", "--weld", "-1"), "-1 is no distance, which is a number of 0 or more"),
        (("import", "a.obj", "b.gmap", "--weld", "x"), "x is no distance, which is a number of 0 or more"),
        (("import", "a.obj", "b.gmap", "--paint", "0", "0", "256"), "256 is no part of a colour"),
        (("import", "a.obj", "b.gmap", "--origin", "0", "0", "nan"), "0 0 nan is no origin"),
    ):
        said = run_tool(*words)
        assert said.returncode == 2 and line in said.stderr and said.stderr.count("\n") == 1, said
