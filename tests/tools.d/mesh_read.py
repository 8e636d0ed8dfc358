"""Tests of tools/mesh: what it reads of each format, and colours."""
import struct
from fractions import Fraction

from gmr import maps
from gmr.mesh.embeds import Colours
from gmr.mesh.formats import read_mesh
from gmr.mesh.model import Volume
from mesh import (
    FILE_COLOURS,
    HOUSE_COLOURS,
    HOUSE_POINTS,
    OPERATIONS,
    block,
    house,
    make_map,
    read_written,
    scratch,
    there_and_back,
)


# What is read.


def test_obj_forms():
    text = (
        "# a comment\ng walls\nv 0 0 0\nv 1.5 0 0 # behind\nv 1.5 1 0\nv 0 1 0 1.0\nvt 0 0\nvn 0 0 1\ns off\no roof\n"
    )
    text += "f 1/1/1 2//1 3/1\nf -4 -2 \\\n -1\nl 1 2\np 1\n"
    found = read_written("forms.obj", text)
    assert found.faces == [(0, 1, 2), (0, 2, 3)] and found.points[1] == (1.5, 0, 0)
    assert read_written("wide.obj", text.encode("utf-16")).faces == found.faces


def test_off_forms():
    plain = "OFF # a comment\n\n3 1 0\n0 0 0\n1 0 0\n\n0 1 0\n3 0 1 2\n"
    assert read_written("plain.off", plain).faces == [(0, 1, 2)]
    coloured = read_written(
        "c.off", "COFF\n3 1 3\n0 0 0 255 0 0 255\n1 0 0 0 255 0 255\n0 1 0 0 0 255 255\n3 0 1 2 0.5 0 1\n"
    )
    assert coloured.point_colours.tolist() == [[255, 0, 0], [0, 255, 0], [0, 0, 255]]
    assert coloured.face_colours.tolist() == [[128, 0, 255]]


def test_ply_binary():
    for order, sign in (("little", "<"), ("big", ">")):
        head = f"ply\nformat binary_{order}_endian 1.0\ncomment x\nelement vertex 3\n"
        head += "property float x\nproperty float y\nproperty float z\n"
        head += "element face 1\nproperty list uchar uint vertex_index\n"
        head += "property uchar red\nproperty uchar green\nproperty uchar blue\nend_header\n"
        body = struct.pack(f"{sign}9f", 0, 0, 0, 0.1, 0, 0, 0, 16777215, 0) + struct.pack(
            f"{sign}B3I3B", 3, 0, 1, 2, 9, 8, 7
        )
        found = read_written("binary.ply", head.encode() + body)
        assert (
            found.points == [(0, 0, 0), (0.1, 0, 0), (0, 16777215, 0)]
            and found.faces == [(0, 1, 2)]
            and found.face_colours.tolist() == [[9, 8, 7]]
        )


AC3D = """AC3Db
MATERIAL "" rgb 1 1 1 amb 0.2 0.2 0.2 emis 0 0 0 spec 0.5 0.5 0.5 shi 10 trans 0
OBJECT world
kids 1
OBJECT poly
numvert 3
0 0 0
1 0 0
0 1.5 0
numsurf 1
SURF 0x0
mat 0
refs 3
0 0 0
1 0 0
2 0 0
kids 0
"""


def test_texts_in_utf_16_are_read_by_assimp_too():
    for order in ("utf-16", "utf-8"):
        found = read_written("a.ac", AC3D.encode(order))
        assert len(found.faces) == 1 and (0, 1.5, 0) in found.points, order


def test_a_remark_in_the_head_of_a_ply_is_passed_over_and_counted():
    head = "ply\nformat ascii 1.0\nCreated by hand, source file:\nelement vertex 3\nproperty float x\n"
    tail = "property float y\nproperty float z\nelement face 1\nproperty list uchar int vertex_indices\nend_header\n0 0 0\n1 0 0\n0 1 0\n"
    found = read_written("a.ply", f"{head}{tail}3 0 1 2\n")
    assert found.faces == [(0, 1, 2)] and found.passed == {"remarks": 1} and found.point_lines.tolist() == [11, 12, 13]


def test_polygons_of_a_volume_are_passed_over():
    text = (
        "$MeshFormat\n2.2 0 8\n$EndMeshFormat\n$Nodes\n4\n1 0 0 0\n2 1 0 0\n3 0 1 0\n4 0 0 1\n$EndNodes\n$Elements\n3\n"
    )
    found = read_written("one.msh", text + "1 1 2 0 1 1 2\n2 2 2 0 1 1 2 3\n3 4 2 0 1 1 2 3 4\n$EndElements\n")
    assert isinstance(found, Volume) and len(found.cells) == 1 and found.tell_element(0) == "3"


# Colours.


def test_colours_there_and_back():
    for suffix in (".ply", ".off"):
        found = there_and_back(suffix, house(face_colours=HOUSE_COLOURS))
        assert list(map(tuple, found.face_colours.tolist())) == HOUSE_COLOURS
    by_point = [(9, place, 255) for place in range(len(HOUSE_POINTS))]
    found = there_and_back(".ply", house(point_colours=by_point))
    assert (
        dict(zip(found.points, map(tuple, found.point_colours.tolist()))) == dict(zip(house().points, by_point))
        and found.face_colours is None
    )


def test_colours_of_obj():
    text = "v 0 0 0 1 0 0\nv 1 0 0 0 1 0\nv 0 1 0 0 0 0.5\nv 1 1 0 0 0 1\n"
    found = read_written("a.obj", text + "f 1 2 3\n").point_colours
    assert found.tolist() == [[255, 0, 0], [0, 255, 0], [0, 0, 128], [0, 0, 255]]
    with scratch() as folder:
        (folder / "m.mtl").write_text("newmtl red one\nKa 0 0 0\nKd 1 0 0\nnewmtl blue\nKd 0 0 1\n")
        (folder / "b.obj").write_text("mtllib m.mtl\n" + text + "usemtl red one\nf 1 2 3\nusemtl blue\nf 2 3 4\n")
        assert read_mesh(folder / "b.obj").face_colours.tolist() == [[255, 0, 0], [0, 0, 255]]


def test_colours_of_a_map():
    made = make_map(house(face_colours=HOUSE_COLOURS), Fraction(100), FILE_COLOURS)
    assert made.embeds[1] == maps.Embed("col", (0, 1), "rgb") and made.values["col"][8] == HOUSE_COLOURS[1]
    assert make_map(house(face_colours=HOUSE_COLOURS), Fraction(100)).embeds == made.embeds[:1]


def test_paint_as_the_library_has_it():
    for name, mesh in (("values2", house()), ("values3", block())):
        made = make_map(mesh, Fraction(100), Colours(paint=(1, 2, 3)))
        wanted = maps.read_map((OPERATIONS / name / f"move_vertex_{made.dimension}d" / "before.gmap").read_text())
        assert made.embeds == wanted.embeds and set(made.values["paint"].values()) == {(1, 2, 3)}
    made = make_map(house(face_colours=HOUSE_COLOURS), Fraction(100), Colours(paint=(1, 2, 3)))
    assert made.values["paint"][8] == HOUSE_COLOURS[1], "the file's colours go first"
