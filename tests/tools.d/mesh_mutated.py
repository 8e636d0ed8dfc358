"""Tests of tools/mesh: files with planted faults become a whole map or none, and each refusal is one plain line."""
import random
import re
from pathlib import Path

import numpy as np

from gmr.errors import Fault
from gmr.mesh.convert import Options, write_import
from gmr.mesh.formats import write_mesh
from gmr.mesh.model import Volume
from gmr.mesh.surface import Wish
from mesh import CELLS, HOUSE_COLOURS, block, house, scratch

COUNT, SEED = 200, 20
WORDS = (b"nan", b"-1", b"1_0", b"1e999", b"99999999999999999999", b"", b"\xff\xfe", b"0x1", b"\n", b" ", b"#", b"\\")
STRANGE = re.compile(r"Error|Exception|Traceback|0x[0-9a-f]{6}|object at|NoneType|list index|^[0-9]+$|^'[^']*'$")


def write_bases(folder: Path) -> list[Path]:
    """A small file of each format that is read without another program."""
    flat = house([(0, 1, 5, 4), (1, 2, 6), (2, 3, 7, 6), (3, 0, 4), (4, 5, 8)], face_colours=HOUSE_COLOURS[:5])
    volume = Volume.of(points=block().points[:-2], cells=CELLS[:2])
    for name in ("a.obj", "a.off", "a.ply", "a.stl"):
        write_mesh(folder / name, flat)
    for name in ("a.vtk", "a.vtu", "a.msh", "a.mesh", "a.inp"):
        write_mesh(folder / name, volume)
    head = "ply\nformat binary_little_endian 1.0\nelement vertex 3\n"
    head += "property float x\nproperty float y\nproperty float z\nelement face 1\n"
    head += "property list uchar int vertex_indices\nend_header\n"
    body = np.array([0, 0, 0, 1, 0, 0, 0, 1, 0], "<f4").tobytes() + b"\3" + np.array([0, 1, 2], "<i4").tobytes()
    (folder / "b.ply").write_bytes(head.encode() + body)
    facet = "facet normal 0 0 1\nouter loop\nvertex 0 0 0\nvertex 1 0 0\nvertex 0 1 0\nendloop\nendfacet\n"
    (folder / "b.stl").write_text(f"solid a\n{facet}endsolid a\n")
    return sorted(folder.iterdir())


def mutate(data: bytes, chance: random.Random) -> bytes:
    """The bytes with a fault or two."""
    for _ in range(chance.choice((1, 1, 2))):
        at, size = chance.randrange(len(data) + 1), chance.choice((1, 2, 5, 40))
        kind = chance.randrange(5)
        if kind == 0:
            data = data[:at]
        elif kind == 1:
            data = data[:at] + data[at + size:]
        elif kind == 2:
            data = data[:at] + bytes(chance.randrange(256) for _ in range(size)) + data[at + size:]
        elif kind == 3:
            data = data[:at] + data[max(0, at - size):at] + data[at:]
        else:
            data = data[:at] + chance.choice(WORDS) + data[at + 1:]
    return data


def test_mutated_files_become_a_whole_map_or_none():
    chance = random.Random(SEED)
    with scratch() as folder:
        bases = [(path.suffix, path.read_bytes()) for path in write_bases(folder)]
        for path in list(folder.iterdir()):
            path.unlink()
        accepted = 0
        for number in range(COUNT):
            suffix, data = bases[number % len(bases)]
            model, gmap = folder / f"m{number}{suffix}", folder / f"m{number}.gmap"
            model.write_bytes(mutate(data, chance))
            options = Options(is_checked=False, wish=Wish(drop=number % 2 == 0, cut=number % 3 == 0))
            try:
                write_import(model, gmap, options)
                accepted += 1
                assert gmap.exists(), model
                gmap.unlink()
            except Fault as fault:
                line = str(fault)
                assert "\n" not in line and not STRANGE.search(line), (model.name, line)
                assert "fault of this tool" not in line, (model.name, line)
            model.unlink()
            assert not list(folder.iterdir()), (model.name, "a part of a file is left")
        assert 20 < accepted < COUNT - 80, accepted
