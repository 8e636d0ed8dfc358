"""Which format a mesh's file has, by its suffix, and what reads and writes it."""
import stat
from pathlib import Path

import numpy as np

from gmr.mesh.by_assimp import find_assimp, read_by_assimp
from gmr.mesh.by_meshio import import_meshio, read_by_meshio, write_by_meshio
from gmr.mesh.counts import check_counts
from gmr.mesh.gltf import write_glb, write_gltf
from gmr.mesh.model import Surface, Unfit, Volume, tell_more
from gmr.mesh.obj import read_obj, write_obj
from gmr.mesh.off import read_off, write_off
from gmr.mesh.ply import read_ply, write_ply
from gmr.mesh.stl import read_stl, write_stl

READERS = {".obj": read_obj, ".off": read_off, ".ply": read_ply, ".stl": read_stl}
WRITERS = {
    ".obj": write_obj, ".off": write_off, ".ply": write_ply, ".stl": write_stl, ".gltf": write_gltf, ".glb": write_glb,
}
TRIANGLES = (".stl", ".gltf", ".glb")  # formats that have no other faces, and coordinates of 32 bits
UNCOUNTED = (".inp",)
VOLUME_FORMATS = {".vtk": "vtk", ".vtu": "vtu", ".msh": "gmsh", ".mesh": "medit", ".inp": "abaqus"}


def read_mesh(path: Path, drops: bool = False) -> Surface | Volume:
    """The mesh of a file. Where degenerate faces are dropped, one that tells of too many faces is read all the same."""
    suffix = path.suffix.lower()
    check_read(path)
    if not drops:
        check_counts(path, suffix)
    if suffix in VOLUME_FORMATS:
        mesh = read_by_meshio(path, VOLUME_FORMATS[suffix])
        if suffix in UNCOUNTED and not drops:
            check_used(mesh)
        return mesh
    return READERS.get(suffix, read_by_assimp)(path)


def check_used(mesh: Surface | Volume) -> None:
    """Unfit where a point is in no face or cell: of a format that tells no counts, that is how a cut is seen."""
    used = np.zeros(len(mesh.places), bool)
    corners = mesh.corners if isinstance(mesh, Surface) else [one for cell in mesh.cells for one in cell.corners]
    there = np.asarray(corners, np.int64)
    used[there[(there >= 0) & (there < len(used))]] = True
    if not used.all():
        what = "face" if isinstance(mesh, Surface) else "cell"
        line = f"point {mesh.tell_point(int(np.argmin(used)))} is in no {what}, as where INP is cut off"
        raise Unfit(f"{line}{tell_more(int((~used).sum()))}: --drop leaves it out")


def check_read(path: Path) -> None:
    """Unfit where a path is no file that can be read, or has no suffix; where a library or a program is missing that
    reads it, one line says what to install."""
    try:
        mode = path.stat().st_mode
    except FileNotFoundError:
        raise Unfit("there is no such file") from None
    if stat.S_ISDIR(mode):
        raise Unfit("it is a folder, and a mesh is a file")
    if not stat.S_ISREG(mode):
        raise Unfit("it is a pipe or a device, and a mesh is read from a file")
    suffix = path.suffix.lower()
    if not suffix:
        raise Unfit("it has no suffix that tells its format, as .obj or .ply")
    if suffix in VOLUME_FORMATS:
        import_meshio()
    elif suffix not in READERS:
        find_assimp()
    if not path.stat().st_size:
        raise Unfit("it is empty")


def writes_volumes(path: Path) -> bool:
    """Whether the format has cells of dimension 3."""
    return path.suffix.lower() in VOLUME_FORMATS


def write_mesh(path: Path, mesh: Surface | Volume) -> None:
    """Writes a mesh in the format of the path's suffix, which check_written allows."""
    suffix = path.suffix.lower()
    if suffix in VOLUME_FORMATS:
        write_by_meshio(path, VOLUME_FORMATS[suffix], mesh)
    elif isinstance(mesh, Surface):
        WRITERS[suffix](path, mesh)


def check_written(path: Path) -> None:
    """Unfit where the path has no suffix of a format that is written.

    It comes before all work: where a library is seen by another interpreter alone, that one begins anew.
    """
    if path.suffix.lower() not in list_written():
        raise Unfit(f"{path} has no suffix of a format that is written: {' '.join(list_written())}")
    if writes_volumes(path):
        import_meshio()


def list_written() -> list[str]:
    """The suffixes of all formats that are written."""
    return [*WRITERS, *VOLUME_FORMATS]
