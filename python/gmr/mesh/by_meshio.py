"""Meshes in the formats that the library meshio reads and writes: volumes of cells, and surfaces among them."""
from __future__ import annotations

import contextlib
import io
import re
import warnings
from collections.abc import Iterator, Sequence
from itertools import groupby
from pathlib import Path
from types import ModuleType
from typing import Any

import numpy as np

from gmr import program
from gmr.mesh.decimals import Decimals, shorten
from gmr.mesh.model import (
    CELL_FACES,
    POLYHEDRON,
    Cell,
    Polygon,
    Surface,
    Unfit,
    Volume,
    flatten,
    make_cell,
    make_polyhedron,
    sizes_of,
)
from gmr.mesh.tags import Tags, check_whole, read_tags

POLYGONS = ("triangle", "quad", "polygon")
PASSED = {"vertex": "points", "line": "lines", "line3": "lines", "line4": "lines"}
FIRST = {"gmsh": 1, "abaqus": 1, "medit": 1}  # whence a format counts its points and cells, where not from 0
WRITTEN_AS = {"gmsh": "gmsh22"}  # in its later form the library writes cells of one type alone
LACKING = {"abaqus": ("pyramid",)}
HAS_POLYGONS = ("vtk",)
HAS_POLYHEDRA = ("vtu",)


def import_meshio() -> ModuleType:
    """The library, imported where it is needed alone."""
    return program.needs("meshio", "python3-meshio")


def read_by_meshio(path: Path, form: str) -> Surface | Volume:
    """The mesh of a file: a volume of its cells where it has any, else a surface of its polygons.

    Elements are named as the file names them, or counted as in the file, all of them. Points and lines are passed over
    and counted, and so are the polygons of a mesh that has cells, which are faces of these.
    """
    check_whole(path, form)
    read = run_meshio(path, form)
    first, tags = FIRST.get(form, 0), read_tags(path, form)
    places = pad_points(read.points)
    elements = list(enumerate_elements(read.cells, first))
    cells = [(number, cell) for number, cell in elements if isinstance(cell, Cell)]
    numbers = [number for number, _ in cells or elements]
    names = name_elements(tags, numbers, first, sum(len(block.data) for block in read.cells))
    passed: dict[str, int] = {}
    for block in read.cells:
        if block.type in PASSED:
            passed[PASSED[block.type]] = passed.get(PASSED[block.type], 0) + len(block.data)
    more: dict[str, Any] = {
        "places": places,
        "first": first,
        "names": names,
        "point_names": tags.points if len(tags.points) == len(places) else None,
        "passed": passed,
    }
    if cells:
        return Volume(cells=[cell for _, cell in cells], **more)
    polygons = [face for _, face in elements if not isinstance(face, Cell)]
    return Surface(corners=flatten(polygons), sizes=sizes_of(polygons), **more)


def run_meshio(path: Path, form: str) -> Any:
    """What the library reads of a file; Unfit where it can't."""
    meshio = import_meshio()
    said = io.StringIO()
    try:
        with contextlib.redirect_stdout(said), contextlib.redirect_stderr(said), warnings.catch_warnings():
            warnings.simplefilter("ignore")
            read = meshio.read(path, form)
            read.points = np.asarray(read.points, np.float64)
            return read
    # At some files the library ends the program, and at others it raises whatever comes.
    except (SystemExit, Exception):
        told = re.sub(r"Error: Couldn't read file .* as \w+|Error: ", "", " ".join(said.getvalue().split())).strip()
        raise Unfit(f"meshio can't read it as {form}" + (f": {told}" if told else "")) from None


def pad_points(points: Any) -> Decimals:
    """Points of one, two or three coordinates as points in space."""
    if points.ndim != 2 or points.shape[1] > 3:
        raise Unfit("it has points of another dimension than 3")
    padded = np.zeros((len(points), 3))
    padded[:, : points.shape[1]] = points
    return shorten(padded)


def name_elements(tags: Tags, numbers: Sequence[int], first: int, count: int) -> list[int]:
    """What the file calls the elements of these numbers: by its tags where each element has one."""
    if len(tags.elements) != count:
        return list(numbers)
    return [int(tags.elements[number - first]) for number in numbers]


def enumerate_elements(blocks: Sequence[Any], first: int) -> Iterator[tuple[int, Cell | Polygon]]:
    """The cells and polygons of the library's blocks, each with its number; Unfit at a type that isn't known here."""
    number = first
    for block in blocks:
        made: Sequence[Cell | Polygon] = ()
        if block.type in CELL_FACES:
            made = [make_cell(block.type, corners) for corners in block.data.tolist()]
        elif block.type.startswith(POLYHEDRON):
            made = [make_polyhedron([list(map(int, face)) for face in faces]) for faces in block.data]
        elif block.type in POLYGONS:
            made = [tuple(map(int, face)) for face in block.data]
        elif block.type not in PASSED:
            raise Unfit(f"element {number} is of the type {block.type}, and cells here are {', '.join(CELL_FACES)}")
        yield from enumerate(made, number)
        number += len(block.data)


def write_by_meshio(path: Path, form: str, mesh: Surface | Volume) -> None:
    """Writes the mesh. A cell without a type is a polyhedron where the format has them, else it is its faces."""
    meshio = import_meshio()
    if isinstance(mesh, Surface):
        blocks: list[tuple[str, list[Any]]] = block_polygons(mesh.faces, form)
    elif form in HAS_POLYHEDRA and any(cell.kind == POLYHEDRON for cell in mesh.cells):
        blocks = block_polyhedra(mesh.cells)
    else:
        loose = {tuple(sorted(face)): face for cell in mesh.cells if cell.kind == POLYHEDRON for face in cell.faces}
        blocks = block_cells(mesh.cells) + block_polygons(list(loose.values()), form)
    lacking = next((kind for kind, _ in blocks if kind in LACKING.get(form, ())), None)
    if lacking:
        raise Unfit(f"{form} has no {lacking}, as the library writes it: write .vtk, .vtu or .msh")
    words = {"binary": False} if form in ("vtk", "gmsh") else {}
    with contextlib.redirect_stdout(io.StringIO()), contextlib.redirect_stderr(io.StringIO()):
        meshio.write_points_cells(
            path, mesh.places.floats(), blocks, file_format=WRITTEN_AS.get(form, form), **words
        )


def block_cells(cells: Sequence[Cell]) -> list[tuple[str, list[Any]]]:
    """The cells that have a type, in runs of one type."""
    typed = [cell for cell in cells if cell.kind != POLYHEDRON]
    return [(kind, [cell.corners for cell in run]) for kind, run in groupby(typed, lambda cell: cell.kind)]


def block_polyhedra(cells: Sequence[Cell]) -> list[tuple[str, list[Any]]]:
    """All cells as polyhedra, since a file has them with no others."""
    ordered = sorted(cells, key=lambda cell: len(cell.corners))
    return [
        (f"{POLYHEDRON}{size}", [[np.array(face) for face in cell.faces] for cell in run])
        for size, run in groupby(ordered, lambda cell: len(cell.corners))
    ]


def block_polygons(faces: Sequence[Polygon], form: str) -> list[tuple[str, list[Any]]]:
    """The polygons, in runs of one number of corners; Unfit where the format has none of that number."""
    blocks: list[tuple[str, list[Any]]] = []
    for size, run in groupby(faces, len):
        if size > 4 and form not in (*HAS_POLYGONS, *HAS_POLYHEDRA):
            raise Unfit(f"{form} has no polygon of {size} corners: write .vtk, .vtu or .ply")
        blocks.append(({3: "triangle", 4: "quad"}.get(size, "polygon"), list(run)))
    return blocks
