"""Files of meshes become files of maps, and back: what `tools/mesh` does."""
from __future__ import annotations

from collections.abc import Sequence
from dataclasses import dataclass, field
from fractions import Fraction
from pathlib import Path
from typing import NamedTuple

import numpy as np

from gmr import program
from gmr.arrays import Arrays, read_arrays
from gmr.files import check_apart, write_beside
from gmr.mesh.compare import Claims, compare
from gmr.mesh.decimals import Whole
from gmr.mesh.embeds import Colours, Wanted, embed_for_book, embed_plainly
from gmr.mesh.fans import compare_fans
from gmr.mesh.formats import TRIANGLES, check_read, check_written, list_written, read_mesh, write_mesh, writes_volumes
from gmr.mesh.mapped import Mapped
from gmr.mesh.model import Surface, Unfit, Volume
from gmr.mesh.scale import (
    Frame, Origin, Scaled, choose_scale, move_points, read_frame, scale_points, tell_frame,
)
from gmr.mesh.surface import Done, Wish, map_surface
from gmr.mesh.taken import Taken, count_untyped, take_surface, take_volume, walk_faces
from gmr.mesh.volume import map_volume
from gmr.mesh.weld import apply_weld, weld_alike, weld_near

PROGRAM_FAILED = (5, 6, 7, 9)  # statuses that say nothing of the map
ONE = Frame(Fraction(1))
UNLIKE = "a fault of this tool: what it made isn't the same"


@dataclass
class Options:
    """What is wanted of an import.

    weld: how near points become one, None where only those do that the format doesn't number; book: that whose
    embeddings the map is to have; embeds: further ones, or their values.
    """

    scale: Fraction | None = None
    origin: Origin | None = None
    is_exact: bool = False
    weld: Fraction | None = None
    is_unwelded: bool = False
    wish: Wish = field(default_factory=Wish)
    colours: Colours = Colours()
    embeds: Sequence[Wanted] = ()
    book: Path | None = None
    is_checked: bool = True
    is_compared: bool = True


class Imported(NamedTuple):
    """The map of a mesh: that mesh, the scale and origin, what is told of it, and what its certificate looks at."""

    mesh: Surface | Volume
    map: Mapped
    frame: Frame
    told: str
    claims: Claims


def import_mesh(model: Path, out: Path, options: Options) -> str:
    """Writes the map of a mesh's file, and tells what it has in one line.

    Unfit says why the mesh has no map. Where it is checked, the program reads what was written, and what it refuses
    is a fault of this tool: Refused. Where it is compared, Unfit says what differs from the file.
    """
    check_apart(out, [model])
    if out.suffix.lower() in list_written():
        raise Unfit(f"{out} is named as a mesh, and a map is written: name it .gmap")
    check_read(model)
    if options.is_checked:
        program.find_program()  # a program that isn't there is told before the work
    return f"imported {write_import(model, out, options).told}"


def write_import(model: Path, out: Path, options: Options) -> Imported:
    """Writes the map of a mesh's file, checked and compared as it is wished."""
    made = convert_mesh(model, options)
    text = made.map.text()
    with write_beside(out) as written:
        with written.open("wb") as file:
            file.writelines([tell_frame(made.frame), text])
        if options.is_checked:
            check_map(out, written, text)
        del text    # which is as large as all that the certificate keeps
        if options.is_compared:
            fault = compare(model, written, made.frame.scale, made.frame.origin, made.claims, made.mesh)
            if fault:
                raise Unfit(f"{UNLIKE}: {fault}")
    return made


def check_map(out: Path, written: Path, text: bytes) -> None:
    """Refused where the program can't be asked, or reads another map from what was written than this text's."""
    try:
        if program.bytes_or_refuse("show", written) != text:
            raise program.Refused("another map", 0)
    except program.Refused as refusal:
        if refusal.status in PROGRAM_FAILED:
            raise
        line = f"a fault of this tool: in what it made for {out} the program reads {refusal}"
        raise program.Refused(line, refusal.status) from None


def convert_mesh(model: Path, options: Options) -> Imported:
    """The map of a mesh's file."""
    return convert_read(read_mesh(model, options.wish.drop), options)


def convert_read(mesh: Surface | Volume, options: Options) -> Imported:
    """The map of a mesh that was read."""
    moved = move_points(mesh.places, Frame(Fraction(1), options.origin))
    frame = Frame(options.scale or choose_scale(moved, options.is_exact), options.origin)
    scaled = scale_points(mesh, frame)
    if options.is_exact and scaled.rounding:
        raise Unfit(f"the scale {frame.scale} rounds its coordinates: give a greater one, or none")
    leaders = weld_points(mesh, scaled.points, options)
    welded = apply_weld(mesh, leaders)
    made, left, done = map_mesh(welded, scaled.points, options.wish)
    if options.book:
        embed_for_book(made, left, options.book, options.colours, options.embeds)
    else:
        embed_plainly(made, left, options.colours, options.embeds)
    told = tell_import(mesh, left, made, (frame, scaled, leaders, done))
    if options.colours.is_taken:
        told += f" colours {tell_colours(made)}"
    is_welded = (leaders != np.arange(len(leaders))).any()
    claims = Claims(None, done.left, leaders if is_welded else None, float(options.weld or 0), options.wish.cut)
    return Imported(mesh, made, frame, told, claims)


def map_mesh(mesh: Surface | Volume, points: Whole, wish: Wish) -> tuple[Mapped, Surface | Volume, Done]:
    """The map of a mesh, the mesh that it is of, and what was done to it."""
    if isinstance(mesh, Volume):
        return map_volume(mesh, points, wish)
    return map_surface(mesh, points, wish)


def weld_points(mesh: Surface | Volume, points: Whole, options: Options) -> Whole:
    """For each point the one that it becomes: without numbers, or where that is wished, those at one place become
    one."""
    if options.weld is not None:
        return weld_near(mesh, points, float(options.weld))
    if mesh.has_numbers or options.is_unwelded:
        return np.arange(len(points))
    return weld_alike(mesh)


def tell_import(mesh: Surface | Volume, left: Surface | Volume, made: Mapped,
                parts: tuple[Frame, Scaled, Whole, Done]) -> str:
    """What an import says in its line: counts, the scale, the greatest rounding, how many points came to share a place
    by it, how many are in no face, and what was welded, mended, left out, opened or passed over."""
    frame, scaled, leaders, done = parts
    used = np.zeros(len(mesh.places), bool)
    used[corners_of(mesh)] = True
    merged = int((leaders != np.arange(len(leaders))).sum())
    words = [f"points {len(leaders) - merged} {tell_elements(left)} darts {made.count}", *frame.lines(),
             f"rounding {tell_rounding(scaled.rounding)}", f"shared {scaled.shared}", f"unused {int((~used).sum())}"]
    words += [f"welded {merged}"] if merged else []
    words += [f"{name} {count}" for name, count in done.told.items()]
    words += [f"passed {name} {count}" for name, count in mesh.passed.items()]
    return " ".join(words)


def corners_of(mesh: Surface | Volume) -> Whole:
    """The points at the corners of all faces or cells, those that are there."""
    if isinstance(mesh, Surface):
        return mesh.corners[(mesh.corners >= 0) & (mesh.corners < len(mesh.places))]
    return np.array([corner for cell in mesh.cells for corner in cell.corners], np.int64)


def tell_rounding(rounding: float) -> str:
    """How far the greatest rounding goes, with two digits."""
    return f"{rounding:.2g}" if rounding else "0"


def tell_elements(mesh: Surface | Volume) -> str:
    """How many faces or cells a mesh has, and of these how many have no type."""
    if isinstance(mesh, Surface):
        return f"faces {len(mesh.sizes)}"
    untyped = count_untyped(mesh.cells)
    return f"cells {len(mesh.cells)}" + (f" untyped {untyped}" if untyped else "")


def tell_colours(made: Mapped) -> str:
    """What has the colours of a map: faces, points or none."""
    labels = next((embed.labels for embed in made.embeds if embed.kind == "rgb"), None)
    return "none" if labels is None else "faces" if 0 in labels else "points"


def export_map(path: Path, out: Path, frame: Frame | None, is_compared: bool = True) -> str:
    """Writes the mesh of a map's file, and tells what it has in one line. Unfit says why the map has no mesh.

    Without a scale it is that of the map's file, or of the file beside it; where there is none it is 1, which is told.
    """
    check_written(out)
    check_apart(out, [path])
    program.find_program()
    given = read_arrays(program.bytes_or_refuse("show", path))
    known = frame or read_frame(path)
    told = write_map(given, out, known or ONE, is_compared)
    how = f" scale {(known or ONE).scale}"
    return f"exported {told}{how}" + ("" if known else ", as no file tells one: --scale or --scale-of gives it")


def write_map(given: Arrays, out: Path, frame: Frame, is_compared: bool) -> str:
    """Writes the mesh of a map, and tells what it has, and what of it was rounded or isn't compared."""
    taken = take_mesh(given, frame, writes_volumes(out))
    is_uncompared = is_compared and not can_compare(out, taken)
    with write_beside(out) as written:
        write_mesh(written, taken.mesh)
        if is_compared and not is_uncompared:
            compare_written(written, given, frame, taken)
    told = f"points {len(taken.mesh.places)} {tell_elements(taken.mesh)}"
    if out.suffix.lower() in TRIANGLES and isinstance(taken.mesh, Surface):
        floats = taken.mesh.places.floats()
        off = float(np.abs(floats.astype(np.float32).astype(np.float64) - floats).max(initial=0))
        triangles = int((taken.mesh.sizes - 2).sum())
        told += f" triangles {triangles} rounding {tell_rounding(off)}"
    elif writes_volumes(out):
        off = taken.mesh.places.rounding()
        told += f" rounding {tell_rounding(off)}" if off else ""
    return told + (" uncompared" if is_uncompared else "")


def can_compare(out: Path, taken: Taken) -> bool:
    """Whether the certificate can look at a written mesh: not where cells without a type stand as their faces."""
    is_whole = isinstance(taken.mesh, Surface) or not count_untyped(taken.mesh.cells)
    return is_whole or out.suffix.lower() == ".vtu"


def compare_written(written: Path, given: Arrays, frame: Frame, taken: Taken) -> None:
    """Unfit where the certificate finds that a written mesh isn't that of the map."""
    starts = taken.starts
    if isinstance(taken.mesh, Volume) and count_untyped(taken.mesh.cells):
        starts = order_polyhedra(taken.mesh, starts)
    if written.suffix.lower() in TRIANGLES:
        fault = compare_fans(written, given, frame.scale, frame.origin, starts)
    else:
        fault = compare(written, given, frame.scale, frame.origin, Claims(walk_faces(given, starts)[0]))
    if fault:
        raise Unfit(f"{UNLIKE}: {fault}")


def order_polyhedra(mesh: Volume, starts: Whole) -> Whole:
    """The darts at which faces begin in the order of a file of polyhedra, which stand by their numbers of corners."""
    counts = [len(cell.faces) for cell in mesh.cells]
    parts = np.split(starts, np.cumsum(counts)[:-1])
    order = sorted(range(len(mesh.cells)), key=lambda index: len(mesh.cells[index].corners))
    return np.concatenate([parts[index] for index in order])


def take_mesh(given: Arrays, frame: Frame, has_cells: bool) -> Taken:
    """The mesh of a map, its points divided by the scale: of its cells in dimension 3, where it may have cells, else
    of its faces."""
    if given.dimension not in (2, 3):
        raise Unfit(f"it has dimension {given.dimension}, and a mesh is made of a map of dimension 2 or 3")
    if not len(given.names):
        raise Unfit("it has no darts, and a mesh has a face at least")
    return take_volume(given, frame) if given.dimension == 3 and has_cells else take_surface(given, frame)
