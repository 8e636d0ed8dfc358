"""Meshes in the formats that Assimp's program reads: it turns them to PLY, which keeps their polygons."""
import re
import shutil
import subprocess
import tempfile
from collections import Counter
from dataclasses import replace
from pathlib import Path

from gmr.errors import Missing
from gmr.mesh.model import Surface, Unfit
from gmr.mesh.obj import read_obj
from gmr.mesh.ply import read_ply

UTF16 = (b"\xff\xfe", b"\xfe\xff")
ENCODING = re.compile(r"""\A(.{0,100}?\bencoding\s*=\s*["'])utf-16(["'])""", re.IGNORECASE)
LINE_ENDS = 2  # corners of what is no face, but a line or a point


def find_assimp() -> str:
    """The program; where it is missing, one line says what to install."""
    found = shutil.which("assimp")
    if found is None:
        raise Missing("the program assimp is missing: apt-get install assimp-utils")
    return found


def read_by_assimp(path: Path) -> Surface:
    """The surface of a file, whose points have no numbers. Lines and points are passed over and counted.

    Assimp writes a PLY that is no PLY where some meshes of a file have colours and others have none: then it is
    asked for an OBJ, which has no colours.
    """
    with tempfile.TemporaryDirectory() as scratch:
        turned = turn(path, Path(scratch), "plyb", "turned.ply")
        try:
            surface = read_ply(turned)
        except Unfit as unfit:
            try:
                surface = read_obj(turn(path, Path(scratch), "obj", "turned.obj"))
                surface = replace(surface, names=None, passed={**surface.passed, "colours": len(surface.places)})
            except Unfit:
                raise Unfit(f"what Assimp makes of it is no surface: {unfit}") from None
    return pass_over_lines(replace(surface, has_numbers=False))


def turn(path: Path, folder: Path, form: str, name: str) -> Path:
    """The file that Assimp makes of a mesh in this form; Unfit where it can't read the mesh."""
    turned = folder / name
    words: list[str | Path] = [find_assimp(), "export", as_utf8(path, folder).absolute(), turned, f"-f{form}"]
    done = subprocess.run(words, capture_output=True, check=False, stdin=subprocess.DEVNULL)
    if done.returncode != 0 or not turned.exists():
        raise Unfit(f"Assimp can't read it: {last_line(done.stdout + done.stderr, done.returncode)}")
    return turned


def as_utf8(path: Path, folder: Path) -> Path:
    """The file, or where it is a text in UTF-16, which Assimp misreads in some formats, a copy in UTF-8; that one has
    the files beside it at its side, whose names it may tell."""
    with path.open("rb") as file:
        mark = file.read(2)
    if mark not in UTF16:
        return path
    copy = folder / "copied" / path.name
    copy.parent.mkdir(exist_ok=True)
    text = path.read_bytes().decode("utf-16", "replace")
    copy.write_text(ENCODING.sub(r"\1utf-8\2", text, count=1), encoding="utf-8", newline="")
    for other in path.absolute().parent.iterdir():
        beside = copy.parent / other.name
        if not beside.exists():
            beside.symlink_to(other)
    return copy


def pass_over_lines(surface: Surface) -> Surface:
    """The surface without what has one corner or two, which is a line or a point for Assimp."""
    is_face = surface.sizes > LINE_ENDS
    if is_face.all():
        return surface
    counts = {"points": int((surface.sizes == 1).sum()), "lines": int((surface.sizes == LINE_ENDS).sum())}
    passed = Counter(surface.passed) + Counter(counts)
    return replace(
        surface,
        corners=surface.corners[is_face.repeat(surface.sizes)],
        sizes=surface.sizes[is_face],
        face_colours=None if surface.face_colours is None else surface.face_colours[is_face],
        names=is_face.nonzero()[0],
        passed=dict(passed),
    )


def last_line(said: bytes, status: int) -> str:
    """What the program said last, or its status."""
    lines = said.decode("utf-8", "replace").split("\n")
    return next((line.strip() for line in reversed(lines) if line.strip()), f"it ended with status {status}")
