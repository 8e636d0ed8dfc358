"""From mesh to mesh in one command: a mesh becomes a map, a script runs on it, and what is left is a mesh again."""
from __future__ import annotations

import tempfile
import time
from collections.abc import Callable, Iterator, Sequence
from pathlib import Path

from gmr import program
from gmr.arrays import read_arrays
from gmr.errors import Fault
from gmr.files import check_apart, write_whole
from gmr.mesh.convert import ONE, Options, write_import, write_map
from gmr.mesh.formats import check_read, check_written
from gmr.mesh.model import Unfit
from gmr.mesh.scale import Frame, beside, read_frame

MAP = ".gmap"
DONE = (0, 1)  # statuses with which a run leaves a map: all lines done, or some refused
RHYTHM = 0.3  # seconds between two looks at the files that are watched


def run_mesh(inputs: Sequence[Path], out: Path, options: Options) -> tuple[int, str]:
    """Runs a script on a mesh, or on a map that ends in .gmap: the program's status, 1 where lines were refused, and
    what is told. `inputs` are the model, the book and the script. OUT is a mesh, or a map with its scale beside it."""
    model, book, script = inputs
    if out.suffix.lower() != MAP:
        check_written(out)
    check_apart(out, inputs)
    program.find_program()
    if model.suffix.lower() != MAP:
        check_read(model)
    with tempfile.TemporaryDirectory() as scratch:
        before, after = Path(scratch) / "before.gmap", Path(scratch) / "after.gmap"
        if model.suffix.lower() == MAP:
            before, frame, told = model, read_frame(model) or ONE, ""
        else:
            made = write_import(model, before, options)
            frame, told = made.frame, f"imported {made.told}\n"
        status, report = program.answer("run", before, book, script, after)
        if status not in DONE:
            raise program.refusal_of(status, report)
        return status, f"{told}{report}exported {write_left(after.read_bytes(), out, frame, options.is_compared)}"


def write_left(text: bytes, out: Path, frame: Frame, is_compared: bool) -> str:
    """Writes what a run left, as a map or as a mesh, and tells what it has."""
    if out.suffix.lower() != MAP:
        return f"{write_map(read_arrays(text), out, frame, is_compared)} scale {frame.scale}"
    write_whole(out, text)
    write_whole(beside(out), "".join(f"{line}\n" for line in frame.lines()))
    return f"{out} scale {frame.scale}"


def keep_scale(gmap: Path, other: Path | None) -> str:
    """Tells the scale and origin of a map; where another one is named, that one's are kept in a file beside it."""
    frame = read_frame(other or gmap)
    if frame is None:
        raise Unfit(f"{other or gmap} tells no scale, and no file beside it does")
    if other:
        check_apart(beside(gmap), [other])
        write_whole(beside(gmap), "".join(f"{line}\n" for line in frame.lines()))
    return " ".join(frame.lines())


def watch(inputs: Sequence[Path], act: Callable[[], str], say: Callable[[str], None]) -> None:
    """Acts now and whenever one of the files changes, until it is interrupted; what is refused is said, and waited."""
    for _ in changes(inputs):
        try:
            say(act())
        except Fault as fault:
            say(fault.told())
        except (OSError, ValueError) as fault:
            say(str(fault))


def changes(inputs: Sequence[Path]) -> Iterator[None]:
    """Comes once, and then each time a file was changed."""
    seen: list[tuple[int, int] | None] = []
    while True:
        found = [stamp(path) for path in inputs]
        if found != seen:
            seen = found
            yield
        time.sleep(RHYTHM)


def stamp(path: Path) -> tuple[int, int] | None:
    """When a file was changed and how long it is, None where it isn't there."""
    try:
        known = path.stat()
        return known.st_mtime_ns, known.st_size
    except OSError:
        return None
