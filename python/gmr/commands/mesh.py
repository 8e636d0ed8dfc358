"""Meshes in, meshes out: files of surfaces and volumes become maps, and maps such files."""
import argparse
import ctypes
import gc
from collections.abc import Sequence
from fractions import Fraction
from pathlib import Path

from gmr.commands.frame import new_parser, run_command
from gmr.errors import told_with
from gmr.mesh.convert import Options, export_map, import_mesh
from gmr.mesh.cycle import keep_scale, run_mesh, watch
from gmr.mesh.embeds import Colours, parse_embed
from gmr.mesh.formats import list_written
from gmr.mesh.model import Unfit
from gmr.mesh.scale import Frame, parse_origin, parse_scale, read_frame
from gmr.mesh.surface import Wish
from gmr.progress import tell

MANY_MADE = 1_000_000   # what is made before the collector looks, which would go over long lists again and again
# The library of C gives large arrays that are freed back to the system, which fills the next ones with zeros, page by
# page: a third of the system's seconds. Kept, the same memory serves again.
TRIM_THRESHOLD, MMAP_MAX, KEPT = -1, -4, 1 << 30
NOTES = """\
examples
  tools/mesh import model.obj model.gmap
  tools/mesh import torn.3ds torn.gmap --weld 0 --drop --cut
  tools/mesh export out.gmap out.ply --scale-of model.gmap
  tools/mesh run model.obj book.gbook script.gscript out.glb --watch

what is told
  An import tells in one line the scale, the greatest rounding in the file's units, how many points came to share a
  place by it, how many are in no face, and what was welded, mended, left out, opened or passed over.

scale
  Values of maps are whole numbers, so coordinates are multiplied by a scale and rounded. Without --scale it is the
  least power of ten that makes all of them whole, where none passes 2^53 (with --exact: 2^62, or nothing is written);
  else the least one that leaves seven digits of the greatest and parts all points that differ. --origin is taken from
  all points before. Both are kept as comments in the map; 'run' keeps them in a file beside a map, OUT.gmap.scale.

formats
  surfaces   OBJ, OFF, PLY and STL; and by Assimp's program (assimp-utils) all that it reads, as 3DS, glTF and FBX
  volumes    VTK, VTU, MSH (Gmsh), MESH (Medit) and INP (Abaqus), by the library meshio (python3-meshio)
  written    OBJ, OFF, PLY; STL, glTF and GLB as triangles of 32 bits; and those of volumes

docs/MESHES.md says what becomes of a mesh, and has each line with which one is refused.
"""


def add_conversion(parser: argparse.ArgumentParser) -> None:
    """The options of what becomes of a mesh."""
    scale = parser.add_argument_group("scale")
    scale.add_argument("--scale", metavar="S", help="what coordinates are multiplied by")
    scale.add_argument("--origin", nargs=3, metavar=("X", "Y", "Z"), help="a point that is taken from all others")
    scale.add_argument("--exact", action="store_true", help="nothing is rounded, or nothing is written")
    mending = parser.add_argument_group("what is forgiven")
    weld = mending.add_mutually_exclusive_group()
    weld.add_argument("--weld", metavar="DISTANCE", help="points that are so near become one; 0: those at one place")
    weld.add_argument("--no-weld", action="store_true", help="corners without numbers stay apart")
    mending.add_argument("--drop", action="store_true", help="doubled corners and degenerate faces are left out")
    mending.add_argument("--cut", action="store_true", help="edges of three or more faces, and the like, are left open")
    values = parser.add_argument_group("embeddings")
    colours = values.add_mutually_exclusive_group()
    colours.add_argument("--colours", action="store_true", help="the file's colours become an embedding 'col'")
    colours.add_argument("--paint", nargs=3, metavar=("R", "G", "B"), help="an embedding 'paint', else of this colour")
    values.add_argument("--embed", action="append", default=[], metavar="EMBEDDING",
                        help="another embedding, as 'near <> vec3' or 'pick <0 1> int = 0'")
    parser.add_argument("--no-check", action="store_true", help="the program isn't asked to read what was written")
    parser.add_argument("--no-compare", action="store_true", help="what was written isn't compared with what was read")


def read_words(given: Sequence[str]) -> argparse.Namespace:
    """The command line."""
    parser = new_parser("mesh", __doc__, NOTES)
    commands = parser.add_subparsers(dest="command", required=True, metavar="COMMAND")

    reading = commands.add_parser("import", help="a mesh's file becomes a map")
    reading.add_argument("model", type=Path, metavar="MODEL", help="the mesh; its suffix tells its format")
    reading.add_argument("out", type=Path, metavar="OUT.gmap", help="the map's file that is written")
    reading.add_argument("--for", dest="book", type=Path, metavar="BOOK", help="the map has the embeddings of a book")
    add_conversion(reading)

    writing = commands.add_parser("export", help="a map becomes a mesh's file")
    writing.add_argument("map", type=Path, metavar="MAP", help="the map, of dimension 2 or 3")
    writing.add_argument("out", type=Path, metavar="OUT", help=f"the mesh: {' '.join(list_written())}")
    writing.add_argument("--scale", metavar="S", help="what coordinates are divided by")
    writing.add_argument("--origin", nargs=3, metavar=("X", "Y", "Z"), help="a point that is added to all others after")
    writing.add_argument("--scale-of", type=Path, metavar="MAP", help="the map whose scale and origin are taken")
    writing.add_argument("--no-compare", action="store_true", help="what was written isn't compared with the map")

    running = commands.add_parser("run", help="a script runs on a mesh, and what it leaves is a mesh again")
    running.add_argument("model", type=Path, metavar="MODEL", help="the mesh, or a map that ends in .gmap")
    running.add_argument("book", type=Path, metavar="BOOK", help="the rules, whose embeddings the map has")
    running.add_argument("script", type=Path, metavar="SCRIPT", help="the script")
    running.add_argument("out", type=Path, metavar="OUT", help="the mesh that is written, or a map that ends in .gmap")
    running.add_argument("--watch", action="store_true", help="again when a file changes, until it is interrupted")
    add_conversion(running)

    keeping = commands.add_parser("scale", help="tells the scale of a map, or keeps another map's beside it")
    keeping.add_argument("map", type=Path, metavar="MAP", help="the map")
    keeping.add_argument("--of", type=Path, metavar="OTHER", help="the map whose scale is kept in MAP.scale")

    words = parser.parse_args(given)
    try:
        parse_values(words)
    except ValueError as error:
        parser.error(str(error))
    return words


def parse_values(words: argparse.Namespace) -> None:
    """Takes the words of options for what they stand for; ValueError where one stands for nothing."""
    if words.command == "scale":
        return
    words.scale = None if words.scale is None else parse_scale(words.scale)
    words.origin = None if words.origin is None else parse_origin(words.origin)
    if words.command != "export":
        words.weld = None if words.weld is None else parse_distance(words.weld)
        words.paint = None if words.paint is None else tuple(map(parse_channel, words.paint))
        words.embed = list(map(parse_embed, words.embed))


def parse_channel(word: str) -> int:
    """A number from 0 to 255; ValueError at any other word."""
    if not (word.isascii() and word.isdigit() and int(word) <= 255):
        raise ValueError(f"{word} is no part of a colour, which is a number from 0 to 255")
    return int(word)


def parse_distance(word: str) -> Fraction:
    """A distance of 0 or more; ValueError at any other word."""
    try:
        return Fraction(0) if not word.strip("0.") and "0" in word else parse_scale(word)
    except ValueError:
        raise ValueError(f"{word} is no distance, which is a number of 0 or more") from None


def keep_memory() -> None:
    """Has memory kept where it is freed, if the library of C can be told so."""
    mallopt = getattr(ctypes.CDLL(None), "mallopt", None)
    if mallopt is not None:
        mallopt(MMAP_MAX, 0)
        mallopt(TRIM_THRESHOLD, KEPT)


def main(given: Sequence[str]) -> int:
    """Does what the command line asks for, and tells of it: the status, 1 where lines of a script were refused."""
    words = read_words(given)
    gc.set_threshold(MANY_MADE)
    keep_memory()
    source = words.map if words.command in ("export", "scale") else words.model
    with told_with(source):
        if words.command == "run":
            return run_script(words)
        tell({"import": f"importing {source}", "export": f"exporting {source}"}.get(words.command, f"reading {source}"))
        told = do(words)
    if not words.quiet or words.command == "scale":
        print(told)
    return 0


def do(words: argparse.Namespace) -> str:
    """Does what the command line asks for; what is told."""
    if words.command == "import":
        return import_mesh(words.model, words.out, options_of(words))
    if words.command == "scale":
        return keep_scale(words.map, words.of)
    frame = None
    if words.scale_of:
        frame = read_frame(words.scale_of)
        if frame is None:
            raise Unfit(f"{words.scale_of} tells no scale, and no file beside it does")
    if words.scale or words.origin:
        frame = Frame(words.scale or (frame.scale if frame else Fraction(1)), words.origin)
    return export_map(words.map, words.out, frame, not words.no_compare)


def run_script(words: argparse.Namespace) -> int:
    """Runs a script on a mesh, once or whenever a file changes; the status of the program."""
    inputs = [words.model, words.book, words.script]
    if words.watch:
        watch(inputs, lambda: run_mesh(inputs, words.out, options_of(words))[1], lambda line: print(line, flush=True))
    tell(f"running {words.script}")
    status, told = run_mesh(inputs, words.out, options_of(words))
    if not words.quiet:
        print(told)
    return status


def options_of(words: argparse.Namespace) -> Options:
    """The options of an import."""
    return Options(
        scale=words.scale,
        origin=words.origin,
        is_exact=words.exact,
        weld=words.weld,
        is_unwelded=words.no_weld,
        wish=Wish(words.drop, words.cut),
        colours=Colours(words.colours, words.paint),
        embeds=words.embed,
        book=words.book,
        is_checked=not words.no_check,
        is_compared=not words.no_compare,
    )


def run() -> int:
    """Does what the command line asks for; the status."""
    return run_command("mesh", main)
