"""Draws generalised maps of dimension 1 to 3 as a picture: flat with all darts, or as solids with hidden surfaces.

A flat picture has a thick stroke for each dart in its face, from its vertex to the middle of its edge, and a line for
each pair of neighbours in the colour of its label; along 3 one for each two faces that meet, or the names of the darts
across where it would be long or cross another. A map is drawn where its points are (the first embedding of kind vec2 or
vec3 over the vertices), or else laid out: each surface flat, a closed one round a face, whose darts stand outside, or
cut to a net along edges, where the name of the dart across stands. Volumes stand apart. Maps side by side have one
layout: what stays lies where it lay, by the names of darts. Faces have the colour of the first
embedding of kind rgb over faces or more, thinned so that what lies behind them is seen, and edges the number of the
first one of kind int over edges, beside their middles.

A picture of solids needs points. It has the faces in their colours, as they are seen from where --view says, and with
--names each face's least dart. Of volumes the border is seen, or with --apart each of them."""
import argparse
import os
import sys
from collections.abc import Sequence
from io import BytesIO
from pathlib import Path

from gmr.arrays import read_arrays
from gmr.commands.frame import new_parser, run_command
from gmr.draw import crowd, flat as draw_flat, solid as draw_solid
from gmr.draw.model import Model, load_model
from gmr.draw.solid import View
from gmr.errors import told_with
from gmr.files import check_apart, write_whole
from gmr.progress import tell

FORMS = (".svg", ".png", ".pdf")
SMALL = 1_000_000  # bytes of a map that isn't large
EXAMPLES = """examples:
  tools/draw out.gmap out.svg                        all darts, with their names
  tools/draw before.gmap after.gmap both.svg         side by side, each under its file's name
  tools/draw torus.gmap torus.png --solid            faces, as they are seen
  tools/draw torus.gmap torus.png --solid --view 60 20 --colours height
  tools/draw beam.gmap beam.svg --solid --apart 0.2  volumes, pulled apart

The picture's form is that of the name's ending: .svg; and .png and .pdf for solids."""


def parse(words: Sequence[str]) -> argparse.Namespace:
    """The command line, taken apart."""
    parser = new_parser("draw", __doc__, EXAMPLES, "tools/draw MAP [MAP ..] [OUT] [OPTIONS]")
    parser.add_argument("maps", metavar="MAP", nargs="+",
                        help="files of maps, which are drawn side by side; a last name that ends in .svg, .png or .pdf "
                        "is the picture's, which else goes to standard output")
    parser.add_argument("--names", action="store_true", default=None, help="with names, also where there are many")
    parser.add_argument("--no-names", action="store_false", dest="names", help="without names")
    parser.add_argument("--titles", metavar="TITLE", nargs="+", help="what stands above maps, else their files' names")
    parser.add_argument("--colours", metavar="NAME", help="the embedding with colours, or with values to be coloured")
    kind = parser.add_mutually_exclusive_group()
    kind.add_argument("--solid", action="store_true", default=None, help="faces with hidden surfaces, and no darts")
    kind.add_argument("--flat", action="store_false", dest="solid", help="darts, also of a large map in space")
    solids = parser.add_argument_group("solids")
    solids.add_argument("--view", nargs=2, type=float, metavar=("UP", "ROUND"),
                        help="from how many degrees above, and how many round; else 25 -60, or plane maps from above")
    solids.add_argument("--axis", choices="xyz", default="z", help="the axis that goes up, else z")
    solids.add_argument("--apart", type=float, default=0, metavar="SHARE",
                        help="volumes smaller by a share, and all seen")
    solids.add_argument("--size", type=float, default=5, metavar="INCHES", help="how wide each map is drawn, else 5")
    solids.add_argument("--columns", type=int, default=4, metavar="N", help="how many maps stand side by side, else 4")
    solids.add_argument("--clear", type=float, default=0, metavar="SHARE", help="how far one sees through faces, to 1")
    parsed = parser.parse_intermixed_args(words)
    has_out = parsed.maps[-1].endswith(FORMS) and len(parsed.maps) > 1
    parsed.out = parsed.maps.pop() if has_out else None
    if parsed.titles is not None and len(parsed.titles) != len(parsed.maps):
        parser.error("say a title for each map")
    return parsed


def is_solid(asked: argparse.Namespace, models: list[Model]) -> bool:
    """Whether solids are drawn: where it is said, and else of many darts in space."""
    if asked.solid is not None:
        return bool(asked.solid)
    return any(map(is_in_space, models)) and sum(len(it.alpha[0]) for it in models) > draw_flat.MOST_NAMES


def is_in_space(it: Model) -> bool:
    """Whether the points of a map don't lie in the plane."""
    return len({z for _, _, z in it.points.values()}) > 1


def titles_of(paths: list[str]) -> list[str | None]:
    """What stands above maps if it isn't said: nothing above one, else their files' names, with their folders where
    two files have one name."""
    names = [Path(path).stem for path in paths]
    if len(paths) == 1:
        return [None]
    return [name if names.count(name) == 1 else f"{Path(path).parent.name}/{name}" for path, name in zip(paths, names)]


def main(words: Sequence[str]) -> None:
    """Draws the maps, to standard output or into a file."""
    asked = parse(words)
    if asked.out:
        check_apart(asked.out, asked.maps)
    if draw_crowds(asked):
        return
    models = []
    for path in asked.maps:
        tell(f"reading {path}")
        with told_with(path):
            models.append(load_model(path, asked.colours))
    tell("drawing")
    titled = list(zip(asked.titles or titles_of(asked.maps), models))
    form = Path(asked.out).suffix[1:] if asked.out else "svg"
    if is_solid(asked, models):
        above, turn = asked.view or ((25, -60) if any(map(is_in_space, models)) else (90, -90))
        view = View(above, turn, asked.axis, asked.apart, asked.clear, asked.columns, asked.size, asked.names)
        picture = BytesIO()
        draw_solid.draw(titled, view, picture, form)
        write_picture(picture.getvalue(), asked.out)
    elif form != "svg":
        raise ValueError(f"a flat picture is .svg, and no .{form}; --solid draws faces as .{form} too")
    else:
        write_picture(draw_flat.draw(titled, asked.names).encode("utf-8"), asked.out)


def draw_crowds(asked: argparse.Namespace) -> bool:
    """Draws the maps as solids where all of them are large surfaces, and says whether it did."""
    above, turn = asked.view or (25, -60)
    view = View(above, turn, asked.axis, asked.apart, asked.clear, asked.columns, asked.size, asked.names)
    if asked.colours is not None or asked.solid is False or any(os.path.getsize(path) < SMALL for path in asked.maps):
        return False
    drawn = []
    for title, path in zip(asked.titles or titles_of(asked.maps), asked.maps):
        tell(f"reading {path}")
        with told_with(path):
            it = read_arrays(Path(path).read_bytes())
            if not crowd.suits(it, view) or not crowd.is_in_space(it):
                return False
            drawn.append((title, crowd.faces_of(it, view)))
    tell("drawing")
    picture = BytesIO()
    draw_solid.draw_listed(drawn, view, picture, Path(asked.out).suffix[1:] if asked.out else "svg")
    write_picture(picture.getvalue(), asked.out)
    return True


def write_picture(picture: bytes, out: str | None) -> None:
    """Writes a picture into a file, whole or not at all, or to standard output."""
    if out:
        write_whole(out, picture)
    else:
        sys.stdout.buffer.write(picture)


def run() -> int:
    """Does what the command line asks for; the status."""
    return run_command("draw", main)
