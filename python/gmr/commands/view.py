"""Makes a page that shows maps, or a script line by line: one file that any browser opens, without a network.

The page turns the map, pulls volumes apart and cuts them. Under the pointer it tells a dart's neighbours, the cells it
lies in, and its values; a click copies the dart, or a line of a script. With a book and a script it has a slider over
the lines, each with its line of the report, what is new and what is gone in colours, and why a line was refused.

A map is drawn where its points are (the first embedding of kind vec2 or vec3 over the vertices), or else laid out as
tools/draw does, or in space above 1,500 darts. Above dimension 3 it is seen along three labels."""
import argparse
import tempfile
import webbrowser
from collections.abc import Sequence
from pathlib import Path

from gmr.commands.frame import new_parser, run_command
from gmr.errors import told_with
from gmr.files import check_apart, write_whole
from gmr.maps import read_map
from gmr.places import read_bytes, tokens_from
from gmr.progress import tell
from gmr.view.page import make_page
from gmr.view.scene import Json, scene_of
from gmr.view.steps import Lines

NAMED = 3  # files that the title names: a map, a book and a script

EXAMPLES = """examples:
  tools/view out.gmap -o out.html                     one map
  tools/view before.gmap after.gmap -o both.html      maps, one after another
  tools/view cube.gmap ops.gbook steps.gscript --open a script line by line, and the page opened

Without -o the page has the first map's name with .html, in this folder. A page holds three.js, and so has 1 MB and
what the maps need."""


def parse(words: Sequence[str]) -> argparse.Namespace:
    """The command line, taken apart."""
    usage = "tools/view [OPTIONS] MAP [MAP ..]\n       tools/view [OPTIONS] MAP BOOK SCRIPT"
    parser = new_parser("view", __doc__, EXAMPLES, usage)
    parser.add_argument("files", metavar="FILE", nargs="+", help="maps; or a map, a book and a script")
    parser.add_argument("-o", "--out", metavar="PAGE", help="the page's file")
    parser.add_argument("--labels", metavar="I", type=int, nargs=3,
                        help="above dimension 3, the labels that are seen as those of a surface, else 0 1 2")
    parser.add_argument("--title", metavar="TEXT", help="what stands above, else the files' names")
    parser.add_argument("--open", action="store_true", help="open the page in a browser")
    asked = parser.parse_intermixed_args(words)
    asked.out = asked.out or f"{Path(asked.files[0]).stem}.html"
    return asked


def is_script(paths: list[str]) -> bool:
    """Whether files are a map, a book and a script: whether the second one begins as books do."""
    if len(paths) != 3:
        return False
    tokens = tokens_from(read_bytes(paths[1]), 0, 1)
    return bool(tokens) and tokens[0].word == "book"


def data_of_maps(paths: list[str], labels: list[int] | None) -> Json:
    """What a page of maps shows."""
    return {"names": paths, "scenes": [scene_of_file(path, labels) for path in paths]}


def scene_of_file(path: str, labels: list[int] | None) -> Json:
    """The scene of a map's file."""
    tell(f"reading {path}")
    with told_with(path):
        return scene_of(read_map(Path(path).read_text(encoding="latin-1")), labels)


def data_of_script(paths: list[str], labels: list[int] | None) -> Json:
    """What a page of a script shows."""
    tell("running the script")
    with tempfile.TemporaryDirectory(prefix="gmr-view-") as folder:
        lines = Lines(paths, Path(folder))
        return {"names": paths, "scenes": [scene_of(lines.first(), labels)], "steps": lines.steps(labels),
                "rules": lines.rules()}


def title_of(paths: Sequence[str]) -> str:
    """The names of the first files, and how many more there are."""
    names, more = [Path(path).name for path in paths[:NAMED]], len(paths) - NAMED
    return ", ".join(names) + (f" and {more} more" if more > 0 else "")


def main(words: Sequence[str]) -> None:
    """Makes the page."""
    asked = parse(words)
    check_apart(asked.out, asked.files)
    data = (data_of_script if is_script(asked.files) else data_of_maps)(asked.files, asked.labels)
    write_whole(asked.out, make_page(asked.title or title_of(asked.files), data))
    print(asked.out)
    if asked.open:
        webbrowser.open(Path(asked.out).resolve().as_uri())


def run() -> int:
    """Does what the command line asks for; the status."""
    return run_command("view", main)
