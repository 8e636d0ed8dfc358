"""Finds darts of a map, so that a script can be written: at a place, of a cell, of an orbit, or of all cells."""
import argparse
import gc
import json
import re
import string
import sys
from collections.abc import Sequence
from typing import Any

from gmr.arrays import load_arrays
from gmr.commands.frame import new_parser, run_command, say
from gmr.distances import place_of
from gmr.find.finder import CELLS, Finder, Found, Spot
from gmr.maps import Value
from gmr.progress import tell

MANY_MADE = 1_000_000   # what is made before the collector looks, which would go over long lists again and again
EXAMPLES = """examples:
  tools/find MAP --at 0 0 1                      the vertex at this point, or the nearest one
  tools/find MAP --at 0 0 1 --cell 2             the face on which this point lies, or the nearest one
  tools/find MAP --vertex 0 0 1 --face 1 0 0     the darts of that vertex on that face
  tools/find MAP --of 17 --cell 2                the face of dart 17
  tools/find MAP --orbit '0 1' 17                the orbit of dart 17 along 0 and 1
  tools/find MAP --list 2                        all faces
  tools/find MAP --list 1 --free 2               the edges on the border of a surface
  tools/find MAP --list 2 --where 'paint=(255 0 0)' --script 'apply triangulate {dart}' > all.gscript

The form of --script has {dart} for the least dart of what was found (with --free, the least that is free), {number}
for its number, from 0 on, and the name of each embedding for the value at that dart, as {pos}. --json prints
a list of objects with name, dart, darts, sizes (how many cells of each dimension are met), values and distance."""


def numbers_in(word: str) -> list[int]:
    """The numbers in a word of the command line."""
    words = word.strip("<>").replace(",", " ").split()
    if not all(one.isdecimal() for one in words):
        raise ValueError(f"{word!r} is no list of numbers: say --orbit '0 1' 17")
    return [int(one) for one in words]


class AddSpot(argparse.Action):
    """Keeps a place with the dimension of the cell that is asked for there, None for that of --cell."""

    def __call__(
        self, parser: argparse.ArgumentParser, namespace: argparse.Namespace, values: Any, option: str | None = None
    ) -> None:
        """Adds the place after an option."""
        name = (option or "")[2:]
        if len(values) not in (2, 3):
            parser.error(f"{option} takes a place of two or three numbers")
        cell = CELLS.index(name) if name in CELLS else None
        namespace.spots = [*(namespace.spots or []), (cell, place_of(values))]


def parse(words: Sequence[str]) -> argparse.Namespace:
    """The command line, taken apart."""
    parser = new_parser("find", __doc__, EXAMPLES, "tools/find MAP WHAT [OPTIONS]")
    parser.add_argument("map", metavar="MAP", help="the file of a map")
    what = parser.add_argument_group("what to find, one of these")
    what.add_argument("--at", dest="spots", nargs="+", type=float, metavar="X", action=AddSpot, default=[],
                      help="the cell at a place, by --cell, or the nearest one")
    for cell in CELLS:
        what.add_argument(f"--{cell}", dest="spots", nargs="+", type=float, metavar="X", action=AddSpot, default=[],
                          help=f"the {cell} at a place, or the nearest one; of several places: the darts in common")
    what.add_argument("--of", type=int, metavar="DART", help="the cell of a dart, by --cell")
    what.add_argument("--orbit", nargs=2, metavar=("LABELS", "DART"), help="the orbit of a dart along labels")
    what.add_argument("--list", type=int, metavar="N", help="all cells of this dimension")
    what.add_argument("--parts", action="store_true", help="the parts of the map that hang together")
    parser.add_argument("--cell", type=int, default=0, metavar="N",
                        help="the cell's dimension with --at and --of, else 0")
    parser.add_argument("--points", metavar="NAME", help="the embedding with the points, else the first on vertices")
    parser.add_argument("--scale", type=float, default=1, metavar="S",
                        help="places are multiplied by S, as points were")
    parser.add_argument("--within", type=float, metavar="R", help="nothing that is further from the place than this")
    parser.add_argument("--free", type=int, metavar="LABEL", help="only what has a dart that is free along the label")
    parser.add_argument("--where", metavar="NAME=VALUE", help="only what has this value of the embedding somewhere")
    how = parser.add_mutually_exclusive_group()
    how.add_argument("--json", action="store_true", help="print JSON, for programs")
    how.add_argument("--lead", action="store_true", help="print one dart a line for each that was found")
    how.add_argument("--script", metavar="FORM", help="print a line for each that was found, as the lines of a script")
    parsed = parser.parse_args(words)
    asked = [bool(parsed.spots), parsed.of is not None, parsed.orbit is not None, parsed.list is not None, parsed.parts]
    if sum(asked) != 1:
        parser.error("say one thing to find: a place, --of, --orbit, --list or --parts")
    return parsed


def find(finder: Finder, asked: argparse.Namespace) -> list[Found]:
    """What the command line asks for."""
    if asked.parts:
        found = finder.parts()
    elif asked.list is not None:
        found = finder.all_of(asked.list)
    elif asked.of is not None:
        found = finder.cell_of(asked.cell, asked.of)
    elif asked.orbit is not None:
        labels, darts = map(numbers_in, asked.orbit)
        if len(darts) != 1:
            raise ValueError("an orbit is that of one dart")
        found = finder.orbit_of(labels, darts[0])
    else:
        scaled = ((cell, place_of([asked.scale * number for number in place])) for cell, place in asked.spots)
        spots = [Spot(asked.cell if cell is None else cell, place) for cell, place in scaled]
        within = None if asked.within is None else asked.within * asked.scale
        found = finder.nearest(spots[0], within) if len(spots) == 1 else finder.common(spots, within)
    return [one for one in found if asked.where is None or has_value(finder, one, asked.where)]


def has_value(finder: Finder, found: Found, where: str) -> bool:
    """Whether NAME=VALUE holds somewhere on what was found."""
    name, _, wanted = where.partition("=")
    if name not in finder.map.values:
        raise ValueError(f"the map has no embedding {name}")
    numbers = tuple(map(int, re.findall(r"-?\d+", wanted)))
    return numbers in [value if isinstance(value, tuple) else (value,) for value in found.values[name]]


def spell(value: Value) -> str:
    """A value as it stands in a script."""
    return f"({' '.join(map(str, value))})" if isinstance(value, tuple) else str(value)


class Spelled(dict[Value, str]):
    """Values as they stand in a script, each spelled when it is first met."""

    def __missing__(self, value: Value) -> str:
        self[value] = spell(value)
        return self[value]


def for_people(found: list[Found]) -> str:
    """A line for each that was found."""
    lines, spelled = [], Spelled()
    for one in found:
        apart = [] if one.distance is None else [f"{one.distance:g} away" if one.distance > 1e-9 else "at the place"]
        values = [f"{name} {' '.join(map(spelled.__getitem__, values))}" for name, values in one.values.items()]
        parts = [*apart, f"darts {' '.join(map(str, one.darts))}", *(f"{k} {n}" for k, n in one.sizes.items()), *values]
        lines.append(f"{one.name}: {', '.join(parts)}\n")
    return "".join(lines)


def for_programs(found: list[Found]) -> str:
    """The same as JSON: a list with an object for each that was found, on a line of its own."""
    return "[\n" + ",\n".join(json.dumps(one._asdict()) for one in found) + "\n]\n"


def for_scripts(finder: Finder, found: list[Found], form: str) -> str:
    """A line of a script of this form for each that was found."""
    known = {"dart", "number", *finder.map.values}
    for _, name, _, _ in string.Formatter().parse(form):
        if name is not None and name not in known:
            raise ValueError(f"the form has {{{name}}}, which is none of {', '.join(sorted(known))}")
    wanted = [name for _, name, _, _ in string.Formatter().parse(form) if name in finder.map.values]
    lines = []
    for number, one in enumerate(found):
        place = finder.row_of(one.dart)
        row = {name: spell(finder.values_of(name)[place]) for name in wanted}
        lines.append(form.format_map({**row, "dart": str(one.dart), "number": str(number)}) + "\n")
    return "".join(lines)


def main(words: Sequence[str]) -> int:
    """Finds and prints; 1 where nothing is found."""
    asked = parse(words)
    gc.set_threshold(MANY_MADE)
    tell(f"reading {asked.map}")
    finder = Finder(load_arrays(asked.map), asked.points, asked.free)
    tell("looking for it")
    found = find(finder, asked)
    if asked.json:
        text = for_programs(found)
    elif asked.lead or asked.script is not None:
        text = for_scripts(finder, found, "{dart}" if asked.lead else asked.script)
    else:
        text = for_people(found)
    sys.stdout.write(text)
    return 0 if found else say("find", "nothing that was asked for is there")


def run() -> int:
    """Does what the command line asks for; the status."""
    return run_command("find", main)
