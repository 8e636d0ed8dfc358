"""Runs a script's lines by the program, piece by piece: a piece costs one run over the last map that is kept.

A place in the script is a number of lines; the map at a place is the one that these lines leave. Maps are kept as the
program saved them, in version 2, which has the next name."""
import tempfile
from bisect import bisect_right
from collections.abc import Sequence
from itertools import count
from pathlib import Path
from typing import NamedTuple

from gmr import program
from gmr.errors import Refused
from gmr.maps import Map, read_map
from gmr.model.history import History
from gmr.program import answer

MOST_LINES = 100_000            # a script has no more
MOST_KEPT_BYTES = 256 * 2**20   # of maps that are kept, before every second one goes


class Piece(NamedTuple):
    """Lines that were tried after a script: what the report says of each, the file of the map that they leave, and
    what the report says after them."""

    report: list[str]
    map: Path
    rest: list[str] = []


class Session:
    """A first map, a book, the lines that were done so far, and the maps that are kept of them."""

    def __init__(self, first: Path, book: Path, keeper: object = None) -> None:
        """The file of the first map, in version 2, and that of the book; Refused where the program takes one not. They
        stay as long as the keeper does: an outcome can outlast its model."""
        self.first, self.book, self._keeper = first, book, keeper
        self.lines: list[str] = []
        self.history = History()
        self._folder = tempfile.TemporaryDirectory(prefix="gmr-model-")
        self._numbers, self._step = count(), 0
        self._places: list[int] = []
        self._files: dict[int, Path] = {}
        self._maps: dict[int, Map] = {}
        self._files[0] = self._run(first, []).map
        self._places.append(0)

    def file_at(self, place: int) -> Path:
        """The file of the map at a place, made by the program where it isn't kept."""
        if place not in self._files:
            base = self._base(place, 0, 0)
            lines = self.lines[base:place]
            is_in_group = lines.count("group") > lines.count("end")
            made = self._run(self._files[base], [*lines, "end"] if is_in_group else lines).map
            if is_in_group:     # no run can begin at that place, so it isn't one of those that are kept
                return made
            self._keep(place, made)
        return self._files[place]

    def map_at(self, place: int) -> Map:
        """The map at a place; the last few that were asked for are kept as they were read."""
        if place not in self._maps:
            while len(self._maps) > 3:
                del self._maps[next(iter(self._maps))]
            self._maps[place] = read_map(self.file_at(place).read_text(encoding="ascii"))
        return self._maps[place]

    def attempt(self, lines: Sequence[str]) -> Piece:
        """What lines would do after those that are done, which stay as they are. Refused where they are no script
        of the book."""
        base = self._base(len(self.lines), lines.count("undo"), lines.count("redo"))
        before = self.lines[base:]
        piece = self._run(self._files[base], [*before, *lines])
        return piece._replace(report=piece.report[len(before):])

    def take(self, lines: Sequence[str], dids: Sequence[bool]) -> None:
        """Takes lines that were tried into the script, as one step, with whether each did something. The map after
        them is given to `keep`, at the latest after the last of what was tried together."""
        for place, (line, did) in enumerate(zip(lines, dids), len(self.lines)):
            self.history.note(place, line.split(None, 1)[0], did, self._step)
        self._step += 1
        self.lines.extend(lines)

    def take_applications(self, lines: Sequence[str]) -> None:
        """The same of applications that were all done, each as a step of its own."""
        self.history.note_applications(len(self.lines), len(lines), self._step)
        self._step += len(lines)
        self.lines.extend(lines)

    def keep(self, file: Path) -> None:
        """Keeps the file of the map after all lines."""
        if len(self.lines) not in self._files:
            self._keep(len(self.lines), file)

    def judge(self, text: str) -> None:
        """Refused where a text, alone, is no script of the book."""
        self.run_text(self._files[self._places[-1]], text).map.unlink()

    def change_book(self, book: Path) -> None:
        """Goes on with another book; Refused where the lines so far don't give the same map under it."""
        old, self.book = self.book, book
        try:
            piece = self._run(self.first, self.lines)
            if piece.map.read_bytes() != self.file_at(len(self.lines)).read_bytes():
                raise Refused("under this book the script so far gives another map")
        except Refused:
            self.book = old
            raise

    def _base(self, place: int, undos: int, redos: int) -> int:
        """The greatest place of a kept map from which the lines up to a place, and these undos and redos after
        them, lead to no map from before it."""
        bound = self.history.least_line(place, undos, redos)
        while True:
            base = self._places[bisect_right(self._places, bound) - 1]
            bound = self.history.least_line(base, 0, 0)
            if bound == base:
                return base

    def _run(self, start: Path, lines: Sequence[str]) -> Piece:
        """Runs lines over a map's file by the program."""
        said, out, _ = self.run_text(start, "\n".join([*lines, ""]))
        return Piece(said[:len(lines)], out, said[len(lines):])

    def run_text(self, start: Path, text: str) -> Piece:
        """Runs a script's text over a map's file by the program: all that it says, and the file of the map that is
        left, which nobody keeps. Refused where the text is no script of the book."""
        folder = Path(self._folder.name)
        script, out = folder / "piece.gscript", folder / f"{next(self._numbers)}.gmap"
        script.write_bytes(text.encode("utf-8"))
        status, said = answer("run", start, self.book, script, out)
        if status > 1:
            raise program.refusal_of(status, said)
        return Piece(said.splitlines(), out)

    def _keep(self, place: int, file: Path) -> None:
        """Keeps the map at a place. Where the kept ones are too large together, every second one goes, but not the
        first and the last two."""
        self._places.insert(bisect_right(self._places, place), place)
        self._files[place] = file
        if file.stat().st_size * len(self._places) > MOST_KEPT_BYTES and len(self._places) > 4:
            for thinned in self._places[1:-2:2]:
                self._files.pop(thinned).unlink()
            self._places = sorted(self._files)
