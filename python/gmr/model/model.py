"""What a user of the package writes with: a model, to which the rules of a book are applied by the proved program."""
from __future__ import annotations

import os
import tempfile
from collections.abc import Iterable, Iterator
from contextlib import contextmanager
from fractions import Fraction
from pathlib import Path
from types import TracebackType

from gmr.books import Book, load_book
from gmr.regions import Cells
from gmr.errors import Refused
from gmr.files import write_whole
from gmr.maps import Map
from gmr.model.choosing import Choosing
from gmr.model.first import FirstMap, copy_book, make_bare_book, take_first_map
from gmr.model.group import Group
from gmr.model.outcome import Application, Outcome, Statement
from gmr.model.queue import Queue, Waiting
from gmr.model.script import Script, split_script
from gmr.model.session import Session
from gmr.model.statements import (
    Hooks, LineOf, Parameter, darts_of, each_line, find_rule, labels_of, lines_at, make_line_of,
)


class Model(Choosing):
    """A map, a book of rules, and the script of what was done to the map so far.

    Each statement is done by the proved program. Statements are gathered, and handed to it as soon as something is
    asked that needs their result: the map, the script, an outcome. What is refused then raises Refused: what was
    gathered before it is done, and it and what was gathered after it is not, as if each had been asked for alone.
    """

    def __init__(self, first: FirstMap, book: Path, folder: tempfile.TemporaryDirectory[str]) -> None:
        """Made by `load`."""
        self._first, self._book_file, self._folder = first, book, folder
        self._queue = Queue(Session(first.counted, book, folder))
        self._active = self._queue      # an open group has one of its own
        self._group: Group | None = None
        self._book: Book | None = None
        self._lines_of: dict[str, LineOf] = {}

    @classmethod
    def load(
        cls, path: str | os.PathLike[str], book: str | os.PathLike[str] | Book | None = None,
        scale: Fraction | int | None = None,
    ) -> Model:
        """The model of a file of a map, or of a mesh, which is imported first, under a book of rules: a file, or an
        object. Without a book there are no rules. The map of a mesh has the embeddings of the book; coordinates are
        multiplied by the scale and rounded, and without one it is chosen as `tools/mesh import` does.

        Refused where the program doesn't take the map or the book, or a rule, or where the two don't agree; Unfit
        where a mesh has no map; OSError where a file can't be read.
        """
        folder = tempfile.TemporaryDirectory(prefix="gmr-model-")
        given = None if book is None else copy_book(book, Path(folder.name))
        first = take_first_map(Path(path), Path(folder.name), None if scale is None else Fraction(scale), given)
        return cls(first, given or make_bare_book(first.counted, Path(folder.name)), folder)

    @property
    def map(self) -> Map:
        """The map as it is now; in an open group, as the group has left it so far."""
        self.now()
        queue = self._active
        return queue.session.map_at(len(queue.session.lines))

    @property
    def first(self) -> Map:
        """The map before the first statement."""
        return self._queue.session.map_at(0)

    @property
    def book(self) -> Book:
        """The book of rules."""
        if self._book is None:
            self._book = load_book(self._book_file)
        return self._book

    @book.setter
    def book(self, book: str | os.PathLike[str] | Book) -> None:
        """Goes on under another book. Refused where it isn't taken, or where the script so far comes to another map
        under it; then the old one stays."""
        self._refuse_in_group("another book")
        self.now()
        file = copy_book(book, Path(self._folder.name))
        self._queue.session.change_book(file)
        self._book_file, self._book = file, None
        self._lines_of.clear()

    @property
    def script(self) -> Script:
        """What was done so far, as a script: run over the first map it leaves the map as it is now."""
        self.now()
        return Script(self._queue.session.lines)

    def now(self) -> Model:
        """Hands what was gathered to the program. Refused where a statement is refused."""
        self._active.flush()
        return self

    def apply(self, rule: str, /, *, at: Hooks = None, **parameters: Parameter) -> Outcome:
        """Applies a rule once: at a dart or cell, several for a rule with several hooks, in their order or by their
        names, with the values of its parameters by name. ValueError or TypeError where they don't suit the rule."""
        run = self._active.run
        if len(run.lines) >= run.room:
            run = self._active.make_room()
        lines = run.lines
        lines.append((self._lines_of.get(rule) or self._line_of(rule))(at, parameters))
        return Application(run, len(lines) - 1)

    def try_apply(self, rule: str, /, *, at: Hooks = None, **parameters: Parameter) -> Outcome:
        """The same at once, and a refusal is no fault: the outcome tells of it, and the model stays as it was."""
        self.now()
        line = self._line_of(rule)(at, parameters)
        outcome = self._add([line], darts_of(find_rule(self.book, rule), at), False)
        self.now()
        return outcome

    def _line_of(self, rule: str) -> LineOf:
        """What makes the lines that apply the rule."""
        if rule not in self._lines_of:
            self._lines_of[rule] = make_line_of(find_rule(self.book, rule))
        return self._lines_of[rule]

    def each(self, cells: str | int | Iterable[int] | Cells, rule: str, /, **parameters: Parameter) -> Outcome:
        """Applies a rule with one hook at each cell, as 'face' or 2, at each orbit over labels, as (0, 1), or at each
        of cells that were chosen, less those whose dart an earlier application removes. In a group all of it must be
        done; else what is refused is counted in the outcome.

        All cells of the map as it is are one line of the script, an `each`; others are a line for each cell."""
        labels = labels_of(self.book.dimension, cells.dimension if isinstance(cells, Cells) else cells)
        line = each_line(find_rule(self.book, rule), labels, parameters)
        if isinstance(cells, Cells) and not (cells.is_all and cells.map is self.map):
            if self._group:
                return self._group.at_leads(cells.darts, line)
            return self._add(lines_at(cells.darts, line), tuple(cells.darts), False, True)
        if self._group:
            return self._group.each(labels, line)
        return self._add([line], (), False)

    def undo(self) -> Outcome:
        """Takes back the last statement that did something: an application, all of an `each`, a whole group."""
        return self._go("undo")

    def redo(self) -> Outcome:
        """Does again what was taken back directly before. Refused where nothing was."""
        return self._go("redo")

    def _go(self, word: str) -> Outcome:
        self._refuse_in_group(word)
        self.now()
        count = self._queue.session.history.entries_of_last_step(word == "undo")
        outcome = self._add([word] * max(1, count), (), True)
        self.now()
        return outcome

    def run_lines(self, text: str, keep_refused: bool = True) -> list[Outcome]:
        """Runs the lines of a script's text at once: an outcome for each line, and no refusal of one is a fault.

        Refused where the text is no script of the book; then nothing of it is done. Lines that are refused stay in
        the script, or not.
        """
        self._refuse_in_group("lines of a script")
        self.now()
        outcomes: list[Outcome] = []
        try:
            for lines, hooks in split_script(text):
                made = [Statement(self._queue, line, darts) for line, darts in zip(lines, hooks)]
                outcomes += made
                self._queue.add(Waiting(lines, made, False, keep_refused))
            self.now()
        except (ValueError, IndexError, Refused):
            self._queue.session.judge(text)     # which tells of the text alone, and of its places
            raise
        return outcomes

    @contextmanager
    def group(self) -> Iterator[Outcome]:
        """Statements within are done whole or not at all: a refusal within takes all of it back and raises. So does
        any other exception. One undo takes back the whole group; the outcome is that of the group."""
        self._refuse_in_group("a group")
        self.now()
        queue = self._queue
        outcome = Statement(queue, "")
        self._group = Group(queue)
        self._active = self._group.queue
        try:
            yield outcome
            lines = self._group.close()
        finally:
            self._group, self._active = None, queue
        outcome.text = "\n".join(lines)
        if lines:
            queue.add(Waiting(lines, [outcome]))
            queue.flush()
        else:
            outcome.settle([], len(queue.session.lines), len(queue.session.lines))

    def save(self, path: str | os.PathLike[str]) -> None:
        """Saves the map, in the version of the first one, whole or not at all. A run of the script over the first map
        saves the same bytes."""
        self._refuse_in_group("save")
        self.now()
        write_whole(path, self._first.as_saved(self._last_file().read_bytes()))

    def save_first(self, path: str | os.PathLike[str]) -> None:
        """Saves the map before the first statement, as it was given: over it the script can be run."""
        write_whole(path, self._first.given.read_bytes())

    def export(self, path: str | os.PathLike[str]) -> str:
        """Writes the mesh of the map, by the ending of its name, with the scale of the mesh that was imported. The
        line that tells of it is answered. Unfit where the map has no mesh or the ending is of no format."""
        self._refuse_in_group("export")
        self.now()
        return self._first.export(self._last_file(), Path(path))

    def _last_file(self) -> Path:
        session = self._queue.session
        return session.file_at(len(session.lines))

    def _add(self, lines: list[str], darts: tuple[int, ...], must: bool, passes: bool = False) -> Outcome:
        queue = self._active
        outcome = Statement(queue, "\n".join(lines), darts)
        if lines:
            queue.add(Waiting(lines, [outcome], must, passes=passes))
        else:
            outcome.settle([], len(queue.session.lines), len(queue.session.lines))
        return outcome

    def _refuse_in_group(self, what: str) -> None:
        if self._group:
            raise ValueError(f"there is no {what} within a group")

    def __enter__(self) -> Model:
        return self

    def __exit__(self, kind: type[BaseException] | None, fault: BaseException | None, trace: TracebackType | None
                 ) -> None:
        if kind is None:
            self.now()

    def __repr__(self) -> str:
        session = self._queue.session
        return f"<model of dimension {self.book.dimension}: {len(session.lines)} lines of a script>"
