"""A session of the studio: the map as it is, its book, its script, and the statements that are done."""
import tempfile
import threading
from concurrent.futures import ThreadPoolExecutor
from pathlib import Path
from typing import Any, NamedTuple

from gmr import program
from gmr.books import Rule, read_book, split_book
from gmr.maps import Map
from gmr.model.session import Piece
from gmr.studio.folder import Folder
from gmr.studio.group import Group, group_text
from gmr.studio.live import Live
from gmr.studio.reasons import tell_refusal
from gmr.studio.requests import Unclear
from gmr.studio.rulebook import Text, describe_book, text_of
from gmr.studio.store import BOOK, DRAFT, SCRIPT, START, Store
from gmr.studio.timeline import Step, Timeline, came_of
from gmr.view.scene import Differences

Json = dict[str, Any]


class Done(NamedTuple):
    """What came of a wish: the program's lines as they came, why something is refused, and what changed in the map."""
    lines: tuple[str, ...]
    why: list[str]
    rows: Differences | None


class Session:
    """What is done to a map. Each change is whole or not at all: where the program refuses, all stays as it was."""

    def __init__(self, folder: Folder, store: Store, names: dict[str, str], start: bytes, book: bytes) -> None:
        self.folder, self.store, self.names = folder, store, names
        self.version = 0
        self.example: dict[str, bytes] = {}
        self.told: list[Json] = []      # the steps as the page knows them
        self.draft, self.drafting = "", threading.Lock()
        self.saver = ThreadPoolExecutor(1)      # a disk is waited for while a map is read
        self.begin(start, text_of(book))

    def begin(self, start: bytes, book: Text) -> None:
        """Takes a map and a book, without a script; Refused where the program takes one not, or not the two together.
        What was there before stays where it is refused."""
        place = Path(tempfile.mkdtemp(prefix="work.", dir=self.store.path))
        described = describe_book(book, place)
        if described["rules"] is None:
            raise program.Refused(described["answer"][0], 4)
        timeline = Timeline(place, start, used_book(book, described))
        self.live = Live(timeline.present().read_bytes())
        self.timeline = timeline
        self.unsaved: set[str] = set()      # the script, the book
        self.group: Group | None = None
        self.rest = ""
        self.example.clear()
        self._take_book(book, described)
        self.shown = timeline.present()
        self.version += 1
        self.store.write(START, start)
        self.store.write(BOOK, book.data())
        self.write_script()

    def _take_book(self, book: Text, described: Json) -> None:
        self.book, self.described = book, described
        self.parsed = read_book(program.put_or_refuse("book", self.timeline.book))
        self.rules = {rule.name: rule for rule in self.parsed.rules}

    @property
    def map(self) -> Map:
        """The map as it is."""
        return self.live.map

    def rule(self, name: str) -> Rule:
        """A rule of the book that the program accepts."""
        if name not in self.rules:
            raise Unclear(f"the book has no rule {name} that is accepted")
        return self.rules[name]

    def script(self) -> str:
        """The script so far; an open group is closed in it."""
        return self.timeline.text() + (f"{group_text(self.group.lines)}\n" if self.group else "")

    def write_script(self) -> None:
        """Writes the script into the session's files, with the lines that are still to be run."""
        self.store.write(SCRIPT, (self.script() + self.rest).encode("utf-8"))
        self.write_facts()

    def write_facts(self) -> None:
        """Writes what an offer of this session tells."""
        self.store.write_facts({**self.names, "saved": not self.unsaved and not self.draft,
                                "steps": len(self.timeline.steps)})

    def keep_draft(self, text: str) -> None:
        """Keeps a text of the book that is being written, so that a crash loses nothing of it; none where it is the
        book's own. A check of a text waits for nothing else, so several may come at once."""
        with self.drafting:
            draft = "" if text == self.book.letters else text
            if draft != self.draft:
                self.draft = draft
                self.store.write(DRAFT, draft.encode("utf-8"))
                self.write_facts()

    def _move_to(self, made: Path) -> Differences:
        """Shows the map of a file."""
        self.shown = made
        self.version += 1
        return self.live.move_to(made.read_bytes())

    def _settle(self, text: str, report: tuple[str, ...], made: Path) -> Differences:
        """Takes a statement up, shows its map, and writes the script."""
        lines = tuple(text.split("\n"))
        self.timeline.keep([Step(text, report, came_of(lines, report), lines)], made)
        self.unsaved.add("script")
        saving = self.saver.submit(self.write_script)
        rows = self._move_to(self.timeline.present())
        saving.result()
        return rows

    def attempt(self, text: str) -> Done:
        """What a statement would do to the map as it is. Nothing changes."""
        where = self.group or self.timeline
        try:
            piece = where.attempt(text)
        except program.Refused as refused:
            return Done((refused.line,), [refused.line], None)
        piece.map.unlink()
        return Done(said_of(piece), self._why(text, piece), None)

    def do(self, text: str) -> Done:
        """Does a statement, or some that make a group; in an open group it becomes a part of it."""
        if self.group:
            return self._do_in_group(self.group, text)
        try:
            piece = self.timeline.attempt(text)
        except program.Refused as refused:
            return Done((refused.line,), [refused.line], None)
        why = self._why(text, piece)
        if came_of(tuple(text.split("\n")), tuple(piece.report)) != "done":
            piece.map.unlink()
            said = next((line for line in piece.report if " refused " in line), piece.report[0])
            note = "\n".join(f"# {line}" for line in (*text.split("\n"), f"not done: {said}"))
            self.timeline.note(note, tuple(piece.report))
            self.unsaved.add("script")
            self.write_script()
            return Done(said_of(piece), why, None)
        return Done(said_of(piece), why, self._settle(text, tuple(piece.report), piece.map))

    def _why(self, text: str, piece: Piece) -> list[str]:
        """Why something of a text is refused."""
        return tell_refusal(self.map, self.parsed, text, tuple(piece.report), self._map_behind)

    def _map_behind(self, text: str) -> Map:
        """The map that lines would leave."""
        piece = (self.group or self.timeline).attempt(text)
        found = Live(piece.map.read_bytes()).map
        piece.map.unlink()
        return found

    def _do_in_group(self, group: Group, text: str) -> Done:
        """Adds applications to the open group, where none of them is refused."""
        if text.split(None, 1)[0] not in ("apply", "group"):
            raise Unclear("in a group there are applications alone; end the group first")
        lines = [line for line in text.split("\n") if line not in ("group", "end")]
        try:
            piece = group.attempt("\n".join(lines))
        except program.Refused as refused:
            return Done((refused.line,), [refused.line], None)
        if any(" refused " in line for line in piece.report):
            piece.map.unlink()
            return Done(said_of(piece), self._why("\n".join(lines), piece), None)
        group.keep(lines, piece)
        self.unsaved.add("script")
        rows = self._move_to(group.present())
        self.write_script()
        return Done(tuple(piece.report), [], rows)

    def begin_group(self) -> Done:
        """Opens a group."""
        if self.group:
            raise Unclear("a group is open already")
        self.group = Group(self.timeline.present(), self.timeline.book)
        return Done(("group begun",), [], None)

    def end_group(self, is_kept: bool) -> Done:
        """Ends the open group: its lines become one step, or all of it goes."""
        if not self.group:
            raise Unclear("no group is open")
        lines = self.group.lines
        if not is_kept or not lines:
            self.group = None
            rows = self._move_to(self.timeline.present())
            self.write_script()
            return Done(("the group is left out",), [], rows)
        text = group_text(lines)
        piece = self.timeline.attempt(text)
        self.group = None
        return Done(said_of(piece), [], self._settle(text, tuple(piece.report), piece.map))

    def go(self, word: str) -> Done:
        """Undoes or does again. In an open group, `undo` takes back the group's last line."""
        if self.group:
            return self._shorten_group(self.group, word)
        piece = self.timeline.attempt(word)
        [line] = piece.report
        if not line.endswith("done"):
            piece.map.unlink()
            sentence = f"Nothing was done that `{word}` could take back." if word == "undo" else \
                "Nothing was taken back that `redo` could bring again."
            return Done((line,), [sentence], None)
        return Done((line,), [], self._settle(word, (line,), piece.map))

    def _shorten_group(self, group: Group, word: str) -> Done:
        if word == "redo" or not group.lines:
            raise Unclear("the open group has nothing for that; end it or leave it out")
        group.shorten()
        rows = self._move_to(group.present())
        self.write_script()
        return Done(("the group's last line is left out",), [], rows)

    def run_script(self, text: str, rest: str) -> Done:
        """Takes another script in the place of the one so far, run from the start; `rest` is kept for later."""
        try:
            steps, piece = self.timeline.run_all(text)
        except program.Refused as refused:
            return Done((refused.line,), [refused.line], None)
        rows = self._replace(steps, piece.map)
        self.rest, self.group = rest, None
        self.write_script()
        count = sum(" refused " in line for line in piece.report[:-1])
        told = [f"{count} lines are refused, and leave the map as it was."] * bool(count)
        return Done(tuple(piece.report), told, rows)

    def _replace(self, steps: list[Step], made: Path) -> Differences:
        self.timeline.replace(steps, made)
        self.unsaved.add("script")
        return self._move_to(self.timeline.present())

    def change_book(self, book: Text) -> Done:
        """Takes another book, under which the script is run again from the start."""
        described = describe_book(book, self.timeline.place)
        if described["rules"] is None:
            return Done(tuple(described["answer"]), described["faults"][0]["why"], None)
        if self.group:
            raise Unclear("end the group first")
        old = self.timeline.book.read_bytes()
        self.timeline.book.write_bytes(used_book(book, described))
        try:
            steps, piece = self.timeline.run_all(self.timeline.text())
        except program.Refused as refused:
            self.timeline.book.write_bytes(old)
            return Done((refused.line,), ["Under this book the script so far can't be run, so the old book stays.",
                                          refused.line], None)
        rows = self._replace(steps, piece.map)
        self._take_book(book, described)
        self.unsaved.add("book")
        self.store.write(BOOK, book.data())
        self.keep_draft(book.letters)
        self.write_script()
        return Done(tuple(described["answer"]), [], rows)


def said_of(piece: Piece) -> tuple[str, ...]:
    """All that the program said."""
    return (*piece.report, *piece.rest)


def used_book(book: Text, described: Json) -> bytes:
    """The book without the rules that the program refuses: a run takes no book that has one."""
    refused = {rule["name"] for rule in described["rules"] if rule["fault"]}
    if not refused:
        return book.data()
    head, rules = split_book(book.data().decode("latin-1"))
    return "\n".join([head, *(own for name, own in rules if name not in refused)]).encode("latin-1") + b"\n"
