"""What a session did: the statements as they stand in its script, with what the program answered to each.

The statements themselves, the maps between them and the way that `undo` and `redo` go are those of a model's session;
here stands beside them what a reader of the script sees: comments, and what was refused, as comments too."""
from pathlib import Path
from typing import NamedTuple

from gmr import program
from gmr.model.queue import did_something
from gmr.model.script import split_script
from gmr.model.session import Piece, Session
from gmr.scripts import Statement, read_report, read_script


class Step(NamedTuple):
    """A statement, or a whole group, as it stands in the script; what the program answered; what came of it: 'done',
    'nothing' where no map changed, 'undo' or 'redo' where it went back or forth, 'note' for a comment; and its lines
    without comments."""
    text: str
    report: tuple[str, ...]
    came: str
    lines: tuple[str, ...]


class Timeline:
    """The start map and the book in a folder, and the steps done so far."""

    def __init__(self, place: Path, start: bytes, book: bytes) -> None:
        """Refused where the program takes no such map or book, or not the two together."""
        self.place = place
        self.start, self.book, self.counted = place / "given.gmap", place / "used.gbook", place / "counted.gmap"
        self.start.write_bytes(start)
        self.book.write_bytes(book)
        program.put_or_refuse("migrate", self.start, self.counted)     # the second version keeps the next name
        self.forget()

    def forget(self) -> None:
        """Goes back to the start map, without steps."""
        self.session = Session(self.counted, self.book)
        self.steps: list[Step] = []
        self.begins: list[int] = []     # at which line of the session each step begins

    def text(self) -> str:
        """The script of the steps."""
        return "".join(f"{step.text}\n" for step in self.steps)

    def present(self) -> Path:
        """The file of the map as it is."""
        return self.session.file_at(len(self.session.lines))

    def attempt(self, text: str) -> Piece:
        """What lines would do after the steps; nothing changes. Refused where they are no script of the book."""
        return self.session.attempt(text.split("\n"))

    def keep(self, steps: list[Step], made: Path) -> None:
        """Takes up steps, and the file of the map after them."""
        for step in steps:
            self.begins.append(len(self.session.lines))
            self.steps.append(step)
            if step.lines:
                self.session.take(step.lines, [did_something(line, said.partition(" ")[2])
                                               for line, said in zip(step.lines, step.report)])
        self.session.keep(made)

    def note(self, text: str, report: tuple[str, ...]) -> None:
        """Takes up a comment: the map stays."""
        self.keep([Step(text, report, "note", ())], self.present())

    def taken_back(self) -> set[int]:
        """The places of the steps that were taken back and that `redo` brings again."""
        begins = set(self.session.history.future.begins)
        return {at for at, (step, begin) in enumerate(zip(self.steps, self.begins)) if step.lines and begin in begins}

    def run_all(self, text: str) -> tuple[list[Step], Piece]:
        """The steps that a script's text makes of the start map, and what came of them; nothing changes. Refused where
        it is no script of the book."""
        piece = self.session.run_text(self.counted, text)
        return split_steps(text, tuple(piece.report[:-1])), piece

    def replace(self, steps: list[Step], made: Path) -> None:
        """Takes other steps in the place of all, with the file of the map after them, under the book as it is."""
        kept = made.rename(self.place / "run.gmap")     # the files of the session go with it
        self.forget()
        self.keep(steps, kept)


def came_of(lines: tuple[str, ...], report: tuple[str, ...]) -> str:
    """What came of a statement, from the report's lines about it."""
    said = report[-1].partition(" ")[2]
    if not did_something(lines[0] if lines[0] != "group" else "end", said) or lines[1:] == ("end",):
        return "nothing"
    return lines[0] if lines[0] in ("undo", "redo") else "done"


def split_steps(text: str, report: tuple[str, ...]) -> list[Step]:
    """The steps of a script's text that the program has run, each with the comments above it, and with what the report
    says of it."""
    statements = read_script(text)
    steps, first, begin = [], 0, 0
    for lines, _ in split_script(text) if statements else []:
        behind = first + len(lines)
        end = line_end(text, statements[behind - 1].end)
        said = report[first:behind]
        steps.append(Step(text[begin:end].strip(), said, came_of(tuple(lines), said), tuple(lines)))
        first, begin = behind, end
    rest = text[begin:].strip()
    return steps + [Step(rest, (), "note", ())] * bool(rest)


def line_end(text: str, place: int) -> int:
    """Where the comment ends that stands after a statement on its line, or the place itself."""
    end = text.find("\n", place)
    rest = text[place:end if end >= 0 else len(text)]
    return place + len(rest) if rest.lstrip().startswith("#") else place


def refused_in(text: str, report: tuple[str, ...]) -> list[tuple[int, Statement, list[str]]]:
    """Each application of a text that is refused, with its place among the statements and the words of its cause."""
    statements = read_script(text)
    outcomes = read_report("\n".join(report), statements)
    return [(at, statement, outcome.rest.split()) for at, (statement, outcome) in enumerate(zip(statements, outcomes))
            if outcome.word == "refused"]
