"""An open group: its lines are done one after another on the map at which it began, and become one statement of the
script when it ends."""
from pathlib import Path

from gmr.model.session import Piece, Session


class Group:
    """The lines of an open group, all of them applications that were done."""

    def __init__(self, first: Path, book: Path) -> None:
        self.session = Session(first, book)

    @property
    def lines(self) -> list[str]:
        """The lines so far."""
        return self.session.lines

    def present(self) -> Path:
        """The file of the map as the group has left it."""
        return self.session.file_at(len(self.lines))

    def attempt(self, text: str) -> Piece:
        """What lines would do after the group's; nothing changes. A group within is as its lines are."""
        return self.session.attempt([line for line in text.split("\n") if line not in ("group", "end")])

    def keep(self, lines: list[str], piece: Piece) -> None:
        """Takes up lines that were done, with what came of them."""
        self.session.take(lines, [True] * len(lines))
        self.session.keep(piece.map)

    def shorten(self) -> None:
        """Takes the last line back."""
        lines = self.lines[:-1]
        self.session = Session(self.session.first, self.session.book)
        if lines:
            self.keep(lines, self.session.attempt(lines))


def group_text(lines: list[str]) -> str:
    """The text of a group."""
    return "\n".join(["group", *lines, "end"])
