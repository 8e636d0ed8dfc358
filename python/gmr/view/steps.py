"""A script line by line: what each line says, what the report says of it, and what it changes, for the viewer."""
from collections.abc import Sequence
from pathlib import Path
from typing import Any

from gmr.books import Book, plain, read_book
from gmr.commands.why import FILES, Run
from gmr.maps import Map
from gmr.model.queue import did_something
from gmr.model.session import Session
from gmr.places import read_bytes
from gmr.program import answer, put_or_refuse, refusal_of
from gmr.view.scene import changes_between

MOST_TOLD = 50      # refused lines whose sentences are asked for; each costs several runs
MOST_DARTS = 10     # of a refused each that are told
HEADING = 4         # lines of `why` that repeat the statement

Json = dict[str, Any]


class Lines:
    """A script over a map and a book, run by the program: its statements, and the report's line of each. The files are
    named; Refused where the program refuses one."""

    def __init__(self, paths: Sequence[str], folder: Path) -> None:
        self.files = dict(zip(FILES, paths))
        status, self.report = answer("run", *paths, folder / "out.gmap")
        if status > 1:
            fault = refusal_of(status, self.report)
            fault.file = next((self.files[word] for word in fault.line.split()[1:] if word in self.files), None)
            raise fault
        counted = folder / "counted.gmap"
        put_or_refuse("migrate", paths[0], counted)
        self.session = Session(counted, Path(paths[1]))
        self.told = Run(self.files, self.report, folder)
        text = read_bytes(paths[2])
        self.statements = self.told.prefixes.statements
        self.texts = [plain(text[one.begin:one.end]) for one in self.statements]
        self.said = self.report.splitlines()[:len(self.statements)]
        self.session.take(self.texts, list(map(did_something, self.texts, self.said)))

    def first(self) -> Map:
        """The map before the first line."""
        return self.session.map_at(0)

    def steps(self, labels: Sequence[int] | None) -> list[Json]:
        """What the page tells of each line, and what it changes: nothing where it leaves the map as it was."""
        before, found = self.first(), []
        refused = set(self.told.refused()[:MOST_TOLD])
        for at, outcome in enumerate(self.told.outcomes):
            after = before if outcome.word in ("refused", "skipped", "begun") else self.session.map_at(at + 1)
            found.append(self.step(at, before, after, labels, at in refused))
            before = after
        return found

    def step(self, at: int, before: Map, after: Map, labels: Sequence[int] | None, is_told: bool) -> Json:
        """What the page tells of one line."""
        changes = None if after is before else changes_between(before, after, labels)
        statement, outcome = self.statements[at], self.told.outcomes[at]
        there = before.alpha[0].keys()
        return {
            "text": self.texts[at],
            "report": self.said[at],
            "word": outcome.word,
            "why": self.told.tell(at, MOST_DARTS)[0][HEADING:] if is_told else [],
            "darts": [dart for dart in statement.hooks if dart in there] if outcome.word == "refused" else [],
            "counts": [len(after.alpha[0].keys() - there), len(there - after.alpha[0].keys())],
            "changes": changes,
        }

    def rules(self) -> list[Json]:
        """The rules of the book: their names, how many hooks they have, and the kinds of their parameters."""
        return rules_of(read_book(read_bytes(self.files["BOOK"])))


def rules_of(book: Book) -> list[Json]:
    """What a page needs to know of rules, to write a line that applies one."""
    return [{"name": rule.name, "hooks": sum(node.hook for node in rule.nodes),
             "params": [kind for _, kind in rule.params]} for rule in book.rules]
