"""What became of a statement, told as soon as it is asked for."""
from __future__ import annotations

from abc import ABC, abstractmethod
from typing import TYPE_CHECKING

import numpy as np

from gmr.regions import Region
from gmr.errors import Refused
from gmr.maps import Map
from gmr.model.reasons import darts_of_refusal, explain

if TYPE_CHECKING:
    from gmr.model.queue import Queue, Run


class Outcome(ABC):
    """What became of a statement: of one line of a script, or of the lines of an `each` over some cells or of a group.

    A statement is handed to the program with those that were gathered before it, as soon as one of these is asked
    for. Where one of them was refused that must be done, asking raises Refused.
    """

    __slots__ = ()

    @property
    def queue(self) -> Queue:
        """The queue in which it waits, or waited."""
        raise NotImplementedError

    @property
    def text(self) -> str:
        """The lines of the statement as a script has them."""
        raise NotImplementedError

    @property
    def hooks(self) -> tuple[int, ...]:
        """The darts of its hooks."""
        raise NotImplementedError

    @property
    def begin(self) -> int:
        """The place in the script before it, when it is settled."""
        raise NotImplementedError

    @property
    def end(self) -> int:
        """The place in the script after it, when it is settled."""
        raise NotImplementedError

    @property
    def passed(self) -> int:
        """How many darts it passed over that have no line."""
        return 0

    @property
    @abstractmethod
    def is_settled(self) -> bool:
        """Whether it is known what became of it, without a run of the program."""

    @property
    @abstractmethod
    def lines(self) -> list[str]:
        """The lines of the report, each without its number."""

    @property
    def line(self) -> str:
        """The line of the report, as a run of the whole script has it; of several the first that refuses, or the last.
        A line that isn't in the script, since it was refused, has the number that it would have had."""
        places = [place for place, line in enumerate(self.lines) if is_refusal(line) and not self._is_each(line)]
        if not self.lines:
            return ""
        place = places[0] if places else len(self.lines) - 1
        return f"{self.begin + place + 1} {self.lines[place]}"

    @property
    def counts(self) -> tuple[int, int, int]:
        """How many applications, undos and redos were done and refused, and how many darts an `each` passed over."""
        lines, done, refused, passed = self.lines, 0, 0, self.passed
        for line in lines:
            words = line.split()
            if self._is_each(line):
                done, refused, passed = done + int(words[3]), refused + int(words[5]), passed + int(words[7])
            else:
                done, refused = done + (words[1] == "done"), refused + (words[1] == "refused")
        return done, refused, passed

    @property
    def done(self) -> bool:
        """Whether all of it was done, and nothing refused."""
        return all(
            line.split()[4:6] == ["refused", "0"] if self._is_each(line) else line.split()[1] not in
            ("refused", "skipped", "dropped") for line in self.lines
        )

    @property
    def cause(self) -> str:
        """The words after `refused`, as 'pre-false'; of an `each` how many; empty where it was done."""
        if self.done:
            return ""
        words = self.line.split(" ", 3)
        if len(self.lines) == 1 and self._is_each(self.lines[0]):
            return f"{self.lines[0].split()[5]} of its applications"
        return words[3] if words[2] == "refused" else words[2]

    @property
    def darts(self) -> tuple[int, ...]:
        """The darts that its refusal concerns; of what was done those of its hooks."""
        return self.hooks if self.done else darts_of_refusal(self)

    @property
    def sentences(self) -> list[str]:
        """Why it was refused, as `why` tells it; empty where it was done."""
        return [] if self.done else explain(self)

    @property
    def added(self) -> int:
        """How many darts there are after it that weren't there before."""
        return len(self.new)

    @property
    def removed(self) -> int:
        """How many darts that were there before it are gone."""
        return len(self.gone)

    @property
    def before(self) -> Map:
        """The map that the statement met."""
        self._ask()
        return self.queue.session.map_at(self.begin)

    @property
    def after(self) -> Map:
        """The map that the statement left."""
        self._ask()
        return self.queue.session.map_at(self.end)

    @property
    def new(self) -> Region:
        """The darts that it made, in the map that it left, and the cells that have no others."""
        return Region(self.after, np.setdiff1d(self.after.darts, self.before.darts))

    @property
    def gone(self) -> Region:
        """The darts that it took, in the map that it met, and the cells that had no others."""
        return Region(self.before, np.setdiff1d(self.before.darts, self.after.darts))

    def refusal(self) -> Refused:
        """What is raised where it must be done and wasn't."""
        return Refused(self.line, 1, self.cause, self.darts, lambda: self.sentences)

    def book_file(self) -> str:
        """The file of the book under which it ran."""
        return str(self.queue.session.book)

    def _ask(self) -> None:
        if not self.is_settled:
            self.queue.flush_up_to(self)
        assert self.lines is not None

    def _is_each(self, line: str) -> bool:
        return self.text.startswith("each") and line.startswith("each ")

    def __bool__(self) -> bool:
        return self.done

    def __repr__(self) -> str:
        return f"<{self.line or 'nothing to do'}>"


class Statement(Outcome):
    """What became of a statement that has an object of its own while it waits: all but single applications."""

    __slots__ = ("queue", "text", "hooks", "begin", "end", "passed", "_lines", "_fault")
    queue: Queue
    text: str
    hooks: tuple[int, ...]
    begin: int
    end: int
    passed: int

    def __init__(self, queue: Queue, text: str, hooks: tuple[int, ...] = ()) -> None:
        """The lines of the statement, and the darts of its hooks."""
        self.queue, self.text, self.hooks = queue, text, hooks
        self.begin = self.end = -1
        self.passed = 0
        self._lines: list[str] | None = None
        self._fault: Refused | None = None

    def settle(self, lines: list[str], begin: int, end: int, passed: int = 0) -> None:
        """Says what the report has of the statement, between which places of the script it stands, and how many darts
        it passed over that have no line."""
        self._lines, self.begin, self.end, self.passed = lines, begin, end, passed

    def fail(self, fault: Refused) -> None:
        """Says why the statement was never handed to the program."""
        self._fault = fault

    @property
    def is_settled(self) -> bool:
        """Whether it is known what became of it, without a run of the program."""
        return self._lines is not None or self._fault is not None

    @property
    def lines(self) -> list[str]:
        """The lines of the report, each without its number."""
        if not self.is_settled:
            self.queue.flush()
        if self._fault is not None:
            raise self._fault
        assert self._lines is not None
        return self._lines


class Application(Outcome):
    """What became of a single application that must be done, by its place in the run of those that it was gathered
    with. A loop makes thousands of these, so all else is looked up there when it is asked for."""

    __slots__ = ("run", "place")

    def __init__(self, run: Run, place: int) -> None:
        self.run = run
        self.place = place

    @property
    def queue(self) -> Queue:
        """The queue in which it waits, or waited."""
        return self.run.queue

    @property
    def text(self) -> str:
        """The line of the application as a script has it."""
        return self.run.lines[self.place]

    @property
    def hooks(self) -> tuple[int, ...]:
        """The darts of its hooks."""
        return tuple(map(int, self.text.partition(" with ")[0].split()[2:]))

    @property
    def is_settled(self) -> bool:
        """Whether it is known what became of it, without a run of the program."""
        return self.place < len(self.run.report) or self.run.fault is not None

    @property
    def lines(self) -> list[str]:
        """The line of the report without its number, alone."""
        if not self.is_settled:
            self.queue.flush()
        if self.place < len(self.run.report):
            return [self.run.report[self.place].partition(" ")[2]]
        assert self.run.fault is not None
        raise self.run.fault

    @property
    def begin(self) -> int:
        """The place in the script before it, when it is settled."""
        return self.run.begin + self.place

    @property
    def end(self) -> int:
        """The place in the script after it, when it is settled."""
        return self.begin + (not is_refusal(self.lines[0]))


def is_refusal(line: str) -> bool:
    """Whether a line of an application, an undo or a redo says that it was refused."""
    return line.split()[1:2] == ["refused"]
