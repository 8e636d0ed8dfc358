"""Statements are gathered and handed to the program at once, as soon as something is asked that needs their result."""
from __future__ import annotations

from collections.abc import Sequence
from dataclasses import dataclass
from typing import NoReturn

from gmr.errors import Refused
from gmr.model.outcome import Application, Outcome, Statement
from gmr.model.session import MOST_LINES, Piece, Session

MOST_GATHERED = 20_000     # lines that wait at most, so that what is wrong with one is told soon


@dataclass(slots=True)
class Waiting:
    """A statement that waits: its lines and its outcomes, one for all lines or one for each; whether a refusal of it
    is a fault, whether lines of it that are refused stay in the script, and whether those whose dart is gone are
    passed over."""

    lines: Sequence[str]
    outcomes: Sequence[Statement]
    must: bool = True
    keeps_refused: bool = False
    passes: bool = False


class Run:
    """Single applications that are gathered one after another, each of which must be done. Each is no more than its
    line here, since a loop gathers thousands.

    report: the lines of the report, of as many of them as are settled. begin: the place in the script before the first.
    fault: why the others were never handed to the program. room: how many there can be.
    """

    __slots__ = ("queue", "lines", "report", "begin", "fault", "room")

    def __init__(self, queue: Queue, room: int) -> None:
        self.queue, self.room, self.begin = queue, room, -1
        self.lines: list[str] = []
        self.report: list[str] = []
        self.fault: Refused | None = None


@dataclass(slots=True)
class Stretch:
    """Some applications of a run, one after another, that are handed to the program at once."""

    run: Run
    lines: Sequence[str]

    def split(self, count: int) -> tuple[Stretch, Stretch]:
        """The first applications, and the others."""
        return Stretch(self.run, self.lines[:count]), Stretch(self.run, self.lines[count:])


class Queue:
    """The statements that wait to be handed to the program, and the session that runs them.

    run: the applications that were gathered last, after all that waits."""

    def __init__(self, session: Session) -> None:
        self.session = session
        self.refusal: Refused | None = None     # the first that was raised
        self._waiting: list[Waiting | Stretch] = []
        self._count = 0
        self.run = self._new_run()

    def add(self, waiting: Waiting) -> None:
        """Gathers a statement."""
        self._close_run()
        if len(self.session.lines) + self._count + len(waiting.lines) > MOST_LINES:
            raise too_long()
        self._waiting.append(waiting)
        self._count += len(waiting.lines)
        self.run = self._new_run()
        if self._count >= MOST_GATHERED:
            self.flush()

    def make_room(self) -> Run:
        """The applications that were gathered last, with room for one more; Refused where a script has none."""
        if self._count + len(self.run.lines) >= MOST_GATHERED:
            self.flush()
        if not self.run.room:
            raise too_long()
        return self.run

    def flush(self) -> None:
        """Hands what waits to the program. Refused where a statement was refused that must be done: what was gathered
        before it is done, and what was gathered after it is dropped."""
        self._close_run()
        waiting = self._take_all()
        if not waiting:
            return
        try:
            self._settle(waiting, self.session.attempt(lines_of(waiting)))
        except Refused as fault:
            self.refusal = self.refusal or fault
            give_up(waiting, fault)
            raise
        finally:
            self.run = self._new_run()

    def flush_up_to(self, outcome: Outcome) -> None:
        """The same, but so that the maps before and after a statement are both kept."""
        self._close_run()
        waiting = self._take_all()
        parts = split_at(waiting, outcome)
        for at, part in enumerate(parts[:2]):
            self._waiting = part
            try:
                self.flush()
            except Refused as fault:
                for rest in parts[at + 1:]:
                    give_up(rest, fault)
                raise
        self._waiting = parts[2]
        self._count = len(lines_of(parts[2]))
        self.run = self._new_run()

    def _new_run(self) -> Run:
        return Run(self, min(MOST_GATHERED, MOST_LINES - len(self.session.lines)) - self._count)

    def _close_run(self) -> None:
        """Lets the applications that were gathered last wait with all else; a new run begins after them."""
        if self.run.lines:
            self._waiting.append(Stretch(self.run, self.run.lines))
            self._count += len(self.run.lines)
            self.run = self._new_run()

    def _take_all(self) -> list[Waiting | Stretch]:
        waiting, self._waiting, self._count = self._waiting, [], 0
        return waiting

    def _settle(self, waiting: Sequence[Waiting | Stretch], piece: Piece) -> None:
        """Takes into the script what was done, statement by statement."""
        taken: list[Taken] = []
        begin = 0
        for place, one in enumerate(waiting):
            said = piece.report[begin:begin + len(one.lines)]
            begin += len(one.lines)
            refused = first_refused(one, said)
            if refused is None:
                taken.append((one, said))
                continue
            has_more = place + 1 < len(waiting)
            if isinstance(one, Stretch):
                done, rest = one.split(refused)
                taken.append((done, said[:refused]))
                self._break_off(taken, rest, said[refused:refused + 1], piece, has_more or len(rest.lines) > 1)
            # after a line that was refused alone the map is as before it
            self._break_off(taken, one, said, piece, has_more or len(said) > 1)
        self._take(taken, piece)

    def _break_off(
        self, taken: list[Taken], one: Waiting | Stretch, said: Sequence[str], piece: Piece, has_more: bool,
    ) -> NoReturn:
        """Takes what was done before a statement that was refused, and raises its refusal."""
        if has_more:
            lines = lines_of([before for before, _ in taken])
            piece = self.session.attempt(lines) if lines else Piece([], self.session.file_at(len(self.session.lines)))
        self._take(taken, piece)
        if isinstance(one, Stretch):
            settle_run(one.run, said, len(self.session.lines))
            raise Application(one.run, len(one.run.report) - 1).refusal()
        settle(one, [without_number(line) for line in said], len(self.session.lines), 0)
        raise one.outcomes[0].refusal()

    def _take(self, taken: Sequence[Taken], piece: Piece) -> None:
        """Takes statements into the script, each as a step, and the map that they leave."""
        for one, said in taken:
            begin = len(self.session.lines)
            if isinstance(one, Stretch):
                self.session.take_applications(one.lines)
                settle_run(one.run, said, begin)
                continue
            report = [without_number(line) for line in said]
            lines, kept = kept_lines(one, report, bool(self.session.history.future))
            self.session.take(lines, [did_something(line, said) for line, said in zip(lines, kept)])
            settle(one, report, begin, len(lines))
        self.session.keep(piece.map)


Taken = tuple[Waiting | Stretch, Sequence[str]]


def too_long() -> Refused:
    """What is raised where a script would have more lines than there can be."""
    return Refused(f"limit lines: a script has at most {MOST_LINES:,} lines")


def without_number(line: str) -> str:
    """A line of the report without its number."""
    return line.partition(" ")[2]


def lines_of(waiting: Sequence[Waiting | Stretch]) -> list[str]:
    """All lines of statements that wait."""
    return [line for one in waiting for line in one.lines]


def split_at(waiting: Sequence[Waiting | Stretch], outcome: Outcome) -> tuple[list[Waiting | Stretch], ...]:
    """The statements before one, that one, and those after it."""
    for at, one in enumerate(waiting):
        if isinstance(one, Waiting):
            if outcome in one.outcomes:
                return [*waiting[:at]], [one], [*waiting[at + 1:]]
        elif isinstance(outcome, Application) and outcome.run is one.run:
            before, rest = one.split(outcome.place - len(one.run.report))
            this, after = rest.split(1)
            begin, end = [before] if before.lines else [], [after] if after.lines else []
            return [*waiting[:at], *begin], [this], [*end, *waiting[at + 1:]]
    return [*waiting], [], []


def give_up(waiting: Sequence[Waiting | Stretch], fault: Refused) -> None:
    """Says of statements that they weren't done, since another one wasn't."""
    for one in waiting:
        if isinstance(one, Stretch):
            one.run.fault = one.run.fault or fault
            continue
        for outcome in one.outcomes:
            if not outcome.is_settled:
                outcome.fail(fault)


def settle_run(run: Run, said: Sequence[str], begin: int) -> None:
    """Gives the next applications of a run what the report says of them, and the place in the script before them."""
    run.begin = begin - len(run.report)
    run.report.extend(said)


def settle(one: Waiting, report: Sequence[str], begin: int, count: int) -> None:
    """Gives a statement's outcomes what the report says, and where in the script its lines stand that stay there."""
    if len(one.outcomes) == 1:
        told = [said for said in report if not (one.passes and is_gone(said))]
        one.outcomes[0].settle(told, begin, begin + count, len(report) - len(told))
        return
    for place, (outcome, said) in enumerate(zip(one.outcomes, report), begin):
        outcome.settle([said], place if count else begin, place + 1 if count else begin)


def first_refused(one: Waiting | Stretch, said: Sequence[str]) -> int | None:
    """The place of the line because of which a statement wasn't done as it must be; of applications the first that was
    refused."""
    if isinstance(one, Stretch):
        if " refused " not in "\n".join(said):      # at once, since a loop's applications are thousands
            return None
        return next((at for at, line in enumerate(said) if line.split()[2] == "refused"), None)
    if not one.must:
        return None
    for at, (line, numbered) in enumerate(zip(one.lines, said)):
        told = without_number(numbered)
        is_done = did_something(line, told) or line.startswith(("each", "group")) or one.passes and is_gone(told)
        if not is_done:
            return at
    return None


def is_gone(said: str) -> bool:
    """Whether a line was refused since the dart of its hook is gone."""
    return said.split()[1:3] == ["refused", "no-dart"]


def did_something(line: str, said: str) -> bool:
    """Whether a line did something, by what the report says of it; of the end of a group, whether it is kept."""
    words = said.split()
    if line.startswith("each"):
        return words[3] != "0"
    return words[1] in ("done", "kept")


def kept_lines(one: Waiting, report: Sequence[str], has_future: bool) -> tuple[list[str], list[str]]:
    """The lines of a statement that stay in the script, and what the report says of each.

    A group that was dropped stays where it took away what could have been brought again: then a redo after it finds
    nothing, with it alone."""
    if one.keeps_refused or report[-1] == "end dropped" and has_future and any(map(is_done, report)):
        return list(one.lines), list(report)
    if report[-1] == "end dropped":
        return [], []
    pairs = [(line, said) for line, said in zip(one.lines, report)
             if line.startswith("each") or said.split()[1] not in ("refused", "skipped")]
    return [line for line, _ in pairs], [said for _, said in pairs]


def is_done(said: str) -> bool:
    """Whether a line of an application was done."""
    return said.split()[1:3] == ["done", "added"]
