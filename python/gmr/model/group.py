"""A group of a model: what is asked for within it is tried beside the script, and written as one group when all of it
was done. A script's group has applications alone, so an `each` is written as those that it comes to."""
from collections.abc import Iterable

import numpy as np

from gmr.model.outcome import Outcome, Statement
from gmr.model.queue import Queue, Waiting
from gmr.model.session import Session
from gmr.model.statements import lines_at


class Group:
    """An open group: a queue of its own over the map at which it began."""

    def __init__(self, outer: Queue) -> None:
        session = outer.session
        self.queue = Queue(Session(session.file_at(len(session.lines)), session.book, session))

    def each(self, labels: Iterable[int], line: str) -> Outcome:
        """Applies at each orbit over the labels what the `each` of a line applies: as single lines, at the least dart
        of each, but for those that are gone when their turn comes."""
        self.queue.flush()
        session = self.queue.session
        leads = session.map_at(len(session.lines)).leads(labels)
        return self.at_leads(np.unique(leads).tolist(), line)

    def at_leads(self, leads: Iterable[int], line: str) -> Outcome:
        """The same at these darts."""
        lines = lines_at(leads, line)
        outcome = Statement(self.queue, "\n".join(lines))
        if lines:
            self.queue.add(Waiting(lines, [outcome], passes=True))
            self.queue.flush()
        else:
            outcome.settle([], 0, 0)
        return outcome

    def close(self) -> list[str]:
        """The lines of the group, none where nothing was asked for. Refused where one was refused, also if that was
        caught within."""
        self.queue.flush()
        if self.queue.refusal:
            raise self.queue.refusal
        lines = self.queue.session.lines
        return ["group", *lines, "end"] if lines else []
