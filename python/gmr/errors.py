"""What the package raises. Each says what happened in one line, and has the status with which a command ends."""
import os
from collections.abc import Callable, Iterator, Sequence
from contextlib import contextmanager

REFUSED, WRONG_WORDS, INTERRUPTED = 1, 2, 130
UNRUN = 9       # the program isn't there or can't be run, whatever the file


class Fault(Exception):
    """What a caller can be told in one line: the base of all that the package raises of its own.

    line: what happened. file: the name of the file that it is about, where the line doesn't say it. status: that of
    the program where it refused, else 1."""

    def __init__(self, line: str, file: str | os.PathLike[str] | None = None, status: int = REFUSED) -> None:
        super().__init__(line)
        self.line, self.status = line, status
        self.file = None if file is None else os.fspath(file)

    def told(self) -> str:
        """The line with the file's name before it."""
        return self.line if self.file is None or self.file in self.line else f"{self.file}: {self.line}"


class Missing(Fault):
    """A Python package or a program of the system isn't installed; the line names what to install."""


class Unwritten(Fault):
    """A file isn't written, since that would destroy what is read."""


class Refused(Fault):
    """What the proved program refused.

    line: its own line. cause: the words after `refused`, as 'no-match arc a 0 2', else the line itself.
    darts: the darts that the refusal concerns. sentences: why it was refused, as `why` tells it, made when asked for.
    """

    def __init__(
        self, line: str, status: int = REFUSED, cause: str | None = None, darts: Sequence[int] = (),
        explain: Callable[[], list[str]] | None = None, file: str | os.PathLike[str] | None = None,
    ) -> None:
        super().__init__(line, file, status)
        self.cause = line if cause is None else cause
        self.darts = tuple(darts)
        self._explain = explain
        self._sentences: list[str] | None = None

    @property
    def sentences(self) -> list[str]:
        """Why it was refused, sentence by sentence; empty where nothing more than the line is known."""
        if self._sentences is None:
            self._sentences = self._explain() if self._explain else []
        return self._sentences


@contextmanager
def told_with(file: str | os.PathLike[str]) -> Iterator[None]:
    """What is raised within is about the file, where it says no other; a ValueError becomes a Fault."""
    try:
        yield
    except Fault as fault:
        if fault.file is None and fault.status != UNRUN:
            fault.file = os.fspath(file)
        raise
    except ValueError as fault:
        raise Fault(str(fault), file) from fault
