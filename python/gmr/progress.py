"""A line on the terminal that says what takes long, for who waits for a command. The library only says what it does."""
import sys
import threading
import time
from collections.abc import Iterator
from contextlib import contextmanager
from typing import TextIO

PATIENCE = 2.0      # seconds without a word
RHYTHM = 0.5        # seconds between two changes of the line


class Line:
    """A line that is rewritten in its place from the second second on, and is gone at the end."""

    def __init__(self, out: TextIO, name: str) -> None:
        self.out, self.name = out, name
        self.doing = "at work"
        self._ends = threading.Event()
        self._thread = threading.Thread(target=self._write, daemon=True)

    def begin(self) -> None:
        """Begins to wait."""
        self._thread.start()

    def end(self) -> None:
        """Takes the line away."""
        self._ends.set()
        self._thread.join()

    def _write(self) -> None:
        began, widest = time.monotonic(), 0
        self._ends.wait(PATIENCE)
        while not self._ends.is_set():
            text = f"{self.name}: {self.doing}, {time.monotonic() - began:.0f} s"
            self.out.write(f"\r{text:{widest}}")
            self.out.flush()
            widest = max(widest, len(text))
            self._ends.wait(RHYTHM)
        if widest:
            self.out.write(f"\r{'':{widest}}\r")
            self.out.flush()


current: Line | None = None


@contextmanager
def show_progress(name: str, is_quiet: bool = False) -> Iterator[None]:
    """Shows what takes long on standard error, where that is a terminal, under a command's name."""
    global current
    if is_quiet or current is not None or not sys.stderr.isatty():
        yield
        return
    current = Line(sys.stderr, name)
    current.begin()
    try:
        yield
    finally:
        current.end()
        current = None


def tell(doing: str) -> None:
    """Says what is being done, as 'reading big.obj'; it is shown where somebody waits for it at a terminal."""
    if current is not None:
        current.doing = doing
