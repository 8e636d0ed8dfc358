"""The script of a model, and texts of scripts taken apart into statements."""
import os
from collections.abc import Iterator, Sequence
from typing import overload

from gmr.books import plain
from gmr.files import write_whole
from gmr.scripts import read_script


class Script(Sequence[str]):
    """The lines of a script, as `gmr run` takes them."""

    def __init__(self, lines: Sequence[str]) -> None:
        self._lines = tuple(lines)

    @property
    def text(self) -> str:
        """The script's text: a statement on each line."""
        return "".join(f"{line}\n" for line in self._lines)

    def save(self, path: str | os.PathLike[str]) -> None:
        """Writes the text into a file, whole or not at all."""
        write_whole(path, self.text)

    def __len__(self) -> int:
        return len(self._lines)

    def __iter__(self) -> Iterator[str]:
        return iter(self._lines)

    @overload
    def __getitem__(self, place: int) -> str: ...

    @overload
    def __getitem__(self, place: slice) -> Sequence[str]: ...

    def __getitem__(self, place: int | slice) -> str | Sequence[str]:
        return self._lines[place]

    def __str__(self) -> str:
        return self.text

    def __repr__(self) -> str:
        return f"<script of {len(self)} lines>"


def split_script(text: str) -> list[tuple[list[str], list[tuple[int, ...]]]]:
    """The lines of each statement of a script's text, those of a group together, and the hooks of each line; ValueError
    where it is none that can be taken apart."""
    found: list[tuple[list[str], list[tuple[int, ...]]]] = []
    is_open, end = False, 0
    for statement in read_script(text):
        if not is_open:
            found.append(([], []))
        found[-1][0].append(plain(text[statement.begin:statement.end]))
        found[-1][1].append(statement.hooks)
        is_open = statement.word == "group" or is_open and statement.word != "end"
        end = statement.end
    if plain(text[end:]) or is_open:
        raise ValueError(f"here stands no statement of a script: {plain(text[end:])[:40] or 'the end'}")
    return found
