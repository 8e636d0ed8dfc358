"""What a script's lines did to the history that undo and redo go through, as the program keeps it.

A line is named by its place in the script, from 0. An entry of the history is what one line or one group did."""
from typing import NamedTuple


class Entries:
    """What undo takes back one by one, or redo brings again, the nearest last: the line where each began, and the step
    of the model that made it."""

    __slots__ = ("begins", "steps")

    def __init__(self) -> None:
        self.begins: list[int] = []
        self.steps: list[int] = []

    def push(self, begin: int, step: int) -> None:
        """Puts one last."""
        self.begins.append(begin)
        self.steps.append(step)

    def push_all(self, begins: range, steps: range) -> None:
        """Puts several last."""
        self.begins.extend(begins)
        self.steps.extend(steps)

    def pop(self) -> tuple[int, int]:
        """Takes away the last one."""
        return self.begins.pop(), self.steps.pop()

    def clear(self) -> None:
        """Takes away all."""
        self.begins.clear()
        self.steps.clear()

    def __len__(self) -> int:
        return len(self.begins)


class Reach(NamedTuple):
    """An undo or redo: its line, and the line where what it took back or brought again began."""

    line: int
    begin: int


class History:
    """The entries to which undo and redo lead, the nearest last, and how far back each undo and redo reached."""

    def __init__(self) -> None:
        self.past, self.future = Entries(), Entries()
        self.reaches: list[Reach] = []
        self._group: tuple[int, int] | None = None
        self._has_changed = False

    def note(self, line: int, word: str, did: bool, step: int) -> None:
        """Notes a line that begins with a word, and whether it did something."""
        if word == "group":
            self._group, self._has_changed = (line, step), False
        elif word == "end":
            self._end_group(did)
        elif not did:
            return
        elif word == "undo":
            self._go(line, self.past, self.future)
        elif word == "redo":
            self._go(line, self.future, self.past)
        else:
            self._note_done(line, step)

    def note_applications(self, begin: int, count: int, step: int) -> None:
        """Notes `count` lines, from one on, outside a group, each of which is an application that was done, and a step
        of its own."""
        if count:
            self.future.clear()
            self.past.push_all(range(begin, begin + count), range(step, step + count))

    def _note_done(self, line: int, step: int) -> None:
        self.future.clear()
        if self._group:
            self._has_changed = True
        else:
            self.past.push(line, step)

    def _end_group(self, is_kept: bool) -> None:
        if is_kept and self._has_changed and self._group:
            self.past.push(*self._group)
        self._group = None

    def _go(self, line: int, here: Entries, there: Entries) -> None:
        begin, step = here.pop()
        there.push(begin, step)
        self.reaches.append(Reach(line, begin))

    def entries_of_last_step(self, is_undo: bool) -> int:
        """How many entries an undo of the model takes back, or a redo brings again: those of one step."""
        steps = (self.past if is_undo else self.future).steps
        count = 0
        while count < len(steps) and steps[-1 - count] == steps[-1]:
            count += 1
        return count

    def least_line(self, begin: int, undos: int, redos: int) -> int:
        """The last line, at most `begin`, from which lines can be run alone: no undo or redo after it, nor any of
        as many more as are asked for, leads to a map that was there before it."""
        bounds = [begin]
        if undos and self.past:
            bounds.append(self.past.begins[max(-undos, -len(self.past))])
        if redos and self.future:
            bounds.append(self.future.begins[-1])
        least = min(bounds)
        for reach in reversed(self.reaches):
            if reach.line < least:
                break
            least = min(least, reach.begin)
        return least
