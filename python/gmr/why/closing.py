"""Maps that are known in part: some darts, some of their neighbours, and what the laws make of these.

Where a dart is known along two labels that commute, three sides of a square give the fourth. What no law settles is
chosen: a dart may be free, joined to another one that is open there, or joined to a new one. Each choice can be taken
back. So all maps that hold a given part are found, up to a number of darts."""
from collections.abc import Iterator
from typing import NamedTuple

OPEN = -1


class Arc(NamedTuple):
    """Two darts that are neighbours along a label."""
    label: int
    one: int
    other: int


class Clash(Exception):
    """An arc that can't be: one of its darts has another neighbour there. With the arcs from which it came."""

    def __init__(self, arc: Arc, has: Arc, because: tuple[Arc, ...]) -> None:
        super().__init__(f"{arc} clashes with {has}")
        self.arc, self.has, self.because = arc, has, because


class Budget:
    """How many choices a search may make before it ends without an answer. `is_short` where a choice was left out."""

    def __init__(self, most: int) -> None:
        self.left, self.is_short = most, False

    def spend(self) -> bool:
        """Takes one of what is left; whether there was one."""
        self.left -= 1
        self.is_short |= self.left < 0
        return self.left >= 0


class Partial:
    """A map that is known in part."""

    def __init__(self, labels: int, most: int) -> None:
        self.near: list[list[int]] = []     # near[dart][label]
        self.labels, self.most = labels, most
        self.far = [[other for other in range(labels) if abs(other - label) >= 2] for label in range(labels)]
        self.trail: list[Arc] = []
        self.reasons: dict[Arc, tuple[Arc, ...]] = {}

    def add(self) -> int:
        """A new dart, of which no neighbour is known."""
        self.near.append([OPEN] * self.labels)
        return len(self.near) - 1

    def mark(self) -> tuple[int, int]:
        """Where the map stands now, to come back to."""
        return len(self.trail), len(self.near)

    def take_back(self, mark: tuple[int, int]) -> None:
        """Takes back all that was joined and added since a mark."""
        while len(self.trail) > mark[0]:
            label, one, other = self.trail.pop()
            self.near[one][label] = self.near[other][label] = OPEN
        del self.near[mark[1]:]

    def join(self, label: int, one: int, other: int) -> None:
        """Makes two darts neighbours along a label, and draws all that follows; Clash where that can't be."""
        waiting: list[tuple[Arc, tuple[Arc, ...]]] = [(arc_of(label, one, other), ())]
        while waiting:
            arc, because = waiting.pop()
            has = self.near[arc.one][arc.label], self.near[arc.other][arc.label]
            if has == (arc.other, arc.one):
                continue
            for dart, end in zip((arc.one, arc.other), has):
                if end != OPEN:
                    raise Clash(arc, arc_of(arc.label, dart, end), because)
            self.near[arc.one][arc.label], self.near[arc.other][arc.label] = arc.other, arc.one
            self.trail.append(arc)
            self.reasons[arc] = because
            waiting.extend(self.drawn_from(arc))

    def drawn_from(self, arc: Arc) -> Iterator[tuple[Arc, tuple[Arc, ...]]]:
        """The fourth sides of squares of which an arc and two others are known, each with these three."""
        label, one, other = arc
        for far in self.far[label]:
            here, there = self.near[one][far], self.near[other][far]
            if here != OPEN and there != OPEN:
                yield arc_of(label, here, there), (arc, arc_of(far, one, here), arc_of(far, other, there))
            for near, end, start in ((here, other, one), (there, one, other)):
                opposite = self.near[near][label] if near != OPEN else OPEN
                if opposite != OPEN and self.near[end][far] == OPEN:
                    yield (arc_of(far, end, opposite),
                           (arc, arc_of(far, start, near), arc_of(label, near, opposite)))

    def try_each(self, dart: int, label: int, budget: Budget) -> Iterator[None]:
        """Comes by once for each way in which an open label of a dart can be settled, with that in force: the dart is
        free, it leads to a new one, or to another one that is open there."""
        others = [other for other, ends in enumerate(self.near) if other != dart and ends[label] == OPEN]
        for end in (dart, OPEN, *others):
            mark = self.mark()
            if not budget.spend():
                return
            if end == OPEN and len(self.near) >= self.most:
                budget.is_short = True
                continue
            try:
                self.join(label, dart, self.add() if end == OPEN else end)
                yield
            except Clash:
                pass
            self.take_back(mark)

    def close(self, budget: Budget) -> Iterator[None]:
        """Comes by once for each whole map that holds this part, those with free darts first."""
        stack: list[Iterator[None]] = []
        while True:
            gap = self.gap()
            if gap is None:
                yield
            else:
                stack.append(self.try_each(*gap, budget))
            while stack and next(stack[-1], self) is self:
                stack.pop()
            if not stack:
                return

    def gap(self) -> tuple[int, int] | None:
        """An open label of a dart: best one at which the dart can't be free, since a neighbour isn't."""
        first: tuple[int, int] | None = None
        for dart, ends in enumerate(self.near):
            for label, end in enumerate(ends):
                if end == OPEN:
                    if any(ends[far] not in (OPEN, dart) and self.near[ends[far]][label] not in (OPEN, ends[far])
                           for far in self.far[label]):
                        return dart, label
                    first = first or (dart, label)
        return first


def arc_of(label: int, one: int, other: int) -> Arc:
    """The arc of two darts, the lesser one first."""
    return Arc(label, min(one, other), max(one, other))
