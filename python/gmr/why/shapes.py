"""The orbits over which a rule may lie: all small ones over a set of labels, each as the turns of its positions."""
from collections.abc import Iterator
from functools import cache

Turns = tuple[tuple[int, ...], ...]     # turns[place of the word][position]


@cache
def shapes_of(word: tuple[int, ...], most: int) -> tuple[Turns, ...]:
    """The orbits over the labels of a word with at most `most` darts, the smallest first, each once. Labels two or
    more apart commute in each of them."""
    found: dict[Turns, Turns] = {}
    for size in range(1, most + 1):
        for turns in tables(word, size):
            found.setdefault(least_form(turns), turns)
    return tuple(found.values())


def tables(word: tuple[int, ...], size: int) -> Iterator[Turns]:
    """The orbits of just `size` darts, from each of their darts, numbered in the order of the walk."""
    rows: list[list[int | None]] = [[None] * size for _ in word]
    far = [[other for other in range(len(word)) if abs(word[one] - word[other]) >= 2] for one in range(len(word))]

    def commutes(dart: int) -> bool:
        """Whether what is known around a dart goes with the law of labels two or more apart."""
        for one, others in enumerate(far):
            for other in others:
                here, there = rows[one][dart], rows[other][dart]
                if here is not None and there is not None:
                    ends = rows[other][here], rows[one][there]
                    if None not in ends and ends[0] != ends[1]:
                        return False
        return True

    def fill(reached: int) -> Iterator[Turns]:
        """Fills the first gap in every way, where darts below `reached` are reached so far."""
        gap = next(((dart, place) for dart in range(reached) for place in range(len(word))
                    if rows[place][dart] is None), None)
        if gap is None:
            if reached == size:
                yield tuple(tuple(end for end in row if end is not None) for row in rows)
            return
        dart, place = gap
        for end in range(dart, min(reached + 1, size)):
            if rows[place][end] is not None:
                continue
            rows[place][dart], rows[place][end] = end, dart
            around = {dart, end, *(row[one] for row in rows for one in (dart, end) if row[one] is not None)}
            if all(commutes(one) for one in around if one is not None):
                yield from fill(max(reached, end + 1))
            rows[place][dart] = rows[place][end] = None

    yield from fill(1)


def least_form(turns: Turns) -> Turns:
    """The same for an orbit from whichever of its darts it is told."""
    return min(told_from(turns, start) for start in range(len(turns[0]))) if turns else turns


def told_from(turns: Turns, start: int) -> Turns:
    """The turns with positions numbered by the walk from one of them."""
    order, number = [start], {start: 0}
    for dart in order:
        for row in turns:
            if row[dart] not in number:
                number[row[dart]] = len(order)
                order.append(row[dart])
    return tuple(tuple(number[row[dart]] for dart in order) for row in turns)
