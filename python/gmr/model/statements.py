"""The lines that statements are in a script, made of rules, darts and values, and judged before they are run."""
import re
from collections.abc import Callable, Iterable, Mapping, Sequence
from operator import index
from typing import Any, Protocol, SupportsIndex

from gmr.books import Book, Rule
from gmr.maps import LEAST_NUMBER, MOST_NUMBER, WIDTHS

CELLS = ("vertex", "edge", "face", "volume")
MANY = ("vertices", "edges", "faces", "volumes")
WORDS = ("apply", "each", "undo", "redo", "group", "end")


class HasDart(Protocol):
    """What can stand for a hook: a cell, or all else with a dart."""

    @property
    def dart(self) -> int:
        """The dart that stands for it."""


Hook = SupportsIndex | HasDart
Hooks = Hook | Sequence[Hook] | Mapping[str, Hook] | None
Parameter = bool | SupportsIndex | Sequence[SupportsIndex]


def find_rule(book: Book, name: str) -> Rule:
    """The rule of the book with the name; ValueError where there is none."""
    for rule in book.rules:
        if rule.name == name:
            return rule
    raise ValueError(f"the book has no rule {name}; it has {', '.join(rule.name for rule in book.rules) or 'none'}")


LineOf = Callable[[Hooks, Mapping[str, Parameter]], str]


def make_line_of(rule: Rule) -> LineOf:
    """What makes the lines that apply a rule at hooks with values; ValueError or TypeError where they don't suit it.

    A loop makes thousands, so a rule with one hook and nothing else, or with one vector, has a quick way."""
    begin, name = f"apply {rule.name}", rule.params[0][0] if rule.params else ""

    def spell_line(at: Hooks, values: Mapping[str, Parameter]) -> str:
        """Any line."""
        return "".join([begin, *(f" {dart}" for dart in darts_of(rule, at)), spell_values(rule, values)])

    def spell_alone(at: Hooks, values: Mapping[str, Parameter]) -> str:
        """A line without values."""
        if type(at) is int and at >= 0 and not values:
            return f"{begin} {at}"
        return spell_line(at, values)

    def spell_pair(at: Hooks, values: Mapping[str, Parameter]) -> str:
        """A line with a vector of two numbers."""
        pair = values.get(name)
        if type(at) is int and at >= 0 and type(pair) is tuple and len(pair) == 2 and len(values) == 1:
            x, y = pair
            if type(x) is type(y) is int and LEAST_NUMBER <= x <= MOST_NUMBER and LEAST_NUMBER <= y <= MOST_NUMBER:
                return f"{begin} {at} with ({x} {y})"
        return spell_line(at, values)

    def spell_triple(at: Hooks, values: Mapping[str, Parameter]) -> str:
        """A line with a vector of three numbers."""
        triple = values.get(name)
        if type(at) is int and at >= 0 and type(triple) is tuple and len(triple) == 3 and len(values) == 1:
            x, y, z = triple
            if (type(x) is type(y) is type(z) is int and LEAST_NUMBER <= x <= MOST_NUMBER
                    and LEAST_NUMBER <= y <= MOST_NUMBER and LEAST_NUMBER <= z <= MOST_NUMBER):
                return f"{begin} {at} with ({x} {y} {z})"
        return spell_line(at, values)

    if len(rule.hooks) != 1:
        return spell_line
    quick = {(): spell_alone, ("vec2",): spell_pair, ("vec3",): spell_triple}
    return quick.get(tuple(kind for _, kind in rule.params), spell_line)


def each_line(rule: Rule, labels: Iterable[int], values: Mapping[str, Parameter]) -> str:
    """The line that applies a rule with one hook at each orbit over labels; ValueError where they don't suit it."""
    check_hooks(rule, 1)
    return f"each <{' '.join(map(str, sorted(labels)))}> {rule.name}{spell_values(rule, values)}"


def lines_at(darts: Iterable[int], each: str) -> list[str]:
    """The lines that apply at these darts what the line of an `each` applies."""
    rule, space, values = each.partition("> ")[2].partition(" with ")
    return [f"apply {rule} {dart}{space}{values}" for dart in darts]


def check_hooks(rule: Rule, count: int) -> None:
    """ValueError where a rule has another number of hooks."""
    hooks = rule.hooks
    if len(hooks) != count:
        named = f" ({', '.join(hooks)})" if hooks else ""
        raise ValueError(f"{rule.name} has {len(hooks)} {'hook' if len(hooks) == 1 else 'hooks'}{named}, "
                         f"and {count} {'is' if count == 1 else 'are'} given")


def darts_of(rule: Rule, at: Hooks) -> tuple[int, ...]:
    """The darts of a rule's hooks, in their order: of one dart or cell, of several, or by the hooks' names."""
    if at is None:
        darts: tuple[int, ...] = ()
    elif isinstance(at, Mapping):
        hooks = rule.hooks
        if set(at) != set(hooks):
            raise ValueError(f"{rule.name} has the hooks {', '.join(hooks)}, and {', '.join(at)} are given")
        darts = tuple(dart_of(at[name]) for name in hooks)
    elif isinstance(at, Sequence) and not hasattr(at, "dart"):
        darts = tuple(map(dart_of, at))
    else:
        darts = (dart_of(at),)
    check_hooks(rule, len(darts))
    return darts


def dart_of(hook: Any) -> int:
    """The dart that stands for a hook."""
    dart = index(getattr(hook, "dart", hook))
    if dart < 0:
        raise ValueError(f"{dart} is no name of a dart")
    return dart


def spell_values(rule: Rule, values: Mapping[str, Parameter]) -> str:
    """The end of a line that has a rule's values."""
    if not values and not rule.params:
        return ""
    if len(values) != len(rule.params) or not all(name in values for name, _ in rule.params):
        said = ", ".join(f"{name}: {kind}" for name, kind in rule.params)
        raise ValueError(f"{rule.name} has {f'the parameters ({said})' if said else 'no parameters'}, "
                         f"and {', '.join(values) or 'none'} {'is' if len(values) < 2 else 'are'} given")
    return " with " + " ".join(spell(name, kind, values[name]) for name, kind in rule.params)


def spell(name: str, kind: str, value: Parameter) -> str:
    """A value of a kind as a script has it; ValueError or TypeError where it is of another kind."""
    if kind == "bool":
        if value is not True and value is not False:
            raise TypeError(f"{name} is a bool, True or False, and not {value!r}")
        return "true" if value else "false"
    if kind == "int":
        return str(whole(name, value))
    if isinstance(value, (str, bytes)) or not isinstance(value, Iterable):
        raise TypeError(f"{name} is a {kind}, a tuple of {WIDTHS[kind]} whole numbers, and not {value!r}")
    numbers = [whole(name, number) for number in value]
    if len(numbers) != WIDTHS[kind]:
        raise ValueError(f"{name} is a {kind}, a tuple of {WIDTHS[kind]} whole numbers, and not {value!r}")
    if kind == "rgb" and not all(0 <= number <= 255 for number in numbers):
        raise ValueError(f"{name} is a colour of parts from 0 to 255, and not {value!r}")
    return f"({' '.join(map(str, numbers))})"


def whole(name: str, value: Any) -> int:
    """A whole number of 64 bits; TypeError or ValueError at all else."""
    if value is True or value is False:
        raise TypeError(f"{name} has whole numbers, and not {value!r}")
    try:
        number = index(value)
    except TypeError:
        raise TypeError(f"{name} has whole numbers, and not {value!r}") from None
    if not LEAST_NUMBER <= number <= MOST_NUMBER:
        raise ValueError(f"{name} has a number that doesn't fit in 64 bits: {number}")
    return number


def labels_of(dimension: int, cells: str | int | Iterable[int]) -> tuple[int, ...]:
    """The labels of the orbits that are meant: cells by their name or dimension, as 'edge' or 1, or labels as a tuple;
    ValueError where a map of the dimension has none such."""
    if isinstance(cells, str) and re.fullmatch(r"<[0-9 ]*>", cells):
        cells = tuple(map(int, cells[1:-1].split()))
    if isinstance(cells, str):
        name = cells.lower()
        if name not in (*CELLS, *MANY):
            raise ValueError(f"{cells!r} are no cells: say {', '.join(CELLS)}, a dimension, or labels as (0, 1)")
        cells = (CELLS if name in CELLS else MANY).index(name)
    if not isinstance(cells, Iterable):
        cell = index(cells)
        if not 0 <= cell <= dimension:
            raise ValueError(f"a map of dimension {dimension} has no cells of dimension {cell}")
        return tuple(label for label in range(dimension + 1) if label != cell)
    labels = tuple(sorted(index(label) for label in cells if not isinstance(label, str)))
    if len(set(labels)) < len(labels) or not all(0 <= label <= dimension for label in labels):
        raise ValueError(f"{labels} has a label twice, or one that a map of dimension {dimension} hasn't")
    return labels
