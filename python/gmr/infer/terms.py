"""The values that a rule can read of the map before, and the expressions that are made of them."""
from collections.abc import Callable, Iterator, Sequence
from dataclasses import dataclass
from itertools import chain, combinations, permutations

from gmr.expressions import parts_of
from gmr.infer.draft import Draft
from gmr.maps import Embed, Map, Value

FURTHEST = 3            # labels of a path
MOST_OF_SUM = {2: 40, 3: 24, 4: 18}    # of how many terms sums are tried, by how many a sum has
FACTORS = {
    2: ((2, 1), (3, 1), (3, 2), (2, -1), (3, -1), (3, -2), (4, -1), (5, 1), (5, 3), (7, 1)),
    3: ((1, 1, 1), (1, 1, 2), (1, 1, -1), (6, 1, 1), (2, 2, -1), (1, 1, 4)),
    4: ((1, 1, 1, 1), (3, 3, 1, 1), (4, 1, 1, 2), (1, 1, -1, 1)),
}
PARTS = (2, 1), (3, 1), (-1, 1), (1, 2), (3, 2), (1, 3), (2, 3), (4, 3), (1, 4), (3, 4), (5, 4)   # over and under
Row = tuple[int, ...]    # the parts of a value at all positions, one part after the other


@dataclass(frozen=True)
class Term:
    """A part of an expression, in which `{n}` stands for the name of node n, and its values."""
    text: str
    row: Row
    is_single: bool = True   # a value, or a mean, least or greatest one, and no sum of values

    def is_atom(self) -> bool:
        """Whether it can be multiplied without parentheses."""
        return " " not in self.text


def row_of(values: Sequence[Value]) -> Row:
    """The row of the values at all positions."""
    return tuple(chain.from_iterable(zip(*map(parts_of, values))))


def terms_of(places: Sequence[tuple[Map, Draft]], embed: Embed) -> list[Term]:
    """What can be read of the embedding, each row once: values at nodes and ways from them, and then over orbits.

    A place is a draft as it lies in a map; all have the same nodes."""
    ways = list(ways_from(places))
    found: dict[Row, Term] = {}
    for text, families in ways:
        values = [before.values[embed.name][dart] for (before, _), family in zip(places, families) for dart in family]
        row = row_of(values)
        found.setdefault(row, Term(f"{text}.{embed.name}", row))
    if embed.kind != "rgb":
        for text, families in ways:
            if text.count("@") <= 1:
                for term in collected(places, embed, text, families):
                    found.setdefault(term.row, term)
    return list(found.values())


def ways_from(places: Sequence[tuple[Map, Draft]]) -> Iterator[tuple[str, list[tuple[int, ...]]]]:
    """The ways from left nodes along some labels, shortest first, as a Dart's text and the darts in each place."""
    first = places[0][1]
    labels = range(places[0][0].dimension + 1)
    ways = [
        (f"{{{at}}}", [draft.nodes[at].darts for _, draft in places])
        for at, node in enumerate(first.nodes) if node.left is not None
    ]
    seen = {tuple(families) for _, families in ways}
    for _ in range(FURTHEST + 1):
        yield from ways
        longer = []
        for text, families in ways:
            for label in labels:
                steps = [before.alpha[label] for before, _ in places]
                reached = [tuple(step[dart] for dart in family) for step, family in zip(steps, families)]
                if tuple(reached) not in seen:
                    seen.add(tuple(reached))
                    longer.append((f"{text}@{label}", reached))
        ways = longer


def collected(places: Sequence[tuple[Map, Draft]], embed: Embed, text: str,
              families: list[tuple[int, ...]]) -> Iterator[Term]:
    """The mean, sum, least and greatest value over each orbit of a way's darts."""
    labels = range(places[0][0].dimension + 1)
    for word in (word for size in range(1, len(labels) + 1) for word in combinations(labels, size)):
        orbits = [
            orbit for (before, _), family in zip(places, families) for orbit in orbits_at(before, word, embed, family)
        ]
        over = f"<{' '.join(map(str, word))}>({text}.{embed.name})"
        count = f"count<{' '.join(map(str, word))}>({text})"
        sums = [tuple(map(sum, zip(*orbit))) for orbit in orbits]
        means = [tuple(part // len(orbit) for part in total) for total, orbit in zip(sums, orbits)]
        yield Term(f"sum{over} / {count}", row_of(means))
        yield Term(f"sum{over}", row_of(sums), False)
        if embed.kind == "int":
            yield Term(f"min{over}", row_of([min(orbit) for orbit in orbits]))
            yield Term(f"max{over}", row_of([max(orbit) for orbit in orbits]))


def orbits_at(before: Map, word: tuple[int, ...], embed: Embed,
              family: tuple[int, ...]) -> Iterator[list[tuple[int, ...]]]:
    """For each dart of a family the values over its orbit, each as the tuple of its parts."""
    values = before.values[embed.name]
    known: dict[int, list[tuple[int, ...]]] = {}
    for dart in family:
        if dart not in known:
            orbit = before.orbit(word, dart)
            parts = [(value,) if isinstance(value, int) else value for value in map(values.__getitem__, orbit)]
            known.update(dict.fromkeys(orbit, parts))
        yield known[dart]


# ---------------------------------------------------------------------- expressions
def constant_text(kind: str, parts: Sequence[int]) -> str:
    """The text of a value."""
    return str(parts[0]) if kind == "int" else f"{kind}({', '.join(map(str, parts))})"


def find_constant(kind: str, wanted: Row, width: int) -> tuple[int, ...] | None:
    """The parts of the value that is wanted at all positions, where it is one."""
    size = len(wanted) // width
    parts = [wanted[part * size : (part + 1) * size] for part in range(width)]
    return tuple(part[0] for part in parts) if all(min(part) == max(part) for part in parts) else None


def find_expression(kind: str, width: int, wanted: Row, terms: Sequence[Term],
                    equations: int | None = None) -> str | None:
    """The first expression that has the wanted row: a constant, a term, and then sums with small factors. A constant
    that takes more of the equations than it leaves comes last."""
    constant = find_constant(kind, wanted, width)
    guess = None if constant is None else constant_text(kind, constant)
    if guess and (equations is None or 2 * width <= equations):
        return guess
    for term in terms:
        if term.row == wanted:
            return term.text
    if kind == "rgb":
        return find_shade(wanted, terms) or guess
    return find_combined(kind, width, wanted, terms, guess is None) or guess


def find_shade(wanted: Row, terms: Sequence[Term]) -> str | None:
    """A colour each part of which is by one number more or less than that of a term."""
    for term in terms:
        more, *others = {want - part for want, part in zip(wanted, term.row)}
        if not others:
            parts = (f"{part}({term.text}) {'-' if more < 0 else '+'} {abs(more)}" for part in ("red", "green", "blue"))
            return f"rgb({', '.join(parts)})"
    return None


def find_combined(kind: str, width: int, wanted: Row, terms: Sequence[Term], with_constants: bool) -> str | None:
    """The first sum or multiple of terms that has the wanted row, those of plain values first; with constants besides,
    where they are wanted."""
    single = [term for term in terms if term.is_single]
    plain = [term for term in single if "/" not in term.text]
    if not with_constants:
        sums = (find_sum(wanted, some[: MOST_OF_SUM[len(factors[0])]], factors)
                for factors in (((1, 1),), FACTORS[2], FACTORS[3]) for some in (plain, single))
        return next((text for text in sums if text is not None), None)
    tries: tuple[Callable[[], str | None], ...] = (
        lambda: find_sum(wanted, plain[: MOST_OF_SUM[2]], ((1, 1),)),
        lambda: find_sum(wanted, plain[: MOST_OF_SUM[2]], FACTORS[2]),
        lambda: find_sum(wanted, single[: MOST_OF_SUM[2]], ((1, 1),)),
        lambda: find_multiple(kind, width, wanted, terms, ((1, 1),)),
        lambda: find_sum(wanted, single[: MOST_OF_SUM[2]], FACTORS[2]),
        lambda: find_multiple(kind, width, wanted, terms, PARTS),
        lambda: find_moved(kind, width, wanted, single[: MOST_OF_SUM[2]]),
        lambda: find_sum(wanted, single[: MOST_OF_SUM[3]], FACTORS[3]),
        lambda: find_sum(wanted, single[: MOST_OF_SUM[4]], FACTORS[4]),
    )
    return next((text for attempt in tries if (text := attempt()) is not None), None)


def find_multiple(kind: str, width: int, wanted: Row, terms: Sequence[Term],
                  parts: Sequence[tuple[int, int]]) -> str | None:
    """A multiple or a part of a term and a constant, as `a.pos * 3 / 2 + vec2(1, 0)`."""
    for over, under in parts:
        for term in terms:
            for added in range(under if kind == "int" else 1):
                rest = tuple(want - (part * over + added) // under for want, part in zip(wanted, term.row))
                constant = find_constant(kind, rest, width)
                if constant is not None:
                    inner = scaled(term, over) + (f" + {added}" if added else "")
                    text = inner if under == 1 else f"{wrapped(inner) if added else inner} / {under}"
                    return plus_constant(text, kind, constant)
    return None


def find_sum(wanted: Row, terms: Sequence[Term], factors: Sequence[tuple[int, ...]]) -> str | None:
    """A mean of terms with some of the factors, in any order, as `(2 * a.pos + b.pos) / 3`.

    Most sums fail at one place of the row, so that is tried alone first: where the terms differ most."""
    place = max(range(len(wanted)), key=lambda at: len({term.row[at] for term in terms}))
    column = [term.row[place] for term in terms]
    for order in (order for some in factors for order in sorted(set(permutations(some)), reverse=True)):
        under = sum(order)
        multiples = [order[-1] * part for part in column]
        for chosen in combinations(range(len(terms)), len(order) - 1):
            least = wanted[place] * under - sum(order[at] * column[term] for at, term in enumerate(chosen))
            for last in range(chosen[-1] + 1, len(terms)):
                if least <= multiples[last] < least + under:
                    summed = [terms[at] for at in (*chosen, last)]
                    if is_quotient(wanted, [term.row for term in summed], order, under):
                        return quotient(summed, order, under)
    return None


def is_quotient(wanted: Row, rows: Sequence[Row], factors: Sequence[int], under: int) -> bool:
    """Whether the rows with their factors, added up and divided, make the wanted one."""
    return all(
        sum(factor * part for factor, part in zip(factors, parts)) // under == want
        for want, parts in zip(wanted, zip(*rows))
    )


def find_moved(kind: str, width: int, wanted: Row, terms: Sequence[Term]) -> str | None:
    """A sum or difference of two terms and a constant. Most fail at two positions, so these are tried alone first."""
    last = len(wanted) // width - 1
    step = wanted[last] - wanted[0]
    steps = [term.row[last] - term.row[0] for term in terms]
    for order in ((1, 1), (1, -1), (-1, 1)):
        for one, other in combinations(range(len(terms)), 2):
            if order[0] * steps[one] + order[1] * steps[other] == step:
                rows = terms[one].row, terms[other].row
                rest = tuple(want - order[0] * a - order[1] * b for want, a, b in zip(wanted, *rows))
                constant = find_constant(kind, rest, width)
                if constant is not None:
                    return plus_constant(quotient([terms[one], terms[other]], order, 1), kind, constant)
    return None


def scaled(term: Term, factor: int) -> str:
    """A term with a factor before it."""
    if factor in (1, -1):
        return ("-" if factor < 0 else "") + (term.text if term.is_atom() or factor > 0 else wrapped(term.text))
    text = term.text if term.is_atom() else wrapped(term.text)
    return f"{factor} * {text}" if factor > 0 else f"-{-factor} * {text}"


def wrapped(text: str) -> str:
    """The text in parentheses."""
    return f"({text})"


def quotient(terms: Sequence[Term], factors: Sequence[int], under: int) -> str:
    """The sum of the terms with their factors, by a number; what is taken off stands last."""
    pairs = sorted(zip(terms, factors), key=lambda pair: pair[1] < 0)
    text = scaled(*pairs[0])
    for term, factor in pairs[1:]:
        text += f" {'-' if factor < 0 else '+'} {scaled(term, abs(factor))}"
    return text if under == 1 else f"{wrapped(text)} / {under}"


def plus_constant(text: str, kind: str, constant: tuple[int, ...]) -> str:
    """The text and a constant, where that isn't 0."""
    if not any(constant):
        return text
    if kind == "int" and constant[0] < 0:
        return f"{text} - {-constant[0]}"
    return f"{text} + {constant_text(kind, constant)}"
