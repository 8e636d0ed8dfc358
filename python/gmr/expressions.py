"""Expressions of rules: their trees, the kinds of their parts, and their values over a map, exactly.

The program judges and evaluates expressions, and this module tells why it answered as it did: which part has no
kind, which part has no value, and what each part is worth."""
from collections.abc import Callable, Mapping, Sequence
from operator import ge, gt, le, lt
from typing import NamedTuple

from gmr.cursor import Cursor
from gmr.maps import LEAST_NUMBER, MOST_NUMBER, Map, Value

ORDERS: dict[str, Callable[[int, int], bool]] = {"<": lt, "<=": le, ">": gt, ">=": ge}
COMPARISONS = ("==", "!=", "<", "<=", ">", ">=")
PARTS_OF_VALUES = {"x": 0, "y": 1, "z": 2, "red": 0, "green": 1, "blue": 2}
ARGUMENTS = {"vec2": 2, "vec3": 3, "rgb": 3, **dict.fromkeys(PARTS_OF_VALUES, 1)}
VECTORS = ("vec2", "vec3")


class Term(NamedTuple):
    """A dart of an expression: a node, and the labels to follow from its dart."""
    node: str
    path: tuple[int, ...]

    def __str__(self) -> str:
        return "@".join([self.node, *map(str, self.path)])


class Tree(NamedTuple):
    """A part of an expression. Its word is the sign, the number, or the name of what it reads or calls."""
    form: str
    word: str
    text: str
    parts: tuple["Tree", ...] = ()
    terms: tuple[Term, ...] = ()
    labels: tuple[int, ...] = ()


class NoKind(Exception):
    """A part of an expression that has no kind, and why."""

    def __init__(self, tree: Tree, reason: str) -> None:
        super().__init__(reason)
        self.tree, self.reason = tree, reason


class NoValue(Exception):
    """A part of an expression that has no value, and why."""

    def __init__(self, tree: Tree, reason: str) -> None:
        super().__init__(reason)
        self.tree, self.reason = tree, reason


class Reader(Cursor):
    """Reads the longest expression that stands at a token of a text in which one stands there."""

    kind = "expression"

    def made(self, first: int, form: str, word: str, *parts: Tree, terms: Sequence[Term] = (),
             labels: Sequence[int] = ()) -> Tree:
        """The tree of what was read since that token."""
        span = self.text[self.tokens[first].begin:self.tokens[self.at - 1].end]
        return Tree(form, word, " ".join(span.split()), parts, tuple(terms), tuple(labels))

    def expression(self) -> Tree:
        """The expression that stands next."""
        if self.peek() != "if":
            return self.chain(("or",), lambda: self.chain(("and",), self.negation))
        first, parts = self.at, []
        for _ in ("if", "then", "else"):
            self.take()
            parts.append(self.expression())
        return self.made(first, "if", "if", *parts)

    def chain(self, signs: Sequence[str], part: Callable[[], Tree]) -> Tree:
        """Parts with signs between them, grouped to the left."""
        first, tree = self.at, part()
        while self.peek() in signs:
            word = self.take()
            right = part()
            tree = self.made(first, "operator", word, tree, right)
        return tree

    def negation(self) -> Tree:
        """What stands after `not`, or a comparison."""
        if self.peek() == "not":
            first = self.at
            self.take()
            part = self.negation()
            return self.made(first, "not", "not", part)
        first, left = self.at, self.sums()
        if self.peek() not in COMPARISONS:
            return left
        word = self.take()
        right = self.sums()
        return self.made(first, "operator", word, left, right)

    def sums(self) -> Tree:
        """Sums and differences of products."""
        return self.chain(("+", "-"), lambda: self.chain(("*", "/", "%"), self.sign))

    def sign(self) -> Tree:
        """What stands after a sign, or an atom."""
        if self.peek() != "-":
            return self.atom()
        first = self.at
        self.take()
        part = self.sign()
        return self.made(first, "sign", "-", part)

    def atom(self) -> Tree:
        """A number, a name, a value, a call or what stands in parentheses."""
        first, word = self.at, self.take()
        if word == "(":
            tree = self.expression()
            self.take()
            return tree
        if word.isdigit():
            return self.made(first, "number", word)
        if word in ("true", "false"):
            return self.made(first, "truth", word)
        if word in ("sum", "min", "max", "count"):
            return self.collector(first, word)
        if word == "same":
            terms = [self.term(self.take_behind("(")), self.term(self.take_behind(","))]
            self.take()
            return self.made(first, "same", word, terms=terms)
        if self.peek() == "(":
            parts = []
            while self.peek() in ("(", ","):
                self.take()
                parts.append(self.expression())
            self.take()
            return self.made(first, "function", word, *parts)
        if self.peek() in ("@", "."):
            term = self.term(word)
            name = self.take_behind(".")
            return self.made(first, "value", name, terms=[term])
        return self.made(first, "parameter", word)

    def collector(self, first: int, word: str) -> Tree:
        """A sum, a count, a least or a greatest over an orbit."""
        labels = []
        self.take()
        while self.peek() != ">":
            labels.append(int(self.take()))
        self.take()
        term = self.term(self.take_behind("("))
        name = "" if word == "count" else self.take_behind(".")
        self.take()
        return self.made(first, word, name, terms=[term], labels=labels)

    def take_behind(self, sign: str) -> str:
        """The word after a sign."""
        assert self.peek() == sign, f"{sign} is missing in {self.text}"
        self.take()
        return self.take()

    def term(self, node: str) -> Term:
        """A node that was read, with the labels after it."""
        path = []
        while self.peek() == "@":
            path.append(int(self.take_behind("@")))
        return Term(node, tuple(path))


def leaves_of(tree: Tree) -> list[Tree]:
    """What an expression reads, each once, in the order in which it stands there."""
    if not tree.parts:
        return [] if tree.form in ("number", "truth") else [tree]
    return list(dict.fromkeys(leaf for part in tree.parts for leaf in leaves_of(part)))


def kind_of(tree: Tree, embeds: Mapping[str, str], params: Mapping[str, str]) -> str:
    """The kind of an expression over these embeddings and parameters; NoKind where a part of it has none."""
    kinds = [kind_of(part, embeds, params) for part in tree.parts]
    if tree.form in ("number", "truth", "same", "count", "parameter", "value"):
        return {"number": "int", "truth": "bool", "same": "bool", "count": "int"}.get(tree.form) or (
            params if tree.form == "parameter" else embeds)[tree.word]
    kind = (kind_of_collector(tree.form, embeds[tree.word]) if tree.form in ("sum", "min", "max") else
            kind_of_function(tree.word, kinds) if tree.form == "function" else kind_of_operator(tree.word, kinds))
    if kind:
        return kind
    if not tree.parts:
        raise NoKind(tree, f"{tree.word} is of kind {embeds[tree.word]}, and {tree.form} is of numbers"
                     + (" and vectors" if tree.form == "sum" else ""))
    said = ", ".join(f"{part.text} is of kind {part_kind}" for part, part_kind in zip(tree.parts, kinds))
    raise NoKind(tree, f"{said}, and {tree.word} takes no such {'part' if len(kinds) == 1 else 'parts'}")


def kind_of_collector(form: str, kind: str) -> str | None:
    """The kind of a collector over values of a kind."""
    if form == "sum":
        return "vec3" if kind == "rgb" else kind
    return "int" if kind == "int" else None


def kind_of_function(word: str, kinds: list[str]) -> str | None:
    """The kind of a function of parts of these kinds."""
    if word in ("vec2", "vec3", "rgb"):
        return word if set(kinds) == {"int"} else None
    allowed = {"x": VECTORS, "y": VECTORS, "z": ("vec3",)}.get(word, ("rgb",))
    return "int" if kinds[0] in allowed else None


def kind_of_operator(word: str, kinds: list[str]) -> str | None:
    """The kind of a sign, `not`, `if` or an operator over parts of these kinds."""
    last = kinds[-1]
    if word == "if":
        return last if kinds[0] == "bool" and kinds[1] == last else None
    if word in ("not", "and", "or"):
        return "bool" if set(kinds) == {"bool"} else None
    if word in ("==", "!="):
        return "bool" if kinds[0] == last else None
    if word in COMPARISONS or word == "%":
        return ("int" if word == "%" else "bool") if set(kinds) == {"int"} else None
    if word in ("+", "-"):
        return last if len(set(kinds)) == 1 and last in ("int", *VECTORS) else None
    if word == "/":
        return kinds[0] if last == "int" and kinds[0] in ("int", *VECTORS) else None
    return next((kind for kind, other in (kinds, kinds[::-1]) if other == "int" and kind in ("int", *VECTORS)), None)


class Scene(NamedTuple):
    """What an expression reads: a map, the values of parameters, and the dart of each left node at one position."""
    map: Map
    params: Mapping[str, Value]
    darts: Mapping[str, int]

    def dart(self, term: Term) -> int:
        """The dart to which a term leads."""
        dart = self.darts[term.node]
        for label in term.path:
            dart = self.map.alpha[label][dart]
        return dart


def value_of(tree: Tree, scene: Scene) -> Value:
    """The value of an expression, a truth being True or False; NoValue where it has none."""
    if tree.form == "if":
        return value_of(tree.parts[1 if value_of(tree.parts[0], scene) else 2], scene)
    if not tree.parts:
        return in_range(tree, value_of_leaf(tree, scene))
    values = [value_of(part, scene) for part in tree.parts]
    if tree.form == "function":
        return value_of_function(tree, values)
    if tree.form == "not":
        return not values[0]
    if tree.form == "sign":
        return in_range(tree, by_part(lambda number: -number, values[0]))
    return value_of_operator(tree, *values)


def value_of_leaf(tree: Tree, scene: Scene) -> Value:
    """The value of a part that has no parts."""
    if tree.form in ("number", "truth", "parameter"):
        return scene.params[tree.word] if tree.form == "parameter" else (
            int(tree.word) if tree.form == "number" else tree.word == "true")
    darts = [scene.dart(term) for term in tree.terms]
    if tree.form == "same":
        return darts[0] == darts[1]
    if tree.form == "value":
        return scene.map.values[tree.word][darts[0]]
    orbit = scene.map.orbit(tree.labels, darts[0])
    if tree.form == "count":
        return len(orbit)
    values = [scene.map.values[tree.word][dart] for dart in orbit]
    if tree.form == "sum":
        parts = tuple(map(sum, zip(*map(parts_of, values))))
        return parts if isinstance(values[0], tuple) else parts[0]
    return (min if tree.form == "min" else max)(map(number_of, values))


def value_of_function(tree: Tree, values: list[Value]) -> Value:
    """The value of a function of these values."""
    if tree.word in PARTS_OF_VALUES:
        return parts_of(values[0])[PARTS_OF_VALUES[tree.word]]
    parts = tuple(map(number_of, values))
    if tree.word == "rgb" and not all(0 <= part <= 255 for part in parts):
        raise NoValue(tree, f"a colour's parts are 0 to 255, and these are {show(parts)}")
    return parts


def value_of_operator(tree: Tree, left: Value, right: Value) -> Value:
    """The value of an operator between two values."""
    if tree.word in ("and", "or"):
        return (left and right) if tree.word == "and" else (left or right)
    if tree.word in ("==", "!="):
        return (left == right) == (tree.word == "==")
    if tree.word in COMPARISONS:
        return ORDERS[tree.word](number_of(left), number_of(right))
    if tree.word in ("/", "%"):
        if right == 0:
            raise NoValue(tree, "the divisor is 0")
        divisor = number_of(right)
        return in_range(tree, by_part(lambda part: part // divisor if tree.word == "/" else part % divisor, left))
    if tree.word == "*":
        vector, factor = (left, number_of(right)) if isinstance(right, int) else (right, number_of(left))
        return in_range(tree, by_part(lambda part: part * factor, vector))
    sign = 1 if tree.word == "+" else -1
    parts = tuple(one + sign * other for one, other in zip(parts_of(left), parts_of(right)))
    return in_range(tree, parts if isinstance(left, tuple) else parts[0])


def parts_of(value: Value) -> tuple[int, ...]:
    """The numbers of a value."""
    return value if isinstance(value, tuple) else (value,)


def number_of(value: Value) -> int:
    """A value that is one number."""
    assert isinstance(value, int), f"{value} is no number"
    return value


def by_part(function: Callable[[int], int], value: Value) -> Value:
    """A function of a number, or of each part of a vector."""
    return function(value) if isinstance(value, int) else tuple(map(function, value))


def in_range(tree: Tree, value: Value) -> Value:
    """A value whose numbers are in range; NoValue where one isn't."""
    for number in parts_of(value):
        if not LEAST_NUMBER <= number <= MOST_NUMBER:
            raise NoValue(tree, f"it would be {show(value)}, and numbers go from {LEAST_NUMBER} to {MOST_NUMBER}")
    return value


def show(value: Value) -> str:
    """A value as the formats have it."""
    if isinstance(value, bool):
        return "true" if value else "false"
    return str(value) if isinstance(value, int) else f"({' '.join(map(str, value))})"
