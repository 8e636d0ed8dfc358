"""Why the names of a book's text, or the kinds of its expressions, aren't as they have to be."""
import difflib

from gmr import books
from gmr.books import Book, Rule, Token, read_book
from gmr.expressions import ARGUMENTS, NoKind, Reader, kind_of
from gmr.places import marked, tell_place, tokens_from, tokens_up_to

TURNS = {
    ("bool", "int"): "a comparison makes a truth of numbers, as `.. > 0`",
    ("int", "bool"): "`if .. then 1 else 0` makes a number of a truth",
    ("int", "vec2"): "`x(..)` and `y(..)` are the parts of a vector",
    ("int", "vec3"): "`x(..)`, `y(..)` and `z(..)` are the parts of a vector",
    ("int", "rgb"): "`red(..)`, `green(..)` and `blue(..)` are the parts of a colour",
    ("vec2", "int"): "`vec2(.., ..)` makes a vector of two numbers",
    ("vec3", "int"): "`vec3(.., .., ..)` makes a vector of three numbers",
    ("rgb", "int"): "`rgb(.., .., ..)` makes a colour of three numbers",
    ("rgb", "vec3"): "`rgb(x(..), y(..), z(..))` makes a colour of a vector",
}


class Spans(books.Reader):
    """A reader of books that keeps where expressions stand."""

    def __init__(self, text: str) -> None:
        super().__init__(text)
        self.expressions: list[tuple[int, int]] = []

    def read_expression(self) -> str:
        """As a reader of books, and keeps the first token's place and where the expression ends."""
        first = self.at
        text = super().read_expression()
        self.expressions.append((self.tokens[first].begin, self.tokens[self.at - 1].end))
        return text


class Spot:
    """A place in the text of a book whose grammar is right, with what stands around it."""

    def __init__(self, text: str, place: int) -> None:
        reader = Spans(text)
        self.text, self.place = text, place
        self.book: Book = read_book(text, reader)
        self.before: list[Token] = tokens_up_to(text, place)
        self.here, *self.after = tokens_from(text, place, 2)
        self.expression = next(((begin, end) for begin, end in reader.expressions if begin <= place < end), None)

    def word(self, back: int = 1) -> str:
        """The word of a token before the place."""
        return self.before[-back].word if len(self.before) >= back else ""

    def next(self) -> str:
        """The word of the token after the one at the place."""
        return self.after[0].word if self.after else ""

    def rule(self) -> Rule:
        """The rule in which the place lies."""
        return self.book.rules[sum(1 for token in self.before if token.word == "rule") - 1]

    def side(self) -> str:
        """The side on which the place lies."""
        return next(token.word for token in reversed(self.before) if token.word in ("left", "right"))


def tell_twice(path: str, text: str, place: int) -> list[str]:
    """What was said before at another place."""
    before = tokens_up_to(text, place)
    here, *after = tokens_from(text, place, 2)
    what, earlier = first_mention(before, here, after[0].word if after else "")
    said = f"`{here.word}` is {what} already, as the second mark shows." if what != "a label" else \
        f"The label {here.word} stands before it in the same orbit."
    return [*tell_place(path, text, place, here.end), *marked(text, earlier.begin, earlier.end),
            f"{said} Leave one out" + ("." if what in ("a label", "assigned") else ", or choose another name.")]


def first_mention(before: list[Token], here: Token, after: str) -> tuple[str, Token]:
    """What a name or label at a place names, and where it was said before."""
    last = before[-1].word
    words = [token.word for token in before] + [here.word, after]
    alike = [at for at, token in enumerate(before) if token.word == here.word]
    if here.word.isdigit():
        begin = rindex([token.word for token in before], "<")
        return "a label", before[next(at for at in alike if at > begin)]
    for word, what in (("embed", "an embedding"), ("rule", "a rule"), ("with", "assigned")):
        if last == word:
            return what, before[next(at for at in reversed(alike) if words[at - 1] == word)]
    sign, what = (":", "a parameter") if after == ":" else ("<", "a node of this side")
    return what, before[next(at for at in reversed(alike) if words[at + 1] == sign)]


def rindex(words: list[str], word: str) -> int:
    """Where a word stands last."""
    return len(words) - 1 - words[::-1].index(word)


def tell_unknown(path: str, text: str, place: int) -> list[str]:
    """Which names could stand at a place."""
    spot = Spot(text, place)
    what, names = names_for(spot)
    word = spot.here.word
    lines = tell_place(path, text, place, spot.here.end)
    if what == "a function" and word in ARGUMENTS:
        return lines + [f"`{word}` takes {ARGUMENTS[word]} {'argument' if ARGUMENTS[word] == 1 else 'arguments'}, "
                        "and here it has another number of them."]
    lines.append(f"`{word}` is none of what can stand here, which is {what}: {', '.join(names) or 'there is none'}.")
    near = difflib.get_close_matches(word, names, 1)
    return lines + ([f"Did you mean `{near[0]}`?"] if near else [])


def names_for(spot: Spot) -> tuple[str, list[str]]:
    """What the name at a place has to be, and the names that are that."""
    rule, embeds = spot.rule(), [embed.name for embed in spot.book.embeds]
    if spot.word() == "with" or spot.word() == ".":
        return "an embedding", embeds
    if not spot.expression:
        is_left = spot.side() == "left"
        return f"a node of the {spot.side()} side", [
            node.name for node in rule.nodes if (node.left if is_left else node.right) is not None]
    if spot.next() == "(":
        return "a function", sorted(ARGUMENTS)
    if spot.next() in (".", "@") or spot.word() == "(" and spot.word(2) in ("same", ">") or is_in_same(spot):
        return "a left node", [node.name for node in rule.nodes if node.left is not None]
    return "a parameter of the rule", [name for name, _ in rule.params]


def is_in_same(spot: Spot) -> bool:
    """Whether the place is the second dart of `same`."""
    words = [token.word for token in spot.before]
    return "same" in words and "(" not in words[rindex(words, "same") + 2:]


def tell_type(path: str, text: str, place: int) -> list[str]:
    """Which part of an expression has no kind, or which kind it should have."""
    spot = Spot(text, place)
    assert spot.expression is not None
    begin, end = spot.expression
    embeds = {embed.name: embed.kind for embed in spot.book.embeds}
    wanted = "bool" if spot.word() == "pre" else embeds[spot.word(2)]
    lines = tell_place(path, text, place, end)
    tree = Reader(text, [token for token in tokens_up_to(text, end) if token.begin >= begin]).expression()
    try:
        kind = kind_of(tree, embeds, dict(spot.rule().params))
    except NoKind as fault:
        return lines + [f"`{fault.tree.text}` has no kind: {fault.reason}.", "docs/FORMATS.md has the table of kinds."]
    turn = TURNS.get((wanted, kind), "")
    place_of = "after `pre` a bool" if wanted == "bool" else f"for `{spot.word(2)}` the kind {wanted}"
    return lines + [f"The expression is of kind {kind}, and {place_of} is needed{turn and f': {turn}'}."]
