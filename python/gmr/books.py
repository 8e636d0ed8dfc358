"""Books of rules, as `gmr book` prints them and as people write them, for tools that look into a rule.

The program judges a book and this module doesn't: it reads what the grammar asks for and nothing more, so an
expression is a text here, and a rule may be one that the program refuses."""
import os
import re
import tempfile
from collections.abc import Iterable, Sequence
from pathlib import Path
from typing import NamedTuple

from gmr.cursor import COMMENT, RESERVED, TOKEN, Cursor, Token, end_of_blank, plain, tokens_of
from gmr.files import write_whole
from gmr.program import answer, put_of_file, refusal_of
from gmr.schemas import Embed

__all__ = [
    "COMMENT", "COLLECTORS", "OPERATORS", "RESERVED", "TOKEN", "Book", "Letters", "Link", "Node", "Reader", "Rule",
    "Token", "Verdict", "end_of_blank", "load_book", "plain", "read_book", "split_book", "tokens_of",
]

Letters = tuple[int | None, ...]
Link = tuple[str, int, str]

OPERATORS = frozenset("and or then else".split())
COLLECTORS = frozenset("sum count min max".split())
LOOSE = re.compile(r"#[^\n]*|[A-Za-z][A-Za-z0-9_]*|\S")


class Node(NamedTuple):
    """A node of a rule; a word is None on a side where the node doesn't stand, and a letter None where it is `_`."""
    name: str
    left: Letters | None
    right: Letters | None
    sets: dict[str, str]
    hook: bool


class Rule(NamedTuple):
    """A rule: its nodes in the order of their first mention, left ones first, and its own text as it is written,
    from the comments above it on."""
    name: str
    params: list[tuple[str, str]]
    nodes: list[Node]
    left_links: list[Link]
    right_links: list[Link]
    pre: str | None
    text: str

    @property
    def hooks(self) -> list[str]:
        """The names of its hooks, in their order."""
        return [node.name for node in self.nodes if node.hook]

    @classmethod
    def parse(cls, text: str) -> "Rule":
        """The rule that a text stands for; ValueError where it is none."""
        reader = Reader(text)
        rule = reader.read_rule(text.strip())
        if reader.peek():
            raise reader.fail("the end of the rule")
        return rule

    def canonical(self) -> str:
        """Its text in the order and the layout of the canonical one; expressions stand as they are written."""
        params = ", ".join(f"{name}: {kind}" for name, kind in self.params)
        lines = [f"rule {self.name}({params})" if params else f"rule {self.name}", "left"]
        lines += [f"{node.name} {letters_text(node.left)}{' hook' if node.hook else ''}"
                  for node in self.nodes if node.left is not None]
        lines += [f"{one} -{label}- {other}" for one, label, other in self.left_links] + ["right"]
        for node in self.nodes:
            if node.right is not None:
                sets = "".join(f" with {name} = {expression}" for name, expression in node.sets.items())
                lines.append(f"{node.name} {letters_text(node.right)}{sets}")
        lines += [f"{one} -{label}- {other}" for one, label, other in self.right_links]
        return "\n".join(lines + ([f"pre {self.pre}"] if self.pre else [])) + "\n"

    def __str__(self) -> str:
        return self.canonical()


class Verdict(NamedTuple):
    """What the program says of a rule: its name, and its first fault, empty where it is accepted."""
    rule: str
    fault: str
    sentences: tuple[str, ...] = ()     # why it isn't accepted, as `why` tells it

    @property
    def is_accepted(self) -> bool:
        """Whether the rule is accepted."""
        return not self.fault


class Book(NamedTuple):
    """A book; its head is what stands before the text of the first rule, comments included."""
    version: int
    dimension: int
    embeds: list[Embed]
    rules: list[Rule]
    head: str

    @classmethod
    def make(cls, dimension: int, embeds: Sequence[Embed] = (), rules: Iterable[Rule | str] = ()) -> "Book":
        """The book over a schema that has these rules, objects or texts; ValueError where a text is no rule."""
        lines = ["book 2", f"dim {dimension}", *map(embed_text, embeds)]
        found = [Rule.parse(rule) if isinstance(rule, str) else rule for rule in rules]
        return cls(2, dimension, list(embeds), found, "\n".join(lines) + "\n")

    @property
    def text(self) -> str:
        """Its own text, comments included."""
        parts = (self.head, *(rule.text for rule in self.rules))
        return "\n\n".join(part.strip() for part in parts if part) + "\n"

    def rule(self, name: str) -> Rule:
        """The rule of a name; ValueError where there is none."""
        for rule in self.rules:
            if rule.name == name:
                return rule
        raise ValueError(f"the book has no rule {name}; it has {', '.join(one.name for one in self.rules) or 'none'}")

    def take(self, *names: str) -> "Book":
        """The book of these rules alone, in the order that they have here; ValueError where there is no such rule."""
        kept = [self.rule(name) for name in names]
        return self._replace(rules=[rule for rule in self.rules if rule in kept])

    def join(self, *others: "Book | Rule | str") -> "Book":
        """The book with the rules of others after its own, or with rules given as objects or texts; ValueError where
        the schemas differ or two rules have one name."""
        rules = list(self.rules)
        for other in others:
            if isinstance(other, Book) and (other.dimension, other.embeds) != (self.dimension, self.embeds):
                raise ValueError("books that are joined have one dimension and one list of embeddings")
            if isinstance(other, Book):
                rules += other.rules
            else:
                rules.append(Rule.parse(other) if isinstance(other, str) else other)
        names = [rule.name for rule in rules]
        twice = next((name for name in names if names.count(name) > 1), None)
        if twice is not None:
            raise ValueError(f"the rule {twice} comes twice")
        return Book.make(self.dimension, self.embeds, rules)

    def canonical(self) -> str:
        """Its canonical text, as the program prints it; Refused where it takes no such book."""
        return self._ask_program("book")

    def check(self) -> list[Verdict]:
        """The program's verdict of each rule; Refused where it takes no such book."""
        from gmr.why.rules import tell_rule
        verdicts = []
        for line in self._ask_program("check").splitlines()[:-1]:
            _, name, state, *fault = line.split()
            told = tell_rule(self.rule(name), self.dimension, " ".join(fault)) if state == "refused" else []
            verdicts.append(Verdict(name, " ".join(fault), tuple(told)))
        return verdicts

    def save(self, path: str | os.PathLike[str]) -> None:
        """Writes its own text into a file, whole or not at all."""
        write_whole(path, self.text.encode("latin-1"))

    def _ask_program(self, command: str) -> str:
        with tempfile.TemporaryDirectory(prefix="gmr-book-") as folder:
            path = Path(folder, "made.gbook")
            path.write_bytes(self.text.encode("latin-1"))
            status, said = answer(command, path)
        if status > 1:
            raise refusal_of(status, said)
        return said

    def __str__(self) -> str:
        return self.canonical()


def letters_text(word: Letters) -> str:
    """A word in its signs."""
    return f"<{' '.join('_' if letter is None else str(letter) for letter in word)}>"


def embed_text(embed: Embed) -> str:
    """The line of an embedding."""
    return f"embed {embed.name} <{' '.join(map(str, sorted(embed.labels)))}> {embed.kind}"


def split_book(text: str) -> tuple[str, list[tuple[str, str]]]:
    """What stands before the first rule, and the name and the text of each rule, from the comments above it on up to
    its last sign. That needs no more than that `rule` begins a rule, so it works for rules that are no rules yet."""
    words = [one for one in LOOSE.finditer(text) if not one[0].startswith("#")]
    starts = [at for at, one in enumerate(words) if one[0] == "rule"]
    cuts = [begin_of(text, words[at - 1].end() if at else 0, words[at].start()) for at in starts]
    names = [words[at + 1][0] if at + 1 < len(words) else "" for at in starts]
    texts = [text[begin:end].rstrip() for begin, end in zip(cuts, [*cuts[1:], len(text)])]
    return text[: cuts[0] if cuts else len(text)], list(zip(names, texts))


def begin_of(text: str, last: int, begin: int) -> int:
    """Where the text of a rule begins whose word `rule` stands at `begin`, and whose forerunner ends at `last`:
    after the rest of the forerunner's last line, and after empty lines."""
    line_end = text.find("\n", last, begin)
    between = line_end + 1 if line_end >= 0 else last
    return between + len(text[between:begin]) - len(text[between:begin].lstrip())


class Reader(Cursor):
    """Reads a book token by token."""

    kind = "book"

    def read_letters(self) -> Letters:
        """A word of labels and gaps in its signs."""
        self.take("<")
        found: list[int | None] = []
        while self.peek() != ">":
            found.append(self.number() if self.peek() != "_" else None)
            self.at += found[-1] is None
        self.take(">")
        return tuple(found)

    def read_expression(self) -> str:
        """The longest expression that stands here, as a text on one line."""
        first, depth, is_whole = self.at, 0, False
        while self.peek():
            word = self.peek()
            starts = word[0].isalnum() and word not in OPERATORS
            if is_whole and starts and depth == 0 or word in ("rule", "with", "pre"):
                break
            self.at += 1
            if word in COLLECTORS:
                self.read_letters()
            depth += (word == "(") - (word == ")")
            is_whole = word == ")" or starts and word not in COLLECTORS | {"if", "not", "same"}
        if not is_whole or depth:
            raise self.fail("an expression that is whole")
        return plain(self.text[self.tokens[first].begin : self.tokens[self.at - 1].end])

    def read_embeds(self) -> list[Embed]:
        """The embeddings of a schema."""
        found = []
        while self.peek() == "embed":
            self.at += 1
            name, labels = self.name(), self.labels()
            found.append(Embed(name, labels, self.take("int", "vec2", "vec3", "rgb")))
        return found

    def read_params(self) -> list[tuple[str, str]]:
        """The parameters of a rule, each with its kind."""
        found, more = [], self.peek() == "("
        while more:
            self.at += 1
            name = self.name()
            self.take(":")
            found.append((name, self.take("int", "bool", "vec2", "vec3", "rgb")))
            more = self.peek() == ","
        if found:
            self.take(")")
        return found

    def read_side(self) -> tuple[dict[str, Letters], list[Link], set[str], dict[str, dict[str, str]]]:
        """The nodes of a side with their words, its links, its hooks, and its assignments by node."""
        words: dict[str, Letters] = {}
        links: list[Link] = []
        hooks: set[str] = set()
        sets: dict[str, dict[str, str]] = {}
        while self.peek() not in ("", "right", "pre", "rule"):
            name = self.name()
            if self.peek() == "-":
                self.take("-")
                label = self.number()
                self.take("-")
                links.append((name, label, self.name()))
                continue
            words[name] = self.read_letters()
            if self.peek() == "hook":
                self.at += 1
                hooks.add(name)
            while self.peek() == "with":
                self.at += 1
                embed = self.name()
                self.take("=")
                sets.setdefault(name, {})[embed] = self.read_expression()
        return words, links, hooks, sets

    def read_rule(self, text: str) -> Rule:
        """A rule, which has this text."""
        self.take("rule")
        name, params = self.name(), self.read_params()
        self.take("left")
        left, left_links, hooks, _ = self.read_side()
        self.take("right")
        right, right_links, _, sets = self.read_side()
        pre = None
        if self.peek() == "pre":
            self.at += 1
            pre = self.read_expression()
        names = left | right
        nodes = [Node(name, left.get(name), right.get(name), sets.get(name, {}), name in hooks) for name in names]
        return Rule(name, params, nodes, left_links, right_links, pre, text)


def read_book(text: str, reader: Reader | None = None) -> Book:
    """The book that a text stands for, canonical or not; ValueError with one line where the grammar has none. A caller
    can give the reader, to see what it kept."""
    reader = reader or Reader(text)
    reader.take("book")
    version = reader.number()
    if version not in (1, 2):
        raise ValueError(f"a book of version {version} is none that is known")
    reader.take("dim")
    dimension, embeds = reader.number(), reader.read_embeds()
    head, texts = split_book(text)
    rules = [reader.read_rule(own) for _, own in texts]
    if reader.peek():
        raise reader.fail("a rule")
    return Book(version, dimension, embeds, rules, head)


def load_book(path: str | os.PathLike[str]) -> Book:
    """The book of a file as the program prints it, but each rule's own text and the head as the file has them. Where
    the program takes no book, that is Refused with its line."""
    printed = read_book(put_of_file("book", path))
    head, texts = split_book(Path(path).read_text(encoding="latin-1"))
    rules = [rule._replace(text=text) for rule, (_, text) in zip(printed.rules, texts)]
    return printed._replace(rules=rules, head=head)
