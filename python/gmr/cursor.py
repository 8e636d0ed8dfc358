"""Tokens of texts, as all formats have them, and the one cursor that goes through them."""
import re
from collections.abc import Sequence
from typing import NamedTuple

RESERVED = frozenset("rule left right hook with pre and or not if then else true false sum count min max same".split())
COMMENT = re.compile(r"#[^\n]*")
TOKEN = re.compile(r"[A-Za-z][A-Za-z0-9_]*|[0-9]+|_|==|!=|<=|>=|[<>()\-+*/%=.,:@]", re.ASCII)
BLANK = re.compile(r"(?:[ \t\r\n]|#[^\n]*)*")


class Token(NamedTuple):
    """A token and where it begins and ends in the text."""
    word: str
    begin: int
    end: int


def end_of_blank(text: str, at: int) -> int:
    """Where the blanks and comments end that stand at a place."""
    blank = BLANK.match(text, at)
    return blank.end() if blank else at


def tokens_of(text: str, kind: str = "book") -> list[Token]:
    """The tokens of a text of a kind, without blanks and comments, and one of no bytes at its end; ValueError with the
    line of a sign that no text has."""
    found, at = [], end_of_blank(text, 0)
    while at < len(text):
        here = TOKEN.match(text, at)
        if not here:
            raise ValueError(f"line {text.count(chr(10), 0, at) + 1}: a {kind} has no such sign as {text[at]!r}")
        found.append(Token(here[0], at, here.end()))
        at = end_of_blank(text, here.end())
    return found + [Token("", len(text), len(text))]


def plain(text: str) -> str:
    """A part of a text on one line, without comments."""
    return " ".join(COMMENT.sub(" ", text).split())


class Cursor:
    """Goes through the tokens of a text of a kind, one by one. ValueError, with the line, where another one stands
    than the text needs."""

    kind = "text"

    def __init__(self, text: str, tokens: Sequence[Token] | None = None, at: int = 0) -> None:
        self.text = text
        self.tokens: Sequence[Token] = tokens_of(text, self.kind) if tokens is None else tokens
        self.at = at

    def peek(self, ahead: int = 0) -> str:
        """The next token's word, or one further ahead; empty at the end."""
        at = self.at + ahead
        return self.tokens[at].word if at < len(self.tokens) else ""

    def fail(self, wanted: str) -> ValueError:
        """What to raise where something else is wanted."""
        place = self.tokens[self.at].begin if self.at < len(self.tokens) else len(self.text)
        line = self.text.count("\n", 0, place) + 1
        return ValueError(f"line {line}: {self.peek() or 'the end'} stands where the {self.kind} needs {wanted}")

    def take(self, *words: str) -> str:
        """The next token, which is one of these words, or any where none are given."""
        word = self.peek()
        if not word or words and word not in words:
            raise self.fail(" or ".join(words) or "more")
        self.at += 1
        return word

    def name(self) -> str:
        """The next token, which is a name."""
        if not self.peek()[:1].isalpha() or self.peek() in RESERVED:
            raise self.fail("a name")
        return self.take()

    def number(self) -> int:
        """The next token, which is a number."""
        if not self.peek().isdigit():
            raise self.fail("a number")
        return int(self.take())

    def is_signed(self) -> bool:
        """Whether a number with or without a sign stands next."""
        return self.peek().isdigit() or self.peek() == "-" and self.peek(1).isdigit()

    def signed(self) -> int:
        """The number that stands next, with its sign."""
        sign = -1 if self.peek() == "-" else 1
        if sign < 0:
            self.take("-")
        return sign * self.number()

    def labels(self) -> tuple[int, ...]:
        """The numbers of an orbit, in its signs."""
        self.take("<")
        found = []
        while self.peek() != ">":
            found.append(self.number())
        self.take(">")
        return tuple(found)
