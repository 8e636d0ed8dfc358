"""Scripts as people write them, statement by statement, and the report of a run, line by line.

Whether a statement suits the book is the program's part."""
import re
from typing import NamedTuple

from gmr.cursor import Cursor
from gmr.schemas import Value

STATEMENTS = frozenset(("apply", "each", "undo", "redo", "group", "end"))


class Statement(NamedTuple):
    """A statement: the word that begins it, its rule, the labels of an `each`, its hooks, the values after `with`,
    and where it begins and ends in the text."""
    word: str
    rule: str
    labels: tuple[int, ...]
    hooks: tuple[int, ...]
    values: tuple[Value, ...]
    begin: int
    end: int


class Outcome(NamedTuple):
    """A line of a report, without its number and its name: its first word, as `refused`, and the rest."""
    word: str
    rest: str


class Reader(Cursor):
    """Reads the statements of a script; ValueError with the line where it goes on otherwise."""

    kind = "script"

    def values(self) -> tuple[Value, ...]:
        """The values that stand next."""
        found: list[Value] = []
        while True:
            if self.is_signed():
                found.append(self.signed())
            elif self.peek() == "(":
                found.append(self.group())
            elif self.peek() in ("true", "false"):
                found.append(self.take() == "true")
            else:
                return tuple(found)

    def group(self) -> tuple[int, ...]:
        """The numbers that stand next in parentheses."""
        self.take("(")
        numbers = [self.signed()]
        while self.peek() != ")":
            numbers.append(self.signed())
        self.take(")")
        return tuple(numbers)

    def statement(self) -> Statement:
        """The statement that stands next."""
        first, word = self.at, self.take(*sorted(STATEMENTS))
        rule = ""
        labels: tuple[int, ...] = ()
        hooks: list[int] = []
        values: tuple[Value, ...] = ()
        if word == "each":
            labels = self.labels()
        if word in ("apply", "each"):
            rule = self.name()
            while self.peek().isdigit():
                hooks.append(self.number())
            if self.peek() == "with":
                self.take()
                values = self.values()
        begin, end = self.tokens[first].begin, self.tokens[self.at - 1].end
        return Statement(word, rule, labels, tuple(hooks), values, begin, end)


def read_script(text: str) -> list[Statement]:
    """The statements of a script, up to where a word stands that begins none; ValueError, with the line, where a
    statement breaks off or goes on as none does."""
    reader, found = Reader(text), []
    while reader.peek() in STATEMENTS:
        found.append(reader.statement())
    return found


def read_report(text: str, statements: list[Statement]) -> list[Outcome]:
    """What the report of a run says of each statement."""
    lines = text.splitlines()
    return [Outcome(*(outcome_of(line, statement))) for line, statement in zip(lines, statements)]


def outcome_of(line: str, statement: Statement) -> tuple[str, str]:
    """The first word and the rest of what a line says of its statement, after the number and the name."""
    name = re.escape(f"each {statement.rule}" if statement.word == "each" else statement.rule or statement.word)
    word, _, rest = re.sub(rf"^[0-9]+ {name} ", "", line).partition(" ")
    return word, rest


def is_in_group(statements: list[Statement], at: int) -> bool:
    """Whether a statement stands in a group."""
    is_open = False
    for statement in statements[:at]:
        is_open = statement.word == "group" or is_open and statement.word != "end"
    return is_open


def text_before(text: str, statements: list[Statement], at: int) -> str:
    """The script of the statements before one. Where that one stands in a group, the group is closed."""
    end = statements[at].begin if at < len(statements) else len(text)
    return text[:end] + ("\nend\n" if is_in_group(statements, at) else "")
