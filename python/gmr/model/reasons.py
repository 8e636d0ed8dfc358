"""Why a statement of a model was refused: the darts that the refusal concerns, and the sentences of `why`."""
from __future__ import annotations

from typing import TYPE_CHECKING

from gmr.books import Book, Rule, load_book
from gmr.matches import find_candidate
from gmr.scripts import Statement, read_script
from gmr.why.lines import Line, tell_line

if TYPE_CHECKING:
    from gmr.model.outcome import Outcome

MOST_APART = 10     # applications of an each that are explained


def statement_of(outcome: Outcome) -> Statement:
    """The statement that was refused: of a group, the application that broke it."""
    statements = read_script(outcome.text)
    refused = (one for one, line in zip(statements, outcome.lines) if line.split()[1:2] == ["refused"])
    return next(refused, statements[0])


def rule_of(book: Book, statement: Statement) -> Rule:
    """The rule of a statement."""
    return next(rule for rule in book.rules if rule.name == statement.rule)


def darts_of_refusal(outcome: Outcome) -> tuple[int, ...]:
    """The darts that a refusal concerns: those that its cause names, else those of the hooks."""
    statement = statement_of(outcome)
    words = outcome.cause.split()
    if statement.word != "apply" or not statement.hooks:
        return statement.hooks
    if words[0] == "no-dart":
        return (statement.hooks[int(words[2])],)
    if words[0] != "no-match" or "\n" in outcome.text.strip():
        return statement.hooks
    found = find_candidate(rule_of(load_book(outcome.book_file()), statement), outcome.before, list(statement.hooks))
    return (found.darts[words[2]][int(words[3])],)


def explain(outcome: Outcome) -> list[str]:
    """Why a statement was refused, sentence by sentence."""
    statement = statement_of(outcome)
    if statement.word == "each":
        return [f"{outcome.cause} of the each were refused."]
    if statement.word != "apply":
        return ["Nothing is there that it could take back." if statement.word == "undo" else
                "Nothing was taken back directly before it that it could bring again."]
    if "\n" in outcome.text.strip():
        return [f"The application {outcome.text[statement.begin:statement.end]} of the group was refused: "
                f"{outcome.cause}"]
    book = load_book(outcome.book_file())
    words = outcome.cause.split()
    return tell_line(Line(outcome.before, book, rule_of(book, statement), statement.hooks, statement.values, words))
