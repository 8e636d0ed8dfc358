"""Places in texts: as line and column, with the line itself and a mark under it, and the tokens around them.

A text is read as latin-1, so that its characters are its bytes and a place is an index."""
from pathlib import Path

from gmr.books import TOKEN, Token, end_of_blank

WIDEST = 100


def read_bytes(path: str | Path) -> str:
    """The text of a file, a character for each byte."""
    return Path(path).read_bytes().decode("latin-1")


def line_and_column(text: str, place: int) -> tuple[int, int]:
    """The line and the column of a place, both from 1."""
    return text.count("\n", 0, place) + 1, place - text.rfind("\n", 0, place)


def shown(text: str) -> str:
    """A part of a text as it can be shown: tabs as one blank, and other bytes as they were written."""
    whole = text.encode("latin-1").decode("utf-8", "replace") if not text.isascii() else text
    return "".join(letter if letter.isprintable() else " " if letter in "\t\r" else "\ufffd" for letter in whole)


def marked(text: str, place: int, end: int | None = None) -> list[str]:
    """The line of a place, by its number, and under it a mark from the place up to an end in that line."""
    number, column = line_and_column(text, place)
    begin = place - column + 1
    line_end = text.find("\n", place)
    line_end = len(text) if line_end < 0 else line_end
    cut = max(0, column - WIDEST)
    before, after = shown(text[begin + cut:place]), shown(text[place:min(line_end, begin + cut + WIDEST + 20)])
    length = max(1, len(shown(text[place:min(line_end, end or place + 1)])))
    head = f"{number:>5} | "
    return [head + ("..." if cut else "") + before + after,
            " " * (len(head) - 2) + "| " + " " * (len(before) + (3 if cut else 0)) + "^" * length]


def tell_place(role: str, text: str, place: int, end: int | None = None) -> list[str]:
    """A place as line and column, the line itself, and a mark under it."""
    number, column = line_and_column(text, place)
    at_end = ", at the end of the text" if place >= len(text) else ""
    return [f"{role}, line {number}, column {column}{at_end}:", *marked(text, place, end)]


def tokens_up_to(text: str, place: int) -> list[Token]:
    """The tokens that begin before a place, up to the first byte that begins none."""
    found, at = [], end_of_blank(text, 0)
    while at < place:
        here = TOKEN.match(text, at)
        if not here:
            break
        found.append(Token(here[0], at, here.end()))
        at = end_of_blank(text, here.end())
    return found


def token_at(text: str, place: int) -> Token | None:
    """The token that begins at a place, or none where no token does."""
    here = TOKEN.match(text, place)
    return Token(here[0], place, here.end()) if here else None


def tokens_from(text: str, place: int, most: int) -> list[Token]:
    """At most this many tokens from a place on."""
    found: list[Token] = []
    while len(found) < most and (token := token_at(text, end_of_blank(text, place))):
        found.append(token)
        place = token.end
    return found
