"""Why the program refused something of a statement, in sentences."""
from collections.abc import Callable

from gmr.books import Book
from gmr.maps import Map
from gmr.scripts import Statement
from gmr.studio.timeline import refused_in
from gmr.why.lines import Line, tell_line


def tell_refusal(amap: Map, book: Book, text: str, report: tuple[str, ...],
                 behind: Callable[[str], Map]) -> list[str]:
    """Why an application of a text is refused that was run on a map; `behind` gives the map that lines would leave."""
    refused = refused_in(text, report)
    if not refused:
        return tell_each(report)
    at, statement, cause = refused[0]
    if at == 0:
        return tell_application(amap, book, statement, cause)
    lines = [line for line in text.split("\n") if line not in ("group", "end")]
    place = at - 1 if text.startswith("group") else at
    met = behind("\n".join(lines[:place])) if place else amap
    return [f"`{lines[place]}` is refused, so none of them is done.",
            *tell_application(met, book, statement, cause)]


def tell_application(amap: Map, book: Book, statement: Statement, cause: list[str]) -> list[str]:
    """Why an application is refused on the map that it met."""
    rule = next(rule for rule in book.rules if rule.name == statement.rule)
    return tell_line(Line(amap, book, rule, statement.hooks, statement.values, cause))


def tell_each(report: tuple[str, ...]) -> list[str]:
    """What an `each` refused, by its line."""
    words = report[0].rsplit(" done ", 1)[-1].split() if report else []
    if len(words) < 3 or words[1] != "refused" or words[2] == "0":
        return []
    count = int(words[2])
    what = "application is" if count == 1 else "applications are"
    return [f"{count} {what} refused; choose the rule and point at a cell to see why it doesn't fit there."]
