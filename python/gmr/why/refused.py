"""Why rules of a book aren't accepted, how to mend them, and which maps they would break."""
from pathlib import Path

from gmr.books import Book, Rule, read_book
from gmr.files import write_whole
from gmr.places import marked, read_bytes, tokens_up_to
from gmr.program import answer
from gmr.why.counterexample import Found, search
from gmr.why.example import script_text, text_after
from gmr.why.picture import draw
from gmr.why.rules import tell_rule
from gmr.why.verdict import has_map, tell_no_map, tell_search
from gmr.why.ways import find_ways, tell_way

MOST_WAYS = 4     # that are offered


def tell_rules(path: str, folder: Path | None = None) -> list[str]:
    """Why each rule of a book that isn't accepted isn't, and which map it would break; into a folder, where one is
    given, go these maps with their scripts and pictures."""
    text, lines = read_bytes(path), []
    book = read_book(text)
    rules = {rule.name: rule for rule in book.rules}
    tokens = tokens_up_to(text, len(text))
    heads = {name.word: (rule.begin, name.end) for rule, name in zip(tokens, tokens[1:]) if rule.word == "rule"}
    for said in answer("check", path)[1].splitlines()[:-1]:
        _, name, state, *fault = said.split()
        if state == "refused":
            lines += [said, *marked(text, *heads[name]), *tell_rule(rules[name], book.dimension, " ".join(fault)),
                      *tell_ways(book, rules[name], " ".join(fault)),
                      *tell_example(book, rules[name], " ".join(fault), folder), ""]
    return lines[:-1]


def tell_ways(book: Book, rule: Rule, fault: str) -> list[str]:
    """The ways out that the program accepts, by how few letters they change."""
    ways = find_ways(book, rule, fault)[:MOST_WAYS]
    head = "Ways out, each tried and accepted, by how few letters it changes:"
    return [head, *(f"  {at + 1}. {tell_way(rule, way)}" for at, way in enumerate(ways))] if ways else []


def tell_example(book: Book, rule: Rule, fault: str, folder: Path | None) -> list[str]:
    """Which map a refused rule would break, or why there is none."""
    if not has_map(fault):
        return [tell_no_map(fault)]
    found = search(rule, book.dimension, book.embeds, fault)
    lines = tell_search(rule, book.dimension, fault, found)
    if found.found and folder:
        write_example(found.found, folder)
        lines.append(f"{folder / rule.name}.gmap and .gscript are that map and its script, {rule.name}_after.gmap is "
                     f"what would come, and {rule.name}.svg shows both.")
    return lines


def write_example(found: Found, folder: Path) -> None:
    """Writes a counterexample into a folder: its map, its script, what comes of it, and a picture of both."""
    folder.mkdir(parents=True, exist_ok=True)
    name = found.candidate.rule.name
    texts = {f"{name}.gmap": found.candidate.map.text(), f"{name}.gscript": script_text(found),
             f"{name}_after.gmap": text_after(found), f"{name}.svg": draw(found)}
    for file, text in texts.items():
        write_whole(folder / file, text)
