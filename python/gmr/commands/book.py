"""Joins books of rules over one schema, or takes the rules of a book that a script uses; comments are kept."""
import argparse
import re
import sys
import tempfile
from collections.abc import Sequence
from pathlib import Path

from gmr import program
from gmr.books import Book, end_of_blank, load_book, split_book
from gmr.commands.frame import new_parser, run_command
from gmr.errors import told_with
from gmr.files import write_whole
from gmr.maps import Embed
from gmr.places import line_and_column
from gmr.scripts import read_script

EXAMPLES = """examples:
  tools/book join first.gbook second.gbook --out both.gbook
  tools/book join first.gbook second.gbook --order 'pos paint' --out both.gbook
  tools/book take library.gbook script.gscript --out used.gbook
  tools/book take library.gbook --rules split merge --out used.gbook"""


def parse(words: Sequence[str]) -> argparse.Namespace:
    """The command line, taken apart."""
    parser = new_parser("book", __doc__, EXAMPLES)
    commands = parser.add_subparsers(dest="command", required=True, metavar="COMMAND")
    join = commands.add_parser("join", help="one book of several, which have the same dimension and embeddings")
    join.add_argument("books", metavar="BOOK", nargs="+")
    join.add_argument("--order", metavar="NAMES", help="the order of the embeddings, where books differ in it")
    take = commands.add_parser("take", help="the rules of a book that scripts use, so that no other stops a run")
    take.add_argument("book", metavar="BOOK")
    take.add_argument("scripts", metavar="SCRIPT", nargs="*")
    take.add_argument("--rules", metavar="NAME", nargs="+", default=[], help="rules to take besides")
    for command in (join, take):
        command.add_argument("--out", metavar="OUT", help="where the book is saved; else it goes to standard output")
    asked = parser.parse_args(words)
    if asked.command == "take" and not asked.scripts and not asked.rules:
        take.error("say a script or --rules")
    return asked


def read(path: str) -> str:
    """The text of a file, a letter for each byte."""
    return Path(path).read_text(encoding="latin-1")


def take(path: str, scripts: Sequence[str], names: Sequence[str]) -> str:
    """The text of the book with those of its rules alone that the scripts use or that are named."""
    used = dict.fromkeys(names, "--rules")
    for script in scripts:
        for name, line in rules_in(script).items():
            used.setdefault(name, f"line {line} of {script}")
    head, rules = split_book(read(path))
    for name in used:
        if name not in dict(rules):
            raise ValueError(f"{path} has no rule {name}, which {used[name]} names")
    return paragraphs(head, *(text for name, text in rules if name in used))


def rules_in(path: str) -> dict[str, int]:
    """The rules that a script applies, each with the line of the file where it does so first."""
    text, end = read(path), 0
    found: dict[str, int] = {}
    with told_with(path):
        statements = list(read_script(text))
    for statement in statements:
        end = statement.end
        if statement.rule:
            found.setdefault(statement.rule, line_and_column(text, statement.begin)[0])
    end = end_of_blank(text, end)
    if end < len(text):
        raise ValueError(f"{path}, line {line_and_column(text, end)[0]}: no script goes on with what stands there")
    return found


def order_of(paths: Sequence[str], books: Sequence[Book], order: str | None) -> list[Embed]:
    """The embeddings of books that are joined, in the order that is told, or else in the one that they all have."""
    first = books[0]
    for path, book in zip(paths, books):
        if book.dimension != first.dimension:
            raise ValueError(f"{paths[0]} is of dimension {first.dimension}, and {path} of dimension {book.dimension}")
        for embed in set(book.embeds) ^ set(first.embeds):
            owner, other = (path, paths[0]) if embed in book.embeds else (paths[0], path)
            raise ValueError(f"{owner} has the embedding {spell(embed)}, and {other} hasn't")
    by_name = {embed.name: embed for embed in first.embeds}
    if order is not None:
        names = re.split(r"[\s,]+", order.strip())
        if sorted(names) != sorted(by_name):
            raise ValueError(f"the embeddings are {' '.join(by_name) or 'none'}, and not {' '.join(names)}")
        return [by_name[name] for name in names]
    for path, book in zip(paths, books):
        if book.embeds != first.embeds:
            raise ValueError(f"{path} has the embeddings of {paths[0]} in another order: say one by --order")
    return first.embeds


def spell(embed: Embed) -> str:
    """An embedding as a schema has it."""
    return f"{embed.name} <{' '.join(map(str, embed.labels))}> {embed.kind}"


def join(paths: Sequence[str], order: str | None) -> str:
    """The text of one book with the rules of several, each book's own comments above its rules."""
    books = [load_book(path) for path in paths]
    embeds, version = order_of(paths, books, order), max(book.version for book in books)
    owners: dict[str, str] = {}
    for path, book in zip(paths, books):
        for rule in book.rules:
            if rule.name in owners:
                raise ValueError(f"the rule {rule.name} comes twice: in {owners[rule.name]} and in {path}")
            owners[rule.name] = path
    schema = [f"book {version}", f"dim {books[0].dimension}", *(f"embed {spell(embed)}" for embed in embeds)]
    parts = ["\n".join([*comments_of(books[0]), *schema]), *(rule.text for rule in books[0].rules)]
    for book in books[1:]:
        parts += ["\n".join(comments_of(book)), *(rule.text for rule in book.rules)]
    return paragraphs(*parts)


def comments_of(book: Book) -> list[str]:
    """The comments that stand before a book's first rule and don't belong to it."""
    return re.findall(r"#[^\n]*", book.head)


def paragraphs(*parts: str) -> str:
    """Parts of a text with an empty line between them, without those that are empty."""
    return "\n\n".join(part.strip() for part in parts if part) + "\n"


def judge(text: str) -> None:
    """Lets the program read a book before it is saved; what it refuses is passed on as program.Refused."""
    with tempfile.TemporaryDirectory() as folder:
        path = Path(folder) / "joined.gbook"
        path.write_text(text, encoding="latin-1")
        program.put_or_refuse("book", path)


def main(words: Sequence[str]) -> None:
    """Prints or saves the book that the command line asks for."""
    asked = parse(words)
    if asked.command == "join":
        text = join(asked.books, asked.order)
        judge(text)
    else:
        text = take(asked.book, asked.scripts, asked.rules)
    if asked.out is None:
        sys.stdout.write(text)
    else:
        reads = asked.books if asked.command == "join" else [asked.book, *asked.scripts]
        write_whole(asked.out, text.encode("latin-1"), reads)


def run() -> int:
    """Does what the command line asks for; the status."""
    return run_command("book", main)
