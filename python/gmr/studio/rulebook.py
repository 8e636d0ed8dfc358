"""The book as the page shows it: its rules with the program's verdicts, and the faults of a text with the ways out."""
import tempfile
from pathlib import Path
from typing import Any, NamedTuple

from gmr import program
from gmr.books import Book, Rule, read_book, split_book
from gmr.places import token_at, tokens_up_to
from gmr.why.books import tell_twice, tell_type, tell_unknown
from gmr.why.refused import tell_ways
from gmr.why.rules import tell_rule
from gmr.why.texts import tell_limit, tell_text

Json = dict[str, Any]
MOST_WITH_WAYS = 2      # refused rules of a book for which ways out are looked for
TELLERS = {"twice": tell_twice, "unknown": tell_unknown, "type": tell_type}


class Text(NamedTuple):
    """A text as it is edited, and how its letters are bytes: as UTF-8, or one byte a letter where it isn't that."""
    letters: str
    coding: str

    def data(self) -> bytes:
        """The bytes."""
        return self.letters.encode(self.coding)

    def place(self, byte: int) -> int:
        """The place of a byte as the page counts it, in units of UTF-16."""
        before = self.data()[:byte].decode(self.coding, "ignore")
        return len(before.encode("utf-16-le")) // 2


def text_of(data: bytes) -> Text:
    """The text that bytes are."""
    try:
        return Text(data.decode("utf-8"), "utf-8")
    except UnicodeDecodeError:
        return Text(data.decode("latin-1"), "latin-1")


def describe_book(text: Text, folder: Path) -> Json:
    """The rules of a book with their verdicts, and its faults; without rules where the text is no book."""
    path = folder / "looked_at.gbook"
    path.write_bytes(text.data())
    status, said = program.answer("check", path)
    lines = said.splitlines()
    if status not in (0, 1):
        return {"answer": lines, "rules": None, "faults": [fault_of_text(text, lines[0] if lines else "", path)]}
    book = read_book(program.put_or_refuse("book", path))
    texts = split_book(text.data().decode("latin-1"))[1]
    verdicts = [line.split()[2:] for line in lines[:-1]]
    rules = [describe_rule(book, rule, comment_of(own), words) for rule, (_, own), words in
             zip(book.rules, texts, verdicts)]
    refused = [(rule, told) for rule, told in zip(book.rules, rules) if told["fault"]]
    for rule, told in refused[:MOST_WITH_WAYS]:
        told["why"] += tell_ways(book, rule, told["fault"])
    return {"answer": lines, "rules": rules, "dimension": book.dimension,
            "embeds": [embed._asdict() for embed in book.embeds], "faults": list(faults_of_rules(text, rules))}


def comment_of(own: str) -> str:
    """What the comments above a rule say."""
    lines = own.encode("latin-1").decode("utf-8", "replace").split("\n")
    above = lines[:next((at for at, line in enumerate(lines) if not line.lstrip().startswith("#")), len(lines))]
    return " ".join(line.lstrip("# ").rstrip() for line in above)


def describe_rule(book: Book, rule: Rule, comment: str, verdict: list[str]) -> Json:
    """A rule as the page shows it."""
    fault = " ".join(verdict[1:]) if verdict[0] == "refused" else None
    return {
        "name": rule.name, "comment": comment, "fault": fault,
        "why": tell_rule(rule, book.dimension, fault) if fault else [],
        "params": rule.params, "pre": rule.pre,
        "nodes": [{"name": node.name, "left": node.left, "right": node.right, "sets": node.sets, "hook": node.hook}
                  for node in rule.nodes],
        "left": rule.left_links, "right": rule.right_links,
    }


def faults_of_rules(text: Text, rules: list[Json]) -> list[Json]:
    """The fault of each rule that isn't accepted, at the rule's head."""
    data = text.data().decode("latin-1")
    tokens = tokens_up_to(data, len(data))
    heads = {name.word: (rule.begin, name.end) for rule, name in zip(tokens, tokens[1:]) if rule.word == "rule"}
    return [{"from": text.place(heads[rule["name"]][0]), "to": text.place(heads[rule["name"]][1]),
             "answer": f"rule {rule['name']} refused {rule['fault']}", "why": rule["why"]}
            for rule in rules if rule["fault"]]


def fault_of_text(text: Text, line: str, path: Path) -> Json:
    """Where a text is no book, and what could stand there."""
    _, _, kind, *words = [*line.split(), "", ""][:5]
    data = text.data().decode("latin-1")
    words = [word for word in words if word]
    if kind not in ("text", "limit", *TELLERS):
        return {"from": 0, "to": 0, "answer": line, "why": []}
    place = int(words[-1])
    if kind == "text":
        told = tell_text("BOOK", str(path), data, place)
    elif kind == "limit":
        told = tell_limit(str(path), data, words[0], place)
    else:
        told = TELLERS[kind](str(path), data, place)
    token = token_at(data, place)
    return {"from": text.place(place), "to": text.place(token.end if token else place + 1), "answer": line,
            "why": without_place(told)}


def without_place(told: list[str]) -> list[str]:
    """What is told of a place, without the lines that show it: the page marks it."""
    return [line for line in told[1:] if not (line.lstrip().startswith("|") or " | " in line[:9])]


def describe_text(letters: str) -> Json:
    """What the program says of a text that is being written."""
    with tempfile.TemporaryDirectory(prefix="gmr-studio-") as folder:
        return describe_book(Text(letters, "utf-8"), Path(folder))
