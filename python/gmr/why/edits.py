"""Rules with something changed, and their texts."""
import tempfile
from collections.abc import Iterator, Sequence
from pathlib import Path

from gmr.books import Book, Letters, Link, Node, Rule
from gmr.program import answer

MOST_RULES = 256     # of a book


def word_text(word: Letters) -> str:
    """A word as it is written."""
    return f"<{' '.join('_' if letter is None else str(letter) for letter in word)}>"


def link_text(link: Link) -> str:
    """A link as it is written."""
    return f"{link[0]} -{link[1]}- {link[2]}"


def node_text(node: Node, side: str) -> str:
    """A node of a side as it is written, with its assignments."""
    if side == "left":
        return f"{node.name} {word_text(node.left or ())}{' hook' if node.hook else ''}"
    sets = "".join(f" with {embed} = {value}" for embed, value in node.sets.items())
    return f"{node.name} {word_text(node.right or ())}{sets}"


def rule_lines(rule: Rule, name: str) -> Iterator[str]:
    """The lines of a rule's text, under another name."""
    params = ", ".join(f"{one}: {kind}" for one, kind in rule.params)
    yield f"rule {name}" + (f"({params})" if params else "")
    for side, links in (("left", rule.left_links), ("right", rule.right_links)):
        yield side
        yield from (node_text(node, side) for node in rule.nodes
                    if (node.left if side == "left" else node.right) is not None)
        yield from map(link_text, links)
    if rule.pre is not None:
        yield f"pre {rule.pre}"


def book_text(book: Book, rules: Sequence[Rule]) -> str:
    """The text of a book with these rules in the place of its own, named by their number."""
    lines = ["book 2", f"dim {book.dimension}"]
    lines += [f"embed {name} <{' '.join(map(str, labels))}> {kind}" for name, labels, kind in book.embeds]
    for at, rule in enumerate(rules):
        lines += rule_lines(rule, f"r{at}")
    return "\n".join(lines) + "\n"


def ask_faults(book: Book, rules: Sequence[Rule]) -> list[str | None]:
    """What the program says of each rule: its first fault, or None where it is accepted; where it doesn't even take
    the text of one, an empty fault for all that stand with it."""
    faults: list[str | None] = []
    with tempfile.TemporaryDirectory(prefix="gmr-why-") as folder:
        path = Path(folder, "tried.gbook")
        for first in range(0, len(rules), MOST_RULES):
            some = rules[first:first + MOST_RULES]
            path.write_text(book_text(book, some), encoding="latin-1")
            status, said = answer("check", path)
            words = [line.split(" ", 3) for line in said.splitlines()[:-1]]
            faults += [None if word[2] == "accepted" else word[3] for word in words] if status < 2 else [""] * len(some)
    return faults


# ---------------------------------------------------------------------- changes
def with_node(rule: Rule, node: Node) -> Rule:
    """The rule with another node in the place of the one of that name."""
    return rule._replace(nodes=[node if one.name == node.name else one for one in rule.nodes])


def node_of(rule: Rule, name: str) -> Node:
    """The node of a name."""
    return next(node for node in rule.nodes if node.name == name)


def with_link(rule: Rule, side: str, link: Link) -> Rule:
    """The rule with one more link on a side."""
    if side == "left":
        return rule._replace(left_links=[*rule.left_links, link])
    return rule._replace(right_links=[*rule.right_links, link])


def without_link(rule: Rule, side: str, link: Link) -> Rule:
    """The rule without a link of a side."""
    links = list(rule.left_links if side == "left" else rule.right_links)
    links.remove(link)
    return rule._replace(left_links=links) if side == "left" else rule._replace(right_links=links)


def with_letter(rule: Rule, side: str, name: str, place: int, letter: int | None) -> Rule:
    """The rule with another letter at a place of a node's word on a side."""
    node = node_of(rule, name)
    word = (node.left if side == "left" else node.right) or ()
    word = (*word[:place], letter, *word[place + 1:])
    return with_node(rule, node._replace(left=word) if side == "left" else node._replace(right=word))


def with_value(rule: Rule, name: str, embed: str, value: str | None) -> Rule:
    """The rule with an assignment at a node, or without the one that it has."""
    node = node_of(rule, name)
    sets = {one: text for one, text in node.sets.items() if one != embed}
    return with_node(rule, node._replace(sets=sets if value is None else {**sets, embed: value}))
