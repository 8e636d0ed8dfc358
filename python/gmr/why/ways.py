"""Ways out of a refusal: changes of a rule, each tried by the program before it is offered.

For each kind of fault there are changes that a person would think of; where one of them leads to another fault, the
changes for that one are tried after it. Those that lead to an accepted rule are offered, by how few letters they
change. A change after which the rule does nothing, or its right side falls apart, is no way out."""
import difflib
from collections import Counter
from collections.abc import Iterator
from typing import NamedTuple

from gmr.books import Book, Link, Node, Rule
from gmr.why.changes import CHANGES
from gmr.why.edits import ask_faults, link_text, node_text

MOST_STEPS = 3           # changes one after another
MOST_OPEN = 60           # rules that are gone on from, at each step
MOST_LETTERS = 60        # that a way may change


class Way(NamedTuple):
    """A rule that is accepted, and how many letters of the refused one are changed for it."""
    rule: Rule
    letters: int


def find_ways(book: Book, rule: Rule, fault: str) -> list[Way]:
    """The ways out that were found, with the fewest changed letters first."""
    found: dict[str, Way] = {}
    may_do_nothing, names = not does_something(rule), {node.name for node in rule.nodes}
    parts = parts_of(rule, names)
    seen = {text_of(rule)}
    waiting = [(rule, fault)]
    for _ in range(MOST_STEPS):
        tried = {}
        for one, its_fault in waiting:
            for changed in changes_of(book, one, its_fault):
                text = text_of(changed)
                if text not in seen:
                    seen.add(text)
                    tried[text] = Way(changed, letters_between(rule, changed))
        near = [way for way in tried.values() if way.letters <= MOST_LETTERS and parts_of(way.rule, names) <= parts]
        near.sort(key=lambda way: way.letters)
        faults = ask_faults(book, [way.rule for way in near])
        found.update({text_of(way.rule): way for way, said in zip(near, faults)
                      if said is None and (may_do_nothing or does_something(way.rule))})
        waiting = [(way.rule, said) for way, said in zip(near, faults) if said][:MOST_OPEN]
    return sorted(found.values(), key=lambda way: way.letters)


def changes_of(book: Book, rule: Rule, fault: str) -> Iterator[Rule]:
    """The changes that are tried for a fault."""
    kind, *words = fault.split()
    if kind in CHANGES:
        yield from CHANGES[kind](book, rule, words)


def text_of(rule: Rule) -> str:
    """The rule's nodes and links, whatever their order is."""
    lines = [(side, str(sorted(map(sorted_link, links)))) for side, links in
             (("left", rule.left_links), ("right", rule.right_links))]
    return repr([lines, [(node.name, node.left, node.right, sorted(node.sets.items()), node.hook)
                         for node in rule.nodes]])


def sorted_link(link: Link) -> tuple[str, int, str]:
    """A link with its lesser end first."""
    return min(link[0], link[2]), link[1], max(link[0], link[2])


def parts_of(rule: Rule, names: set[str]) -> int:
    """In how many parts the right side lies that no link joins and that have a node of these names."""
    part = {node.name: node.name for node in rule.nodes if node.right is not None}
    for one, _, other in rule.right_links:
        gone, kept = part[one], part[other]
        part = {name: kept if of == gone else of for name, of in part.items()}
    return len({of for name, of in part.items() if name in names})


def does_something(rule: Rule) -> bool:
    """Whether a rule changes anything: a node, a step or a value."""
    left, right = ({frozen(link) for link in links} for links in (rule.left_links, rule.right_links))
    return left != right or any(node.left != node.right or node.sets for node in rule.nodes)


# ---------------------------------------------------------------------- what is different
class Change(NamedTuple):
    """Lines of a side that go, and those that come in their place."""
    side: str
    gone: list[str]
    come: list[str]

    def letters(self) -> int:
        """How many letters one strikes out and writes, blanks not counted."""
        one, other = ("".join(lines).replace(" ", "") for lines in (self.gone, self.come))
        blocks = difflib.SequenceMatcher(None, one, other, autojunk=False).get_matching_blocks()
        return len(one) + len(other) - 2 * sum(block.size for block in blocks)


def changes_between(rule: Rule, other: Rule) -> Iterator[Change]:
    """What is different between two rules: the lines of each node, and then the links, whose order says nothing."""
    names = list(dict.fromkeys(node.name for node in (*rule.nodes, *other.nodes)))
    for side, links, others in (("left", rule.left_links, other.left_links),
                                ("right", rule.right_links, other.right_links)):
        for name in names:
            gone, come = ([node_text(node, side) for node in one.nodes if node.name == name and stands(node, side)]
                          for one in (rule, other))
            if gone != come:
                yield Change(side, gone, come)
        old, new = [Counter(map(frozen, some)) for some in (links, others)]
        gone = [link_text(link) for link in links if new[frozen(link)] < old[frozen(link)]]
        come = [link_text(link) for link in others if old[frozen(link)] < new[frozen(link)]]
        if gone or come:
            yield Change(side, gone, come)


def stands(node: Node, side: str) -> bool:
    """Whether a node stands on a side."""
    return (node.left if side == "left" else node.right) is not None


def frozen(link: Link) -> tuple[frozenset[str], int]:
    """A link whichever end is written first."""
    return frozenset((link[0], link[2])), link[1]


def letters_between(rule: Rule, changed: Rule) -> int:
    """How many letters one has to strike out and write to come from one rule to the other."""
    return sum(change.letters() for change in changes_between(rule, changed))


def tell_way(rule: Rule, way: Way) -> str:
    """What to change, to the letter, and what that means where a link or a node says it."""
    by_side: dict[str, tuple[list[str], list[str], list[str]]] = {}
    for change in changes_between(rule, way.rule):
        replaced, written, left_out = by_side.setdefault(change.side, ([], [], []))
        if change.gone and change.come:
            replaced.append(f"{quoted(change.come)} in the place of {quoted(change.gone)}")
        else:
            (written if change.come else left_out).extend(change.come or change.gone)
    said = []
    for side, (replaced, written, left_out) in by_side.items():
        parts = [*replaced, *([f"write {quoted(written)}"] if written else []),
                 *([f"leave out {quoted(left_out)}"] if left_out else [])]
        said.append(f"on the {side} {', '.join(parts)}")
    meaning = meaning_of(rule, way.rule)
    return "; ".join(said) + (f" ({meaning})" if meaning else "")


def quoted(lines: list[str]) -> str:
    """Lines as code."""
    return " ".join(f"`{line}`" for line in lines)


def meaning_of(rule: Rule, changed: Rule) -> str:
    """What new links of a node to itself on the left, and new nodes that stay, say of the map."""
    names = {node.name for node in rule.nodes}
    said = []
    for one, label, other in changed.left_links:
        if (one, label, other) not in rule.left_links:
            if one == other:
                said.append(f"where {one} is free along {label}")
            elif other not in names:
                said.append(f"where {other} lies across from {one} along {label}")
    return ", ".join(said)
