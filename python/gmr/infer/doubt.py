"""What an example leaves open: on how much each expression rests, what in it is a guess, and which other rules fit."""
import re
from collections.abc import Iterator, Sequence
from typing import NamedTuple

from gmr.books import Rule, read_book
from gmr.infer.draft import Draft, book_text
from gmr.infer.example import Example
from gmr.infer.values import Place, components, equations_of
from gmr.maps import Embed, Map
from gmr.matches import find_candidate, is_match
from gmr.unfolding import Unfolding, unfold
from gmr.why.closing import Budget, Clash
from gmr.why.counterexample import Pattern, orbits_for

MOST_CLOSINGS = 40      # of one orbit, on which two rules are compared
NUMBER = re.compile(r"(?<![\w@])\d+(?!\w)")
READ = re.compile(r"<[^>]*>|@\d+|\{\d+\}")
FACTOR = re.compile(r"\d+ \*|/ \d+")
SHADE = re.compile(r"rgb\(red\((.*?)\) ([+-] \d+), green\(\1\) \2, blue\(\1\) \2\)")


class Rest(NamedTuple):
    """An assignment of a rule: its embedding, its node, on how many equations it rests, and how many numbers it has of
    its own."""
    embed: str
    node: int
    equations: int
    constants: int

    def is_guess(self) -> bool:
        """Whether its own numbers take more equations than are left."""
        return self.constants > self.equations - self.constants


class Difference(NamedTuple):
    """A map and darts of hooks at which two rules differ, and how."""
    map: Map
    hooks: list[int]
    how: str


def constants_in(text: str) -> int:
    """How many numbers an expression has of its own: neither labels nor factors nor divisors. The one by which all
    parts of a colour change counts once."""
    return len(NUMBER.findall(FACTOR.sub("", READ.sub("", SHADE.sub(r"\1 \2", text)))))


def rests_of(places: Sequence[Place], embeds: Sequence[Embed]) -> list[Rest]:
    """On what each assignment of a rule rests, as it lies in these places."""
    draft = places[0][1]
    found = []
    for embed in embeds:
        for part in components(draft, embed):
            node = next((at for at in part if embed.name in draft.nodes[at].sets), None)
            if node is not None:
                text = draft.nodes[node].sets[embed.name]
                found.append(Rest(embed.name, node, equations_of(places, node, embed), constants_in(text)))
    return found


def has_too_many_numbers(rests: Sequence[Rest]) -> bool:
    """Whether assignments have more numbers of their own than equations are left."""
    constants = sum(rest.constants for rest in rests)
    return constants > sum(rest.equations for rest in rests) - constants


def tell_rests(rests: Sequence[Rest], names: Sequence[str]) -> Iterator[str]:
    """On what each assignment rests, a line for each."""
    for embed, node, equations, constants in rests:
        said = f"{embed} at {names[node]} rests on {equations} {'equation' if equations == 1 else 'equations'}"
        said += f" and has {constants} {'number' if constants == 1 else 'numbers'} of its own" if constants else ""
        if Rest(embed, node, equations, constants).is_guess():
            said += ": a guess, since so few values could come of others; an example with other values would decide"
        yield said


# ---------------------------------------------------------------------- other rules
def rule_of(example: Example, draft: Draft) -> Rule:
    """The draft as a rule of a book."""
    return read_book(book_text(*example.schema, [draft.text("r")])).rules[0]


def find_difference(one: Rule, other: Rule, dimension: int) -> Difference | None:
    """A small map on which two rules with as many hooks differ, in the order in which they are tried."""
    for first, second, said in ((one, other, "first"), (other, one, "other")):
        for amap, hooks in maps_for(first, dimension):
            lies, meets = find_candidate(first, amap, hooks), find_candidate(second, amap, hooks)
            if not is_match(lies):
                continue
            if not is_match(meets):
                return Difference(amap, hooks, f"only the {said} rule lies there")
            if not are_alike(unfold(lies), unfold(meets), list(amap.darts)):
                return Difference(amap, hooks, "they make two maps of it")
    return None


def maps_for(rule: Rule, dimension: int) -> Iterator[tuple[Map, list[int]]]:
    """Small maps in which the left side of a rule lies, and the darts of its hooks there."""
    for turns in orbits_for(rule):
        pattern = Pattern(rule, dimension, turns)
        try:
            pattern.lay()
        except Clash:
            continue
        for _, _ in zip(range(MOST_CLOSINGS), pattern.part.close(Budget(MOST_CLOSINGS * 10))):
            yield pattern.map([]), pattern.hooks()


def are_alike(one: Unfolding, other: Unfolding, old: Sequence[int]) -> bool:
    """Whether two results are one map up to the names of new darts."""
    if len(one.live) != len(other.live):
        return False
    image = {dart: dart for dart in old if dart in one.live and dart in other.live}
    waiting = list(image)
    for dart in waiting:
        for step, steps in zip(one.alpha, other.alpha):
            near, there = step[dart], steps[image[dart]]
            if near not in image:
                image[near] = there
                waiting.append(near)
            if image[near] != there:
                return False
    return True


def tell_other(example: Example, chosen: Draft, other: Draft) -> list[str]:
    """Another rule that fits, and where it differs from the one that was chosen; nothing where no small map tells them
    apart."""
    rule, second = rule_of(example, chosen), rule_of(example, other)
    text = " ".join(other.text("other").split()[2:])
    said = f"another rule fits as well: {text}"
    if sum(node.hook for node in rule.nodes) != sum(node.hook for node in second.nodes):
        return [f"{said}; it has another number of hooks"]
    found = find_difference(rule, second, example.before.dimension)
    if found is None:
        return []
    hooks = " ".join(map(str, found.hooks))
    map_text = " ".join(found.map.text().split())
    return [f"{said}; on this map they differ, at {hooks}, since {found.how}, so an example of it would decide: "
            f"{map_text}"]
