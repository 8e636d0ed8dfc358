"""Looks for the orbits along which an example folds, and for the rule with the fewest nodes among them."""
from collections.abc import Callable, Container, Iterator, Sequence
from dataclasses import dataclass, field
from itertools import combinations

from gmr.infer.check import ask_faults, script_text
from gmr.infer.draft import Draft, Letter, Link
from gmr.infer.example import Example, NoRule
from gmr.infer.fold import MOST_NODES, Broken, Fold
from gmr.infer.values import Place, Unfound, assign, value_text

OF_VALUES = "no-value", "merge ", "merge-along"   # the faults that an assignment mends
FURTHEST = 3   # how many unchanged labels in a row a rule goes along


@dataclass
class Candidate:
    """A rule that would make the map after: one draft for each line of the script, alike but for their darts."""
    lines: list[Draft]
    further: list[Place] = field(default_factory=list)     # the further examples, and the draft as it lies there
    unfound: list[Unfound] = field(default_factory=list)   # the assignments for which no expression was found
    needed: list[str] = field(default_factory=list)        # of what stays as it is and isn't left out, why
    doubts: list[str] = field(default_factory=list)        # what the example leaves open

    @property
    def draft(self) -> Draft:
        """The rule."""
        return self.lines[0]

    def cost(self, example: Example) -> tuple[int, ...]:
        """What is to be least: nodes, lines of the script, free darts and other links that it asks for, hooks, darts
        with a new value that no node has, and the word."""
        nodes = self.draft.nodes
        links = [
            (at, step.node, label in node.context) for at, node in enumerate(nodes)
            for label, step in (node.left or {}).items() if isinstance(step, Link)
        ]
        free = sum(one == other and not is_context for one, other, is_context in links)
        joined = sum(one < other for one, other, _ in links)
        owned = {dart for draft in self.lines for node in draft.nodes for dart in node.darts}
        unowned = len(example.revalued - owned)
        return len(nodes), len(self.lines), free, joined, len(self.draft.hooks()), unowned, len(self.draft.word)

    def loops(self) -> int:
        """How many free darts the rule asks for."""
        return sum(isinstance(step, Link) and step.node == at
                   for at, node in enumerate(self.draft.nodes) for step in (node.left or {}).values())

    def drafts(self) -> list[Draft]:
        """The draft wherever it lies."""
        return self.lines + [lying for _, lying in self.further]

    def script(self, name: str) -> str:
        """The script's text."""
        return script_text(name, self.lines)

    def remarks(self) -> str:
        """Comments on the rule: which steps stay though they don't change, and which values aren't found."""
        names = self.draft.names()
        lines = self.needed + self.doubts + [
            f"{embed} at {names[node]} isn't found; at its positions the values are "
            f"{', '.join(map(value_text, wanted))}" for embed, node, wanted in self.unfound
        ]
        return "".join(f"# {line}\n" for line in lines)


def words_of(dimension: int) -> list[tuple[int, ...]]:
    """All sets of labels, the greatest first."""
    labels = range(dimension + 1)
    return [word for size in range(dimension + 1, -1, -1) for word in combinations(labels, size)]


@dataclass
class Hand:
    """The smallest rule so far that the program takes: what can't be smaller isn't folded."""
    nodes: int = MOST_NODES
    refused: set[str] = field(default_factory=set)
    is_one_line: bool = False
    tells: Callable[[str], None] | None = None      # is told how far the search is
    breaks: Callable[[str], None] | None = None     # is told of each orbit that doesn't fold, and where it breaks

    def tell_broken(self, word: tuple[int, ...], hook: int | None, broken: Broken) -> None:
        """Tells where an orbit breaks."""
        if self.breaks:
            self.breaks(f"the orbit <{' '.join(map(str, word))}> of dart {hook} doesn't fold: {broken}")

    def take(self, example: Example, candidate: Candidate) -> None:
        """Takes a candidate into the hand where it is smaller and the program finds no fault but missing values."""
        nodes, is_one = len(candidate.draft.nodes), len(candidate.lines) == 1
        if nodes < self.nodes or nodes == self.nodes and is_one and not self.is_one_line:
            text = candidate.draft.text("r")
            fault = "known" if text in self.refused else ask_faults(*example.schema, [candidate.draft])[0]
            if fault is None or fault.startswith(OF_VALUES):
                self.nodes, self.is_one_line = nodes, is_one
            else:
                self.refused.add(text)

    def most_of_several(self) -> int:
        """How many nodes a rule of several lines has at most that is smaller."""
        return self.nodes - 1 if self.is_one_line else self.nodes


def candidates(example: Example, words: Sequence[tuple[int, ...]], hook: int | None, hand: Hand) -> Iterator[Candidate]:
    """The rules that fold the whole of what differs, as they are met. Those that can't be smaller than the one in hand
    are left out."""
    if not example.starts:
        yield from creations(example)
    for word in words:
        firsts: list[int | None] = [hook]
        if hook is None:
            firsts = [orbit[0] for orbit in example.before.orbits(word, example.starts or None)]
        if hand.tells:
            hand.tells(f"<{' '.join(map(str, word))}>: {len(firsts)} orbits; so far {hand.nodes} nodes at most")
        folds = []
        for first in firsts:
            fold = start_fold(example, word, first, hand)
            if fold:
                folds.append(fold)
                yield from whole(fold, hand)
        if hook is None and hand.most_of_several():
            yield from repeated(example, [fold for fold in folds if len(fold.nodes) <= hand.most_of_several()])


def start_fold(example: Example, word: tuple[int, ...], hook: int | None, hand: Hand) -> Fold | None:
    """The fold along the word from the hook with what it must have, or None where that is broken or has too many
    nodes."""
    try:
        fold = Fold(example, word, hook, MOST_NODES)
        fold.most = hand.nodes if could_be_whole(fold, hand) else hand.most_of_several()
        if len(fold.nodes) > fold.most:
            return None
        fold.grow()
    except Broken as broken:
        hand.tell_broken(word, hook, broken)
        return None
    return fold


def could_be_whole(fold: Fold, hand: Hand) -> bool:
    """Whether the nodes of a hand have room for all that differs."""
    return max(len(fold.example.moved), len(fold.example.groups)) <= hand.nodes * len(fold.positions)


def creations(example: Example) -> Iterator[Candidate]:
    """The rule without left nodes that makes all new darts, one node for each."""
    if len(example.new) <= MOST_NODES:
        fold = Fold(example, (), None)
        for dart in sorted(example.new):
            if dart not in fold.owner:
                fold.add((dart,))
                fold.grow()
        yield Candidate([fold.draft()])


def whole(fold: Fold, hand: Hand) -> Iterator[Candidate]:
    """The rule of a fold that goes on to all that differs: along what doesn't change, or else in step."""
    if not could_be_whole(fold, hand):
        return
    try:
        fold = fold.copy()
        fold.most = hand.nodes
        fold.reach(FURTHEST)
        while missing := fold.example.missing(fold.owner):
            fold = go_in_step(fold, min(missing))
        yield Candidate([fold.draft()])
    except Broken as broken:
        hand.tell_broken(fold.word, fold.positions[0], broken)


def go_in_step(fold: Fold, dart: int) -> Fold:
    """The fold with one more node, which has the dart and is walked in step with the hook; Broken where none can be."""
    side = fold.example.after if dart in fold.example.new else fold.example.before
    for start in side.orbit(fold.word, dart):
        longer = fold.copy()
        try:
            longer.add(longer.in_step(side, start))
            longer.reach(FURTHEST)
        except Broken:
            continue
        return longer
    raise Broken(f"no darts in step with the hook's take in dart {dart}")


def repeated(example: Example, folds: Sequence[Fold]) -> Iterator[Candidate]:
    """Rules that make the map after in several lines, each at a part of what differs."""
    alike: dict[str, list[tuple[Draft, frozenset[int]]]] = {}
    for fold in folds:
        if not owns_all(example, fold.owner):
            try:
                draft = fold.draft()
            except Broken:
                continue
            alike.setdefault(draft.text("r"), []).append((draft, frozenset(fold.owner)))
    for parts in alike.values():
        lines = cover(example, parts)
        if lines:
            yield Candidate(lines)


def owns_all(example: Example, owned: Container[int]) -> bool:
    """Whether these darts account for all that differs."""
    return all(dart in owned for dart in example.moved) and all(
        any(dart in owned for dart in group) for group in example.groups)


def cover(example: Example, parts: Sequence[tuple[Draft, frozenset[int]]]) -> list[Draft] | None:
    """The first of these drafts that account together for all that differs and share no dart, or None."""
    moved, groups = set(example.moved), set(range(len(example.groups)))
    taken: set[int] = set()
    lines = []
    for draft, darts in parts:
        met = {number for dart in darts for number in example.groups_at.get(dart, ())} & groups
        if taken.isdisjoint(darts) and (met or not moved.isdisjoint(darts)):
            taken |= darts
            moved -= darts
            groups -= met
            lines.append(draft)
    return None if moved or groups else lines


def find(example: Example, words: Sequence[tuple[int, ...]], hook: int | None,
         hand: Hand | None = None, goes_on: bool = False) -> list[Candidate]:
    """The candidates in which the program finds no fault but missing values, the best first; NoRule where there is
    none. Where it goes on, those are among them that can't be smaller than others."""
    hand, found = hand or Hand(), []
    for candidate in candidates(example, words, hook, hand):
        found.append(candidate)
        if not goes_on:
            hand.take(example, candidate)
    found.sort(key=lambda candidate: candidate.cost(example))
    if not found:
        raise NoRule(why_none(example, words, hook))
    faults = ask_faults(*example.schema, [candidate.draft for candidate in found])
    accepted = [candidate for candidate, fault in zip(found, faults) if fault is None or fault.startswith(OF_VALUES)]
    if not accepted:
        raise NoRule(f"of {len(found)} rules that fold none is accepted; the first has the fault '{faults[0]}'")
    return accepted


def why_none(example: Example, words: Sequence[tuple[int, ...]], hook: int | None) -> str:
    """Why no orbit folds, in one line; where the labels are given, at which node, label and position."""
    if len(words) > 1 or not (example.starts or hook is not None):
        return "no orbit of what differs folds to the nodes of one rule"
    first = example.starts[0] if hook is None else hook
    try:
        fold = Fold(example, words[0], first)
        fold.reach(FURTHEST)
        fold.draft()
        why = f"no label leads from its nodes to dart {min(example.missing(fold.owner))}, which differs"
    except Broken as broken:
        why = str(broken)
    return f"the orbit of dart {first} doesn't fold: {why}"


def set_values(places: Sequence[Place]) -> list[Unfound]:
    """Gives a rule its assignments, more of them while the program finds values missing; answers what isn't found."""
    example, draft = places[0]
    forced: set[tuple[str, int]] = set()
    while True:
        unfound = assign(places, forced)
        if unfound:
            return unfound
        fault = ask_faults(*example.schema, [draft])[0]
        if fault is None or not fault.startswith(OF_VALUES):
            return []
        _, embed, name = fault.split()[:3]
        if (embed, draft.names().index(name)) in forced:
            return []
        forced.add((embed, draft.names().index(name)))


Drop = tuple[int, int | None]   # a step of a node by its label, or without a label the whole node


def least_context(example: Example, candidate: Candidate) -> Candidate:
    """The candidate without what is the same before and after and isn't needed, and why the rest is."""
    candidate, _ = drop_all(example, candidate, idle_nodes)
    candidate, needed = drop_all(example, candidate, idle_steps)
    names = candidate.draft.names()
    candidate.needed = [
        f"label {label} at {names[at]} stays as it is: {fault} without it"
        for (at, label), fault in sorted(needed.items())
    ]
    return candidate


def drop_all(example: Example, candidate: Candidate,
             list_drops: Callable[[Draft], list[Drop]]) -> tuple[Candidate, dict[Drop, str]]:
    """Drops what can be dropped, all at once or else the first of it, and tells of the rest the fault without it."""
    while True:
        drops = list_drops(candidate.draft)
        tried = [drop_from(candidate, [drop]) for drop in drops]
        faults = ask_faults(*example.schema, [shorter.draft for shorter in tried])
        passed = [drop for drop, fault in zip(drops, faults) if fault is None]
        if not passed:
            return candidate, {drop: fault for drop, fault in zip(drops, faults) if fault is not None}
        at_once = drop_from(candidate, passed)
        is_fine = ask_faults(*example.schema, [at_once.draft]) == [None]
        candidate = at_once if is_fine else drop_from(candidate, passed[:1])


def idle_nodes(draft: Draft) -> list[Drop]:
    """The nodes of which nothing changes and nothing is read."""
    read = draft.read_nodes()
    return [(at, None) for at, node in enumerate(draft.nodes) if at not in read and not node.sets
            and node.is_kept and not node.is_hook and node.context == set(node.lefts)]


def idle_steps(draft: Draft) -> list[Drop]:
    """The steps that may be left out, each link once."""
    return [
        (at, label) for at, node in enumerate(draft.nodes) for label in sorted(node.context)
        if isinstance(step := node.lefts[label], Letter) or step.node >= at
    ]


def drop_from(candidate: Candidate, drops: Sequence[Drop]) -> Candidate:
    """The candidate without steps, or without nodes, that are the same before and after."""
    drafts = []
    for draft in candidate.drafts():
        draft = draft.copy()
        for at, label in drops:
            for one in [label] if label is not None else list(draft.nodes[at].lefts):
                drop_step(draft, at, one)
        drafts.append(draft.without({at for at, label in drops if label is None}))
    lines, others = drafts[: len(candidate.lines)], drafts[len(candidate.lines) :]
    return Candidate(lines, [(example, lying) for (example, _), lying in zip(candidate.further, others)])


def drop_step(draft: Draft, at: int, label: int) -> None:
    """Takes a step from a node on both sides, and where it is a link from the other end too."""
    step = draft.nodes[at].lefts[label]
    for number in {at, step.node if isinstance(step, Link) else at}:
        node = draft.nodes[number]
        node.context.discard(label)
        del node.lefts[label], node.rights[label]
