"""Why a rule isn't accepted, and how to mend it: the guide's advice for each fault, with the rule's own names."""
from gmr.books import Link, Node, Rule
from gmr.matches import Step, step_of
from gmr.why.edits import link_text, word_text

SIDES = {"left": "on the left", "right": "on the right"}


class Told:
    """A rule, and what its fault names."""

    def __init__(self, rule: Rule, dimension: int, words: list[str]) -> None:
        self.rule, self.dimension, self.words = rule, dimension, words
        self.by_name = {node.name: node for node in rule.nodes}
        self.hooks = [node for node in rule.nodes if node.hook]

    def node(self, at: int) -> Node:
        """The node that a word of the fault names."""
        return self.by_name[self.words[at]]

    def number(self, at: int) -> int:
        """The number that a word of the fault is."""
        return int(self.words[at])

    def links(self, side: str) -> list[Link]:
        """The links of a side."""
        return self.rule.left_links if side == "left" else self.rule.right_links

    def step(self, side: str, name: str, label: int) -> Step | None:
        """What a node has at a label on a side."""
        word = self.by_name[name].left if side == "left" else self.by_name[name].right
        return step_of(word or (), self.links(side), name, label)

    def sources(self, side: str, name: str, label: int) -> list[str]:
        """Each letter and link by which a node has a label on a side, as it is written."""
        word = (self.by_name[name].left if side == "left" else self.by_name[name].right) or ()
        letters = [f"the letter at place {place} of {word_text(word)}"
                   for place, letter in enumerate(word) if letter == label]
        return letters + [f"the link {link_text(link)}" for link in self.links(side)
                          if link[1] == label and name in (link[0], link[2])]

    def labels(self, side: str, name: str) -> str:
        """The labels that a node has on a side, as a text."""
        found = [str(label) for label in range(self.dimension + 1) if self.step(side, name, label)]
        return " and ".join([", ".join(found[:-1]), found[-1]] if found[1:] else found) or "none"


def tell_hooks(told: Told) -> list[str]:
    """The rule has no hook, or one too many."""
    left = [node.name for node in told.rule.nodes if node.left is not None]
    if left:
        return [f"No node of the left side of {told.rule.name} is a hook; it has {', '.join(left)}.",
                f"Write `hook` after the node from which the part is walked, as `{left[0]} "
                f"{word_text(told.by_name[left[0]].left or ())} hook`."]
    return ["A rule without left nodes has no hook."]


def tell_hook_word(told: Told) -> list[str]:
    """A hook's left word has a gap or a label twice."""
    node = told.node(0)
    letters = [letter for letter in node.left or () if letter is not None]
    what = "has a `_`" if None in (node.left or ()) else "has a label twice"
    return [f"The word of the hook {node.name} tells which labels are walked, and {word_text(node.left or ())} {what}.",
            f"Write each label once: {word_text(tuple(dict.fromkeys(letters)))}; and give each other word as many "
            "places."]


def tell_word_length(told: Told) -> list[str]:
    """A word has another length than the first hook's."""
    node, wanted = told.node(0), len(told.hooks[0].left or ()) if told.hooks else 0
    wrong = [f"{word_text(word)} {SIDES[side]}" for side, word in (("left", node.left), ("right", node.right))
             if word is not None and len(word) != wanted]
    whose = "in a rule without hooks all words are empty"
    if told.hooks:
        whose = f"the word {word_text(told.hooks[0].left or ())} of the hook {told.hooks[0].name} has {wanted}"
    return [f"Node {node.name} has the word {' and '.join(wrong)}, but {whose}.",
            "Write a letter or `_` for each place of the hook's word." if told.hooks else f"Write `{node.name} <>`."]


def tell_not_connected(told: Told) -> list[str]:
    """No links lead from a hook to a left node."""
    name, hooks = told.words[0], ", ".join(hook.name for hook in told.hooks)
    return [f"No left links lead from a hook ({hooks}) to node {name}, so nothing says where its darts lie.",
            f"Add left links that lead there, as `{told.hooks[0].name} -{told.dimension}- {name}`, or make {name} a "
            "hook too (in a book of version 2). Where the node stays, it needs the same labels on the right."]


def tell_arc_twice(told: Told) -> list[str]:
    """A node has a label twice on a side."""
    name, label, side = told.words[0], told.number(1), told.words[2]
    return [f"{SIDES[side].capitalize()} node {name} has label {label} by "
            f"{' and by '.join(told.sources(side, name, label))}.",
            "Choose one of them and take the other away: a letter becomes `_`, a link goes."]


def tell_arc_missing(told: Told) -> list[str]:
    """A node that goes or comes lacks a label."""
    node, label = told.node(0), told.number(1)
    if node.right is None:
        return [f"Node {node.name} goes, so it needs each label from 0 to {told.dimension} on the left; it has "
                f"{told.labels('left', node.name)}, and {label} is missing: its neighbours along {label} would be "
                "left behind.",
                f"Say what it is joined to along {label}: by a letter, or by a link. `{node.name} -{label}- "
                f"{node.name}` asks that it is free there; a node that stays needs a new neighbour on the right."]
    return [f"Node {node.name} is new, so it needs each label from 0 to {told.dimension} on the right; it has "
            f"{told.labels('right', node.name)}, and {label} is missing.",
            f"Give it {label} by a letter in its word or by a link; `{node.name} -{label}- {node.name}` makes it "
            "free there."]


def tell_arc_set(told: Told) -> list[str]:
    """A node that stays has a label on one side alone."""
    name, label = told.words[0], told.number(1)
    on_left = told.step("left", name, label) is not None
    here, there = ("left", "right") if on_left else ("right", "left")
    mend = f"say on the left how it was: `{name} -{label}- {name}`, where it was free"
    if on_left:
        mend = (f"join it again on the right: by a letter, by a link to another node, or by `{name} -{label}- "
                f"{name}`, which makes it free there")
    return [f"Node {name} stays, and has label {label} {SIDES[here]} by {told.sources(here, name, label)[0]}, and "
            f"not {SIDES[there]}.", f"Write the label on both sides or on neither: {mend}."]


def tell_square(told: Told) -> list[str]:
    """Two labels two or more apart don't commute at a right node."""
    name, one, other = told.words[0], told.number(1), told.number(2)
    steps = told.step("right", name, one), told.step("right", name, other)
    lines = [f"Labels {one} and {other} are two or more apart, so at {name} on the right the way along {one} and "
             f"then {other} must end where the way along {other} and then {one} does."]
    ways = []
    for label, step in ((one, steps[0]), (other, steps[1])):
        ways.append(f"along {label} it has {'nothing of its own' if step is None else told_step(step)}")
    return [*lines, f"Node {name}: {', and '.join(ways)}.", mend_of_square(told, name, (one, other), steps)]


def mend_of_square(told: Told, name: str, labels: tuple[int, int], steps: tuple[Step | None, Step | None]) -> str:
    """How the square of two labels at a node closes."""
    (one, other), (first, second) = labels, steps
    if first is None or second is None:
        here, there, step = (other, one, second) if first is None else (one, other, first)
        near = f" and of {step.node}" if step and step.node not in (None, name) else ""
        return (f"The rule changes {here} at {name} and says nothing of {there}, where the map may have a neighbour. "
                f"Say it on both sides: take {there} into the hook's word, with the letter {there} at that place of "
                f"{name}{near}; or, where the rule is for darts that are free along {there}, write `{name} -{there}- "
                f"{name}`.")
    if first.node and second.node:
        ends = [told.step("right", node, label) for node, label in ((first.node, other), (second.node, one))]
        return (f"{first.node} along {other} and {second.node} along {one} have to be links to one node; they have "
                f"{told_step(ends[0])} and {told_step(ends[1])}.")
    if first.node or second.node:
        node, place, label = (first.node, second.place, other) if first.node else (second.node, first.place, one)
        return (f"So {node} needs the letter {label} at place {place} as well; there it has "
                f"{letter_at(told.by_name[str(node)], place)}, and {label} by "
                f"{told_step(told.step('right', str(node), label))}.")
    word = told.hooks[0].left or () if told.hooks else ()
    return (f"Two letters commute where the labels of the first hook's word {word_text(word)} at their places are "
            f"two or more apart; these are {word[first.place or 0]} and {word[second.place or 0]}. Use a link for one "
            "of them.")


def letter_at(node: Node, place: int | None) -> str:
    """What a right node's word has at a place."""
    letter = (node.right or ())[place or 0]
    return "`_`" if letter is None else f"the letter {letter}"


def told_step(step: Step | None) -> str:
    """A step as it is told."""
    if step is None:
        return "nothing"
    return f"a link to {step.node}" if step.node else f"the letter at place {step.place}"


def tell_set_twice(told: Told) -> list[str]:
    """Two nodes of one orbit assign."""
    embed, one, other = told.words
    return [f"On the right {one} and {other} share one value of {embed}, and both assign it.",
            f"Leave one of the two out, as `with {embed} = {told.by_name[other].sets[embed]}` after {other}: the "
            "other one gives its value to the whole orbit."]


def tell_no_value(told: Told) -> list[str]:
    """Nothing gives a new orbit its value."""
    embed, name = told.words
    return [f"{name}, and what hangs together with it along the labels of {embed}, is new: nothing says what its "
            f"{embed} is.",
            f"Assign it after the node: `{name} {word_text(told.by_name[name].right or ())} with {embed} = ..`; or "
            f"join {name} to a node that stays along one of these labels."]


def tell_merge(told: Told) -> list[str]:
    """Two orbits become one, and had a value each."""
    embed, one, other = told.words
    return [f"{one} and {other} share one value of {embed} on the right, and had two on the left: one would have to "
            "go.",
            f"Say which, by an assignment: `{one} {word_text(told.by_name[one].right or ())} with {embed} = "
            f"{one}.{embed}` keeps that of {one}."]


def tell_merge_along(told: Told) -> list[str]:
    """A letter joins orbits that had a value each."""
    embed, name, place = told.words[0], told.words[1], told.number(2)
    word = told.by_name[name].right or ()
    return [f"The letter {word[place]} at place {place} of {name} on the right joins darts of {name} that had a "
            f"value of {embed} each on the left.",
            f"Assign {embed} there, as `{name} {word_text(word)} with {embed} = {name}.{embed}`: of the darts that "
            "then lie in one orbit the least counts, by node and then by position."]


ADVICE = {
    "hooks": tell_hooks, "hook-word": tell_hook_word, "word-length": tell_word_length,
    "not-connected": tell_not_connected, "arc-twice": tell_arc_twice, "arc-missing": tell_arc_missing,
    "arc-set": tell_arc_set, "square": tell_square, "set-twice": tell_set_twice, "no-value": tell_no_value,
    "merge": tell_merge, "merge-along": tell_merge_along,
}


def tell_rule(rule: Rule, dimension: int, fault: str) -> list[str]:
    """Why a rule isn't accepted, from the words of its fault, and how to mend it."""
    kind, *words = fault.split()
    return ADVICE[kind](Told(rule, dimension, words))
