"""Changes of a rule that a person would think of, for each kind of fault. Whether they help is tried elsewhere."""
from collections.abc import Callable, Iterator
from itertools import product

from gmr.books import Book, Node, Rule
from gmr.matches import steps_of
from gmr.why.derived import derive, with_steps
from gmr.why.edits import node_of, with_letter, with_link, with_node, with_value, without_link

NAMES = "nmkopqrstuvwxyzabcdefghijl"
SIDES = ("left", "right")


def word_on(node: Node, side: str) -> tuple[int | None, ...] | None:
    """A node's word on a side, or None where it doesn't stand there."""
    return node.left if side == "left" else node.right


def links_on(rule: Rule, side: str) -> list[tuple[str, int, str]]:
    """The links of a side."""
    return rule.left_links if side == "left" else rule.right_links


def labels_on(rule: Rule, side: str, node: Node) -> set[int]:
    """The labels that a node has on a side."""
    return set(steps_of(word_on(node, side) or (), links_on(rule, side), node.name))


def standing(rule: Rule, side: str) -> list[Node]:
    """The nodes of a side."""
    return [node for node in rule.nodes if word_on(node, side) is not None]


def given(rule: Rule, side: str, name: str, label: int) -> Iterator[Rule]:
    """A node gets a label on a side: by a link to itself, a letter in a gap of its word, or a link to another node that
    lacks the label too."""
    yield with_link(rule, side, (name, label, name))
    for place, letter in enumerate(word_on(node_of(rule, name), side) or ()):
        if letter is None:
            yield with_letter(rule, side, name, place, label)
    for other in standing(rule, side):
        if other.name != name and label not in labels_on(rule, side, other):
            yield with_link(rule, side, (name, label, other.name))


def taken(rule: Rule, side: str, name: str, label: int) -> Iterator[Rule]:
    """A node loses a label on a side."""
    for link in links_on(rule, side):
        if link[1] == label and name in (link[0], link[2]):
            yield without_link(rule, side, link)
    for place, letter in enumerate(word_on(node_of(rule, name), side) or ()):
        if letter == label:
            yield with_letter(rule, side, name, place, None)


def with_neighbour(rule: Rule, name: str, label: int) -> Iterator[Rule]:
    """A node that is joined to what lies across along a label, where the rule says nothing of that or asks that it is
    free: the neighbour becomes a node that stays, with those letters that commute with the label, and on the right it
    is joined to a node that is free along the label or lacks it."""
    node = node_of(rule, name)
    word = tuple(letter if letter is not None and abs(letter - label) >= 2 else None for letter in node.left or ())
    fresh = next((one for one in NAMES if one not in {other.name for other in rule.nodes}), f"n{len(rule.nodes)}")
    near = Node(fresh, word, word, {}, False)
    nodes = list(rule.nodes)
    last = max(at for at, other in enumerate(nodes) if other.left is not None)
    joined = rule._replace(nodes=[*nodes[:last + 1], near, *nodes[last + 1:]])
    for link in [link for link in joined.left_links if link == (name, label, name)]:
        joined = without_link(joined, "left", link)
    joined = with_link(joined, "left", (name, label, fresh))
    yield with_link(joined, "right", (fresh, label, fresh))
    for other in standing(rule, "right"):
        loop = (other.name, label, other.name)
        if loop in joined.right_links:
            yield with_link(without_link(joined, "right", loop), "right", (other.name, label, fresh))
        elif label not in labels_on(rule, "right", other):
            yield with_link(joined, "right", (other.name, label, fresh))


# ---------------------------------------------------------------------- structure
def for_hooks(_book: Book, rule: Rule, _words: list[str]) -> Iterator[Rule]:
    """A node with a whole word becomes a hook."""
    for node in rule.nodes:
        if node.left is not None and None not in node.left:
            yield with_node(rule, node._replace(hook=True))


def for_hook_word(book: Book, rule: Rule, words: list[str]) -> Iterator[Rule]:
    """A gap or a repeated letter of a hook's word becomes a label, or its place goes from all words."""
    node = node_of(rule, words[0])
    word = node.left or ()
    for place, letter in enumerate(word):
        if letter is None or word.index(letter) < place:
            yield without_place(rule, place)
            for label in range(book.dimension + 1):
                if label not in word:
                    yield with_letter(rule, "left", node.name, place, label)


def without_place(rule: Rule, place: int) -> Rule:
    """The rule without a place of all words."""
    def shorter(word: tuple[int | None, ...] | None) -> tuple[int | None, ...] | None:
        return None if word is None else word[:place] + word[place + 1:]
    return rule._replace(nodes=[node._replace(left=shorter(node.left), right=shorter(node.right))
                                for node in rule.nodes])


def for_word_length(book: Book, rule: Rule, words: list[str]) -> Iterator[Rule]:
    """A word that is too short gets a gap or a letter at an end; one that is too long loses a place."""
    node = node_of(rule, words[0])
    size = next((len(one.left or ()) for one in rule.nodes if one.hook), 0)
    for side in SIDES:
        word = word_on(node, side)
        if word is None or len(word) == size:
            continue
        some = [word[:at] + word[at + 1:] for at in range(len(word))] if len(word) > size else [
            (*word[:at], letter, *word[at:]) for letter in (None, *range(book.dimension + 1)) for at in (len(word), 0)]
        for other in some:
            yield with_node(rule, node._replace(left=other) if side == "left" else node._replace(right=other))


def for_not_connected(book: Book, rule: Rule, words: list[str]) -> Iterator[Rule]:
    """A node that no links lead to gets a link on both sides, or becomes a hook."""
    node = node_of(rule, words[0])
    if node.left is not None and None not in node.left:
        yield with_node(rule, node._replace(hook=True))
    for other, label in product(standing(rule, "left"), range(book.dimension + 1)):
        if other.name != node.name and not {label} & (labels_on(rule, "left", node) | labels_on(rule, "left", other)):
            link = (other.name, label, node.name)
            linked = with_link(rule, "left", link)
            yield linked
            if node.right is not None and other.right is not None:
                yield with_link(linked, "right", link)


# ---------------------------------------------------------------------- arcs
def for_arc_twice(_book: Book, rule: Rule, words: list[str]) -> Iterator[Rule]:
    """One of the two goes, or the letter is that of a label which the node has on the other side alone."""
    name, label, side = words[0], int(words[1]), words[2]
    yield from taken(rule, side, name, label)
    node = node_of(rule, name)
    lost = labels_on(rule, "left" if side == "right" else "right", node) - labels_on(rule, side, node)
    for place, letter in enumerate(word_on(node, side) or ()):
        if letter == label:
            yield from (with_letter(rule, side, name, place, other) for other in sorted(lost))


def for_arc_missing(_book: Book, rule: Rule, words: list[str]) -> Iterator[Rule]:
    """A node that goes or comes gets the label; one that goes can also lead to a neighbour that stays."""
    name, label = words[0], int(words[1])
    if node_of(rule, name).right is not None:
        yield from given(rule, "right", name, label)
        return
    yield from given(rule, "left", name, label)
    yield from with_neighbour(rule, name, label)


def for_arc_set(_book: Book, rule: Rule, words: list[str]) -> Iterator[Rule]:
    """A node that stays gets the label on the side where it lacks it, loses it on the other, or was joined to what lies
    across."""
    name, label = words[0], int(words[1])
    on_left = label in labels_on(rule, "left", node_of(rule, name))
    has, lacks = ("left", "right") if on_left else ("right", "left")
    yield from given(rule, lacks, name, label)
    yield from taken(rule, has, name, label)
    if not on_left:
        yield from with_neighbour(rule, name, label)


def for_square(book: Book, rule: Rule, words: list[str]) -> Iterator[Rule]:
    """What the laws make of the left side is written; a label of the square comes on both sides, by a link, a letter or
    the hook's word; a letter or a link near the node is another one."""
    name, one, other = words[0], int(words[1]), int(words[2])
    derived = derive(rule, book.dimension)
    if derived:
        yield with_steps(rule, derived.steps())
    near = near_of(rule, name, (one, other))
    for label in (one, other):
        for node in near:
            yield from given_on_both(rule, node, label)
        yield with_label_walked(rule, label)
        yield from with_neighbour(rule, name, label) if node_of(rule, name).left is not None else ()
    for node in near:
        yield from other_letters(rule, node, (one, other))
    yield from other_ends(rule, near, (one, other))


def near_of(rule: Rule, name: str, labels: tuple[int, ...]) -> list[str]:
    """A node, and those to which right links with the labels lead from it."""
    near = [name]
    for link in rule.right_links:
        if link[1] in labels and name in (link[0], link[2]):
            near.append(link[2] if link[0] == name else link[0])
    return list(dict.fromkeys(near))


def given_on_both(rule: Rule, name: str, label: int) -> Iterator[Rule]:
    """A node gets a label on each side on which it stands and lacks it, in the same way."""
    node = node_of(rule, name)
    sides = [side for side in SIDES if word_on(node, side) is not None and label not in labels_on(rule, side, node)]
    if not sides:
        return
    looped = rule
    for side in sides:
        looped = with_link(looped, side, (name, label, name))
    yield looped
    for place in range(len(word_on(node, sides[0]) or ())):
        if all((word_on(node, side) or ())[place:place + 1] == (None,) for side in sides):
            lettered = rule
            for side in sides:
                lettered = with_letter(lettered, side, name, place, label)
            yield lettered


def with_label_walked(rule: Rule, label: int) -> Rule:
    """The label is walked as well: each word has one more place, in which a node has the label where no link gives it
    one to another node; links of a node to itself along it go."""
    for side in SIDES:
        for link in [link for link in links_on(rule, side) if link[1] == label and link[0] == link[2]]:
            rule = without_link(rule, side, link)

    def longer(node: Node, side: str) -> tuple[int | None, ...] | None:
        word = word_on(node, side)
        return None if word is None else (*word, None if label in labels_on(rule, side, node) else label)
    return rule._replace(nodes=[node._replace(left=longer(node, "left"), right=longer(node, "right"))
                                for node in rule.nodes])


def other_letters(rule: Rule, name: str, labels: tuple[int, int]) -> Iterator[Rule]:
    """Two letters of a node's right word change places, or one of them is another one of the square's labels, or a
    gap."""
    word = node_of(rule, name).right or ()
    for place, letter in enumerate(word):
        for other in range(place + 1, len(word)):
            if word[other] != letter:
                swapped = with_letter(rule, "right", name, place, word[other])
                yield with_letter(swapped, "right", name, other, letter)
        for label in (*labels, None):
            if label != letter and (label is None or label not in word):
                yield with_letter(rule, "right", name, place, label)


def other_ends(rule: Rule, near: list[str], labels: tuple[int, int]) -> Iterator[Rule]:
    """A right link of these nodes with one of the labels becomes a link to itself at both ends, or exchanges ends with
    another one of that label."""
    for link in rule.right_links:
        if link[1] not in labels or not {link[0], link[2]} & set(near):
            continue
        bare = without_link(rule, "right", link)
        if link[0] != link[2]:
            yield with_link(with_link(bare, "right", (link[0], link[1], link[0])), "right", (link[2], link[1], link[2]))
        for second in bare.right_links:
            if second[1] == link[1] and second != link:
                rest = without_link(bare, "right", second)
                for ends in ((second[0], second[2]), (second[2], second[0])):
                    crossed = with_link(rest, "right", (link[0], link[1], ends[0]))
                    yield crossed if link[2] == ends[1] and link[0] == ends[0] else with_link(
                        crossed, "right", (link[2], link[1], ends[1]))


# ---------------------------------------------------------------------- values
def for_set_twice(_book: Book, rule: Rule, words: list[str]) -> Iterator[Rule]:
    """One of the two assignments goes."""
    embed, one, other = words
    yield with_value(rule, other, embed, None)
    yield with_value(rule, one, embed, None)


def for_no_value(book: Book, rule: Rule, words: list[str]) -> Iterator[Rule]:
    """The new orbit takes the value of a left node, or their mean over the hook's orbit."""
    embed, name = words
    kind = next(one.kind for one in book.embeds if one.name == embed)
    lefts = standing(rule, "left")
    if not lefts:
        yield with_value(rule, name, embed, {"int": "0", "vec2": "vec2(0, 0)", "vec3": "vec3(0, 0, 0)",
                                             "rgb": "rgb(0, 0, 0)"}[kind])
    for node in lefts:
        yield with_value(rule, name, embed, f"{node.name}.{embed}")
    for hook in (node for node in lefts if node.hook):
        labels = " ".join(str(letter) for letter in sorted(letter for letter in hook.left or () if letter is not None))
        if labels and kind != "rgb":
            yield with_value(rule, name, embed, f"sum<{labels}>({hook.name}.{embed}) / count<{labels}>({hook.name})")


def for_merge(book: Book, rule: Rule, words: list[str]) -> Iterator[Rule]:
    """The orbit takes the value of either node, or their mean."""
    embed, one, other = words
    for value in merged(book, embed, f"{one}.{embed}", f"{other}.{embed}"):
        yield with_value(rule, one, embed, value)


def merged(book: Book, embed: str, one: str, other: str) -> list[str]:
    """Either of two values, or their mean where there is one."""
    kind = next(it.kind for it in book.embeds if it.name == embed)
    return [one, other] + ([f"({one} + {other}) / 2"] if kind != "rgb" else [])


def for_merge_along(book: Book, rule: Rule, words: list[str]) -> Iterator[Rule]:
    """The orbit takes the value of the node, or the mean with that at the position to which it turns."""
    embed, name, place = words[0], words[1], int(words[2])
    hook = next(node for node in rule.nodes if node.hook)
    letter = (node_of(rule, name).left or (None,) * (place + 1))[place]
    turned = f"{name}@{letter}" if letter is not None else f"{hook.name}@{(hook.left or ())[place]}"
    for value in merged(book, embed, f"{name}.{embed}", f"{turned}.{embed}"):
        yield with_value(rule, name, embed, value)


CHANGES: dict[str, Callable[[Book, Rule, list[str]], Iterator[Rule]]] = {
    "hooks": for_hooks, "hook-word": for_hook_word, "word-length": for_word_length, "not-connected": for_not_connected,
    "arc-twice": for_arc_twice, "arc-missing": for_arc_missing, "arc-set": for_arc_set, "square": for_square,
    "set-twice": for_set_twice, "no-value": for_no_value, "merge": for_merge, "merge-along": for_merge_along,
}
