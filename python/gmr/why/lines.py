"""Why a line of a script is refused, told with the darts and values that are there."""
from collections.abc import Iterable
from typing import NamedTuple

from gmr.books import Book, Node, Rule, tokens_of
from gmr.expressions import NoValue, Reader, Scene, Tree, leaves_of, show, value_of
from gmr.maps import MOST_DARTS, MOST_NAME, Map, Value
from gmr.matches import Candidate, Step, find_candidate, is_match, labels_of, step_of, way_to
from gmr.unfolding import deciding_positions
from gmr.why.edits import link_text, word_text
from gmr.why.lazy import whole_of

MOST_INSTANCES = 5_000      # that are gone over to find darts at which a rule lies
MOST_WHOLE = 2_000          # darts of a map of which all are tried
MOST_PARTS = 12     # parts of an expression that are told
CONSTANTS = ("number", "truth")


class Line(NamedTuple):
    """An application that is refused: the map and the rule, the darts of its hooks, the values of its parameters, and
    the words of its cause."""
    map: Map
    book: Book
    rule: Rule
    hooks: tuple[int, ...]
    values: tuple[Value, ...]
    cause: list[str]

    def candidate(self) -> Candidate:
        """Where the left side could lie."""
        return find_candidate(self.rule, self.map, list(self.hooks))

    def node(self, at: int) -> Node:
        """The node that a word of the cause names."""
        return next(node for node in self.rule.nodes if node.name == self.cause[at])

    def scene(self, found: Candidate, position: int) -> Scene:
        """What expressions read at a position."""
        params = dict(zip((name for name, _ in self.rule.params), self.values))
        return Scene(self.map, params, {name: darts[position] for name, darts in found.darts.items()})


def tell_line(line: Line) -> list[str]:
    """Why a line is refused."""
    if line.cause[0] == "no-match":
        return CAUSES[" ".join(line.cause[:2])](line) + tell_where_it_lies(line)
    return CAUSES[line.cause[0]](line)


def tell_no_dart(line: Line) -> list[str]:
    """A hook names no dart."""
    at = int(line.cause[2])
    dart, hook = line.hooks[at], [node.name for node in line.rule.nodes if node.hook][at]
    given = f"The script gives dart {dart} for the hook {hook}"
    if not line.map.darts:
        return [f"{given}, and the map is empty."]
    if dart >= line.map.next:
        return [f"{given}; at this line the next name is {line.map.next}, so no dart has had that name yet."]
    return [f"{given}, and at this line no dart has that name; the nearest ones are {nearest(line.map.darts, dart)}."]


def nearest(darts: Iterable[int], dart: int) -> str:
    """The darts with the nearest names."""
    below, above = [name for name in darts if name < dart], [name for name in darts if name > dart]
    return " and ".join(map(str, below[-1:] + above[:1]))


def tell_arc(line: Line) -> list[str]:
    """The map doesn't lead where the left side says."""
    found, node = line.candidate(), line.node(2)
    position, label = int(line.cause[3]), int(line.cause[4])
    dart, wanted = found.darts[node.name][position], found.wanted(node, position, label)
    there = line.map.alpha[label][dart]
    step = step_of(node.left or (), line.rule.left_links, node.name, label)
    assert step is not None
    return [f"The left side asks for {asked(line.rule, node, label, step)}.",
            f"There, at position {position}, {node.name} is dart {dart}. Along {label} it leads to "
            f"{target(there, dart)}{whose(found, there)}, and the rule needs "
            f"{target(wanted, dart)}{wanted_as(found, step, node, position)}.",
            *where(found, node, position),
            *hint(there, dart, wanted, label)]


def asked(rule: Rule, node: Node, label: int, step: Step) -> str:
    """A left step as the rule has it."""
    if step.node is None:
        return f"the letter {label} in the word {word_text(node.left or ())} of node {node.name}"
    link = next(link for link in rule.left_links if link[1] == label and node.name in (link[0], link[2]))
    return f"the link {link_text(link)}" + (f": {node.name} is free along {label}" if step.node == node.name else "")


def target(dart: int, origin: int) -> str:
    """A dart to which another one leads."""
    return f"dart {dart}" + (" itself" if dart == origin else "")


def whose(found: Candidate, dart: int) -> str:
    """Which node and position lies on a dart, if one does."""
    for name, darts in found.darts.items():
        if dart in darts:
            return f" ({name} at position {darts.index(dart)})"
    return " (no dart of the left side)"


def wanted_as(found: Candidate, step: Step, node: Node, position: int) -> str:
    """Which node and position a left step leads to."""
    if step.place is not None:
        return f" ({node.name} at position {found.turns[step.place][position]})"
    return "" if step.node == node.name else f" ({step.node} at position {position})"


def where(found: Candidate, node: Node, position: int) -> list[str]:
    """How the program came to a node's dart at a position."""
    first = found.hooks[0]
    way = way_to(position, found.turns, labels_of(first.left))
    said = [f"Position {position} is reached from the dart {found.darts[first.name][0]} of the hook {first.name} "
            f"along {' '.join(map(str, way))}."] if position else []
    route = found.routes.get(node.name)
    if route:
        said.append(f"{node.name} is reached from {route.hook} by links along {' '.join(map(str, route.labels))}.")
    elif node.hook and node is not first and position:
        said.append(f"The hook {node.name} goes from its dart {found.darts[node.name][0]} in step with that.")
    return said


def hint(there: int, dart: int, wanted: int, label: int) -> list[str]:
    """What such a breach mostly means."""
    if wanted == dart:
        return [f"So dart {dart} is joined along {label} already, where the rule needs it free."]
    if there == dart:
        return [f"So dart {dart} is free along {label}, where the rule needs a neighbour."]
    return []


def tell_same(line: Line) -> list[str]:
    """Two instances lie on one dart."""
    found, one, other = line.candidate(), line.node(2), line.node(4)
    here, there = int(line.cause[3]), int(line.cause[5])
    dart = found.darts[one.name][here]
    both = f"{one.name} at position {here} and {other.name} at position {there} both lie on dart {dart}"
    if here == there == 0 and one.hook and other.hook:
        return [f"{both}, and a rule takes no dart twice.", f"The line gives dart {dart} for both hooks."]
    lines = where(found, one, here) + where(found, other, there)
    free = free_on_the_way(found, one, here) or free_on_the_way(found, other, there)
    if free:
        return [f"Dart {free[0]} is free along {free[1]}, where the rule needs a neighbour.", f"So {both}.",
                *dict.fromkeys(lines)]
    said = [f"{both}, and a rule takes no dart twice."]
    if one is other:
        return said + lines + [f"The two positions of {one.name} are two darts of the hook {found.hooks[0].name}, "
                               f"and in step with them {one.name} comes to one dart twice."]
    return said + list(dict.fromkeys(lines))


def free_on_the_way(found: Candidate, node: Node, position: int) -> tuple[int, int] | None:
    """A dart that is free along a label by which links lead on to a node at a position, with that label."""
    route = found.routes.get(node.name)
    dart = found.darts[route.hook][position] if route else 0
    for label in route.labels if route else ():
        near = found.map.alpha[label][dart]
        if near == dart:
            return dart, label
        dart = near
    return None


def tell_where_it_lies(line: Line) -> list[str]:
    """At which darts of the map the left side lies, for the hook from which the cause's node is reached."""
    found, node = line.candidate(), line.node(2)
    if line.cause[1] == "same":
        node = max(node, line.node(4), key=lambda one: one.name in found.routes)
    hook = found.routes[node.name].hook if node.name in found.routes else node.name
    at = next((at for at, one in enumerate(found.hooks) if one.name == hook), 0)
    darts, is_whole = darts_where_it_lies(line, at)
    whose = f" for the hook {found.hooks[at].name}" if len(found.hooks) > 1 else ""
    if darts:
        some = [str(dart) for dart in darts[:3]]
        said = " or ".join([", ".join(some[:-1]), some[-1]] if some[1:] else some)
        return [f"Its left side lies at dart {said}{whose}"
                + (f", and at {len(darts) - 3} more." if is_whole and len(darts) > 3 else ".")]
    return [f"Its left side lies at no dart of this map{whose}."] if is_whole else []


def darts_where_it_lies(line: Line, at: int) -> tuple[list[int], bool]:
    """The darts for a hook at which the left side lies, the other hooks being as they are; and whether all darts were
    tried, as far as a limit of instances to go over."""
    found: list[int] = []
    left = MOST_INSTANCES
    for dart in line.map.darts:
        candidate = find_candidate(line.rule, line.map, [*line.hooks[:at], dart, *line.hooks[at + 1:]])
        left -= sum(map(len, candidate.darts.values()))
        if is_match(candidate):
            found.append(dart)
        if left < 0 or len(found) == 3 and len(line.map.darts) > MOST_WHOLE:
            return found, False
    return found, True


def tree_of(text: str) -> Tree:
    """The tree of an expression's text."""
    return Reader(text, tokens_of(text)[:-1]).expression()


def tell_pre(line: Line) -> list[str]:
    """The precondition is false, or has no value."""
    tree, scene = tree_of(line.rule.pre or ""), line.scene(line.candidate(), 0)
    try:
        value_of(tree, scene)
    except NoValue as fault:
        return [f"The precondition of {line.rule.name} has no value: {tree.text}", *tell_fault(fault, tree, scene)]
    parts = [said for part in blamed(tree, scene) for said in tell_parts(part, scene)]
    head = f"The precondition of {line.rule.name} is false: {tree.text}"
    return list(dict.fromkeys([head, *tell_leaves(tree, scene), *parts]))


def blamed(tree: Tree, scene: Scene) -> list[Tree]:
    """The parts for which a truth is what it is: of a false `and` those that are false, of a true `or` those that are
    true, of a choice the part that was chosen."""
    if tree.form == "if":
        return blamed(tree.parts[1 if value_of(tree.parts[0], scene) else 2], scene)
    if tree.word in ("and", "or") and tree.form == "operator":
        whole = value_of(tree, scene)
        return [leaf for part in tree.parts if value_of(part, scene) == whole for leaf in blamed(part, scene)]
    return blamed(tree.parts[0], scene) if tree.form == "not" else [tree]


def tell_parts(tree: Tree, scene: Scene) -> list[str]:
    """A truth, after the values of its two parts; nothing for one without parts, which is told as what is read."""
    if not tree.parts:
        return []
    values = [show(value_of(part, scene)) for part in tree.parts]
    leaves = leaves_of(tree)
    said = [f"  {part.text} is {value}" for part, value in zip(tree.parts, values)
            if part.form not in CONSTANTS and part not in leaves]
    whole = f" {tree.word} ".join(values) if len(values) == 2 else tree.text
    return said + [f"  so {whole} is {show(value_of(tree, scene))}"]


def tell_leaves(tree: Tree, scene: Scene) -> list[str]:
    """The values that an expression reads, each with its dart."""
    lines: list[str] = []
    for leaf in leaves_of(tree)[:MOST_PARTS]:
        try:
            value = show(value_of(leaf, scene))
        except NoValue:
            continue
        darts = " and ".join(dict.fromkeys(f"dart {scene.dart(term)}" for term in leaf.terms))
        lines.append(f"  {leaf.text} is {value}" + (f", read at {darts}" if darts else ""))
    return lines


def tell_fault(fault: NoValue, tree: Tree, scene: Scene) -> list[str]:
    """Which part of an expression has no value, with the values of its own parts."""
    parts = [f"  {part.text} is {show(value_of(part, scene))}" for part in fault.tree.parts
             if part.form not in CONSTANTS]
    return list(dict.fromkeys([*tell_leaves(tree, scene), *parts, f"  {fault.tree.text} has no value: {fault.reason}"]))


def tell_no_value(line: Line) -> list[str]:
    """An assignment has no value."""
    line = line._replace(map=whole_of(line.map))
    node, embed = line.node(2), next(embed for embed in line.book.embeds if embed.name == line.cause[1])
    found, tree = line.candidate(), tree_of(node.sets[embed.name])
    for position in deciding_positions(found, node, embed):
        scene = line.scene(found, position)
        try:
            value_of(tree, scene)
        except NoValue as fault:
            dart = f", dart {found.darts[node.name][position]}" if node.name in found.darts else ""
            return [f"The assignment {embed.name} = {tree.text} of node {node.name}, at position {position}{dart}:",
                    *tell_fault(fault, tree, scene)]
    return [f"The assignment {embed.name} = {tree.text} of node {node.name} has no value."]


def tell_full(line: Line) -> list[str]:
    """The result has no room for darts or names."""
    first, more = int(line.cause[2]), int(line.cause[4])
    count = line.candidate().size()
    added = sum(1 for node in line.rule.nodes if node.left is None)
    made = (f"{line.rule.name} adds {added} {plural(added, 'node')} at {count} {plural(count, 'position')}, which "
            f"makes {more} new darts")
    if line.cause[0] == "full-darts":
        return [f"{made}; {first} of the {len(line.map.darts)} darts stay, and {first + more} are "
                f"{first + more - MOST_DARTS} more than the {MOST_DARTS:,} that a map can have."]
    return [f"{made} from the name {first} on; the last would be {first + more - 1}, and names are below "
            f"{MOST_NAME:,}.",
            "Where names of removed darts may be used again, save the map in version 1 and begin a new run."
            if line.map.darts and line.map.darts[-1] + 1 < line.map.next else "No rule lowers the next name."]


def plural(count: int, word: str) -> str:
    """A word for one or for several."""
    return word if count == 1 else word + "s"


CAUSES = {
    "no-dart": tell_no_dart, "no-match arc": tell_arc, "no-match same": tell_same, "pre-no-value": tell_pre,
    "pre-false": tell_pre, "full-darts": tell_full, "full-names": tell_full, "no-value": tell_no_value,
}
