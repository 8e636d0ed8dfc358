"""A counterexample as it is told and written: the law that breaks, the map, its script, and what comes of it."""
from collections.abc import Mapping
from dataclasses import replace

from gmr.books import tokens_of
from gmr.expressions import NoValue, Reader, Scene, show, value_of
from gmr.maps import Embed, Value
from gmr.unfolding import sources_of
from gmr.why.counterexample import Found

MOST_ROWS = 12      # of a map that is shown where it is told of
PLAIN: dict[str, Value] = {"int": 0, "bool": False, "vec2": (0, 0), "vec3": (0, 0, 0), "rgb": (0, 0, 0)}


def who(darts: Mapping[str, list[int]], dart: int) -> str:
    """A dart, and which node it is at which position, if it is one."""
    for name, own in darts.items():
        if dart in own:
            return f"dart {dart} ({name}" + (f" at position {own.index(dart)})" if len(own) > 1 else ")")
    return f"dart {dart}"


def tell_breach(found: Found) -> str:
    """What is broken in the result, and at which darts."""
    law, labels, darts = found.breach
    first = who(found.result.darts, darts[0])
    if law in TOLD:
        return TOLD[law].format(first, *labels, *darts[1:])
    if law == "crossing":
        one, other = labels
        return (f"labels {one} and {other} wouldn't commute at {first}: along {one} and then {other} the way would be "
                f"{darts[1]}, {darts[2]}; along {other} and then {one} it would be {darts[3]}, {darts[4]}")
    assert found.embed is not None
    name, values = found.embed.name, found.candidate.map.values[found.embed.name]
    if law == "no value":
        return f"{first} would have no value of {name}"
    sources = sources_of(found.candidate, found.result, found.embed)
    here, there = (show(values[sources[dart]]) for dart in darts)
    return (f"{first} and {who(found.result.darts, darts[1])} would lie in one orbit over "
            f"<{' '.join(map(str, labels))}> with two values of {name}, {here} and {there}")


TOLD = {
    "no neighbour": "{0} would have no neighbour along {1}",
    "gone neighbour": "{0} would lead along {1} to dart {2}, which is gone",
    "two neighbours": "{0} would have two neighbours along {1}, dart {2} and dart {3}",
    "one way": "{0} would lead along {1} to dart {2}, which leads to dart {3} and not back",
}


def tell_found(found: Found) -> list[str]:
    """A counterexample as it is told: the map, where it is small its rows, and what breaks."""
    amap = found.candidate.map
    at = f" at dart {' '.join(map(str, found.hooks))}" if found.hooks else ""
    count = len(amap.darts)
    what = f"a map of {count} {'dart' if count == 1 else 'darts'}" if count else "the empty map"
    lines = [f"Applied to {what}{at} it would leave no map: {tell_breach(found)}."]
    if 0 < len(amap.darts) <= MOST_ROWS:
        lines += [f"  {line}" for line in amap.text().splitlines()[1:] if not line.startswith("dim ")]
    return lines


def script_text(found: Found) -> str:
    """The script that applies the rule there."""
    rule = found.candidate.rule
    values = " ".join(show(PLAIN[kind]) for _, kind in rule.params)
    return " ".join(["apply", rule.name, *map(str, found.hooks), *(["with", values] if values else [])]) + "\n"


def values_after(found: Found, embed: Embed) -> dict[int, Value | None]:
    """The value of each dart of the result, a map: that of the least assignment in its orbit, or the one taken over."""
    rule, result, values = found.candidate.rule, found.result, found.candidate.map.values[embed.name]
    after: dict[int, Value | None] = {dart: None for dart in result.live}
    after.update({dart: values[source] for dart, source in sources_of(found.candidate, result, embed).items()})
    amap = replace(found.candidate.map, darts=sorted(result.live), alpha=result.alpha)
    decided: set[int] = set()
    for node in rule.nodes:
        for position, dart in enumerate(result.darts[node.name]) if embed.name in node.sets else ():
            if dart not in decided:
                orbit = amap.orbit(embed.labels, dart)
                decided.update(orbit)
                after.update(dict.fromkeys(orbit, assigned(found, node.sets[embed.name], position, embed.kind)))
    return after


def assigned(found: Found, text: str, position: int, kind: str) -> Value:
    """The value of an assignment at a position, with plain parameters; a plain one where it has none."""
    params = {name: PLAIN[of] for name, of in found.candidate.rule.params}
    darts = {name: own[position] for name, own in found.candidate.darts.items()}
    try:
        return value_of(Reader(text, tokens_of(text)[:-1]).expression(), Scene(found.candidate.map, params, darts))
    except NoValue:
        return PLAIN[kind]


def text_after(found: Found) -> str:
    """What the rule leaves, as near to the text of a map as it comes: a neighbour that is missing is the next name,
    which no dart has, and of two it is one that doesn't point back. Values stand only where neighbours are those of a
    map."""
    result, amap = found.result, found.candidate.map
    embeds = amap.embeds if found.embed else []
    further = {(dart, label): near for dart, label, near in sorted(result.further)[:1]
               if result.alpha[label][near] != dart}
    values = {embed.name: values_after(found, embed) for embed in embeds}
    lines = ["gmap 1", f"dim {amap.dimension}"]
    lines += [f"embed {name} <{' '.join(map(str, labels))}> {kind}" for name, labels, kind in embeds]
    lines.append(f"darts {len(result.live)}")
    for dart in sorted(result.live):
        ends = [further.get((dart, label), step.get(dart, result.next)) for label, step in enumerate(result.alpha)]
        parts = [show(value) for embed in embeds if (value := values[embed.name][dart]) is not None]
        lines.append(" ".join([str(dart), *map(str, ends), *parts]))
    return "\n".join(lines) + "\n"
