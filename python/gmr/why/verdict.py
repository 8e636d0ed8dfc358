"""What a search for a counterexample came to, told: the map that would break, or why there is none."""
from gmr.books import Rule
from gmr.matches import Step
from gmr.why.closing import Arc, Clash
from gmr.why.counterexample import OF_NEIGHBOURS, OF_VALUES, Pattern, Search
from gmr.why.derived import Steps, derive, is_safe
from gmr.why.example import tell_found

MOST_SQUARES = 4     # that are told of one contradiction
NOWHERE = "Its left side lies in no map, so nothing breaks, and nothing is ever done."


def tell_search(rule: Rule, dimension: int, fault: str, found: Search) -> list[str]:
    """What a search came to, in a few lines."""
    if found.found:
        return tell_found(found.found)
    derived = derive(rule, dimension)
    if derived is None:
        return [NOWHERE, *(tell_clash(*found.clash) if found.clash else ())]
    if not found.fitting:
        return ["No map of up to 64 darts was found in which its left side lies."]
    if fault.startswith("arc-twice"):
        return ["Of the two, the unfolding takes the link that stands first and passes the other over; so no map "
                "breaks, but the rule says two things."]
    lines = [f"No map was found that it would break: {tell_tried(found)}."]
    if fault.split()[0] in OF_NEIGHBOURS and is_safe(derived):
        lines = ["It breaks no law of neighbours, in a map of whatever size: by what the laws make of its left side, "
                 "each label leads to one dart and each square closes. The condition is stricter than this rule needs."]
    steps = derived.steps()
    return lines + ([f"What follows from its left side and isn't said there: {tell_steps(steps)}."] if steps else [])


def tell_tried(found: Search) -> str:
    """What was tried in vain."""
    ways = "each way was tried in which the darts around can be joined" if found.is_whole else "many ways were tried"
    beside = f", and over {found.clashing} more its left side lies in no map" if found.clashing else ""
    return f"{ways}, over {found.fitting} small {'orbit' if found.fitting == 1 else 'orbits'}{beside}"


def has_map(fault: str) -> bool:
    """Whether a fault is one of neighbours or values, so that the rule says what it makes of a map."""
    return fault.split()[0] in OF_NEIGHBOURS | OF_VALUES


def tell_no_map(fault: str) -> str:
    """Why a fault that is none of neighbours or values taken over shows in no map."""
    if fault.startswith("set-twice"):
        return ("Of the two, the unfolding takes the assignment of the least instance, by node and then by position; "
                "so no map breaks, but the rule says two values.")
    return "As long as that is so, the rule doesn't say what it makes of a map; so there is none that it would break."


def tell_steps(steps: Steps) -> str:
    """Steps that follow from a left side."""
    return ", ".join(f"{name} {tell_step(name, label, step)}" for (name, label), step in steps.items())


def tell_step(name: str, label: int, step: Step) -> str:
    """A step of a node, told."""
    if step.node == name:
        return f"is free along {label}"
    return f"leads along {label} to {step.node}" if step.node else f"has {label} at place {step.place}"


# ---------------------------------------------------------------------- contradictions
def tell_clash(pattern: Pattern, clash: Clash) -> list[str]:
    """Why a left side lies in no map over an orbit: the squares by which one of its arcs is another one."""
    lines: list[str] = []
    told: set[Arc] = set()
    for arc in (clash.has, clash.arc):
        tell_derived(pattern, arc, clash.because if arc is clash.arc else (), told, lines)
    ends = f"{tell_arc(pattern, clash.arc)} and {tell_arc(pattern, clash.has)}"
    return [*lines[:MOST_SQUARES], f"So it says that {ends}, and a dart has one neighbour along {clash.arc.label}."]


def tell_derived(pattern: Pattern, arc: Arc, because: tuple[Arc, ...], told: set[Arc], lines: list[str]) -> None:
    """Tells from which arcs one follows, and before that of those that follow from others."""
    because = because or pattern.part.reasons.get(arc, ())
    if arc in told or not because:
        return
    told.add(arc)
    for one in because:
        tell_derived(pattern, one, (), told, lines)
    said = ", ".join(dict.fromkeys(tell_arc(pattern, one) for one in because))
    labels = sorted({one.label for one in because})
    lines.append(f"Labels {labels[0]} and {labels[-1]} commute, and {said}: so {tell_arc(pattern, arc)}.")


def tell_arc(pattern: Pattern, arc: Arc) -> str:
    """An arc between instances, told."""
    if arc.one == arc.other:
        return f"{tell_dart(pattern, arc.one)} is free along {arc.label}"
    return f"{tell_dart(pattern, arc.one)} leads along {arc.label} to {tell_dart(pattern, arc.other)}"


def tell_dart(pattern: Pattern, dart: int) -> str:
    """An instance: its node, and where there are several its position."""
    node = pattern.node_at[dart]
    return node.name + (f" at position {dart - pattern.first[node.name]}" if pattern.size > 1 else "")
