"""A counterexample as a picture in SVG: each dart a circle, each pair of neighbours a line in the colour of its label,
before and after, with the broken place in red. Darts lie in both halves where they lie in the other."""
import math
import random
from collections import Counter
from collections.abc import Iterable, Iterator
from html import escape

from gmr.unfolding import Unfolding
from gmr.why.counterexample import Found
from gmr.why.example import tell_breach

COLOURS = ("#c0504d", "#4f8f3a", "#6b46a1", "#b7791f", "#2b7a8c", "#8a5a44", "#667085", "#1f2933")
LEFT, ADDED, AROUND, HOOK, BROKEN = "#cfe3f7", "#d9f0d3", "#f2f2f2", "#7fb2e5", "#e11d48"
WIDE, MARGIN, DOT, BOW, LEAST = 92.0, 46.0, 13.0, 14.0, 240.0
ROUNDS = 200
STYLE = ("<style>text{font:12px sans-serif;text-anchor:middle;fill:#1f2933}.title{font-size:14px;text-anchor:start}"
         f".left{{text-anchor:start}}.law{{text-anchor:start;fill:{BROKEN}}}</style>")

Arcs = list[tuple[int, int, int]]       # dart, neighbour, label; each pair once, and a loop with one dart twice
Places = dict[int, complex]


def arcs_before(found: Found) -> Arcs:
    """The pairs of neighbours of the map."""
    return [(dart, near, label) for label, step in enumerate(found.candidate.map.alpha) for dart, near in step.items()
            if dart <= near]


def arcs_after(result: Unfolding) -> Arcs:
    """The pairs of neighbours of the result, those that are gone or further ones among them."""
    pairs = {(min(dart, near), max(dart, near), label) for label, step in enumerate(result.alpha)
             for dart, near in step.items()}
    pairs |= {(min(dart, near), max(dart, near), label) for dart, label, near in result.further}
    return sorted(pairs)


def distances(darts: list[int], arcs: Iterable[tuple[int, int, int]]) -> dict[tuple[int, int], float]:
    """How many arcs lead from each dart to each other one; of darts that nothing joins, a little more than the most."""
    near: dict[int, set[int]] = {dart: set() for dart in darts}
    for one, other, _ in arcs:
        near[one].add(other)
        near[other].add(one)
    found = {}
    for start in darts:
        ring, far = [start], 0
        seen = {start}
        while ring:
            found.update({(start, dart): float(far) for dart in ring})
            ring = list(dict.fromkeys(end for dart in ring for end in sorted(near[dart]) if end not in seen))
            seen.update(ring)
            far += 1
    most = max(found.values(), default=0.0) + 1
    return {(one, other): found.get((one, other), most) for one in darts for other in darts if one != other}


def lay_out(darts: list[int], arcs: Arcs) -> Places:
    """Places of darts, so that those lie near each other that few arcs join: by moving each in turn to where the others
    want it. The first places are the same at each call."""
    wanted = distances(darts, arcs)
    lot = random.Random(len(darts))
    places = {dart: complex(lot.random(), lot.random()) * math.sqrt(len(darts)) for dart in darts}
    for _ in range(ROUNDS):
        for dart in darts:
            total, weights = 0j, 0.0
            for other in darts:
                if other != dart:
                    way, far = places[dart] - places[other], wanted[dart, other]
                    total += (places[other] + way / (abs(way) or 1e-9) * far) / far**2
                    weights += 1 / far**2
            places[dart] = total / weights if weights else 0j
    return places


def number(value: float) -> str:
    """A number, rounded to tenths."""
    return f"{round(value, 1):g}"


def pair(place: complex) -> str:
    """A place as two numbers."""
    return f"{number(place.real)} {number(place.imag)}"


def line_of(one: complex, other: complex, turn: int, colour: str, broken: bool) -> str:
    """A line between two darts: straight for the first label that joins them, and bent for others."""
    way = other - one
    bow = BOW * (turn + 1) * (-1) ** turn if turn else 0
    bend = (one + other) / 2 + 1j * way / (abs(way) or 1) * bow
    form = 'stroke-width="3.2" stroke-dasharray="5 3"' if broken else 'stroke-width="1.8"'
    return f'<path d="M{pair(one)}Q{pair(bend)} {pair(other)}" stroke="{colour}" {form} fill="none"/>'


def loop_of(place: complex, turn: int, colour: str) -> str:
    """A short stub by which a free dart is shown, turned by its label."""
    way = complex(math.cos(0.7 + turn * 0.9), -math.sin(0.7 + turn * 0.9))
    start, end = place + way * DOT, place + way * (DOT + 13)
    return f'<path d="M{pair(start)}L{pair(end)}" stroke="{colour}" stroke-width="2.4" stroke-linecap="round"/>'


def spot(place: complex) -> str:
    """Where a circle stands."""
    return f'cx="{number(place.real)}" cy="{number(place.imag)}"'


def lines_between(places: Places, arcs: Arcs, broken: set[int]) -> Iterator[str]:
    """The lines between darts that both have a place, those between broken ones broken."""
    joined: Counter[tuple[int, int]] = Counter()
    for one, other, label in arcs:
        if one != other and one in places and other in places:
            yield line_of(places[one], places[other], joined[one, other], COLOURS[label], {one, other} <= broken)
            joined[one, other] += 1


def panel(places: Places, arcs: Arcs, fills: dict[int, str], broken: set[int], title: str) -> list[str]:
    """One half of the picture: lines first, then what stands round a dart, and circles with names on top."""
    parts = [f'<text x="0" y="-28" class="title">{escape(title)}</text>', *lines_between(places, arcs, broken)]
    parts += [f'<circle {spot(places[dart])} r="{DOT + 4}" fill="none" stroke="{BROKEN}" stroke-width="3"/>'
              for dart in sorted(broken & places.keys())]
    parts += [loop_of(places[one], label, COLOURS[label]) for one, end, label in arcs if one == end and one in places]
    for dart, place in places.items():
        at = spot(place)
        parts.append(f'<circle {at} r="{DOT}" fill="{fills.get(dart, AROUND)}" stroke="#1f2933"/>')
        parts.append(f'<text x="{number(place.real)}" y="{number(place.imag + 4)}">{dart}</text>')
    return parts


def fills_of(found: Found) -> dict[int, str]:
    """The colour of each dart: of a hook, of a node of the left side, or new; others have none."""
    fills = {dart: ADDED for dart in found.result.live if dart >= found.candidate.map.next}
    fills.update({dart: LEFT for own in found.candidate.darts.values() for dart in own})
    fills.update(dict.fromkeys(found.hooks, HOOK))
    return fills


def legend(dimension: int) -> list[str]:
    """Which colour is which label, and what fills mean."""
    parts, x = [], 0.0
    for label in range(dimension + 1):
        parts.append(f'<path d="M{x} 0h22" stroke="{COLOURS[label]}" stroke-width="3"/>'
                     f'<text x="{x + 30}" y="4">{label}</text>')
        x += 48
    parts.append(f'<text x="{x}" y="4" class="left">(a stub: free)</text>')
    x += 98
    for fill, said in ((HOOK, "hook"), (LEFT, "left side"), (ADDED, "new"), (AROUND, "around")):
        parts.append(f'<circle cx="{x + 8}" cy="0" r="7" fill="{fill}" stroke="#1f2933"/>'
                     f'<text x="{x + 20}" y="4" class="left">{said}</text>')
        x += 36 + 7 * len(said)
    return parts


def placed(found: Found, arcs: Arcs) -> Places:
    """Places of all darts of both maps in pixels, from 0 on."""
    places = lay_out(sorted({*found.candidate.map.darts, *found.result.live}), arcs)
    left, top = min([0.0, *(it.real for it in places.values())]), min([0.0, *(it.imag for it in places.values())])
    return {dart: (place - complex(left, top)) * WIDE for dart, place in places.items()}


def group(parts: list[str], x: float, y: float) -> list[str]:
    """Parts of the picture, moved."""
    return [f'<g transform="translate({x:.0f} {y:.0f})">', *parts, "</g>"]


def draw(found: Found) -> str:
    """The picture of a counterexample."""
    before, after = arcs_before(found), arcs_after(found.result)
    places, fills = placed(found, sorted({*before, *after})), fills_of(found)
    half = max([LEAST, *(it.real for it in places.values())]) + 2 * MARGIN
    height = max([0.0, *(it.imag for it in places.values())])
    said = lines_of(f"broken: {tell_breach(found)}", int((2 * half - 2 * MARGIN) / 6))
    size = f'width="{2 * half:.0f}" height="{height + 135 + 15 * len(said):.0f}"'
    one = panel({dart: places[dart] for dart in found.candidate.map.darts}, before, fills, set(), "before")
    other = panel({dart: places[dart] for dart in found.result.live}, after, fills, set(found.breach.darts), "after")
    law = [f'<text y="{15 * at}" class="law">{escape(line)}</text>' for at, line in enumerate(said)]
    parts = [f'<svg xmlns="http://www.w3.org/2000/svg" {size}>', STYLE]
    parts.append('<rect width="100%" height="100%" fill="white"/>')
    parts += group(one, MARGIN, MARGIN + 20) + group(other, MARGIN + half, MARGIN + 20)
    parts += group(legend(found.candidate.map.dimension), MARGIN, height + 110) + group(law, MARGIN, height + 135)
    return "\n".join([*parts, "</svg>"]) + "\n"


def lines_of(text: str, width: int) -> list[str]:
    """A text in lines of about `width` letters."""
    lines = [""]
    for word in text.split():
        if len(lines[-1]) + len(word) > width:
            lines.append("")
        lines[-1] = f"{lines[-1]} {word}".strip()
    return lines
