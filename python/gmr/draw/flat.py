"""Flat pictures of maps, in SVG: a thick stroke for each dart, a line for each pair of neighbours in the colour of its
label, names, and the colours of faces and the numbers of edges."""
import math
from collections import defaultdict
from collections.abc import Callable, Iterable, Sequence
from typing import NamedTuple

import numpy as np
from numpy.typing import NDArray

from gmr.draw.layout import Sheet, area, height
from gmr.draw.model import Model, orbits
from gmr.draw.page import Page, page_of
from gmr.draw.surface import Spot
from gmr.draw.together import lay_together

DART, FILL, INK, COLOURS = "#1f4e79", "#eef4fb", "#1f2933", ("#c0504d", "#4f8f3a", "#6b46a1", "#b7791f")
MOST_NAMES, GAP, NAME, TAG = 600, 9.0, 11, 9
BEHIND, MOST_MOVED = 2.3, 24.0  # how many times as far strokes lie from edges in faces seen from within, and at most
GOOD_SHARE, LEAST_SHARE = 0.8, 0.58  # how much smaller a picture is shown to fit a page, and at most
MOST_SCALE = 420  # pixels that an edge of length 1 has at most so that names have room
LEAST_SCALE = 60  # pixels that an edge of length 1 has at least where that makes a picture narrower
OVER = 25.0  # pixels by which a link along 3 may be longer to cross one stroke less
MOST_LONG = 2.5  # how many times their median links along 3 are long at most

Layers = dict[int | str, list[str]]  # the parts of each layer: by the label of links, or by its name


Tag = tuple[complex, int, str]  # a place, the name of the dart across, and the layer in which it is written


class Stroke(NamedTuple):
    """The stroke of a dart: from its corner's side to the edge's middle, and which way its face lies."""

    start: complex
    middle: complex
    end: complex
    corner: complex
    inward: complex
    bent: bool

    def moved(self, by: complex) -> "Stroke":
        """The stroke at another place."""
        return Stroke(self.start + by, self.middle + by, self.end + by, self.corner + by, self.inward, self.bent)


class Drawn(NamedTuple):
    """A map with all its strokes in pixels: its outlines with their faces, the darts whose edges are cut, and from
    where to where it reaches."""

    strokes: dict[int, Stroke]
    outlines: list[tuple[int, list[complex]]]
    cut: set[int]
    low: complex
    high: complex


def strokes_of(sheet: Sheet, scale: float, shrinks: bool) -> tuple[dict[int, Stroke], dict[int, float]]:
    """The stroke of each dart in pixels, y downwards, drawn away from its edge into its face; and by which share each
    dart's face is smaller than its outline."""
    spots = {dart: Spot(*(complex(place).conjugate() * scale for place in spot)) for dart, spot in sheet.spots.items()}
    depths: dict[complex, list[float]] = defaultdict(list)
    reaches: dict[complex, float] = defaultdict(float)
    strokes, shares = {}, {}
    for spot in spots.values():
        depths[spot.face].append(abs(height(*spot)) or 1)
        reaches[spot.face] = max(reaches[spot.face], abs(spot.heart - spot.side2))
    for dart, spot in spots.items():
        of, gap = depths[spot.face], GAP * (BEHIND if dart in sheet.back else 1)
        share = min(0.6, 2 * gap * len(of) / sum(of), MOST_MOVED / (reaches[spot.face] or 1)) if shrinks else 0
        shares[dart] = share
        ways = ((spot.vertex, spot.side1), (spot.side2, spot.heart), (spot.edge, spot.side0))
        corner, middle, end = (one + share * (two - one) for one, two in ways)
        length = abs(end - corner) or 1
        way, bent = (end - corner) / length, abs(corner + end - 2 * middle) > 1
        inward = way * (1j if ((spot.heart - spot.side2) * way.conjugate()).imag > 0 else -1j)
        if not bent:
            along = ((spot.side2 - corner) * way.conjugate()).real
            middle = corner + way * sorted((length * 0.2, along, length * 0.85))[1]
        start, stop = corner + way * min(9, length / 3), end - way * min(6, length / 3)
        strokes[dart] = Stroke(start, middle, stop, corner, inward, bent)
    return strokes, shares


def written(*places: complex) -> str:
    """Places as numbers, rounded to halves."""
    return " ".join(f"{round(2 * number) / 2:g}" for place in places for number in (place.real, place.imag))


def line_at(start: complex, form: str, *places: complex) -> str:
    """A line of this form as a part of a path."""
    return f"M{written(start)}{form}{written(*(place - start for place in places))}"


def text_at(place: complex, text: object, size: float) -> str:
    """A text round a place."""
    return '<text x="{}" y="{}">{}</text>'.format(*written(place + 0.36j * size).split(), text)


def beside(place: complex, inward: complex, text: object, size: float) -> complex:
    """Where a text stands beside a place, as near as it can without touching a stroke there."""
    return place + inward * (abs(inward.real) * 0.3 * size * len(str(text)) + abs(inward.imag) * size * 0.37 + 4.5)


def name_places(strokes: dict[int, Stroke], tags: Sequence[Tag] = ()) -> list[complex]:
    """Where the names of darts stand: beside the stroke, within the face, where they cover least."""
    taken: list[tuple[complex, float, float]]
    taken = [(place, 0.6 * TAG * len(str(name)), NAME * 0.9) for place, name, _ in tags]
    taken += [(it.start + (it.end - it.start) * share, 4, 6) for it in strokes.values() for share in (0.1, 0.5, 0.9)]
    steps = [(far, step) for far in (0, 4, 8, 12) for step in (0, 0.12, -0.12, 0.22, -0.22, 0.32, -0.32)]
    crowd = {cell: near for cell, near in gathered(taken)}
    marks = len(taken)
    for dart, (start, middle, end, _, inward, bent) in strokes.items():
        middle, wide = middle if bent else (start + end) / 2, width_of(dart)
        tries: list[tuple[float, int, complex]] = []
        for far, step in steps:
            spot = beside(middle + (end - start) * step, inward, dart, NAME) + inward * far
            near = [at for at in crowd.get(cell_of(spot), ()) if is_over(taken[at], spot, wide)]
            tries.append((len(near) + 4 * sum(at >= marks or at < len(tags) for at in near), len(tries), spot))
            if not near:
                break
        taken.append((min(tries)[2], wide, NAME * 0.95))
        for cell in cells_round(taken[-1][0]):
            crowd.setdefault(cell, []).append(len(taken) - 1)
    return [place for place, *_ in taken[marks:]]


def width_of(name: int, size: float = NAME) -> float:
    """How wide a name is, with a little room beside it, so that two of one letter each stand apart."""
    return 0.6 * size * len(str(name)) + 1.5


def is_crowded(it: Model, drawn: Drawn) -> bool:
    """Whether two names would touch."""
    strokes = drawn.strokes
    tags = tags_of(defaultdict(list), strokes, it.alpha, drawn.cut)
    laid = [(place, width_of(dart)) for place, dart in zip(name_places(strokes, tags), strokes)]
    laid = sorted([*laid, *((place, width_of(name, TAG)) for place, name, _ in tags)], key=lambda one: one[0].real)
    for at, (place, wide) in enumerate(laid):
        for other, width in laid[at + 1:]:
            if other.real > place.real + 4 * NAME:
                break
            if is_over((place, wide, NAME * 0.75), other, width):
                return True
    return False


def is_over(mark: tuple[complex, float, float], spot: complex, wide: float) -> bool:
    """Whether a name of this width at a spot touches a mark: a place with a width and a height."""
    way = spot - mark[0]
    return abs(way.real) < (wide + mark[1]) / 2 and abs(way.imag) < mark[2]


def cell_of(place: complex) -> tuple[int, int]:
    """The square of 40 pixels in which a place lies."""
    return int(place.real // 40), int(place.imag // 40)


def cells_round(place: complex) -> list[tuple[int, int]]:
    """The square in which a place lies, and those round it."""
    x, y = cell_of(place)
    return [(x + right, y + down) for right in (-1, 0, 1) for down in (-1, 0, 1)]


def gathered(marks: Sequence[tuple[complex, float, float]]) -> Iterable[tuple[tuple[int, int], list[int]]]:
    """The numbers of marks in or beside each square."""
    found: dict[tuple[int, int], list[int]] = defaultdict(list)
    for at, mark in enumerate(marks):
        for cell in cells_round(mark[0]):
            found[cell].append(at)
    return found.items()


def draw_darts(
    layers: Layers, strokes: dict[int, Stroke], alpha: Sequence[dict[int, int]], cut: set[int], with_names: bool
) -> None:
    """Draws strokes, names, and links; those along 3 once for each two faces, as curves through them."""
    for dart, (start, middle, end, corner, _, bent) in strokes.items():
        form, places = ("q", (2 * middle - (start + end) / 2, end)) if bent else ("l", (end,))
        layers["darts"].append(line_at(start, form, *places))
        for label, links in enumerate(alpha[:3]):
            other = strokes[links[dart]]
            one, two = ((it.end, it.start, it.middle)[label] for it in (strokes[dart], other))
            by = ((), ((corner + other.corner) / 2,), ())[label]
            if links[dart] > dart and not (label == 2 and dart in cut):
                layers[label].append(line_at(one, "lql"[label], *by, two))
    tags = tags_of(layers, strokes, alpha, cut)
    if with_names:
        layers["names"] += [text_at(place, dart, NAME) for dart, place in zip(strokes, name_places(strokes, tags))]
        for place, name, layer in tags:
            layers[layer].append(text_at(place, name, TAG))


def tags_of(layers: Layers, strokes: dict[int, Stroke], alpha: Sequence[dict[int, int]], cut: set[int]) -> list[Tag]:
    """Draws the ends of what is cut, and the links along 3; the names of the darts across that stand at ends."""
    tags: list[Tag] = []
    for dart in (dart for dart in strokes if dart in cut):
        middle, inward = strokes[dart].middle, strokes[dart].inward
        layers["ends2"].append(line_at(middle, "l", middle - inward * 13))
        tags.append((beside(middle - inward * 10, -inward, alpha[2][dart], TAG), alpha[2][dart], "tags"))
    for links in alpha[3:]:
        tags += draw_glue(layers, strokes, alpha, links)
    return tags


def draw_glue(
    layers: Layers, strokes: dict[int, Stroke], alpha: Sequence[dict[int, int]], links: dict[int, int]
) -> list[Tag]:
    """Draws one link along 3 for each two faces that meet, between those of their darts that are nearest, with as few
    strokes between them as can be. Where it would cross another one or be far longer than the others, two ends of it
    are drawn, and the names of the darts across are returned."""
    tags: list[Tag] = []
    faces = orbits(sorted(strokes), lambda dart, label: alpha[label][dart], (0, 1))
    least = {dart: face[0] for face in faces for dart in face}
    ends: dict[tuple[int, int], tuple[float, float, int, int]] = {}
    lines = np.array([(one.start, one.end) for one in strokes.values()]).reshape(-1, 2)
    for dart, other in ((dart, links[dart]) for face in faces for dart in face if links[dart] > dart):
        key = (min(least[dart], least[other]), max(least[dart], least[other]))
        begin, end = strokes[dart].middle, strokes[other].middle
        cost = abs(end - begin) + OVER * count_crossed(begin, end, lines)
        here = (round(cost, 3), round(abs(end - begin), 3), dart, other)
        ends[key] = min(ends.get(key, here), here)
    most = MOST_LONG * sorted(length for _, length, *_ in ends.values())[len(ends) // 2] if ends else 0
    drawn: list[tuple[complex, complex]] = []
    for _, length, one, two in sorted(ends.values()):
        first, second = strokes[one], strokes[two]
        line = (first.middle, second.middle)
        if length <= most and not any(is_crossed(*line, *other) for other in drawn):
            drawn.append(line)
            bow = min(45, length / 3)
            layers[3].append(line_at(first.middle, "c", first.middle + first.inward * bow,
                                     second.middle + second.inward * bow, second.middle))
        else:
            for stroke, across in ((first, two), (second, one)):
                layers["ends3"].append(line_at(stroke.middle, "l", stroke.middle + stroke.inward * 13))
                tags.append((beside(stroke.middle + stroke.inward * 10, stroke.inward, across, TAG), across, "glue"))
    return tags


def count_crossed(one: complex, two: complex, lines: NDArray[np.complex128]) -> int:
    """How many lines are crossed between two places, but for those on which these lie."""
    way, others = two - one, lines[:, 1] - lines[:, 0]
    one, two = one + 0.02 * way, two - 0.02 * way
    sides = (np.conj(way) * (lines - one)).imag
    ends = (np.conj(others) * (one - lines[:, 0])).imag * (np.conj(others) * (two - lines[:, 0])).imag
    return int(((sides[:, 0] * sides[:, 1] < 0) & (ends < 0)).sum())


def is_crossed(one: complex, two: complex, three: complex, four: complex) -> bool:
    """Whether the line from one to two crosses that from three to four."""
    way, other = two - one, four - three
    sides = ((way.conjugate() * (place - one)).imag for place in (three, four))
    others = ((other.conjugate() * (place - three)).imag for place in (one, two))
    return math.prod(sides) < 0 and math.prod(others) < 0


def draw_numbers(layers: Layers, strokes: dict[int, Stroke], it: Model) -> None:
    """Draws the number of each edge, across from the names of its darts."""
    edges = orbits(sorted(it.numbers), lambda dart, label: it.alpha[label][dart], (0, *range(2, it.dimension + 1)))
    for dart in (edge[0] for edge in edges):
        middle, number = (strokes[dart].end + strokes[it.alpha[0][dart]].end) / 2, it.numbers[dart]
        layers["numbers"].append(text_at(beside(middle, -strokes[dart].inward, number, NAME), number, NAME))


def extreme(which: Callable[[Iterable[float]], float], places: Sequence[complex]) -> complex:
    """The least or the greatest of both coordinates."""
    return complex(which(place.real for place in places), which(place.imag for place in places))


def drawn_at(it: Model, sheets: Sequence[Sheet], scale: float) -> Drawn:
    """The strokes and outlines of a map that is laid out; outlines end where the strokes of their face are."""
    strokes: dict[int, Stroke] = {}
    outlines = []
    for sheet in sheets:
        own, shares = strokes_of(sheet, scale, it.dimension > 1)
        strokes |= own
        for dart, outline in sheet.outlines:
            heart, share = complex(sheet.spots[dart].face).conjugate() * scale, shares[dart] / 2
            places = (complex(place).conjugate() * scale for place in outline)
            outlines.append((dart, [place + share * (heart - place) for place in places]))
    cut = {dart for sheet in sheets for dart in sheet.cut}
    across = -22 if it.numbers else -4
    reach = [place for _, outline in outlines for place in outline]
    reach += [strokes[dart].middle - strokes[dart].inward * 30 for dart in cut]
    reach += [place for stroke in strokes.values() for place in (stroke.corner, stroke.end)]
    far = 8 + 10 * it.dimension
    reach += [one.middle + one.inward * by for one in strokes.values() for by in (far, across)]
    reach = reach or [0j, 60 + 60j]
    return Drawn(strokes, outlines, cut, extreme(min, reach), extreme(max, reach))


def draw_map(layers: Layers, it: Model, drawn: Drawn, by: complex, with_names: bool) -> None:
    """Draws a map, moved by a way."""
    for face, outline in drawn.outlines:
        layer, line = "faces", "M" + written(*(place + by for place in outline)) + "Z"
        if face in it.colours:
            colour = "".join(f"{part:02x}" for part in it.colours[face])
            layer, line = "paint", f'<path fill="#{colour}" d="{line}"/>'
        layers[layer].append(line)
    strokes = {dart: old.moved(by) for dart, old in sorted(drawn.strokes.items())}
    draw_darts(layers, strokes, it.alpha, drawn.cut, with_names)
    if with_names:
        draw_numbers(layers, strokes, it)


def draw(maps: Sequence[tuple[str | None, Model]], with_names: bool | None = None) -> str:
    """The text of a picture that shows maps side by side, each under a title or None. What two of them share lies at
    the same place of both. Names and numbers stand where there are few darts, if it isn't said whether they do."""
    models = [it for _, it in maps]
    laid = lay_together(models)
    spots = [spot for sheets in laid for sheet in sheets for spot in sheet.spots.values()]
    is_small = len(spots) <= MOST_NAMES
    with_names = is_small if with_names is None else with_names
    scale = scale_of(spots) if is_small or with_names else 50
    layers: Layers = defaultdict(list)
    drawn = [drawn_at(it, sheets, scale) for it, sheets in zip(models, laid)]
    while with_names and scale < MOST_SCALE and any(map(is_crowded, models, drawn)):
        scale *= 1.15
        drawn = [drawn_at(it, sheets, scale) for it, sheets in zip(models, laid)]
    drawn = narrowed(maps, laid, scale, drawn) if with_names else drawn
    page = page_for(maps, drawn)
    for (title, it), one, corner, top in zip(maps, drawn, page.corners, page.tops):
        draw_map(layers, it, one, corner, with_names)
        middle = (one.low.real + one.high.real) / 2 + corner.real
        place = complex(middle, top - 18 * page.size - 4)
        layers["titles"] += [text_at(place, title, 14 * page.size)] if title else []
    return text_of(layers, page, max(it.dimension for it in models))


def page_for(maps: Sequence[tuple[str | None, Model]], drawn: Sequence[Drawn]) -> Page:
    """The page on which maps are arranged."""
    return page_of([(one.low, one.high) for one in drawn], any(title for title, _ in maps))


def narrowed(
    maps: Sequence[tuple[str | None, Model]], laid: Sequence[Sequence[Sheet]], scale: float, drawn: list[Drawn]
) -> list[Drawn]:
    """Maps drawn smaller where they are too large for a page, as far as names still stand apart."""
    while page_for(maps, drawn).share < GOOD_SHARE and scale > LEAST_SCALE:
        scale *= 0.95
        smaller = [drawn_at(it, sheets, scale) for (_, it), sheets in zip(maps, laid)]
        drawn = drawn if any(map(is_crowded, (it for _, it in maps), smaller)) else smaller
    return drawn


def scale_of(spots: Sequence[Spot]) -> float:
    """How many pixels an edge of length 1 has, so that all but the narrowest darts have room for their names."""
    rooms = sorted(min(math.sqrt(2 * abs(area(spot[:3]))) / 60, abs(height(*spot)) / 30) for spot in spots) or [1]
    return max(100, min(260, 1 / (rooms[len(rooms) // 20] or 1)))


def text_of(layers: Layers, page: Page, dimension: int) -> str:
    """The text of a picture in SVG, with a line that tells the colours of the labels. What is too large for a page is
    shown smaller, as far as letters allow."""
    wide, high, size = math.ceil(page.end.real), math.ceil(page.end.imag), page.size
    share = max(page.share, LEAST_SHARE)
    sides = f'width="{math.floor(share * wide)}" height="{math.floor(share * high)}"'
    sides += f' viewBox="0 0 {wide} {high}"' if share < 1 else ""
    line, text = 'fill="none" stroke-linecap="round" stroke=', 'text-anchor="middle" font-size='
    styles: dict[int | str, str]
    styles = {"faces": f'fill="{FILL}"', "paint": f'fill-opacity="{0.4 / max(1, 2 * dimension - 4):g}"'}
    styles |= {"darts": f'{line}"{DART}" stroke-width="3.5"'}
    styles |= {label: f'{line}"{colour}" stroke-width="{2 - label // 3}"' for label, colour in enumerate(COLOURS)}
    styles |= {f"ends{at}": f'class="ends" {line}"{COLOURS[at]}" stroke-width="{2 - at // 3}"' for at in (2, 3)}
    styles |= {"names": f'{text}"{NAME}" fill="{INK}" stroke="{FILL}" stroke-width="2" paint-order="stroke"'}
    styles |= {"numbers": f'{text}"{NAME}" font-weight="bold" fill="{COLOURS[0]}"'}
    styles |= {"tags": f'{text}"{TAG}" fill="{COLOURS[2]}"', "glue": f'{text}"{TAG}" fill="{COLOURS[3]}"'}
    styles |= {"titles": f'{text}"{14 * size:.4g}" fill="{INK}"'}
    styles |= {f"α{label}": f'{text}"{NAME * size:.4g}" fill="{colour}"' for label, colour in enumerate(COLOURS)}
    places = [complex(16 + (10 + 30 * at) * size, high - 14 * size) for at in range(dimension + 1)]
    layers |= {f"α{at}": [text_at(place, f"α{at}", NAME * size)] for at, place in enumerate(places)}
    lines = [f'<svg xmlns="http://www.w3.org/2000/svg" {sides} font-family="sans-serif">']
    lines += [f'<rect width="{wide}" height="{high}" fill="white"/>']
    for layer, style in styles.items():
        drawn = "".join(layers[layer])
        drawn = f"<g {style}>{drawn}</g>" if drawn.startswith("<") else f'<path {style} d="{drawn}"/>'
        lines += [drawn] * bool(layers[layer])
    return "\n".join([*lines, "</svg>", ""])
