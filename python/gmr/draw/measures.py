"""Measures of flat pictures, taken from their text: how near names stand to each other, how long links are beside
others of their label, and how many links cross. They tell a picture that shows from one that doesn't."""
import re
from collections.abc import Iterator, Sequence
from typing import Any, NamedTuple

from gmr import program
from gmr.draw.flat import COLOURS

WIDE, HIGH = 0.58, 0.73  # a letter's width and height, as shares of the font's size
FAR = 3.0  # how many times the median of its label a link may be long
SHORT = 14.0  # pixels below which no link is long
NUMBER = r"-?\d+(?:\.\d+)?"


class Text(NamedTuple):
    """A text in a picture: its middle, and the size of its letters."""

    x: float
    y: float
    text: str
    size: float


class Measures(NamedTuple):
    """What is measured of a picture: its size in pixels; how many pairs of names touch, and how near the nearest two
    stand, in heights of a letter; how long the longest link is as a multiple of its label's median, and how many are
    longer than they may be; and how many pairs of links cross."""

    wide: int
    high: int
    touching: int
    nearest: float
    longest: float
    long: int
    crossings: int


def measure(picture: str) -> Measures:
    """The measures of a picture."""
    wide, high = (int(found) for found in re.findall(r'(?:width|height)="(\d+)"', picture)[:2])
    touching, nearest = closeness(names_of(picture))
    lines = [links_of(picture, colour) for colour in COLOURS]
    longest, long = lengths_of(lines)
    crossings = count_crossings([one for own in lines for one in own])
    return Measures(wide, high, touching, nearest, longest, long, crossings)


def names_of(picture: str) -> list[Text]:
    """The names of darts, the numbers of edges, and the names that stand at ends of what is cut."""
    found = []
    for style, body in re.findall(r"<g ([^>]*)>(.*?)</g>", picture, re.DOTALL):
        size = re.search(rf'font-size="({NUMBER})"', style)
        if size and ("paint-order" in style or "font-weight" in style or 'font-size="9"' in style):
            texts = re.findall(rf'x="({NUMBER})" y="({NUMBER})">([^<]*)<', body)
            found += [Text(float(x), float(y), text, float(size[1])) for x, y, text in texts]
    return found


def closeness(names: Sequence[Text]) -> tuple[int, float]:
    """How many pairs of names touch, and how near the nearest two stand, in heights of a letter."""
    touching, nearest = 0, 99.0
    for at, one in enumerate(names):
        for two in names[:at]:
            x, y, size = abs(one.x - two.x), abs(one.y - two.y), (one.size + two.size) / 2
            if x < 60 and y < 20:
                half = WIDE * (one.size * len(one.text) + two.size * len(two.text)) / 2
                touching += x < half and y < HIGH * size
                nearest = min(nearest, (x * x + y * y) ** 0.5 / (HIGH * size))
    return touching, nearest


def links_of(picture: str, colour: str) -> list[list[complex]]:
    """The links of a colour, each as the places that it goes through."""
    found = []
    for path in re.findall(rf'<path fill="none"[^>]*stroke="{colour}"[^>]* d="([^"]*)"', picture):
        found += [list(places_of(part)) for part in path.split("M")[1:]]
    return found


def places_of(part: str) -> Iterator[complex]:
    """The places through which a line, or a curve, goes."""
    start, form, *ways = re.findall(rf"[lqc]|{NUMBER} {NUMBER}", part)
    begin, steps = place_of(start), [0j, *map(place_of, ways)]
    count = 1 if form == "l" else 12
    for at in range(count + 1):
        left = list(steps)
        while len(left) > 1:  # de Casteljau's
            left = [one + at / count * (two - one) for one, two in zip(left, left[1:])]
        yield begin + left[0]


def place_of(text: str) -> complex:
    """A place that is written as two numbers."""
    x, y = text.split()
    return complex(float(x), float(y))


def lengths_of(lines: Sequence[Sequence[Sequence[complex]]]) -> tuple[float, int]:
    """How long the longest link is as a multiple of its label's median, and how many are longer than they may be."""
    longest, long = 0.0, 0
    for own in lines:
        lengths = sorted(sum(abs(two - one) for one, two in zip(line, line[1:])) for line in own)
        if lengths:
            median = max(lengths[len(lengths) // 2], SHORT / FAR)
            longest = max(longest, lengths[-1] / median)
            long += sum(length > FAR * median for length in lengths)
    return longest, long


def count_crossings(lines: Sequence[Sequence[complex]]) -> int:
    """How many pairs of lines cross."""
    numpy: Any = program.needs("numpy", "python3-numpy")
    owners = numpy.array([at for at, line in enumerate(lines) for _ in line[1:]], int)
    if not len(owners):
        return 0
    ones = numpy.array([place for line in lines for place in line[:-1]])
    twos = numpy.array([place for line in lines for place in line[1:]])
    pairs = set()
    for at in range(len(ones)):
        one, way = ones[at], twos[at] - ones[at]
        begin, end = ((way.conjugate() * (places[at + 1:] - one)).imag for places in (ones, twos))
        over = twos[at + 1:] - ones[at + 1:]
        back, front = ((over.conjugate() * (place - ones[at + 1:])).imag for place in (one, twos[at]))
        met = numpy.nonzero((begin * end < 0) & (back * front < 0))[0] + at + 1
        pairs |= {(owners[at], owner) for owner in owners[met] if owner != owners[at]}
    return len(pairs)
