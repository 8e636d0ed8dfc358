"""Points of meshes as whole numbers, and back: both differ by a scale and an origin, which stay with a map's file."""
import re
from fractions import Fraction
from pathlib import Path
from typing import NamedTuple

import numpy as np

from gmr.mesh.decimals import Decimals, Whole, multiply, of_fractions, power_of, stack, subtract, trim
from gmr.mesh.model import Mesh, Unfit
from gmr.mesh.printed import tell_long

EXACT_MOST = 2**53  # a scale that leaves every digit of the file is taken where no coordinate passes this
ASKED_MOST = 2**62  # the same where it is asked for
ROUND_MOST = 10**7  # else coordinates are rounded so that the greatest is below this, or no two places become one
LINE = re.compile(r"#?[ \t]*(scale|origin)[ \t]+([^\r\n]*?)[ \t\r]*$")
ENDING = ".scale"

Origin = tuple[Fraction, Fraction, Fraction]


class Frame(NamedTuple):
    """What a map's numbers are of a mesh's coordinates: these less the origin, times the scale."""

    scale: Fraction
    origin: Origin | None = None

    def lines(self) -> list[str]:
        """The lines by which a file keeps it."""
        kept = [f"scale {self.scale}"]
        return kept + ([f"origin {' '.join(map(tell_fraction, self.origin))}"] if self.origin else [])


class Scaled(NamedTuple):
    """The points of a mesh as whole numbers: how far the greatest rounding goes, in units of the file, and how many
    places of the file became one with another."""

    points: Whole
    rounding: float
    shared: int


def choose_scale(places: Decimals, is_exact: bool = False) -> Fraction:
    """The least power of ten that makes all coordinates whole, where none passes 2^53, or 2^62 where it must be exact.

    Else the least one that leaves seven digits of the greatest coordinate and parts all places that differ, as far as
    2^53 goes. Unfit where it must be exact and isn't.
    """
    values = np.abs(places.floats())
    most = float(np.nanmax(values, initial=0.0)) if values.size else 0.0
    power = places.least_power()
    bound = ASKED_MOST if is_exact else EXACT_MOST
    if power < 300 and places.is_exact and most * 10.0**power <= bound:
        return Fraction(10**power)
    if is_exact:
        raise Unfit("no scale leaves all its digits within 2^62: give no --exact, or an --origin near its points")
    if not np.isfinite(most):
        return Fraction(1)  # which is refused as too great
    lowest = max(0, int(np.floor(np.log10(ROUND_MOST / most))))
    highest = max(0, int(np.floor(np.log10(EXACT_MOST / most))))
    count = count_places(np.concatenate([places.digits, places.powers], axis=1))
    scales = (Fraction(10**one) for one in range(lowest, highest + 1))
    return next((one for one in scales if count_places(multiply(places, one)[0]) == count), Fraction(10**lowest))


def count_places(rows: Whole) -> int:
    """How many rows differ."""
    return len(first_alike(rows)[1])


def first_alike(rows: Whole) -> tuple[Whole, Whole]:
    """For each row the first row that is equal to it, and those that are first."""
    if not len(rows):
        return np.empty(0, np.int64), np.empty(0, np.int64)
    order = np.lexsort(rows.T)
    ordered = rows[order]
    is_new = np.concatenate([[True], (ordered[1:] != ordered[:-1]).any(axis=1)])
    group = np.cumsum(is_new) - 1
    least = np.minimum.reduceat(order, np.nonzero(is_new)[0])
    found = np.empty(len(rows), np.int64)
    found[order] = least[group]
    return found, np.sort(least)


def scale_points(mesh: Mesh, frame: Frame) -> Scaled:
    """The points as whole numbers; Unfit names the first that is no number, or out of a value's range."""
    wrong = ~mesh.places.is_number.all(axis=1)
    if wrong.any():
        first = int(np.argmax(wrong))
        raise Unfit(f"point {mesh.tell_place(first)} has a coordinate that is no number")
    places = move_points(mesh.places, frame)
    found, too_great, off = multiply(places, frame.scale)
    if too_great.any():
        first = int(np.argmax(too_great.any(axis=1)))
        line = f"point {mesh.tell_place(first)} times {frame.scale} doesn't fit in 64 bits"
        raise Unfit(f"{line}: give a smaller --scale, or an --origin near it")
    shared = 0
    if off:
        shared = count_places(np.concatenate([mesh.places.digits, mesh.places.powers], 1)) - count_places(found)
    return Scaled(found, off / float(frame.scale), shared)


def move_points(places: Decimals, frame: Frame) -> Decimals:
    """The points less the origin."""
    return subtract(places, frame.origin) if frame.origin else places


def unscale_points(points: Whole, frame: Frame) -> Decimals:
    """Whole numbers divided by the scale, with the origin added, in space."""
    padded = np.zeros((len(points), 3), np.int64)
    padded[:, : points.shape[1]] = points
    power = power_of(frame.scale)
    if power is None:
        flat = [Fraction(number) / frame.scale for number in padded.ravel().tolist()]
        columns = of_fractions(flat).reshape(-1, 3)
    else:
        columns = trim(padded, np.full(padded.shape, -power, np.int64))
    if frame.origin:
        x, y, z = frame.origin
        columns = subtract(columns, (-x, -y, -z))
    return stack([columns[:, axis] for axis in range(3)])


def tell_fraction(number: Fraction) -> str:
    """A fraction as a decimal, where it is one."""
    told = of_fractions([number])
    return tell_long(int(told.digits[0]), int(told.powers[0])).decode() if told.is_exact else str(number)


def tell_frame(frame: Frame) -> bytes:
    """The comments by which a map's file keeps its scale and origin."""
    return "".join(f"# {line}\n" for line in frame.lines()).encode()


def read_frame(path: Path) -> Frame | None:
    """The scale and origin of a map: of the comments at the head of its file, else of the file beside it."""
    for source in (path, beside(path)):
        try:
            with source.open(encoding="utf-8", errors="replace") as file:
                lines = []
                for line in file:
                    if line.strip() and not (line.startswith("#") or source != path):
                        break
                    lines.append(line)
        except OSError:
            continue
        frame = parse_frame(lines, source)
        if frame:
            return frame
    return None


def parse_frame(lines: list[str], source: Path) -> Frame | None:
    """The scale and origin that lines tell; None where they tell no scale."""
    told = {found[1]: found[2] for found in map(LINE.match, lines) if found}
    if "scale" not in told:
        return None
    try:
        origin = parse_origin(told["origin"].split()) if "origin" in told else None
        return Frame(parse_scale(told["scale"]), origin)
    except ValueError as error:
        raise Unfit(f"{source} has a scale or an origin that isn't understood: {error}") from None


def beside(path: Path) -> Path:
    """The file that keeps the scale of a map, where the map's own text has no place for it."""
    return path.with_name(path.name + ENDING)


def parse_scale(word: str) -> Fraction:
    """The scale of a word: a number or a quotient above 0. ValueError where it is none."""
    if re.fullmatch(r"[0-9]+/[0-9]*[1-9][0-9]*|[0-9]*\.?[0-9]+([eE][+-]?[0-9]{1,3})?|[0-9]+\.", word, re.ASCII):
        scale = Fraction(word)
        if scale > 0:
            return scale
    raise ValueError(f"{word} is no scale, which is a number above 0, as 1000, 0.5 or 1/3")


def parse_origin(words: list[str]) -> Origin:
    """The origin of three words. ValueError where they are none."""
    if len(words) != 3 or not all(re.fullmatch(r"[+-]?[0-9]*\.?[0-9]+([eE][+-]?[0-9]{1,2})?", word) for word in words):
        raise ValueError(f"{' '.join(words)} is no origin, which is three decimals, as 500000 4649776.22 0")
    x, y, z = map(Fraction, words)
    return x, y, z
