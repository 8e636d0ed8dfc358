"""The certificate of an import or export: whether the cells of a map are those of a mesh's file, corner by corner. It
reads the file anew, OBJ, OFF and PLY by itself; what the converter says it looks at, and doesn't believe. Beside this
file only the reader of maps' texts need be believed, and for other formats than OBJ and OFF what reads them."""
import math
import re
from collections.abc import Callable, Iterator, Sequence
from fractions import Fraction
from pathlib import Path
from typing import Any, NamedTuple

import numpy as np

from gmr.arrays import Arrays, read_arrays
from gmr.mesh.again import read_other  # PLY, and parsers of other formats
from gmr.mesh.forgiven import Corners, check_leaders, check_left

Array = Any  # of numpy
HALF, EXACT = Fraction(1, 2), 2.0**48  # below it, sums of numbers of 64 bits are exact enough to tell half a unit
STOP = -(2**62)  # stands after the corners of each face while they are read


class Claims(NamedTuple):
    """What the converter says. `darts`: the rows of the darts at the corners of a written file; those of an import are
    0, 2, 4 and so on. `left`: which corners weren't left out. `leaders`: the point that each became, at most `distance`
    away, or at one place of the map. `cut`: crowded edges and faces are open."""

    darts: Array = None
    left: Array = None
    leaders: Array = None
    distance: float = 0.0
    cut: bool = False


class Read(NamedTuple):
    """What a file has: points, and what tells a point's words or fractions; how far the former may be from these, as a
    part of them; the corners of all faces, how many each has, and of a volume the cell of each face."""

    points: Array
    words: Callable[[int], Sequence[Any]]
    blur: float
    corners: Array
    sizes: Array
    cells: Array = None


def compare(model: Path, gmap: Path | Arrays, scale: Fraction, origin: Sequence[Fraction] | None = None,
            claims: Claims = Claims(), parsed: Any = None) -> str | None:
    """Why the map isn't that of the file at this scale and origin, in one line; None where it is. `parsed` is what the
    parser of the file's format has read, where the certificate doesn't read it itself."""
    try:
        read = read_file(model, parsed)
        given = read_arrays(gmap.read_bytes()) if isinstance(gmap, Path) else gmap
        return next(check(read, given, scale, origin or (Fraction(0),) * 3, claims), None)
    except (ArithmeticError, LookupError, StopIteration, TypeError, ValueError):
        return "it can't be read again"


def read_file(path: Path, parsed: Any) -> Read:
    """What a file has: of other formats than OBJ, OFF and PLY what the parser reads, or has read."""
    suffix, data = path.suffix.lower(), path.read_bytes()
    if suffix not in (".obj", ".off"):
        return Read(*read_other(path, parsed))
    data = data.decode("utf-16", "replace").encode() if data[:2] in (b"\xff\xfe", b"\xfe\xff") else data
    data = re.sub(rb"#[^\n]*", b"", data.removeprefix(b"\xef\xbb\xbf").replace(b"\r", b"\n").replace(b"\t", b" "))
    data = re.sub(rb"/\S*", b"", data) if b"/" in data else data
    lines = list(filter(None, re.sub(rb"\n +", b"\n", re.sub(rb"\\ *\n+", b" ", b"\n" + data)).split(b"\n")))
    return read_obj(lines) if suffix == ".obj" else read_off(lines)


def read_lines(points: list[bytes], first: int, faces: list[bytes]) -> Read:
    """What lines of text tell: those of points have three numbers from a word on, and those of faces their corners."""
    numbers = np.fromstring((b" %d " % STOP).join([*faces, b""]), np.int64, sep=" ")
    ends = np.flatnonzero(numbers == STOP)
    if len(ends) != len(faces):
        raise ValueError
    return Read(np.loadtxt(points, usecols=range(first, first + 3), ndmin=2, comments=None),
                lambda row: points[row].decode().split()[first:], 0,
                numbers[numbers != STOP], np.diff(ends, prepend=-1) - 1)


def read_obj(lines: list[bytes]) -> Read:
    """Statements v and f, whose negative numbers count back from the last point above."""
    points, faces = ([line for line in lines if line[:2] == head] for head in (b"v ", b"f "))
    read = read_lines(points, 1, [line[2:] for line in faces])
    if read.corners.min(initial=0) >= 0:
        return read._replace(corners=read.corners - 1)
    above = np.cumsum([line[:2] == b"v " for line in lines])[[line[:2] == b"f " for line in lines]].repeat(read.sizes)
    return read._replace(corners=np.where(read.corners < 0, above + read.corners, read.corners - 1))


def read_off(lines: list[bytes]) -> Read:
    """The numbers after the head, line by line."""
    first = [word for word in lines[0].split() if not word.endswith(b"OFF")]
    counts, rows = (first, lines[1:]) if first else (lines[1].split(), lines[2:])
    points, faces = int(counts[0]), [row.split() for row in rows[int(counts[0]):][:int(counts[1])]]
    return read_lines(rows[:points], 0, [b" ".join(face[1: int(face[0]) + 1]) for face in faces])


def check(read: Read, given: Arrays, scale: Fraction, origin: Sequence[Fraction], claims: Claims) -> Iterator[str]:
    """What differs between a map and what was read of a file."""
    alpha, count, owner = given.alpha, len(given.names), np.repeat(np.arange(len(read.sizes)), read.sizes)
    spots = (read.points - [float(one) for one in origin]) * float(scale)
    if read.corners.min() < 0:
        yield f"face {owner[np.argmin(read.corners)]} has a corner that is no point"
    after, corner = follow(owner), read.corners
    if claims.leaders is not None:
        yield from check_leaders(spots, claims.leaders, claims.distance * float(scale))
        corner = claims.leaders[corner]
    if claims.left is not None:
        left = Corners(owner[claims.left], corner[claims.left], follow(owner[claims.left]))
        yield from check_left(spots, Corners(owner, corner, after), left, read.cells)
        owner, corner, after = left
    darts = 2 * np.arange(len(owner)) if claims.darts is None else claims.darts
    if len(darts) != len(owner) or 2 * len(owner) > count:
        yield f"the map has {count} darts, and the faces of the file {len(owner)} corners"
    ends = alpha[0][darts]
    if (wrong := alpha[1][ends] != darts[after]).any():
        yield f"face {owner[np.argmax(wrong)]} has other corners in the file than in the map"
    point, face = np.full((2, count), -1)
    point[darts], point[ends], face[darts], face[ends] = corner, corner[after], owner, owner
    if len(alpha) > 3 and read.cells is None:
        point = np.where(point < 0, point[alpha[3]], point)
    if np.count_nonzero(face >= 0) != 2 * len(darts) or (point < 0).any():
        yield "the file's faces don't cover the map's, each once"
    if (places := points_of(given)) is not None:
        yield from check_places(read, spots, point, places, scale, origin)
    if claims.darts is not None:
        yield from check_vertices(point, alpha[1:], len(spots))
    elif read.cells is None:
        yield from check_joins(point, alpha, 2, 0, claims.cut)
    else:
        yield from check_joins(point, alpha, 2, read.cells[face], False)
        parts = np.split(corner[np.lexsort((corner, owner))], np.flatnonzero(np.diff(owner)) + 1)
        numbers: dict[bytes, int] = {}
        alike = np.repeat([numbers.setdefault(part.tobytes(), len(numbers)) for part in parts], list(map(len, parts)))
        face[darts], face[ends] = alike, alike
        yield from check_joins(point, alpha, 3, face, claims.cut)


def follow(owner: Array) -> Array:
    """The place of the corner after each one of a face, whose corners stand together."""
    ends = np.append(np.flatnonzero(np.diff(owner)), len(owner) - 1)
    after = np.arange(1, len(owner) + 1)
    after[ends] = np.append(0, ends[:-1] + 1)
    return after


def points_of(given: Arrays) -> Array:
    """The points of a map's darts in space, None where it has none."""
    over = tuple(range(1, given.dimension + 1)), "vec"
    found = [given.values[one.name] for one in given.embeds if (one.labels, one.kind[:3]) == over]
    return np.pad(found[0], ((0, 0), (0, 3 - found[0].shape[1]))) if found else None


def check_places(read: Read, spots: Array, point: Array, places: Array, scale: Fraction, origin: Sequence[Fraction]
                 ) -> Iterator[str]:
    """Each dart is within half a unit of its point; by fractions, where numbers are great."""
    off = spots[point]
    off -= places
    wrong = np.zeros(len(point), bool)
    if not np.abs(off, out=off).max() <= 0.5 + 1e-6:
        wrong = ~(off <= 0.5 + 1e-6 + np.abs(spots[point]) * (read.blur + 2.0**-50)).all(axis=1)
    if read.blur == 0 and np.abs(spots).max() > EXACT:
        exact = [[(Fraction(word) - zero) * scale for word, zero in zip(read.words(row), origin)]
                 for row in range(len(spots))]
        low, high = (np.array([[turn(one + half) for one in row] for row in exact], object)[point]
                     for turn, half in ((math.ceil, -HALF), (math.floor, HALF)))
        wrong |= ((places < low) | (places > high)).any(axis=1)
    if wrong.any():
        dart = int(np.argmax(wrong))
        yield f"point {point[dart]} lies elsewhere in the map: dart {dart} at {places[dart].tolist()}"


def check_vertices(point: Array, steps: Array, count: int) -> Iterator[str]:
    """The points of a written file are the vertices of the map."""
    least, before = np.arange(len(point)), None
    while before is None or (least != before).any():
        before = least
        for step in steps:
            least = np.minimum(least, least[step])
        least = least[least]
    if (point[steps] != point).any() or np.count_nonzero(least == np.arange(len(least))) != count:
        yield "the points of the file aren't the vertices of the map"


def check_joins(point: Array, alpha: Array, label: int, element: Array, is_cut: bool) -> Iterator[str]:
    """Two darts are neighbours where they alone have their ends and an element alike, and nowhere else."""
    step, end, most = alpha[label], point[alpha[0]], int(point.max()) + 1
    key, is_free = (element * most + point) * most + end, step == np.arange(len(step))
    half, wrong = point <= end, key[step] != key  # of the other half are the other ends of these
    counts = np.unique(key[half], return_counts=True)[1]
    is_odd = np.count_nonzero(is_free[half]) != np.count_nonzero(counts == 1) or counts.max() > 2
    if is_cut or is_odd or wrong.any() or (is_free != is_free[alpha[0]]).any():
        _, group, counts = np.unique(key, return_inverse=True, return_counts=True)
        count = counts[group.ravel()]
        wrong |= (is_free == (count == 2)) | ((count > 2) & (not is_cut))
        wrong &= ~(is_free & (is_cut and label == 3))
    if wrong.any():
        dart, what = int(np.argmax(wrong)), "edge" if label == 2 else "face"
        ends = sorted((int(point[dart]), int(end[dart])))
        yield f"dart {dart} isn't joined as the file has it at the {what} of the points {ends}"
