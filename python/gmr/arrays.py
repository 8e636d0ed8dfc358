"""Maps as numpy's arrays: their text is read and printed at once, for what looks at all darts of large maps."""
import os
import re
from collections.abc import Sequence
from dataclasses import dataclass
from typing import Any

import numpy
from numpy.typing import NDArray

from gmr import program
from gmr.schemas import EMBED, HEAD, WIDTHS, Embed

Whole = NDArray[numpy.int64]
Bytes = NDArray[numpy.uint8]

HEAD_BYTES = re.compile(HEAD.pattern.encode())
IN_ROWS = b"0123456789() \t\r\n-"
LEAST, MOST = -(2**63), 2**63 - 1
SPACED_MINUS = re.compile(rb"-[ \t\r\n]+")
BARE_MINUS = re.compile(rb"-(?![0-9])")
CHUNK = 32_768  # rows that are printed at once
PIECE = 1 << 18  # bytes that are read at once
TOP = 1 << 16  # bytes in which the head of a text stands, as a rule
EIGHT, SURE = 8, 18  # letters of a word of 64 bits; digits that fit in one, whichever they are
ZERO, MINUS, BLANK, FEED = 48, 45, 32, 10
# What leaves of eight letters the digits of the last 0 to 8 of them: the later a letter, the higher its byte.
LAST = numpy.array([0x0F0F0F0F0F0F0F0F >> 8 * (8 - many) << 8 * (8 - many) for many in range(9)], numpy.uint64)


@dataclass
class Arrays:
    """A map whose darts are told by their rows: row k is the k-th dart by ascending names."""

    version: int
    dimension: int
    embeds: list[Embed]
    next: int
    names: Whole  # of n darts, ascending
    alpha: Whole  # (dimension + 1) x n: the row of the neighbour along each label
    values: dict[str, Whole]  # n x width, for each embedding

    def text(self) -> bytes:
        """The canonical text."""
        rows = numpy.arange(len(self.names))
        columns = [(self.values[embed.name], rows) for embed in self.embeds]
        head = head_of(self.version, self.dimension, self.embeds, self.next, len(rows))
        return print_rows(self.names, self.alpha, columns, head)


def head_of(version: int, dimension: int, embeds: list[Embed], following: int, count: int) -> bytes:
    """The lines of a canonical text above those of its darts."""
    lines = [f"gmap {version}", f"dim {dimension}"]
    lines += [f"embed {name} <{' '.join(map(str, sorted(labels)))}> {kind}" for name, labels, kind in embeds]
    lines += [f"next {following}"] if version == 2 else []
    return "\n".join([*lines, f"darts {count}", ""]).encode()


def print_rows(names: Whole, alpha: Whole, columns: list[tuple[Whole, Whole]], head: bytes) -> bytes:
    """A head, whose last line ends, and the lines of darts: their names, those of their neighbours, whose rows alpha
    has, and their values.

    A column is a table of values (m x width), and for each dart the row of the table that has its value.
    """
    printed = print_numbers(names)
    named = as_words(BLANK, printed)
    pieces = [(as_words(FEED, printed), numpy.arange(len(names))), *((named, step) for step in alpha)]
    pieces += [(as_words(BLANK, print_values(table)), rows) for table, rows in columns]
    lines = [join_words(pieces, slice(begin, begin + CHUNK)) for begin in range(0, len(names), CHUNK)]
    return b"".join([head.removesuffix(b"\n"), *lines, b"\n"])


def join_words(pieces: Sequence[tuple[NDArray[numpy.uint64], Whole]], part: slice) -> bytes:
    """The lines of some rows, whose pieces stand in tables."""
    width = sum(table.shape[1] for table, _ in pieces)
    line, begin = numpy.empty((len(pieces[0][1][part]), width), numpy.uint64), 0
    for table, rows in pieces:
        line[:, begin: begin + table.shape[1]] = table.take(rows[part], axis=0)
        begin += table.shape[1]
    return line.tobytes().translate(None, b"\0")


def as_words(before: int, printed: Bytes) -> NDArray[numpy.uint64]:
    """Rows of bytes with one before each, and with bytes of value 0 up to words of 64 bits, which are copied faster."""
    found = numpy.zeros((len(printed), -(-(printed.shape[1] + 1) // EIGHT) * EIGHT), numpy.uint8)
    found[:, 0] = before
    found[:, 1: printed.shape[1] + 1] = printed
    return found.view(numpy.uint64)


def print_numbers(numbers: Whole) -> Bytes:
    """Whole numbers as decimals, one a row, with bytes of value 0 where a number is shorter than the longest one."""
    rest: NDArray[Any] = numpy.abs(numbers).astype(numpy.uint64)
    width = len(str(int(rest.max()))) if len(rest) else 1
    kind = numpy.uint32 if width < 10 else numpy.uint64    # the shorter ones are divided faster
    rest = rest.astype(kind)
    found = numpy.zeros((len(rest), width + 1), numpy.uint8)
    for place in range(width, 0, -1):
        quotient = rest // kind(10)
        found[:, place] = numpy.where((rest > 0) | (place == width), rest - quotient * kind(10) + kind(48), 0)
        rest = quotient
    found[:, 0] = numpy.where(numbers < 0, 45, 0)
    kept: Bytes = found if (numbers < 0).any() else found[:, 1:]
    return kept


def print_values(table: Whole) -> Bytes:
    """Values as a text of a map has them, one a row: in parentheses where they have several numbers."""
    parts = [print_numbers(column) for column in table.T]
    if len(parts) == 1:
        return parts[0]
    signs = [numpy.full((len(table), 1), sign, numpy.uint8) for sign in (40, 32, 41)]
    spaced = [piece for part in parts for piece in (signs[1], part)][1:]
    found: Bytes = numpy.concatenate([signs[0], *spaced, signs[2]], axis=1)
    return found


def read_arrays(text: bytes) -> Arrays:
    """The map that a text stands for, as maps.read_map takes it; ValueError with one plain line where it is none."""
    after = text.find(b"\n", text.rfind(b"#")) if b"#" in text else 0
    after = len(text) if after < 0 else after
    bare = re.sub(rb"#[^\n]*", b" ", text[:after])
    head = HEAD_BYTES.match(bare + text[after: after + TOP])
    if not head or not len(bare) <= head.end() < len(bare) + TOP:
        bare, after = bare + text[after:], len(text)
        head = HEAD_BYTES.match(bare)
    if not head:
        raise ValueError("this is no text of a map: it doesn't open with gmap, dim and darts")
    version, dimension, count = int(head[1]), int(head[2]), int(head[8])
    if version not in (1, 2):
        raise ValueError(f"a map has version 1 or 2, and not {version}")
    if (version == 2) != (head[7] is not None):
        raise ValueError("a map of version 2 tells its next name, and one of version 1 doesn't")
    if not 1 <= dimension <= 7:
        raise ValueError(f"a map has a dimension from 1 to 7, and not {dimension}")
    embeds = [
        Embed(name, tuple(sorted(map(int, labels.split()))), kind)
        for name, labels, kind in re.findall(EMBED, head[3].decode())
    ]
    width = dimension + 2 + sum(WIDTHS[embed.kind] for embed in embeds)
    body = text[after + head.end() - len(bare):] if after < len(text) else bare[head.end():]
    rows = read_numbers(body, width, count)
    return join_rows(version, dimension, embeds, head[7], rows)


def read_numbers(body: bytes, width: int, count: int) -> Whole:
    """The numbers of the darts' lines: count x width."""
    if body.translate(None, IN_ROWS):
        raise ValueError("after 'darts' stands something other than numbers and parentheses")
    numbers, has_plain_signs = scan_numbers(body)
    if not has_plain_signs:
        body = SPACED_MINUS.sub(b"-", body)
        if BARE_MINUS.search(body):
            raise ValueError("a sign stands after 'darts' with no number after it")
        numbers, _ = scan_numbers(body)
    if len(numbers) != width * count:
        raise ValueError(f"there are {len(numbers)} numbers after 'darts', and not {width} for each of {count} darts")
    return numbers.reshape(count, width)


def scan_numbers(text: bytes) -> tuple[Whole, bool]:
    """The numbers of a text of digits, blanks, parentheses and signs, and whether a digit stands right after each sign;
    ValueError at a number that doesn't fit in 64 bits."""
    letters = numpy.frombuffer(b"".join([b" " * EIGHT, text, b" "]), numpy.uint8)
    # eight letters from each one on, as one number
    eights: NDArray[numpy.uint64] = numpy.ndarray((len(letters) - EIGHT + 1,), "<u8", letters, strides=(1,))
    is_signed, apart = b"-" in text, 0
    parts, begin = [numpy.empty(0, numpy.int64)], EIGHT
    while begin < len(letters):
        end = min(begin + PIECE, len(letters) - 1)
        while letters[end] >= ZERO:
            end += 1
        is_digit = letters[begin - 1: end + 1] >= ZERO
        edges = numpy.flatnonzero(is_digit[1:] != is_digit[:-1])
        edges += begin
        begins, ends = edges[::2], edges[1::2]
        sizes = ends - begins
        numbers = join_digits(eights, ends - EIGHT, sizes)
        if is_signed:
            is_minus = letters[begins - 1] == MINUS
            apart += int(numpy.count_nonzero(letters[begin: end + 1] == MINUS) - numpy.count_nonzero(is_minus))
            numpy.negative(numbers, out=numbers, where=is_minus)
        for at in numpy.flatnonzero(sizes > SURE).tolist() if sizes.max(initial=0) > SURE else ():
            sign = -1 if letters[begins[at] - 1] == MINUS else 1
            number = sign * int(letters[begins[at]: ends[at]].tobytes())
            if not LEAST <= number <= MOST:
                raise ValueError("a number doesn't fit in 64 bits")
            numbers[at] = number
        parts.append(numbers)
        begin = end + 1
    return numpy.concatenate(parts), not apart


def join_digits(eights: NDArray[numpy.uint64], places: Whole, sizes: Whole) -> Whole:
    """The numbers that end after the eight letters from these places on, and have this many digits. Digits are joined
    by twos, fours and eights within words of 64 bits; the first letter is the lowest byte of its word."""
    found = eights[places]
    found &= LAST.take(numpy.minimum(sizes, EIGHT))
    for times, bits, mask in ((10, 8, 0x00FF00FF00FF00FF), (100, 16, 0x0000FFFF0000FFFF), (10_000, 32, 0xFFFFFFFF)):
        lower = found >> numpy.uint64(bits)
        found *= numpy.uint64(times)
        found += lower
        found &= numpy.uint64(mask)
    joined: Whole = found.view(numpy.int64)
    if sizes.max(initial=0) > EIGHT:
        longer = numpy.flatnonzero(sizes > EIGHT)
        joined[longer] += 10**EIGHT * join_digits(eights, places[longer] - EIGHT, sizes[longer] - EIGHT)
    return joined


def join_rows(version: int, dimension: int, embeds: list[Embed], stated: bytes | None, rows: Whole) -> Arrays:
    """The map whose darts have these rows: names, neighbours, and the numbers of their values."""
    names = rows[:, 0]
    if (names[1:] <= names[:-1]).any():
        rows = rows[numpy.argsort(names, kind="stable")]
        names = rows[:, 0]
        if (names[1:] == names[:-1]).any():
            raise ValueError("two darts have one name")
    alpha = numpy.ascontiguousarray(rows[:, 1:dimension + 2].T)
    is_plain = bool(len(names)) and names[0] == 0 and names[-1] == len(names) - 1
    if is_plain and alpha.min() >= 0 and alpha.max() < len(names):
        found = alpha
    else:
        found = numpy.minimum(numpy.searchsorted(names, alpha), max(len(names) - 1, 0))
    wrong = (names[found] != alpha).any(axis=1) if found is not alpha and len(names) else numpy.zeros(len(alpha), bool)
    if wrong.any():
        raise ValueError(f"a neighbour along label {int(numpy.argmax(wrong))} is no dart")
    values, place = {}, dimension + 2
    for embed in embeds:
        values[embed.name] = numpy.ascontiguousarray(rows[:, place:place + WIDTHS[embed.kind]])
        place += WIDTHS[embed.kind]
    least = int(names[-1]) + 1 if len(names) else 0
    following = least if stated is None else int(stated)
    return Arrays(version, dimension, embeds, following, numpy.ascontiguousarray(names), found, values)


def load_arrays(path: str | os.PathLike[str]) -> Arrays:
    """The map of a file, judged by the program first: what it refuses is passed on as program.Refused."""
    return read_arrays(program.bytes_of_file("show", path))


def least_of_orbits(steps: "Sequence[Whole]", count: int) -> "Whole":
    """For each row the least one of its orbit over the steps, which lead from row to row and back."""
    numpy = program.needs("numpy", "python3-numpy")
    least = numpy.arange(count)
    while True:
        found = least
        for step in steps:
            found = numpy.minimum(found, found[step])
        found = found[found]
        if (found == least).all():
            return least  # type: ignore[no-any-return]
        least = found
