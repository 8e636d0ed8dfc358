"""Points and faces as the lines of files of text, all at once by numpy's arrays."""
from collections.abc import Sequence

import numpy as np
from numpy.typing import NDArray

from gmr.arrays import print_numbers
from gmr.mesh.decimals import MOST_DIGITS, TENS, Decimals, Whole

Bytes = NDArray[np.uint8]
CHUNK = 100_000


def print_points(places: Decimals, head: bytes = b"", tails: Sequence[bytes] | None = None) -> bytes:
    """A line for each point: a head, three decimals as short as they can be, and a tail."""
    ends = np.array([tail + b"\n" for tail in tails] if tails is not None else [b"\n"], np.bytes_)
    found = []
    for begin in range(0, len(places), CHUNK):
        part = places[begin: begin + CHUNK]
        pieces = [column(head, len(part))]
        for axis in range(3):
            pieces += [column(b" ", len(part))] if axis else []
            pieces.append(print_decimals(part[:, axis]))
        tail = ends[begin: begin + CHUNK] if tails is not None else np.repeat(ends, len(part))
        found.append(squeeze([*pieces, as_bytes(tail)]))
    return b"".join(found)


def print_faces(corners: Whole, sizes: Whole, head: bytes | None = None, tails: Sequence[bytes] | None = None) -> bytes:
    """A line for each face: a head, or how many corners it has, its corners with blanks between them, and a tail."""
    if not len(corners):
        return b""
    begins = np.cumsum(sizes) - sizes
    kinds, kind = np.unique(sizes, return_inverse=True)
    heads = as_bytes(np.array([head or b"%d " % size for size in kinds.tolist()], np.bytes_))
    lead = np.zeros((len(corners), heads.shape[1]), np.uint8)
    lead[begins] = heads[kind]
    between = np.full((len(corners), 1), 32, np.uint8)
    between[begins] = 0
    lines = as_bytes(np.array([tail + b"\n" for tail in tails] if tails is not None else [b"\n"], np.bytes_))
    ends = np.zeros((len(corners), lines.shape[1]), np.uint8)
    ends[begins + sizes - 1] = lines
    return squeeze([lead, between, print_numbers(corners), ends])


def as_bytes(words: NDArray[np.bytes_]) -> Bytes:
    """Words as rows of bytes, those of value 0 after them."""
    return np.ascontiguousarray(words).view(np.uint8).reshape(len(words), words.dtype.itemsize)


def column(word: bytes, count: int) -> Bytes:
    """A word, `count` times."""
    return np.broadcast_to(np.frombuffer(word, np.uint8), (count, len(word)))


def squeeze(pieces: Sequence[Bytes]) -> bytes:
    """Rows of bytes one after another, without those of value 0."""
    flat = np.concatenate(pieces, axis=1).ravel()
    return bytes(flat[flat != 0].tobytes())


def print_decimals(numbers: Decimals) -> Bytes:
    """Decimals as rows of bytes, without an exponent, and without a point where they are whole."""
    places = numbers.least_power()
    spread = numbers.powers + places
    size = np.abs(numbers.digits.astype(np.float64)) * 10.0 ** np.clip(spread, 0, 60)
    if places > MOST_DIGITS or size.max(initial=0) > 9e18:
        return as_bytes(np.array([tell_long(*one) for one in zip(numbers.digits.tolist(), numbers.powers.tolist())],
                                 np.bytes_))
    digits = numbers.digits * TENS[spread]
    unsigned = np.abs(digits)
    whole, part = unsigned // TENS[places], unsigned % TENS[places]
    sign = np.where(digits < 0, 45, 0).astype(np.uint8)[:, None]
    if not places:
        return np.concatenate([sign, print_numbers(whole)], axis=1)
    found = np.zeros((len(digits), places + 1), np.uint8)
    found[:, 0] = np.where(part > 0, 46, 0)
    for place in range(1, places + 1):
        rest = part % TENS[places - place + 1]
        found[:, place] = np.where(rest > 0, rest // TENS[places - place] + 48, 0)
    return np.concatenate([sign, print_numbers(whole), found], axis=1)


def tell_long(digits: int, power: int) -> bytes:
    """One decimal, with an exponent where it would have many zeros."""
    if power > 0:
        return f"{digits}e{power}".encode() if power > MOST_DIGITS else str(digits * 10**power).encode()
    text = str(abs(digits)).rjust(1 - power, "0")
    if len(text) > 25:
        return f"{digits}e{power}".encode()
    split = len(text) + power
    told = f"{'-' if digits < 0 else ''}{text[:split]}.{text[split:]}"
    return (told.rstrip("0").rstrip(".") if power else str(digits)).encode()
