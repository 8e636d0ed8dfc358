"""Decimal fractions as numpy's arrays of whole numbers, exact: as files have them, not as 64 bits round them.

A number is `digits` times ten to the power of `powers`. Where a file has more than eighteen digits, the first eighteen
are kept. What is no finite number has the power NONE."""
from __future__ import annotations

from collections.abc import Callable, Sequence
from dataclasses import dataclass
from fractions import Fraction
from typing import Any

import numpy as np
from numpy.typing import NDArray

Whole = NDArray[np.int64]
Floats = NDArray[np.float64]

NONE = 1 << 20  # the power of what is no number
MOST_DIGITS = 18
EXACT_FLOAT = 22  # powers of ten up to this one are exact as numbers of 64 bits
TENS = 10 ** np.arange(19, dtype=np.int64)


@dataclass(frozen=True)
class Decimals:
    """Numbers in an array of any shape; both arrays have that shape."""

    digits: Whole
    powers: Whole
    is_exact: bool = True  # whether no number had more digits than are kept

    def __len__(self) -> int:
        return len(self.digits)

    def __getitem__(self, index: Any) -> Decimals:
        return Decimals(self.digits[index], self.powers[index], self.is_exact)

    def reshape(self, *shape: int) -> Decimals:
        """The same numbers in another shape."""
        return Decimals(self.digits.reshape(shape), self.powers.reshape(shape), self.is_exact)

    @property
    def is_number(self) -> NDArray[np.bool_]:
        """Whether each is a finite number."""
        return np.not_equal(self.powers, NONE)

    def floats(self) -> Floats:
        """The nearest numbers of 64 bits, or the one beside it where there are many digits; NaN where there is none."""
        powers = np.clip(self.powers, -330, 330)
        digits = self.digits.astype(np.float64)
        with np.errstate(over="ignore", invalid="ignore"):
            small = digits / 10.0 ** np.clip(-powers, 0, EXACT_FLOAT)
            small /= 10.0 ** np.clip(-powers - EXACT_FLOAT, 0, 300)
            found = np.where(powers < 0, small, digits * 10.0 ** np.clip(powers, 0, 308))
        return np.where(self.is_number, found, np.nan)

    def least_power(self) -> int:
        """The least power of ten at which all are whole when they are multiplied by it: 0 or more."""
        return max(0, -int(self.powers[self.is_number].min(initial=0)))

    def rounding(self) -> float:
        """How far the numbers of 64 bits are from these points at most, in their units."""
        floats, long = self.floats(), np.argwhere((np.abs(self.digits) > 2**53) & self.is_number)
        off = (abs(Fraction(float(floats[row, axis])) - self.fraction((row, axis))) for row, axis in long.tolist())
        return float(max(off, default=0))

    def fraction(self, index: tuple[int, ...]) -> Fraction:
        """One of the numbers."""
        return Fraction(int(self.digits[index])) * Fraction(10) ** int(self.powers[index])


def trim(digits: Whole, powers: Whole, is_exact: bool = True) -> Decimals:
    """The numbers without zeros after their digits; 0 has the power 0."""
    digits, powers = digits.copy(), powers.copy()
    powers[(digits == 0) & (powers != NONE)] = 0
    open_places = np.nonzero((digits != 0) & (digits % 10 == 0))
    while len(open_places[0]):
        digits[open_places] //= 10
        powers[open_places] += 1
        still = digits[open_places] % 10 == 0
        open_places = tuple(place[still] for place in open_places)
    return Decimals(digits, powers, is_exact)


def parse_words(words: Sequence[bytes] | NDArray[np.bytes_]) -> tuple[Decimals, NDArray[np.bool_]]:
    """The numbers that words are, and which words are none: a sign, digits with a point, and an exponent.

    Words as `nan` and `inf`, and digits of other scripts or with a line between them, are none.
    """
    packed = np.array(words, dtype=np.bytes_)
    letters = np.ascontiguousarray(packed).view(np.uint8).reshape(len(packed), packed.dtype.itemsize).T
    return parse_letters(np.ascontiguousarray(letters), np.fromiter(map(len, words), np.int64, len(words)),
                         lambda index: words[index])


def parse_letters(
    letters: NDArray[np.uint8], sizes: Whole, word: Callable[[int], bytes]
) -> tuple[Decimals, NDArray[np.bool_]]:
    """The same of the letters of words, a row for each place in a word with zeros after its end, and how many each
    has; `word` tells one of them."""
    digits, powers, is_plain = scan_plain(letters, sizes)
    is_wrong, is_exact = np.zeros(len(sizes), bool), True
    others = np.flatnonzero(~is_plain)
    if len(others):
        columns = np.ascontiguousarray(letters[:, others])
        digits[others], powers[others], wrong, is_long = scan_columns(columns)
        wrong |= (sizes[others] == 0) | ((columns != 0).sum(axis=0) != sizes[others])
        is_wrong[others] = wrong
        for index in others[is_long & ~wrong].tolist():
            digits[index], powers[index], is_kept = parse_long(word(index))
            is_exact &= is_kept
        digits[is_wrong], powers[is_wrong] = 0, NONE
    return trim(digits, powers, is_exact), is_wrong


def scan_plain(letters: NDArray[np.uint8], sizes: Whole) -> tuple[Whole, Whole, NDArray[np.bool_]]:
    """Reads words of a sign, some digits and a point: digits, powers, and which words are such."""
    values = letters - np.uint8(ord("0"))
    is_digit = values <= 9
    is_point = letters == ord(".")
    minus = letters[0] == ord("-") if len(letters) else np.zeros(len(sizes), bool)
    is_signed = minus | (letters[0] == ord("+")) if len(letters) else minus
    counts, points = is_digit.sum(axis=0, dtype=np.int64), is_point.sum(axis=0, dtype=np.int64)
    is_plain = (counts + points + is_signed == sizes) & (points <= 1) & (counts > 0) & (counts <= MOST_DIGITS)
    digits, powers = np.zeros(len(sizes), np.int64), np.zeros(len(sizes), np.int64)
    behind = np.zeros(len(sizes), bool)
    for row in range(len(letters)):
        digits *= np.where(is_digit[row], 10, 1)
        digits += values[row] * is_digit[row]
        powers -= is_digit[row] & behind
        behind |= is_point[row]
    return np.where(minus, -digits, digits), powers, is_plain


def whole_letters(letters: NDArray[np.uint8], sizes: Whole) -> Whole | None:
    """The whole numbers that the letters of words are, where all are digits alone, and not many; else None."""
    if len(letters) > MOST_DIGITS or not len(letters):
        return None
    values = letters - np.uint8(ord("0"))
    is_digit = values <= 9
    if (is_digit.sum(axis=0) != sizes).any() or not sizes.all():
        return None
    digits: Whole = values[0].astype(np.int64)
    for value, is_one in zip(values[1:], is_digit[1:]):
        digits *= np.where(is_one, 10, 1)
        digits += value * is_one
    return digits


def scan_columns(columns: NDArray[np.uint8]) -> tuple[Whole, Whole, NDArray[np.bool_], NDArray[np.bool_]]:
    """Reads words letter by letter, all at once: digits, powers, which are no numbers, and which have many digits."""
    count = columns.shape[1]
    digits, places, exponent = (np.zeros(count, np.int64) for _ in range(3))
    seen, behind_point, in_exponent, shown = (np.zeros(count, bool) for _ in range(4))
    minus, exponent_minus, is_wrong = (np.zeros(count, bool) for _ in range(3))
    many = np.zeros(count, np.int64)
    before = np.zeros(count, np.uint8)
    for letters in columns:
        is_digit = (letters >= 48) & (letters <= 57)
        value = letters.astype(np.int64) - 48
        plain = is_digit & ~in_exponent
        many += plain & ((digits != 0) | (value != 0))
        digits = np.where(plain & (many <= MOST_DIGITS), digits * 10 + value, digits)
        places += plain & behind_point
        seen |= plain
        of_exponent = is_digit & in_exponent
        exponent = np.where(of_exponent & (exponent < 10**6), exponent * 10 + value, exponent)
        shown |= of_exponent
        is_sign = (letters == 43) | (letters == 45)
        after_e = (before == 101) | (before == 69)
        minus |= (letters == 45) & (before == 0)
        exponent_minus |= (letters == 45) & after_e
        is_point = letters == 46
        is_e = (letters == 101) | (letters == 69)
        is_wrong |= is_point & (behind_point | in_exponent) | is_e & (in_exponent | ~seen)
        is_wrong |= is_sign & (before != 0) & ~after_e | (letters != 0) & ~(is_digit | is_sign | is_point | is_e)
        behind_point |= is_point
        in_exponent |= is_e
        before = np.where(letters != 0, letters, before)
    is_wrong |= ~seen | in_exponent & ~shown
    powers = np.where(exponent_minus, -exponent, exponent) - places
    return np.where(minus, -digits, digits), powers, is_wrong, many > MOST_DIGITS


def parse_long(word: bytes) -> tuple[int, int, bool]:
    """The digits and the power of a number with many digits: all where they fit in 63 bits, else the first eighteen,
    rounded; and whether it is all of them."""
    text = word.lower().partition(b"e")
    power = int(text[2] or 0) - len(text[0].partition(b".")[2])
    whole = int(text[0].replace(b".", b""))
    while whole and whole % 10 == 0:
        whole, power = whole // 10, power + 1
    extra = 0 if abs(whole) < 2**63 else max(0, len(str(abs(whole))) - MOST_DIGITS)
    return round(Fraction(whole, 10**extra)), power + extra, not extra


def shorten(values: Floats, single: bool = False) -> Decimals:
    """The shortest decimals that stand for numbers of 64 bits, or of 32 where `single`."""
    flat = np.asarray(values, np.float64).ravel()
    digits, powers = np.zeros(len(flat), np.int64), np.full(len(flat), NONE, np.int64)
    finite = np.isfinite(flat)
    powers[finite & (flat == 0)] = 0
    rest = np.nonzero(finite & (flat != 0))[0]
    for count in (6, 7, 8, 9) if single else (15,):
        value = flat[rest]
        with np.errstate(over="ignore", invalid="ignore", divide="ignore", under="ignore"):
            power = np.floor(np.log10(np.abs(value))).astype(np.int64) - (count - 1)
            factor = 10.0 ** np.minimum(np.abs(power), 300)
            whole = np.rint(np.where(power < 0, value * factor, value / factor))
            back = np.where(power < 0, whole / factor, whole * factor)
            is_same = back.astype(np.float32) == value.astype(np.float32) if single else back == value
            is_same &= (np.abs(power) <= EXACT_FLOAT) & (np.abs(whole) < 2.0**53)
        digits[rest[is_same]], powers[rest[is_same]] = whole[is_same].astype(np.int64), power[is_same]
        rest = rest[~is_same]
    left: NDArray[Any] = flat[rest].astype(np.float32) if single else flat[rest]
    told, _ = parse_words(left.astype("S40"))  # as the shortest texts that stand for them
    digits[rest], powers[rest] = told.digits, told.powers
    return trim(digits, powers).reshape(*np.shape(values))


def of_fractions(numbers: Sequence[Fraction]) -> Decimals:
    """Fractions whose denominators are those of decimals, or rounded to some eighteen digits."""
    parts = [of_fraction(number) for number in numbers]
    digits, powers, kept = zip(*parts) if parts else ((), (), ())
    return Decimals(np.array(digits, np.int64), np.array(powers, np.int64), all(kept))


def of_fraction(number: Fraction) -> tuple[int, int, bool]:
    """The digits and the power of a fraction, and whether it is all of them."""
    power = 0
    while number and abs(number) < 10**17 and number.denominator != 1:
        number, power = number * 10, power - 1
    is_whole = number.denominator == 1
    while abs(number) >= 2**63:
        number, power = number / 10, power + 1
        is_whole &= number.denominator == 1
    return round(number), power, is_whole


def multiply(numbers: Decimals, scale: Fraction) -> tuple[Whole, NDArray[np.bool_], float]:
    """The numbers times a scale, each rounded to the nearest whole number, an even one where two are as near.

    Beside them which don't fit in 64 bits, and how far the greatest rounding goes, in units.
    """
    power = power_of(scale)
    if power is None:
        return multiply_slowly(numbers, scale)
    shifts = np.where(numbers.is_number, numbers.powers + power, 0)
    too_great = np.log10(np.maximum(np.abs(numbers.digits.astype(np.float64)), 1)) + shifts > 18.9
    too_great &= numbers.digits != 0
    up = TENS[np.clip(np.where(too_great, 0, shifts), 0, 18)]
    down_by = np.clip(-shifts, 0, 18)
    down = TENS[down_by]
    quotient, rest = np.divmod(numbers.digits, down)
    is_up = (2 * rest.astype(np.uint64) > down.astype(np.uint64)) | ((2 * rest == down) & (quotient % 2 == 1))
    rounded = np.where(shifts < 0, quotient + is_up, numbers.digits * up)
    rounded = np.where(-shifts > 18, 0, rounded)
    off = np.where(shifts < 0, np.minimum(rest, down - rest) / down, 0)
    gone = np.abs(numbers.digits) / TENS[18] * 10.0 ** -np.clip(-shifts - 18, 0, 300)
    off = np.where(-shifts > 18, gone, off)
    return rounded, too_great, float(off.max(initial=0))


def multiply_slowly(numbers: Decimals, scale: Fraction) -> tuple[Whole, NDArray[np.bool_], float]:
    """The same for a scale that is no power of ten, number by number."""
    found = np.zeros(numbers.digits.shape, np.int64)
    too_great = np.zeros(found.shape, bool)
    most = Fraction(0)
    for index in np.ndindex(found.shape):
        exact = numbers.fraction(index) * scale if numbers.is_number[index] else Fraction(0)
        whole = round(exact)
        most = max(most, abs(exact - whole))
        too_great[index] = not -(2**63) <= whole < 2**63
        found[index] = 0 if too_great[index] else whole
    return found, too_great, float(most)


def power_of(scale: Fraction) -> int | None:
    """The power of ten that a scale is, or None."""
    text = str(max(scale.numerator, scale.denominator))
    if 1 not in (scale.numerator, scale.denominator) or text.strip("0") != "1" or not text.startswith("1"):
        return None
    return (len(text) - 1) * (1 if scale.denominator == 1 else -1)


def subtract(numbers: Decimals, origin: Sequence[Fraction]) -> Decimals:
    """Points (n x 3) from an origin, exact as far as eighteen digits go."""
    columns = [subtract_one(numbers[:, axis], origin[axis]) for axis in range(3)]
    return stack(columns)


def stack(columns: Sequence[Decimals]) -> Decimals:
    """Columns of numbers side by side."""
    return Decimals(
        np.stack([one.digits for one in columns], 1),
        np.stack([one.powers for one in columns], 1),
        all(one.is_exact for one in columns),
    )


def subtract_one(numbers: Decimals, number: Fraction) -> Decimals:
    """Numbers less one number."""
    off = of_fractions([number])
    lower = np.minimum(numbers.powers, off.powers[0])
    up, other = numbers.powers - lower, int(off.powers[0]) - lower
    with np.errstate(over="ignore"):
        size = np.abs(numbers.digits.astype(np.float64)) * 10.0**up + abs(float(off.digits[0])) * 10.0**other
    is_quick = (size < 9e17) & numbers.is_number
    digits = numbers.digits * TENS[np.clip(up, 0, 18)] - off.digits[0] * TENS[np.clip(other, 0, 18)]
    digits, powers = np.where(is_quick, digits, 0), np.where(is_quick, lower, NONE)
    slow = np.nonzero(~is_quick & numbers.is_number)[0]
    exact = of_fractions([numbers.fraction((int(index),)) - number for index in slow])
    digits[slow], powers[slow] = exact.digits, exact.powers
    return trim(digits, powers, numbers.is_exact and off.is_exact and exact.is_exact)
