"""Files of text as their words, found all at once by arrays, with the lines where they stand; and numbers of words."""
import re
from collections.abc import Callable, Sequence
from itertools import chain
from pathlib import Path

import numpy as np
from numpy.typing import NDArray

from gmr.mesh.decimals import Decimals, Whole, parse_letters, parse_words, whole_letters
from gmr.mesh.model import Unfit

WIDEST = 64  # letters of a word that is read beside all others
STROKE, LINE_FEED, TAB, RETURN, SPACE = 47, 10, 9, 13, 32


class Words:
    """The words of a text, by the places of their letters. A row is a line that has any: `rows` has its first word,
    `sizes` how many it has, and `lines` its number from 1. Where statements go on, a line that ends with a backslash
    is one row with the next."""

    def __init__(self, data: bytes, comment: bytes = b"#", goes_on: bool = False) -> None:
        if b"\r" in data:
            data = data.replace(b"\r\n", b"\n").replace(b"\r", b"\n")
        if comment and comment in data:
            data = re.sub(re.escape(comment) + rb"[^\n]*", b"", data)
        is_broken = goes_on and b"\\" in data
        if is_broken:
            data = re.sub(rb"\\[ \t]*\n", b" \v", data)     # counts as a line, and ends none
        self.data = b"\n" + data + b"\n" * WIDEST     # so that a place after any word's end is there
        self.letters = np.frombuffer(self.data, np.uint8)
        is_word = (self.letters != SPACE) & (self.letters - np.uint8(TAB) > RETURN - TAB)
        edges = np.flatnonzero(is_word[1:] != is_word[:-1]) + 1
        self.begins, self.ends = edges[::2], edges[1::2]
        feeds = np.flatnonzero(self.letters == LINE_FEED)
        firsts = np.searchsorted(self.begins, feeds)
        sizes = np.diff(firsts, append=len(self.begins))
        filled = np.flatnonzero(sizes)
        self.rows, self.sizes, self.lines = firsts[filled], sizes[filled], filled + 1
        if is_broken:
            self.lines += np.searchsorted(np.flatnonzero(self.letters == ord("\v")), feeds[filled])

    def __len__(self) -> int:
        return len(self.rows)

    def word(self, place: int) -> bytes:
        """A word."""
        return self.data[self.begins[place]: self.ends[place]]

    def row(self, index: int) -> list[bytes]:
        """The words of a row."""
        return [self.word(place) for place in range(self.rows[index], self.rows[index] + self.sizes[index])]

    def heads(self) -> NDArray[np.uint8]:
        """The letter that begins each row, where that is a word of one letter, else 0."""
        is_alone = self.ends[self.rows] - self.begins[self.rows] == 1
        return np.where(is_alone, self.letters[self.begins[self.rows]], 0).astype(np.uint8)

    def select(self, places: Whole, ends: Whole | None = None) -> tuple[NDArray[np.uint8], Whole] | None:
        """The letters of words, with zeros after them, a row for each place in a word, and how many each has; None
        where one is too wide. `ends` is where they end, if that isn't where the words do."""
        begins = self.begins[places]
        sizes = (self.ends[places] if ends is None else ends) - begins
        width = int(sizes.max(initial=0))
        if width > WIDEST:
            return None
        # eight letters from each one on, as one number
        eights: NDArray[np.uint64] = np.ndarray((len(self.letters) - 7,), "<u8", self.letters, strides=(1,))
        parts = [eights[begins + first].view(np.uint8).reshape(-1, 8).T for first in range(0, max(width, 1), 8)]
        found = np.concatenate(parts)[:width]
        for letter in range(width):
            found[letter] *= sizes > letter
        return found, sizes

    def decimals(self, places: Whole) -> tuple[Decimals, NDArray[np.bool_]]:
        """The numbers that words are, and which words are none."""
        selected = self.select(places)
        if selected is None:
            return parse_words(list(map(self.word, places.tolist())))
        return parse_letters(*selected, lambda index: self.word(places[index]))

    def whole(self, places: Whole, ends: Whole | None = None) -> tuple[Whole, int | None]:
        """The whole numbers that words are, and the place among them of the first word that is none."""
        selected = self.select(places, ends)
        found = whole_letters(*selected) if selected else None
        if found is not None:
            return found, None
        stops = (self.ends[places] if ends is None else ends).tolist()
        return parse_whole([self.data[begin:end] for begin, end in zip(self.begins[places].tolist(), stops)])

    def points(self, rows: Whole, skip: int, where: Callable[[int], str]) -> Decimals:
        """Points of three words each, after a number of others; Unfit at the first row that hasn't three numbers there,
        which stands at its `where`."""
        short = self.sizes[rows] < skip + 3
        wrong = int(np.argmax(short)) if short.any() else None
        if wrong is None:
            numbers, is_wrong = self.decimals((self.rows[rows][:, None] + np.arange(skip, skip + 3)).ravel())
            if not is_wrong.any():
                return numbers.reshape(-1, 3)
            wrong = int(np.argmax(is_wrong)) // 3
        raise Unfit(tell_no_point(self.row(rows[wrong])[skip: skip + 3], where(wrong)))


def spread(begins: Whole, sizes: Whole) -> Whole:
    """The places from each begin on, as many as its size, one after another."""
    found: Whole = np.repeat(begins - (np.cumsum(sizes) - sizes), sizes) + np.arange(int(sizes.sum()))
    return found


def read_bytes(path: Path) -> bytes:
    """The bytes of a file, UTF-16 with a mark being turned to UTF-8, and without that one's mark."""
    data = path.read_bytes()
    if data[:2] in (b"\xff\xfe", b"\xfe\xff"):
        return data.decode("utf-16", "replace").encode()
    return data.removeprefix(b"\xef\xbb\xbf")


def show_word(word: bytes) -> str:
    """A word of a file as a message tells it."""
    text = word.decode("utf-8", "replace")
    return f"'{text}'" if len(text) < 40 else f"'{text[:40]}..'"


def show_words(words: Sequence[bytes]) -> str:
    """Words of a file as a message tells them."""
    return show_word(b" ".join(words))


def tell_no_point(words: Sequence[bytes], where: str) -> str:
    """The line for words that are no point."""
    return f"{where} is three numbers, and not {show_words(words) if words else 'none'}"


def parse_places(rows: Sequence[Sequence[bytes]], where: Callable[[int], str]) -> Decimals:
    """Points of three words each; Unfit at the first that isn't three numbers, which stands at its `where`."""
    wrong = next((index for index, row in enumerate(rows) if len(row) != 3), None)
    if wrong is None:
        numbers, is_wrong = parse_words(list(chain.from_iterable(rows)))
        if not is_wrong.any():
            return numbers.reshape(-1, 3)
        wrong = int(np.argmax(is_wrong)) // 3
    raise Unfit(tell_no_point(rows[wrong], where(wrong)))


def parse_whole(words: Sequence[bytes]) -> tuple[Whole, int | None]:
    """Whole numbers of words, and the place of the first word that is none."""
    numbers, is_wrong = parse_words(words)
    is_wrong = is_wrong | (numbers.powers < 0) | (numbers.powers > 12)
    if is_wrong.any():
        return np.empty(0, np.int64), int(np.argmax(is_wrong))
    return numbers.digits * 10 ** numbers.powers, None


def parse_colours(rows: Sequence[Sequence[bytes]]) -> Whole | None:
    """Colours of three words each: whole numbers from 0 to 255, or fractions from 0 to 1 in a row where one has a
    point; None where some are no numbers."""
    flat = list(chain.from_iterable(rows))
    numbers, is_wrong = parse_words(flat)
    if is_wrong.any() or len(flat) != 3 * len(rows):
        return None
    values = numbers.floats().reshape(-1, 3)
    is_pointed = np.array([any(sign in word for sign in b".eE") for word in flat], bool).reshape(-1, 3).any(axis=1)
    parts = np.where(is_pointed[:, None], np.clip(values, 0, 1) * 255, np.clip(values, 0, 255))
    found: Whole = np.rint(parts).astype(np.int64)
    return found
