"""The map as it is, kept up row by row: of a new text only the lines that the old one hasn't are read."""
import numpy as np

from gmr.arrays import Arrays, Whole, read_arrays, read_numbers
from gmr.maps import WIDTHS, Map
from gmr.view.scene import Differences, compare_rows, find_differences

CHUNK = 65_536      # bytes that are compared at once
PART = 8_192        # bytes whose lines are compared where something differs
MOST_READ = 4096    # lines that differ; where there are more, all of the text is read


class Live:
    """A map of version 2 as the program saved it, and its text."""

    def __init__(self, text: bytes) -> None:
        self.arrays = read_arrays(text)
        self.map = Map.of_arrays(self.arrays)
        self.text = text

    def move_to(self, text: bytes) -> Differences:
        """Becomes the map of another text of the same dimension and embeddings, and tells what differs. The map that
        was there before stays as it is."""
        head, before = text[:body_of(text)], self.arrays
        differing = find_differing(self.text, text)
        if differing is None:
            arrays = read_arrays(text)
            found = find_differences(before, arrays)
        else:
            gone, rows = np.array(differing[0], np.int64), read_rows(before, differing[1])
            arrays = taken(before, gone, rows, next_of(head))
            found = differences_of(before, arrays, gone, rows[:, 0])
        self.arrays, self.text, self.map = arrays, text, Map.of_arrays(arrays)
        return found


def differences_of(before: Arrays, after: Arrays, gone: Whole, names: Whole) -> Differences:
    """What differs where these darts went, and of the others only these are new or other ones."""
    new, old = np.searchsorted(after.names, names), np.searchsorted(before.names, names)
    is_known = before.names[np.minimum(old, max(len(before.names) - 1, 0))] == names if len(before.names) else old < 0
    return compare_rows(before, after, gone, new[~is_known], (old[is_known], new[is_known]))


def body_of(text: bytes) -> int:
    """Where the lines of the darts begin in a map's canonical text."""
    return text.index(b"\n", text.index(b"\ndarts ") + 1) + 1


def next_of(head: bytes) -> int:
    """The next name that the head of a text of version 2 tells."""
    return int(head.rsplit(b"\nnext ", 1)[1].split(b"\n", 1)[0])


def name_of(line: bytes) -> int:
    """The name of the dart of a line."""
    return int(line.split(b" ", 1)[0])


def find_differing(old: bytes, new: bytes) -> tuple[list[int], list[bytes]] | None:
    """The names of the darts that have a line in the old text alone, and the lines of the new one that the old one
    hasn't; None where there are many. The lines of both are sorted by the names of their darts."""
    gone: list[int] = []
    lines: list[bytes] = []
    here, there = body_of(old), body_of(new)
    while here < len(old) or there < len(new):
        if old[here:here + CHUNK] == new[there:there + CHUNK]:
            here, there = min(here + CHUNK, len(old)), min(there + CHUNK, len(new))
            continue
        here, there = old.rfind(b"\n", 0, here) + 1, new.rfind(b"\n", 0, there) + 1
        left, right = part_of(old, here), part_of(new, there)
        ends = [here + sum(map(len, left)) == len(old), there + sum(map(len, right)) == len(new)]
        trim(left, None if ends[1] else right)
        trim(right, None if ends[0] else left)
        here, there = here + sum(map(len, left)), there + sum(map(len, right))
        were, are = set(left), set(right)
        fresh = [line for line in right if line not in were]
        lines += fresh
        gone += sorted({name_of(line) for line in left if line not in are} - set(map(name_of, fresh)))
        if len(gone) + len(lines) > MOST_READ:
            return None
    return gone, lines


def part_of(text: bytes, begin: int) -> list[bytes]:
    """Some of a text's lines from one that begins there, each with its end."""
    return text[begin:text.find(b"\n", begin + PART) + 1 or len(text)].splitlines(keepends=True)


def trim(lines: list[bytes], others: list[bytes] | None) -> None:
    """Takes away the last lines whose names are behind all of the other text's lines; none, where those are the last
    ones of their text."""
    bound = name_of(others[-1]) if others else None
    while lines and bound is not None and name_of(lines[-1]) > bound:
        lines.pop()


def read_rows(it: Arrays, lines: list[bytes]) -> Whole:
    """The numbers of lines of darts."""
    wide = it.dimension + 2 + sum(WIDTHS[embed.kind] for embed in it.embeds)
    return read_numbers(b"".join(lines), wide, len(lines))


def taken(it: Arrays, gone: Whole, rows: Whole, following: int) -> Arrays:
    """The map with rows, without the darts that are gone, and with this next name."""
    fresh = np.setdiff1d(rows[:, 0], it.names, assume_unique=True)
    if not len(gone) and not len(fresh):
        names, alpha, values = it.names, it.alpha.copy(), {name: table.copy() for name, table in it.values.items()}
    else:
        names, alpha, values = moved(it, gone, fresh)
    at = np.searchsorted(names, rows[:, 0])
    for label in range(it.dimension + 1):
        alpha[label, at] = np.searchsorted(names, rows[:, 1 + label])
    place = it.dimension + 2
    for embed in it.embeds:
        values[embed.name][at] = rows[:, place:place + WIDTHS[embed.kind]]
        place += WIDTHS[embed.kind]
    return Arrays(it.version, it.dimension, it.embeds, following, names, alpha, values)


def moved(it: Arrays, gone: Whole, fresh: Whole) -> tuple[Whole, Whole, dict[str, Whole]]:
    """The names, neighbours and values of a map without some darts and with room for others, whose rows are to be
    written yet."""
    kept = np.arange(len(it.names))
    if len(gone):
        kept = np.flatnonzero(np.isin(it.names, gone, invert=True, assume_unique=True))
    names = it.names[kept]
    names = np.insert(names, np.searchsorted(names, fresh), fresh)
    place = np.searchsorted(names, it.names)
    alpha = np.zeros((it.dimension + 1, len(names)), np.int64)
    values = {}
    for label, step in enumerate(it.alpha):
        alpha[label, place[kept]] = place[step[kept]]
    for embed in it.embeds:
        values[embed.name] = np.zeros((len(names), WIDTHS[embed.kind]), np.int64)
        values[embed.name][place[kept]] = it.values[embed.name][kept]
    return names, alpha, values
