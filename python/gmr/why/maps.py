"""Why a text stands for no map, and in what a map and a book differ."""
import re
import shlex
from collections.abc import Iterator
from typing import NamedTuple

from gmr.books import COMMENT, Book
from gmr.expressions import show
from gmr.maps import EMBED, HEAD, WIDTHS, Embed, Map, Value
from gmr.places import marked, tell_place


class Row(NamedTuple):
    """A dart's row in the text of a map, and where it begins and ends."""
    name: int
    near: list[int]
    values: list[Value]
    begin: int
    end: int


class Rows:
    """The head and the rows of a text that has the form of a map, whatever its names and neighbours are."""

    def __init__(self, text: str) -> None:
        self.text = COMMENT.sub(lambda comment: " " * len(comment[0]), text)
        head = HEAD.match(self.text)
        assert head is not None, "a text of the form of a map has a head"
        self.begin, self.dimension, self.next = head.end(), int(head[2]), int(head[7] or 0)
        self.embeds = [Embed(name, tuple(sorted(map(int, labels.split()))), kind)
                       for name, labels, kind in re.findall(EMBED, head[3])]
        more = self.dimension + 1 + sum(WIDTHS[embed.kind] for embed in self.embeds)
        end = r"\s*\)" if self.embeds and WIDTHS[self.embeds[-1].kind] > 1 else ""
        self.form = re.compile(rf"([0-9]+)(?:[^0-9]+[0-9]+){{{more}}}{end}")

    def names(self) -> Iterator[int]:
        """The names of the rows."""
        return (int(found[1]) for found in self.form.finditer(self.text, self.begin))

    def named(self, dart: int) -> list[Row]:
        """The rows with a name."""
        return [self.row(found) for found in self.form.finditer(self.text, self.begin) if int(found[1]) == dart]

    def row(self, found: re.Match[str]) -> Row:
        """A row that was found in the text."""
        numbers = [int(sign + digits) for sign, digits in re.findall(r"(-?)\s*([0-9]+)", found[0])]
        near, rest = numbers[1:self.dimension + 2], numbers[self.dimension + 2:]
        values: list[Value] = []
        for embed in self.embeds:
            width = WIDTHS[embed.kind]
            values.append(rest[0] if width == 1 else tuple(rest[:width]))
            rest = rest[width:]
        return Row(numbers[0], near, values, found.start(), found.end())


def tell_map(path: str, text: str, fault: list[str]) -> list[str]:
    """Why a text of the form of a map stands for none, by the words of a fault that has no place."""
    rows, kind = Rows(text), fault[0]
    numbers = [int(word) for word in fault if word.isdigit()]
    first = rows.named(numbers[0])
    lines = tell_place(path, text, first[0].begin, first[0].end)
    if kind == "dart-twice":
        return lines + marked(text, first[1].begin, first[1].end) + [f"Two lines have the name {numbers[0]}; give "
                                                                     "one of them another."]
    if kind == "next":
        greatest = max(rows.names())
        return lines + [f"The text says `next {rows.next}`, and dart {numbers[0]} isn't below that. Write at least "
                        f"`next {greatest + 1}`."]
    return lines + LAWS[kind](text, rows, first[0], fault, numbers)


def tell_target(_text: str, _rows: Rows, row: Row, _fault: list[str], numbers: list[int]) -> list[str]:
    """A neighbour is no dart."""
    return [f"Along {numbers[1]} dart {row.name} leads to {row.near[numbers[1]]}, and no line has that name."]


def tell_involution(text: str, rows: Rows, row: Row, _fault: list[str], numbers: list[int]) -> list[str]:
    """A neighbour doesn't point back."""
    label = numbers[1]
    near = rows.named(row.near[label])[0]
    return marked(text, near.begin, near.end) + [
        f"Along {label} dart {row.name} leads to {near.name}, and {near.name} leads to {near.near[label]}, not back "
        f"to {row.name}."]


def tell_cycle(_text: str, rows: Rows, row: Row, _fault: list[str], numbers: list[int]) -> list[str]:
    """Two labels don't commute."""
    _, one, other = numbers

    def way(first: int, second: int) -> tuple[int, int]:
        near = row.near[first]
        return near, rows.named(near)[0].near[second]
    here, there = way(one, other), way(other, one)
    return [f"Labels {one} and {other} are two or more apart, so both orders lead to one dart. From dart {row.name} "
            f"along {one} and then {other} the way is {here[0]}, {here[1]}; along {other} and then {one} it is "
            f"{there[0]}, {there[1]}."]


def tell_embedding(text: str, rows: Rows, row: Row, fault: list[str], numbers: list[int]) -> list[str]:
    """Two darts of an orbit differ in a value."""
    place = next(at for at, embed in enumerate(rows.embeds) if embed.name == fault[1])
    embed, other = rows.embeds[place], rows.named(numbers[-1])[0]
    label = next(label for label in embed.labels if row.near[label] == other.name)
    return marked(text, other.begin, other.end) + [
        f"Darts {row.name} and {other.name} are neighbours along {label}, a label of {embed_text(embed)}, so they "
        f"share one value of {embed.name}; they have {show(row.values[place])} and {show(other.values[place])}."]


LAWS = {"no-target": tell_target, "involution": tell_involution, "cycle": tell_cycle, "embedding": tell_embedding}


def embed_text(embed: Embed) -> str:
    """An embedding as a head declares it."""
    return f"embed {embed.name} <{' '.join(map(str, sorted(embed.labels)))}> {embed.kind}"


def tell_agree(amap: Map, book: Book, path: str) -> list[str]:
    """In what the heads of a map and of a book at a path differ."""
    lines = []
    if amap.dimension != book.dimension:
        lines.append(f"The map has dimension {amap.dimension}, and the book is for dimension {book.dimension}.")
    in_map, in_book = [embed_text(embed) for embed in amap.embeds], [embed_text(embed) for embed in book.embeds]
    for whose, has, lacks in (("map", in_map, in_book), ("book", in_book, in_map)):
        lines += [f"Only the {whose} has `{line}`." for line in has if line not in lacks]
    if not lines:
        lines.append("The embeddings stand in another order: in the map "
                     f"{', '.join(embed.name for embed in amap.embeds)}, in the book "
                     f"{', '.join(embed.name for embed in book.embeds)}.")
    lines.append("A run needs one dimension and the same embeddings in one order, with the same labels and kinds.")
    return lines + (tell_import(book, path) if amap.dimension == book.dimension in (2, 3) else [])


def tell_import(book: Book, path: str) -> list[str]:
    """How the map of a mesh comes to have the embeddings of a book: those of the book whatever they are, or, where the
    points come first, each by an option of its own."""
    command = "tools/mesh import MODEL MAP"
    lines = [f"Of a mesh, `{command} --for {shlex.quote(path)}` makes a map with just the embeddings of the book."]
    points = Embed("pos", tuple(range(1, book.dimension + 1)), "vec3")
    paint = Embed("paint", tuple(range(book.dimension)), "rgb")
    if book.embeds[:1] == [points] and book.embeds[1:]:
        options = ["--paint R G B" if embed == paint and at == 0 else f"--embed '{embed_text(embed)[len('embed '):]}'"
                   for at, embed in enumerate(book.embeds[1:])]
        lines.append(f"So does `{command} {' '.join(options)}`"
                     + (", in the colour R G B." if options[0][2] == "p" else ", each 0 everywhere."))
    return lines
