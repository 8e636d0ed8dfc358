"""Maps, books and scripts of any size, from which tests/growth counts and bench/growth times what grows."""
import random
from typing import NamedTuple

# A square's eight darts, two a side: neighbours along 0 and 1, and along 2 the dart of the square beyond a side.
ALONG = (1, 0, 3, 2, 5, 4, 7, 6)
AROUND = (7, 2, 1, 4, 3, 6, 5, 0)
FACING = (5, 4, 7, 6, 1, 0, 3, 2)
CORNER = ((0, 0), (4, 0), (4, 0), (4, 4), (4, 4), (0, 4), (0, 4), (0, 0))
BEYOND = ((-1, 0), (-1, 0), (0, 1), (0, 1), (1, 0), (1, 0), (0, -1), (0, -1))

POINTS = "embed pos <1 2> vec3\n"
TRIANGULATE = f"""book 1
dim 2
{POINTS}rule triangulate
left
a <0 1> hook
right
a <0 _>
b <_ 2>
c <1 2> with pos = sum<0 1>(a.pos) / count<0 1>(a)
a -1- b
b -0- c
"""
MOVES = """book 2 dim 2
embed pos <1 2> vec3
embed tag <0 1> int
rule face(v: vec3) left a <0 1> hook right a <0 1> with pos = a.pos + v
rule corner(v: vec3) left a <1 2> hook right a <1 2> with pos = a.pos + v
"""
NEVER = "book 1 dim 2 rule never left a <> hook right a <> pre 1 == 2\n"


class Input(NamedTuple):
    """The words of a command, in which a number stands for the file of a text and OUT for one that is written; and the texts."""

    words: "tuple[str, ...]"
    texts: "tuple[str, ...]"


def squares(side: int) -> "list[str]":
    """The dart lines of squares in rows and columns, glued where they meet, with a point at each corner."""
    lines = []
    for row in range(side):
        for column in range(side):
            first = 8 * (row * side + column)
            for dart in range(8):
                y, x = row + BEYOND[dart][0], column + BEYOND[dart][1]
                inside = 0 <= y < side and 0 <= x < side
                across = 8 * (y * side + x) + FACING[dart] if inside else first + dart
                point = f"({4 * column + CORNER[dart][0]} {4 * row + CORNER[dart][1]} 0)"
                lines.append(f"{first + dart} {first + ALONG[dart]} {first + AROUND[dart]} {across} {point}\n")
    return lines


def map_of(lines: "list[str]", embeds: str = POINTS, dim: int = 2) -> str:
    """The text of a map of these dart lines."""
    return f"gmap 1\ndim {dim}\n{embeds}darts {len(lines)}\n" + "".join(lines)


def face(darts: int, names: "list[int] | None" = None, value: str = "") -> "list[str]":
    """The dart lines of one face that is free along 2, in the order of their names; {} in a value is the corner's number."""
    named = names or list(range(darts))
    rows = []
    for dart in range(darts):
        around = (dart + 1) % darts if dart % 2 else (dart - 1) % darts
        corner = (dart + 1) // 2 % (darts // 2)
        rows.append((named[dart], f"{named[dart]} {named[dart ^ 1]} {named[around]} {named[dart]}{value.format(corner)}\n"))
    return [line for _, line in sorted(rows)]


def shuffled(count: int, seed: int) -> "list[int]":
    """The numbers below the count in some order, always the same."""
    numbers = list(range(count))
    random.Random(seed).shuffle(numbers)
    return numbers


def on_a_face(darts: int, expression: "str | None", lines: str = "apply r 0\n") -> Input:
    """A rule that is applied to the whole of a face, and gives each corner a point, or none."""
    assigned = f" with pos = {expression}" if expression else ""
    book = f"book 1 dim 2 embed pos <1 2> vec3 rule r left a <0 1> hook right a <0 1>{assigned}\n"
    return Input(("run", "0", "1", "2", "OUT"), (map_of(face(darts, value=" ({} 0 0)")), book, lines))


def chains(rules: int, embeds: int) -> str:
    """A book of rules that add 31 nodes in a chain, its links from the last to the first."""
    nodes = [f"n{node}" for node in range(1, 32)]
    free = [f"{node} -{label}- {node}\n" for node in ["a", *nodes] for label in range(1 if node == "a" else 2, 8)]
    along = [f"{node} -{1 - at % 2}- {other}\n" for at, (node, other) in enumerate(zip(nodes, nodes[1:]))]
    links = [*free, "n31 -1- n31\n", *along[::-1], "a -0- n1\n"]
    rule = ("left\na <> hook\n" + "".join(f"a -{label}- a\n" for label in range(8)) + "right\na <>\n"
            + "".join(f"{node} <>\n" for node in nodes) + "".join(links))
    head = "book 1\ndim 7\n" + "".join(f"embed e{embed} <0 1> int\n" for embed in range(embeds))
    return head + "".join(f"rule r{number}\n{rule}" for number in range(rules))


def chained(lines: int, embeds: int = 8) -> Input:
    """A chain of nodes added at each of a number of darts."""
    heads = "".join(f"embed e{embed} <0 1> int\n" for embed in range(embeds))
    darts = [f"{dart} " + " ".join([str(dart)] * 8) + " 7" * embeds + "\n" for dart in range(lines)]
    script = "".join(f"apply r0 {line}\n" for line in range(lines))
    return Input(("run", "0", "1", "2", "OUT"), (map_of(darts, heads, 7), chains(1, embeds), script))
