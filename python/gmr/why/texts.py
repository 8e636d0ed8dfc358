"""Why no text goes on at a place, or which limit is passed there, for maps, books and scripts alike."""
import shlex
import tempfile
from pathlib import Path

from gmr.books import RESERVED, end_of_blank
from gmr.places import tell_place, token_at, tokens_up_to
from gmr.program import answer
from gmr.scripts import STATEMENTS

LIMITS = {
    "dimension": "a dimension is 1 to 7",
    "label": "a label is 0 to the dimension",
    "embeddings": "there are at most 8 embeddings",
    "darts": "a map has at most 1,048,576 darts",
    "dart-name": "names of darts are below 16,777,216, and the next name is at most that",
    "integer": "numbers go from -9,223,372,036,854,775,808 to 9,223,372,036,854,775,807, and none is written "
               "without its sign",
    "channel": "a colour's parts are 0 to 255",
    "name": "a name has at most 32 bytes",
    "rules": "a book has at most 256 rules",
    "nodes": "a rule has at most 32 nodes, a name on both sides counting once",
    "links": "a side has at most 256 links",
    "parameters": "a rule has at most 8 parameters",
    "word": "a word has at most 8 letters",
    "expression": "an expression has at most 256 tokens, its parentheses included",
    "lines": "a script has at most 100,000 lines",
}
SIGNS = "== != <= >= < > ( ) - + * / % = . , : @ _".split()
KINDS = ["int", "vec2", "vec3", "rgb"]
WORDS = {
    "MAP": ["gmap", "dim", "embed", "next", "darts", *KINDS],
    "BOOK": ["book", "dim", "embed", *KINDS, "bool", *sorted(RESERVED)],
    "SCRIPT": ["apply", "each", "undo", "redo", "group", "end", "with", "true", "false"],
}
NAMES = {"MAP": "a map", "BOOK": "a book", "SCRIPT": "a script"}
MOST_BYTES = 1_000_000     # a longer text isn't asked what could stand at its place: each try reads it again


def ask_first_line(role: str, path: Path) -> str:
    """What the program answers to the text of a file in that role. A script is read with an empty map and book."""
    if role != "SCRIPT":
        return answer("show" if role == "MAP" else "book", path)[1].partition("\n")[0]
    amap, book = path.with_name("map"), path.with_name("book")
    amap.write_text("gmap 1 dim 1 darts 0")
    book.write_text("book 1 dim 1")
    return answer("run", amap, book, path, path.with_name("out"))[1].partition("\n")[0]


def what_may_stand(role: str, text: str, place: int) -> list[str]:
    """The tokens with which a text of that role goes on at a place. The program is asked of each."""
    allowed = []
    with tempfile.TemporaryDirectory(prefix="gmr-why-") as folder:
        path = Path(folder, "text")
        for word in ["n", "1", *WORDS[role], *SIGNS]:
            path.write_bytes(f"{text[:place]} {word}".encode("latin-1"))
            if ask_first_line(role, path) != f"refused {role} text {place + 1}":
                allowed.append(word)
    if "n" in allowed:
        allowed = [word for word in allowed if not word[0].isalpha() or word in RESERVED or word == "n"]
    return [{"n": "a name", "1": "a number"}.get(word, f"`{word}`") for word in allowed]


def role_of(text: str) -> str | None:
    """What a text is by its first word: a map, a book, a script, or none of them."""
    first = token_at(text, end_of_blank(text, 0))
    word = first.word if first else ""
    return {"gmap": "MAP", "book": "BOOK"}.get(word) or ("SCRIPT" if word in STATEMENTS else None)


def what_stands(text: str, place: int) -> str:
    """What stands at a place where no text goes on."""
    token = token_at(text, place)
    if place >= len(text):
        return "The text ends here"
    if token is None:
        byte = text[place]
        is_shown = byte.isascii() and byte.isprintable()
        return f"The byte {f'`{byte}`' if is_shown else f'of value {ord(byte)}'} begins no token"
    return f"`{token.word}` stands here"


def tell_text(role: str, path: str, text: str, place: int) -> list[str]:
    """Why no text of the role goes on with what stands at the place, and what could stand there."""
    token = token_at(text, place)
    lines = tell_place(path, text, place, token.end if token else place + 1)
    other = role_of(text)
    if other and other != role and place <= end_of_blank(text, 0):
        return lines + [f"{path} is {NAMES[other]}, and {NAMES[role]} is needed here: the files go MAP BOOK SCRIPT."]
    if text[place:place + 1] == "." and text[place - 1:place].isdigit():
        return lines + ["A decimal point stands here, and numbers are whole. `tools/mesh import --scale` multiplies "
                        "coordinates by a number; in a rule write a division, as `x * 3 / 2`."]
    said = what_stands(text, place)
    may = what_may_stand(role, text, place) if place <= MOST_BYTES else []
    if may:
        said += f", where the text goes on with {' or '.join([', '.join(may[:-1]), may[-1]] if may[1:] else may)}"
    lines.append(said + ".")
    if role == "MAP" and token and place <= end_of_blank(text, 0):
        lines.append(f"If it is a mesh, `tools/mesh import {shlex.quote(path)} MAP` makes a map of it.")
    if token and token.word in RESERVED and "a name" in may:
        lines.append(f"`{token.word}` is a keyword, and no name.")
    if token and token.word == "hook" and role == "BOOK" and not is_second_version(text, place):
        lines.append("A rule has one hook in a book of version 1; write `book 2` at the top for several.")
    return lines


def is_second_version(text: str, place: int) -> bool:
    """Whether the text of a book says before the place that it is of the second version."""
    tokens = tokens_up_to(text, place)
    return len(tokens) > 1 and int(tokens[1].word) == 2


def tell_limit(path: str, text: str, limit: str, place: int) -> list[str]:
    """Which limit is passed at a place."""
    token = token_at(text, place)
    said = f"`{token.word}` passes the limit" if token and len(token.word) <= 40 else "A limit is passed here"
    return [*tell_place(path, text, place, token.end if token else None), f"{said}: {LIMITS[limit]}."]
