"""What files of Gmsh and Abaqus call their points and elements, and whether a file goes on to its end."""
import re
from pathlib import Path
from typing import NamedTuple

from gmr.mesh.model import Unfit

KEYWORD = re.compile(rb"\*\s*(node|element)\s*(,|$)", re.IGNORECASE)
CORNERS = re.compile(rb"type\s*=\s*([a-z0-9]+)", re.IGNORECASE)
SECTION = re.compile(rb"^\$(?!End)(\w+)\s*$", re.MULTILINE)
NODES = {b"C3D4": 4, b"C3D5": 5, b"C3D6": 6, b"C3D8": 8, b"C3D8R": 8, b"CPS3": 3, b"CPS4": 4, b"S3": 3, b"S4": 4,
         b"S4R": 4, b"STRI3": 3}


class Tags(NamedTuple):
    """What a file calls its points and elements, in the order of the file; none where it isn't known."""

    points: list[int]
    elements: list[int]


def read_tags(path: Path, form: str) -> Tags:
    """The tags of a file of text of Gmsh, or the numbers of one of Abaqus."""
    try:
        if form == "gmsh":
            return read_gmsh(path.read_bytes())
        if form == "abaqus":
            return read_abaqus(path.read_bytes())
    except (IndexError, ValueError):
        pass
    return Tags([], [])


def read_gmsh(data: bytes) -> Tags:
    """The tags of a file of version 2 or 4; none of a binary one."""
    version, is_binary = section_of(data, b"MeshFormat").split()[:2]
    if is_binary != b"0":
        return Tags([], [])
    nodes = [line.split() for line in section_of(data, b"Nodes").split(b"\n") if line.strip()]
    elements = [line.split() for line in section_of(data, b"Elements").split(b"\n") if line.strip()]
    if version.startswith(b"2"):
        return Tags([int(words[0]) for words in nodes[1:]], [int(words[0]) for words in elements[1:]])
    points: list[int] = []
    place = 1
    while place < len(nodes):
        count = int(nodes[place][3])
        points += [int(words[0]) for words in nodes[place + 1: place + 1 + count]]
        place += 1 + 2 * count
    named: list[int] = []
    place = 1
    while place < len(elements):
        count = int(elements[place][3])
        named += [int(words[0]) for words in elements[place + 1: place + 1 + count]]
        place += 1 + count
    return Tags(points, named)


def section_of(data: bytes, name: bytes) -> bytes:
    """What stands in a section of a file of Gmsh."""
    begin = data.index(b"$" + name) + len(name) + 1
    return data[begin: data.index(b"$End" + name, begin)]


def read_abaqus(data: bytes) -> Tags:
    """The numbers of a file of Abaqus."""
    points: list[int] = []
    elements: list[int] = []
    for word, _, rows in list_blocks(data):
        (points if word == b"node" else elements).extend(int(row[0]) for row in rows)
    return Tags(points, elements)


def list_blocks(data: bytes) -> list[tuple[bytes, bytes, list[list[bytes]]]]:
    """The blocks of points and elements: the keyword, its line, and the words of each row. A row ends at a line that
    doesn't end with a comma."""
    blocks: list[tuple[bytes, bytes, list[list[bytes]]]] = []
    row: list[bytes] = []
    is_in = False
    for line in data.split(b"\n"):
        line = line.strip()
        if not line or line.startswith(b"**"):
            continue
        if line.startswith(b"*"):
            found = KEYWORD.match(line)
            is_in, row = bool(found), []
            if found:
                blocks.append((found[1].lower(), line, []))
        elif is_in:
            row += [word.strip() for word in line.split(b",") if word.strip()]
            if not line.endswith(b",") or blocks[-1][0] == b"node":
                blocks[-1][2].append(row)
                row = []
    if row and is_in:
        blocks[-1][2].append(row)
    return blocks


def check_whole(path: Path, form: str) -> None:
    """Unfit where a file doesn't go on to the end that its format has."""
    data = path.read_bytes()
    if form == "gmsh":
        opened = SECTION.findall(data) if data.startswith(b"$MeshFormat") else []
        if not opened:
            raise Unfit("this is no MSH: it doesn't begin with $MeshFormat")
        cut = next((name for name in opened if b"$End" + name not in data), None)
        if cut:
            raise Unfit(f"MSH has ${cut.decode()} without $End{cut.decode()}: it is cut off")
    elif form == "medit" and not re.search(rb"^\s*End\s*$", data, re.MULTILINE):
        raise Unfit("this is no MESH of Medit, or it is cut off: it has no End")
    elif form == "abaqus":
        check_abaqus(data)


def check_abaqus(data: bytes) -> None:
    """Unfit where a file of Abaqus has a row that ends early."""
    if not re.search(rb"^\s*\*", data, re.MULTILINE):
        raise Unfit("this is no INP of Abaqus: it has no keyword after a star")
    for word, line, rows in list_blocks(data):
        kind = CORNERS.search(line)
        count = 3 if word == b"node" else NODES.get(kind[1].upper() if kind else b"", 0)
        allowed = (count + 1, 3) if word == b"node" else (count + 1,)
        short = next((row for row in rows if count and len(row) not in allowed), None)
        if short:
            what = "point" if word == b"node" else "element"
            raise Unfit(f"{what} {short[0].decode('utf-8', 'replace')} has {len(short) - 1} numbers, and not {count}: "
                        "it is cut off")
    for word in (b"part", b"assembly", b"instance", b"step"):
        begun = len(re.findall(rb"^\s*\*\s*" + word + rb"\b", data, re.MULTILINE | re.IGNORECASE))
        ended = len(re.findall(rb"^\s*\*\s*end\s+" + word + rb"\b", data, re.MULTILINE | re.IGNORECASE))
        if begun != ended:
            raise Unfit(f"INP has {begun} times *{word.decode()}, and {ended} times its end: it is cut off")
