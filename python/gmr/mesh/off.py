"""Meshes in the Object File Format, OFF: read with their colours, and written."""
import re
from pathlib import Path

import numpy as np

from gmr.mesh.decimals import Whole
from gmr.mesh.model import Surface, Unfit
from gmr.mesh.printed import print_faces, print_points
from gmr.mesh.texts import Words, parse_colours, parse_whole, read_bytes, show_word, show_words, spread

HEAD = re.compile(rb"(?P<texture>ST)?(?P<colour>C)?(?P<normal>N)?(?P<four>4)?(?P<any>n)?OFF")
NOT = "this is no OFF: its first numbers aren't those of points, faces and edges"


def read_off(path: Path) -> Surface:
    """The surface of a file of text. Points and faces are counted from 0; normals and textures are passed over."""
    words = Words(read_bytes(path))
    first = words.row(0) if len(words) else []
    head = HEAD.fullmatch(first[0]) if first else None
    if head and (head["four"] or head["any"]):
        raise Unfit(f"{first[0].decode()} has points of another dimension than 3")
    if head and first[1:2] == [b"BINARY"]:
        raise Unfit("the binary form of OFF isn't read")
    begin = 1
    if head:
        first, begin = (first[1:], 1) if len(first) > 1 else (words.row(1) if len(words) > 1 else [], 2)
    counts, wrong = parse_whole(first[:2]) if len(first) in (2, 3) else (np.empty(0), 0)
    if wrong is not None or min(counts) < 0:
        raise Unfit(NOT)
    count, ends = int(counts[0]), int(counts[0] + counts[1])
    check_length(words, begin, count, ends)
    points, faces = np.arange(begin, begin + count), np.arange(begin + count, begin + ends)
    skip = 6 if head and head["normal"] else 3
    corners, sizes, face_colours = read_faces(words, faces)
    return Surface(
        places=words.points(points, 0, lambda index: f"point {index} (line {words.lines[points[index]]})"),
        corners=corners,
        sizes=sizes,
        face_colours=face_colours,
        point_colours=read_colours(words, points, skip) if head and head["colour"] else None,
        lines=words.lines[faces],
        point_lines=words.lines[points],
    )


def check_length(words: Words, begin: int, count: int, ends: int) -> None:
    """Unfit where a file has another number of lines than it tells of."""
    told = f"OFF tells of {count} points and {ends - count} faces"
    have = len(words) - begin
    if have < ends:
        raise Unfit(f"{told}, and has {have} lines for them: it is cut off")
    if have > ends:
        row = begin + ends
        raise Unfit(f"{told}, and has more after them, on line {words.lines[row]}: {show_words(words.row(row)[:8])}")


def read_colours(words: Words, points: Whole, skip: int) -> Whole:
    """The colours of points, which stand after `skip` numbers."""
    short = words.sizes[points] < skip + 3
    colours = None if short.any() else parse_colours([words.row(row)[skip: skip + 3] for row in points.tolist()])
    if colours is None:
        raise Unfit(f"point {int(np.argmax(short))} isn't three numbers with its colour after them")
    return colours


def read_faces(words: Words, faces: Whole) -> tuple[Whole, Whole, Whole | None]:
    """The corners of the faces, how many each has, and their colours: none where no face has one, else white at those
    that have none."""
    lines, begins = words.lines[faces], words.rows[faces]
    sizes, wrong = words.whole(begins)
    if wrong is None and (sizes < 0).any():
        wrong = int(np.argmax(sizes < 0))
    if wrong is not None:
        raise Unfit(f"face {wrong} (line {lines[wrong]}) isn't a number of corners and the points at them")
    have = words.sizes[faces] - 1
    if (have < sizes).any():
        short = int(np.argmax(have < sizes))
        raise Unfit(f"face {short} (line {lines[short]}) tells of {sizes[short]} corners and has {have[short]}")
    places = spread(begins + 1, sizes)
    corners, wrong = words.whole(places)
    if wrong is not None:
        face = int(np.searchsorted(np.cumsum(sizes), wrong, side="right"))
        told = f"has a corner {show_word(words.word(places[wrong]))}, which is no number of a point"
        raise Unfit(f"face {face} (line {lines[face]}) {told}")
    coloured = np.flatnonzero(have >= sizes + 3)
    if not len(coloured):
        return corners, sizes, None
    parsed = parse_colours([words.row(faces[index])[sizes[index] + 1: sizes[index] + 4] for index in coloured])
    if parsed is None:
        raise Unfit("a face has a colour that isn't three numbers")
    colours = np.full((len(faces), 3), 255, np.int64)
    colours[coloured] = parsed
    return corners, sizes, colours


def write_off(path: Path, surface: Surface) -> None:
    """Writes the surface, with the colours of its faces after them."""
    head = f"OFF\n{len(surface.places)} {len(surface.sizes)} 0\n".encode()
    tails = None
    if surface.face_colours is not None:
        tails = [b" %d %d %d" % tuple(colour) for colour in surface.face_colours.tolist()]
    faces = print_faces(surface.corners, surface.sizes, tails=tails)
    path.write_bytes(head + print_points(surface.places) + faces)
