"""How many faces a file has at least, read off its head or its lines alone: what is too large is told at once."""
import re
from pathlib import Path

from gmr.maps import MOST_DARTS
from gmr.mesh.model import Unfit

HEAD = 65_536  # bytes in which a head stands
FEWEST_DARTS = 6  # of a triangle
PLY_FACES = re.compile(rb"^element\s+face\s+([0-9]{1,18})\s*$", re.MULTILINE)
OFF_COUNTS = re.compile(rb"(?:[A-Z4n]*OFF)?(?:\s|#[^\n]*\n)*([0-9]{1,18})[ \t]+([0-9]{1,18})")


def check_counts(path: Path, suffix: str) -> None:
    """Unfit where a file tells of more faces than a map has darts for, were they triangles."""
    faces = count_faces(path, suffix)
    if FEWEST_DARTS * faces > MOST_DARTS:
        least = FEWEST_DARTS * faces
        raise Unfit(f"it has {faces} faces and needs {least} darts or more, and a map has at most {MOST_DARTS}")


def count_faces(path: Path, suffix: str) -> int:
    """How many faces a file tells of, 0 where that can't be seen at once."""
    if suffix == ".obj":
        data = path.read_bytes()
        return data.count(b"\nf ") + data.count(b"\nf\t")
    with path.open("rb") as file:
        head = file.read(HEAD)
    if suffix == ".ply":
        found = PLY_FACES.search(head.partition(b"end_header")[0].replace(b"\r", b"\n"))
        return int(found[1]) if found else 0
    if suffix == ".off":
        found = OFF_COUNTS.match(head)
        return int(found[2]) if found else 0
    if suffix == ".stl" and len(head) >= 84:
        told = int.from_bytes(head[80:84], "little")
        return told if path.stat().st_size == 84 + 50 * told else 0
    return 0
