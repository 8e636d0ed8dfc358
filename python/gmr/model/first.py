"""The first map of a model: from a file of a map or of a mesh, in the version that it was given and in the second."""
import os
import re
import shutil
from fractions import Fraction
from pathlib import Path
from typing import NamedTuple

from gmr.books import COMMENT, Book
from gmr.maps import HEAD
from gmr.mesh.convert import Options, export_map, import_mesh
from gmr.mesh.scale import Frame, read_frame
from gmr.program import put_or_refuse

BEGIN = re.compile(rb"gmap 2\n(.*?)next \d+\n", re.DOTALL)


class FirstMap(NamedTuple):
    """The file of the map as it was given, that of the same map in version 2, the version that it was given in, and
    the scale and origin of the mesh that it was made of, or None."""

    given: Path
    counted: Path
    version: int
    frame: Frame | None

    def as_saved(self, text: bytes) -> bytes:
        """A map's text of version 2 in the version of the first one, as a run over that one saves it."""
        return text if self.version == 2 else BEGIN.sub(rb"gmap 1\n\1", text, count=1)

    def export(self, file: Path, out: Path) -> str:
        """Writes the mesh of a map's file with the scale of the first map, and answers the line that tells of it."""
        return export_map(file, out, self.frame)


def take_first_map(path: Path, folder: Path, scale: Fraction | None, book: Path | None) -> FirstMap:
    """The first map of a file of a map or of a mesh, with copies of it in a folder. A mesh's coordinates are multiplied
    by the scale, and its map has the embeddings of the book, where there is one."""
    given, counted = folder / "first.gmap", folder / "counted.gmap"
    if is_map(path):
        shutil.copyfile(path, given)
    else:
        import_mesh(path, given, Options(scale=scale, book=book, is_checked=False))
    put_or_refuse("migrate", given, counted)
    return FirstMap(given, counted, version_of(given), read_frame(path if is_map(path) else given))


def is_map(path: Path) -> bool:
    """Whether a file is one of a map: by its ending, or since it opens as such a text does."""
    if path.suffix == ".gmap":
        return True
    with open(path, "rb") as file:
        return re.match(r"(\s|#[^\n]*\n)*gmap\s", file.read(65536).decode("latin-1")) is not None


def version_of(path: Path) -> int:
    """The version of a map's text that the program takes."""
    head = HEAD.match(COMMENT.sub(" ", path.read_text(encoding="latin-1")))
    return int(head[1]) if head else 2


def copy_book(book: str | os.PathLike[str] | Book, folder: Path) -> Path:
    """The file of a book in a folder: of a file's text, or of an object's."""
    out = name_book(folder)
    if isinstance(book, Book):
        out.write_text(book.head + "".join(f"{rule.text}\n" for rule in book.rules), encoding="latin-1")
    else:
        shutil.copyfile(book, out)
    return out


def make_bare_book(counted: Path, folder: Path) -> Path:
    """The file of a book without rules in a folder, for a map's schema."""
    out = name_book(folder)
    out.write_text(bare_book(counted), encoding="ascii")
    return out


def name_book(folder: Path) -> Path:
    """A name that no book of the folder has."""
    return folder / f"{len(list(folder.glob('*.gbook')))}.gbook"


def bare_book(counted: Path) -> str:
    """The text of a book without rules over the schema of a map's canonical text."""
    lines = counted.read_text(encoding="ascii").partition("next")[0].splitlines()
    return "\n".join(["book 2", *lines[1:]]) + "\n"
