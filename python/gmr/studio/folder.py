"""The folder that the studio was started in. Nothing outside it is read or written.

Each part of a name is opened in the folder of the part before it, and no link is followed, so that a name can't lead
out, nor can it be made to while it is being opened."""
import os
import secrets
import stat
from collections.abc import Iterator
from contextlib import contextmanager
from pathlib import Path

from gmr.errors import Fault

MOST_BYTES = 268_435_456
MOST_LISTED, DEEPEST = 2_000, 6
KEPT_APART = ".gmr-studio"     # the folder of sessions; no name that begins with a dot is taken from outside
FOLDER_FLAGS = os.O_RDONLY | os.O_DIRECTORY | os.O_NOFOLLOW | os.O_CLOEXEC
READ_FLAGS = os.O_RDONLY | os.O_NOFOLLOW | os.O_NONBLOCK | os.O_CLOEXEC
WRITE_FLAGS = os.O_WRONLY | os.O_CREAT | os.O_EXCL | os.O_NOFOLLOW | os.O_CLOEXEC


class Outside(Fault):
    """A name that isn't one of a file in the folder, in one line."""


def split_name(name: str) -> list[str]:
    """The parts of a name of a file in the folder, as 'maps/cube.gmap'; Outside where it is none.

    No part is empty, `..` or begins with a dot, and none has a byte that no name has.
    """
    parts = name.split("/")
    for part in parts:
        if not part or part.startswith("."):
            raise Outside(f"{shown(name)} names no file of the folder: a part of it is empty or begins with a dot")
        if any(not letter.isprintable() or letter == "\\" for letter in part) or len(os.fsencode(part)) > 255:
            raise Outside(f"{shown(name)} names no file of the folder")
    return parts


def shown(name: str) -> str:
    """A name as a message shows it."""
    plain = "".join(letter if letter.isprintable() else "?" for letter in name)
    return plain if len(plain) <= 80 else f"{plain[:77]}..."


class Folder:
    """A folder, and the files within it by their names, which have `/` between their parts."""

    def __init__(self, path: Path) -> None:
        self.path = path.resolve()

    @contextmanager
    def _parent_of(self, name: str) -> Iterator[tuple[int, str]]:
        """A descriptor of the folder in which a name's last part lies, and that part."""
        *folders, last = split_name(name)
        here = os.open(self.path, FOLDER_FLAGS)
        try:
            for part in folders:
                inner = os.open(part, FOLDER_FLAGS, dir_fd=here)
                os.close(here)
                here = inner
            yield here, last
        except NotADirectoryError as error:
            raise Outside(f"{shown(name)} leads over a link, or over what is no folder") from error
        finally:
            os.close(here)

    def read(self, name: str) -> bytes:
        """The bytes of a file.

        Raises Outside where the name leads out, over a link or to what is no file, and OSError where it can't be read.
        """
        with self._parent_of(name) as (parent, last):
            try:
                found = os.open(last, READ_FLAGS, dir_fd=parent)
            except OSError as error:
                if is_link(last, parent):
                    raise Outside(f"{shown(name)} is a link, and links aren't followed") from error
                raise
        with open(found, "rb") as file:
            known = os.fstat(file.fileno())
            if not stat.S_ISREG(known.st_mode):
                raise Outside(f"{shown(name)} is no file")
            if known.st_size > MOST_BYTES:
                raise Outside(f"{shown(name)} is longer than {MOST_BYTES:,} bytes")
            return file.read(MOST_BYTES)

    def write(self, name: str, data: bytes) -> None:
        """Writes a file whole or not at all: beside its name, and then renamed.

        Raises Outside as `read` does, and where the name is a link, a folder or anything else that is no file.
        """
        self.is_taken(name)
        with self._parent_of(name) as (parent, last):
            mode = mode_of(last, parent)
            beside = f".{last[:200]}.{secrets.token_hex(6)}"
            made = os.open(beside, WRITE_FLAGS, 0o666, dir_fd=parent)
            try:
                with open(made, "wb") as file:
                    if mode is not None:
                        os.fchmod(file.fileno(), stat.S_IMODE(mode))
                    file.write(data)
                    file.flush()
                    os.fsync(file.fileno())
                os.rename(beside, last, src_dir_fd=parent, dst_dir_fd=parent)
            except BaseException:
                os.unlink(beside, dir_fd=parent)
                raise

    def is_taken(self, name: str) -> bool:
        """Whether a file has the name. Raises as `write` does, so that it can be asked before any work."""
        with self._parent_of(name) as (parent, last):
            mode = mode_of(last, parent)
        if mode is not None and not stat.S_ISREG(mode):
            raise Outside(f"{shown(name)} is no file, or a link, and isn't written over")
        return mode is not None

    def list(self, suffixes: tuple[str, ...]) -> list[str]:
        """The names of the files with one of the suffixes, sorted; at most 2,000, six folders deep."""
        found: list[str] = []
        for folder, folders, files in os.walk(self.path):
            inner = Path(folder).relative_to(self.path)
            folders[:] = sorted(one for one in folders if not one.startswith(".")) if len(inner.parts) < DEEPEST else []
            found += [str(inner / one) for one in sorted(files) if one.lower().endswith(suffixes)
                      and not one.startswith(".") and stat.S_ISREG(os.lstat(Path(folder, one)).st_mode)]
            if len(found) >= MOST_LISTED:
                break
        return sorted(found[:MOST_LISTED], key=lambda name: (name.count("/"), name))


def mode_of(name: str, parent: int) -> int | None:
    """The mode of what has the name in a folder, without following a link, or None where nothing has it."""
    try:
        return os.stat(name, dir_fd=parent, follow_symlinks=False).st_mode
    except FileNotFoundError:
        return None


def is_link(name: str, parent: int) -> bool:
    """Whether a name in a folder is a link."""
    mode = mode_of(name, parent)
    return mode is not None and stat.S_ISLNK(mode)
