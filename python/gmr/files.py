"""Files are written whole or not at all, and never over what is read."""
import os
import stat
import tempfile
from collections.abc import Iterable, Iterator
from contextlib import contextmanager
from pathlib import Path

from gmr.errors import Unwritten

Name = str | os.PathLike[str]


def is_same_file(one: Name, two: Name) -> bool:
    """Whether two names stand for one file: the same name, or by links the same file on the disk."""
    try:
        return os.path.samefile(one, two)
    except OSError:
        return os.path.realpath(one) == os.path.realpath(two)


def check_apart(out: Name, inputs: Iterable[Name]) -> None:
    """Unwritten where `out` is one of the inputs: what is read is never written over."""
    for path in inputs:
        if is_same_file(out, path):
            raise Unwritten("it is read, so it can't be written: name another file", out)


@contextmanager
def write_beside(out: Name) -> Iterator[Path]:
    """A new file beside `out`, with its ending, that takes its name at the end; it is removed where that isn't reached.

    What is no plain file, as a pipe or a terminal, is written as it is. OSError where the folder can't be written.
    """
    target = Path(os.path.realpath(out))
    if target.exists() and not stat.S_ISREG(target.stat().st_mode):
        yield target
        return
    try:
        handle, name = tempfile.mkstemp(suffix=target.suffix, prefix=f".{target.stem}.", dir=target.parent)
    except OSError as error:
        raise OSError(error.errno, error.strerror, os.fspath(out)) from None
    os.close(handle)
    scratch = Path(name)
    try:
        yield scratch
        scratch.chmod(stat.S_IMODE(target.stat().st_mode) if target.exists() else 0o666 & ~read_mask())
        scratch.replace(target)
    finally:
        scratch.unlink(missing_ok=True)


def read_mask() -> int:
    """The bits of access that new files of this process don't get."""
    mask = os.umask(0)
    os.umask(mask)
    return mask


def write_whole(out: Name, content: str | bytes, inputs: Iterable[Name] = ()) -> None:
    """Writes a file whole or not at all: a text as UTF-8, with its line feeds as they are. Unwritten where it is one of
    the inputs, OSError where the system fails."""
    check_apart(out, inputs)
    with write_beside(out) as beside:
        beside.write_bytes(content.encode("utf-8") if isinstance(content, str) else content)
