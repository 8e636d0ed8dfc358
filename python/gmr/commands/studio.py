"""A live modeller in the browser over a map and a book: each click is an application that the program does.

The page is served on the loopback address alone, under an address with a token, which is printed. Nothing outside the
folder is read or written."""
import argparse
import os
import signal
import tempfile
import webbrowser
from collections.abc import Sequence
from pathlib import Path
from types import FrameType
from typing import TYPE_CHECKING

from gmr.commands.frame import new_parser, run_command
from gmr.errors import Fault
from gmr.program import needs

if TYPE_CHECKING:
    from gmr.studio.server import Server

EXAMPLES = """examples:
  tools/studio examples/cube.obj examples/operations/values2.gbook --scale 100
  tools/studio map.gmap book.gbook --no-browser

It ends by Ctrl-C. The script is written after each statement into the folder .gmr-studio, and offered again where the
studio ended without its script being saved. The program is $GMR, or that of this checkout."""


def parse(words: Sequence[str]) -> argparse.Namespace:
    """The command line, taken apart."""
    parser = new_parser("studio", __doc__, EXAMPLES)
    parser.add_argument("map", metavar="MODEL|MAP", help="a mesh, or a map (.gmap), within the folder")
    parser.add_argument("book", metavar="BOOK", help="a book of rules (.gbook), within the folder")
    parser.add_argument("--folder", type=Path, default=Path("."), metavar="DIR",
                        help="the folder whose files are opened and saved, else the one in which it is started")
    parser.add_argument("--scale", default="", metavar="S", help="what a mesh's coordinates are multiplied by")
    parser.add_argument("--port", type=int, default=0, metavar="N", help="the port, else any that is free")
    parser.add_argument("--no-browser", action="store_true", help="only print the address")
    return parser.parse_args(words)


def name_within(folder: Path, path: str) -> str:
    """The name of a file of the command line as one within the folder."""
    try:
        return str(Path(os.path.abspath(path)).relative_to(folder))
    except ValueError:
        raise Fault(f"it isn't in the folder {folder}; start the studio in a folder that has all of its files",
                    path) from None


def begin(asked: argparse.Namespace) -> "Server":
    """The server of a session with the files of the command line."""
    from gmr.studio.files import begin_session
    from gmr.studio.folder import Folder
    from gmr.studio.server import Server
    from gmr.studio.store import Store
    folder = Folder(asked.folder)
    amap, book = name_within(folder.path, asked.map), name_within(folder.path, asked.book)
    store = Store(folder)
    tempfile.tempdir = str(store.path)      # nothing is written outside the folder
    try:
        return Server(begin_session(folder, store, amap, book, asked.scale), asked.port)
    except BaseException:
        store.close(True)
        raise


def main(words: Sequence[str]) -> None:
    """Serves the page until it is ended."""
    asked = parse(words)
    for module, package in (("bottle", "python3-bottle"), ("numpy", "python3-numpy")):
        needs(module, package)
    server = begin(asked)
    signal.signal(signal.SIGTERM, end)
    try:
        print(server.address(), flush=True)
        if not asked.no_browser:
            webbrowser.open(server.address())
        server.serve()
    except KeyboardInterrupt:       # the usual way to end it
        pass
    finally:
        server.session.store.close(not server.session.unsaved and not server.session.draft)


def end(_: int, __: FrameType | None) -> None:
    """Ends the studio as an interrupt does."""
    raise KeyboardInterrupt


def run() -> int:
    """Does what the command line asks for; the status."""
    return run_command("studio", main)
