"""A studio over a folder of its own, for tests: it is started, asked, and ended."""
import http.client
import json
import os
import signal
import subprocess
import tempfile
from collections.abc import Iterator
from contextlib import contextmanager
from pathlib import Path
from typing import Any
from urllib.parse import urlparse

from gmr.studio.wire import read_text

CHECKOUT = Path(__file__).resolve().parents[2]
BOOK = CHECKOUT / "examples" / "operations" / "values2.gbook"
CUBE = CHECKOUT / "examples" / "cube.obj"
PAINT = ("150", "175", "205")

Json = dict[str, Any]


class Site:
    """A running studio."""

    def __init__(self, folder: Path, *words: str) -> None:
        self.folder = folder
        self.steps: list[Json] = []     # as far as they were told
        command = [CHECKOUT / "tools" / "studio", *(words or ("cube.obj", "values2.gbook", "--scale", "100")),
                   "--no-browser"]
        self.process = subprocess.Popen(command, cwd=folder, stdout=subprocess.PIPE, text=True)
        assert self.process.stdout is not None
        self.address = self.process.stdout.readline().strip()
        assert self.address.startswith("http://127.0.0.1:"), f"the studio printed '{self.address}'"
        parts = urlparse(self.address)
        self.host, self.path = parts.netloc, parts.path

    def send(self, action: str, body: bytes, headers: dict[str, str] | None = None) -> tuple[int, bytes]:
        """Sends a body to an action: the status, and what is answered."""
        connection = http.client.HTTPConnection(self.host, timeout=60)
        connection.request("POST", f"{self.path}api/{action}", body,
                           {"Content-Type": "application/json", **(headers or {})})
        answer = connection.getresponse()
        return answer.status, answer.read()

    def ask(self, action: str, **fields: Any) -> Json:
        """Asks for an action, which has to be taken."""
        status, data = self.send(action, json.dumps(fields).encode("utf-8"))
        assert status == 200, f"{action} was answered {status}: {data[:200]!r}"
        answer: Json = json.loads(data) if data.startswith(b"{") else read_text(data)
        if "state" in answer:
            self.steps = answer["state"]["steps"] = self.steps[:answer["state"]["kept"]] + answer["state"]["steps"]
        return answer

    def fault(self, action: str, **fields: Any) -> str:
        """Why an action isn't taken."""
        status, data = self.send(action, json.dumps(fields).encode("utf-8"))
        assert status in (400, 409), f"{action} was answered {status}: {data[:200]!r}"
        return str(json.loads(data)["fault"])

    def end(self, how: signal.Signals = signal.SIGTERM) -> None:
        """Ends the studio."""
        if self.process.poll() is None:
            self.process.send_signal(how)
            self.process.wait(30)


@contextmanager
def open_site(*words: str, examples: tuple[str, ...] = ()) -> Iterator[Site]:
    """A studio over a folder that has a cube, a book, and examples of the library."""
    with tempfile.TemporaryDirectory(prefix="gmr-studio-test-") as name:
        folder = Path(name)
        (folder / "cube.obj").write_bytes(CUBE.read_bytes())
        (folder / "values2.gbook").write_bytes(BOOK.read_bytes())
        for name in examples:
            (folder / Path(name).name).write_bytes((CHECKOUT / "examples" / name).read_bytes())
        site = Site(folder, *words)
        try:
            yield site
        finally:
            site.end()


def contents(folder: Path) -> dict[str, tuple[int, bytes]]:
    """All that a folder holds: for each name the time it was written and, of a file, its bytes."""
    found = {}
    for path in sorted(folder.rglob("*")):
        known = path.lstat()
        found[str(path.relative_to(folder))] = (known.st_mtime_ns, path.read_bytes() if path.is_file() else b"")
    return found


def run_gmr(*words: str | os.PathLike[str]) -> str:
    """What the program prints."""
    program = os.environ.get("GMR") or str(CHECKOUT / "crates" / "gmr" / "out" / "gmr")
    return subprocess.run([program, *words], stdout=subprocess.PIPE, text=True, check=False).stdout
