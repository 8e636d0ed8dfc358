"""The studio's server: it listens on the loopback address alone, and hands to actions what the guard lets in."""
import secrets
import socketserver
import sys
import threading
import traceback
from collections.abc import Callable, Iterable
from pathlib import Path
from typing import Any
from wsgiref.simple_server import WSGIRequestHandler, WSGIServer, make_server

import bottle  # type: ignore

from gmr.errors import Fault, Refused
from gmr.studio import wire
from gmr.studio.actions import ACTIONS, CHANGING, UNLOCKED
from gmr.studio.folder import Outside
from gmr.studio.guard import HEADERS, Environ, Guard
from gmr.studio.requests import Unclear, read_body
from gmr.studio.session import Session
from gmr.view import assets

STATIC = Path(__file__).parent / "static"
SCRIPTS = ("core.js", "drawing.js", "stage.js", "values.js", "choice.js", "rules.js", "script.js", "book.js",
           "files.js", "example.js", "keys.js", "main.js")
TYPES = {".html": "text/html; charset=utf-8", ".js": "text/javascript; charset=utf-8",
         ".css": "text/css; charset=utf-8", ".svg": "image/svg+xml"}
CHUNK = 2**16
Start = Callable[..., Any]


class Quiet(WSGIRequestHandler):
    """Handles requests without a line for each on standard error; one that says nothing for a minute is left."""

    timeout = 60

    def log_message(self, format: str, *args: Any) -> None:  # pylint: disable=redefined-builtin
        """Logs nothing."""


class Threaded(socketserver.ThreadingMixIn, WSGIServer):
    """A server with a thread for each request."""

    daemon_threads = True


class Server:
    """The server of one session."""

    def __init__(self, session: Session, port: int = 0) -> None:
        self.session, self.lock = session, threading.Lock()
        self.http = make_server("127.0.0.1", port, self.answer, Threaded, Quiet)
        self.token = secrets.token_urlsafe(24)
        self.guard = Guard(self.token, self.http.server_port)
        self.app = bottle.Bottle(catchall=True)
        self.app.route(f"/{self.token}/", "GET", send_page)
        self.app.route(f"/{self.token}/static/<name>", "GET", self.send_static)
        self.app.route(f"/{self.token}/api/<name>", "POST", self.act)
        self.app.default_error_handler = say_error

    def address(self) -> str:
        """The address of the page, with its token."""
        return f"http://127.0.0.1:{self.http.server_port}/{self.token}/"

    def answer(self, environ: Environ, start: Start) -> Iterable[bytes]:
        """Answers a request: what the guard doesn't let in gets one line, and nothing of its body is read."""
        refusal = self.guard.judge(environ)
        if refusal:
            text = f"{refusal.reason}\n".encode("utf-8")
            start(refusal.status, [("Content-Type", "text/plain; charset=utf-8"), ("Content-Length", str(len(text))),
                                   *HEADERS])
            return [text]
        found: Iterable[bytes] = self.app(environ, lambda status, headers, _=None: start(status, headers + HEADERS))
        return found

    def send_static(self, name: str) -> Any:
        """Sends a file of the page: one of this package, of the viewer, or the library that the viewer stands on."""
        path = find_static(name)
        if path is None:
            raise bottle.HTTPError(404, "the page has no such file")
        return bottle.HTTPResponse(path.read_bytes(), 200, {"Content-Type": TYPES[path.suffix]})

    def act(self, name: str) -> Any:
        """Does what a request asks for, one request after the other; a check of a text waits for none."""
        if name not in ACTIONS:
            raise bottle.HTTPError(404, "there is no such action")
        try:
            body = read_body(read_data(bottle.request.environ))
            if name in UNLOCKED:
                return send(200, ACTIONS[name](self.session, body))
            with self.lock:
                if name in CHANGING and body.get("version") != self.session.version:
                    return send(409, {"fault": "the map was changed elsewhere; load the page again"})
                return send(200, ACTIONS[name](self.session, body))
        except (Unclear, Outside) as fault:
            return send(400, {"fault": str(fault)})
        except Fault as fault:
            why = fault.sentences if isinstance(fault, Refused) else []
            return send(200, {"answer": [fault.told()], "why": why, "refused": True})
        except OSError as error:
            return send(400, {"fault": f"{error.filename or 'a file'}: {error.strerror or error}"})
        except Exception:   # pylint: disable=broad-except
            traceback.print_exc()
            last = traceback.format_exception_only(*sys.exc_info()[:2])[-1].strip()
            return send(500, {"fault": f"a fault of the studio, which changed nothing: {last}"})

    def serve(self) -> None:
        """Serves until it is ended."""
        try:
            self.http.serve_forever()
        finally:
            self.http.server_close()


def send_page() -> Any:
    """Sends the page, which names the scripts of the viewer and its own in their order."""
    names = (*(Path(name).name for name in assets.LIBRARY), *assets.SCRIPTS, *SCRIPTS)
    tags = "\n".join(f'<script src="static/{name}"></script>' for name in names)
    page = (STATIC / "studio.html").read_text(encoding="utf-8").replace("<!-- scripts -->", tags)
    return bottle.HTTPResponse(page.encode("utf-8"), 200, {"Content-Type": TYPES[".html"]})


def find_static(name: str) -> Path | None:
    """The file of the page with this name, or None where there is none."""
    paths = [*(assets.THREE / name for name in assets.LIBRARY), *(assets.STATIC / name for name in assets.SCRIPTS),
             *(STATIC / name for name in (*SCRIPTS, "studio.css", "icon.svg"))]
    return next((path for path in paths if path.name == name), None)


def read_data(environ: Environ) -> bytes:
    """The body of a request whose length the guard took; Unclear where it ends early."""
    left, parts = int(environ["CONTENT_LENGTH"]), []
    while left:
        part = environ["wsgi.input"].read(min(CHUNK, left))
        if not part:
            raise Unclear("the body ends early")
        parts.append(part)
        left -= len(part)
    return b"".join(parts)


def send(status: int, answer: dict[str, Any]) -> Any:
    """An answer as JSON, with columns of numbers after it."""
    data, has_columns = wire.to_bytes(answer)
    kind = "application/octet-stream" if has_columns else "application/json; charset=utf-8"
    return bottle.HTTPResponse(data, status, {"Content-Type": kind})


def say_error(error: Any) -> str:
    """What is answered where there is nothing at an address."""
    bottle.response.content_type = "text/plain; charset=utf-8"
    return f"{error.body}\n"
