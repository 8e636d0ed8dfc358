"""Which requests are let in: with the token, to this address, from this page, and of a size that is taken.

All of it is decided from the head of a request, before its body is read or anything is done."""
import hmac
from typing import Any, NamedTuple

from gmr.studio.folder import MOST_BYTES

Environ = dict[str, Any]

HEADERS = [
    ("Content-Security-Policy",
     "default-src 'none'; script-src 'self'; style-src 'self' 'unsafe-inline'; img-src 'self' data: blob:; "
     "connect-src 'self'; font-src 'self'; base-uri 'none'; form-action 'none'; frame-ancestors 'none'"),
    ("X-Content-Type-Options", "nosniff"),
    ("Referrer-Policy", "no-referrer"),
    ("Cross-Origin-Opener-Policy", "same-origin"),
    ("Cross-Origin-Resource-Policy", "same-origin"),
    ("Cache-Control", "no-store"),
]


class Refusal(NamedTuple):
    """Why a request isn't let in: the status line, and a sentence."""
    status: str
    reason: str


class Guard:
    """Lets a request in or says why not. The token is the first part of each path."""

    def __init__(self, token: str, port: int) -> None:
        self.token = token
        self.hosts = {f"127.0.0.1:{port}", f"localhost:{port}"}
        self.origins = {f"http://{host}" for host in self.hosts}

    def judge(self, environ: Environ) -> Refusal | None:
        """Why the request isn't let in, or None where it is."""
        return self._judge_sender(environ) or self._judge_body(environ)

    def _judge_sender(self, environ: Environ) -> Refusal | None:
        if environ.get("HTTP_HOST") not in self.hosts:
            return Refusal("403 Forbidden", "the request is for another host")
        origin = environ.get("HTTP_ORIGIN")
        if origin is not None and origin not in self.origins:
            return Refusal("403 Forbidden", "the request comes from another origin")
        if environ.get("HTTP_SEC_FETCH_SITE", "none") not in ("none", "same-origin"):
            return Refusal("403 Forbidden", "the request comes from another site")
        given = str(environ.get("PATH_INFO", "")).lstrip("/").partition("/")[0]
        if not hmac.compare_digest(given.encode("utf-8", "replace"), self.token.encode("ascii")):
            return Refusal("403 Forbidden", "the address has no token, or not that of this studio")
        return None

    def _judge_body(self, environ: Environ) -> Refusal | None:
        method = environ.get("REQUEST_METHOD")
        if method in ("GET", "HEAD"):
            return None
        if method != "POST":
            return Refusal("405 Method Not Allowed", "there are only GET and POST")
        if str(environ.get("CONTENT_TYPE", "")).partition(";")[0].strip().lower() != "application/json":
            return Refusal("415 Unsupported Media Type", "the body is to be JSON")
        length = str(environ.get("CONTENT_LENGTH") or "")
        if "HTTP_TRANSFER_ENCODING" in environ or not (length.isascii() and length.isdigit()):
            return Refusal("411 Length Required", "the length of the body is to be told")
        if len(length) > 12 or int(length) > MOST_BYTES:
            return Refusal("413 Content Too Large", f"a request has at most {MOST_BYTES:,} bytes")
        return None
