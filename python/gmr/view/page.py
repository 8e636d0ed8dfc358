"""A page that stands alone: a template, into which the library, the viewer and the data are put."""
import html
import json
from typing import Any

from gmr.view import assets

PAGE_SCRIPTS = ("parts.js", "steps.js", "page.js")


def make_page(title: str, data: dict[str, Any]) -> str:
    """The text of the page. The data are `scenes` and `names`, and with a script `steps` and `rules`."""
    parts = {
        "title": html.escape(title),
        "style": read("page.css"),
        "data": json.dumps(data, separators=(",", ":")).replace("<", "\\u003c"),
        "library": script(assets.library()),
        "viewer": script("\n".join([assets.viewer(), *map(read, PAGE_SCRIPTS)])),
    }
    pieces = read("page.html").split("@")
    return "".join(parts[piece] if at % 2 else piece for at, piece in enumerate(pieces))


def read(name: str) -> str:
    """The text of a file of the viewer's."""
    return (assets.STATIC / name).read_text(encoding="utf-8")


def script(text: str) -> str:
    """A script as it can stand in a page."""
    return text.replace("</script", "<\\/script").replace("<!--", "<\\!--")
