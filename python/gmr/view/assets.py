"""The scripts of the viewer, with three.js of the system, to be put into a page or served."""
from pathlib import Path

from gmr.errors import Missing

STATIC = Path(__file__).parent / "static"
THREE = Path("/usr/share/javascript/three")
LIBRARY = ("build/three.min.js", "examples/js/controls/OrbitControls.js")
SCRIPTS = ("state.js", "groups.js", "colours.js", "polygons.js", "shape.js", "outward.js", "pool.js", "strokes.js",
           "faces.js", "layers.js", "marks.js", "picture.js", "near.js", "pick.js", "pointer.js", "eye.js", "viewer.js")


def library() -> str:
    """The text of three.js and its controls; Missing where they aren't installed."""
    try:
        return "\n".join((THREE / name).read_text(encoding="utf-8") for name in LIBRARY)
    except FileNotFoundError as error:
        raise Missing(f"{error.filename} is missing: apt-get install libjs-three") from error


def viewer() -> str:
    """The text of the viewer's own scripts, which define `gmr.Viewer`; `library` comes before it."""
    return "\n".join((STATIC / name).read_text(encoding="utf-8") for name in SCRIPTS)
