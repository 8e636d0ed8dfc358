"""Python around gmr, the proved rule modeller on generalised maps."""
from importlib import import_module
from typing import TYPE_CHECKING, Any

from gmr.errors import Fault, Missing, Refused, Unwritten

if TYPE_CHECKING:
    from gmr.books import Book, Rule, Verdict
    from gmr.regions import Cell, Cells, Region
    from gmr.functions import cells, draw, dual, find, infer, why
    from gmr.maps import Map
    from gmr.model import Model, Outcome
    from gmr.schemas import Embed

__all__ = [
    "Book", "Cell", "Cells", "Embed", "Fault", "Map", "Missing", "Model", "Outcome", "Refused", "Region", "Rule",
    "Unwritten", "Verdict", "cells", "draw", "dual", "find", "infer", "why",
]

HOMES = {
    **dict.fromkeys(("Book", "Rule", "Verdict"), "gmr.books"),
    **dict.fromkeys(("Cell", "Cells", "Region"), "gmr.regions"),
    **dict.fromkeys(("Model", "Outcome"), "gmr.model"), "Map": "gmr.maps", "Embed": "gmr.schemas",
    **dict.fromkeys(("cells", "dual"), "gmr.functions"),
}
SUBJECTS = ("draw", "find", "infer", "why")     # subpackages, which can be called


def __getattr__(name: str) -> Any:
    """What the package has at its top, imported when it is first asked for: a command needs few modules."""
    if name in SUBJECTS:
        return import_module(f"gmr.{name}")
    if name not in HOMES:
        raise AttributeError(f"module 'gmr' has no attribute {name!r}")
    return getattr(import_module(HOMES[name]), name)
