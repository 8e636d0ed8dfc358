"""Subpackages that can be called as the function of their name: `gmr.draw(map)` beside `from gmr.draw import flat`."""
import sys
from importlib import import_module
from types import ModuleType
from typing import Any


class Subject(ModuleType):
    """A subpackage whose call is that of the function of its name in `gmr.functions`."""

    def __call__(self, *given: Any, **words: Any) -> Any:
        return getattr(import_module("gmr.functions"), self.__name__.rpartition(".")[2])(*given, **words)


def make_callable(name: str) -> None:
    """Lets a subpackage be called."""
    sys.modules[name].__class__ = Subject
