"""Finds cells of maps."""
from gmr.callables import make_callable

make_callable(__name__)
