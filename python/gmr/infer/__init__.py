"""Makes a rule from an example."""
from gmr.callables import make_callable

make_callable(__name__)
