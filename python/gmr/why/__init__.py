"""Says why something is refused."""
from gmr.callables import make_callable

make_callable(__name__)
