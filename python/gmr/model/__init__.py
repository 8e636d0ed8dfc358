"""A model: a map, a book of rules, and the script of what was done to the map so far by the proved program."""
from gmr.model.model import Model
from gmr.model.outcome import Outcome

__all__ = ["Model", "Outcome"]
