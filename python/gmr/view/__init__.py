"""A page that shows maps, and the scenes that its viewer draws."""
