"""Meshes become maps, and maps meshes."""
