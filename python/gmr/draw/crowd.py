"""The faces of large surfaces as solids are drawn, all at once by numpy's arrays: the same as solid.faces_of gives."""
from __future__ import annotations

import numpy as np
from numpy.typing import NDArray

from gmr.arrays import Arrays, least_of_orbits
from gmr.draw.solid import FILL, LIGHT, MOST_LINES, Camera, Crowd, Face, View
from gmr.mesh.model import next_corners
from gmr.mesh.taken import lead_darts, walk_faces

Floats = NDArray[np.float64]
Rows = NDArray[np.int64]
FEWEST = 100_000  # darts from which on a map is drawn so


def suits(it: Arrays, view: View) -> bool:
    """Whether a map is a large surface with points, all of whose faces are closed, that isn't seen through."""
    has_points = any(one.labels == (1, 2) and one.kind in ("vec2", "vec3") for one in it.embeds)
    rows = np.arange(len(it.names))
    is_large = it.dimension == 2 and len(rows) >= FEWEST and has_points and not view.apart and not view.clear
    return is_large and not (it.alpha[:2] == rows).any()


def faces_of(it: Arrays, view: View) -> list[Face] | Crowd:
    """The faces of a map that may be seen, from the back to the front; as triangles where they are very many."""
    least = least_of_orbits(list(it.alpha[:2]), len(it.names))
    leading = np.nonzero(lead_darts(it, range(3), least))[0]
    owners, firsts = np.unique(least[leading], return_index=True)
    darts, sizes = walk_faces(it, leading[firsts])
    places = points_of(it)[darts]
    begins = np.cumsum(sizes) - sizes
    normals = normals_of(places, sizes, begins)
    parts = least_of_orbits(list(it.alpha), len(it.names))[owners]
    is_closed = closed_parts(it, parts)
    volumes = np.bincount(parts, (places[begins] * normals).sum(axis=1), len(it.names))
    inward = is_closed & (volumes[parts] < 0)
    normals = np.where(inward[:, None], -normals, normals)
    camera = Camera(view)
    axes = np.array([camera.right, camera.upward, camera.toward]).T
    turned, facing = places @ axes, normals @ axes
    lengths = np.linalg.norm(facing, axis=1)
    seen = ~(is_closed & (facing[:, 2] <= 1e-9 * lengths))
    facing = np.where(facing[:, 2:] >= 0, facing, -facing)
    colours = lit_all(colours_of(it, owners), facing, lengths)
    depths = np.add.reduceat(turned[:, 2], begins) / sizes
    order = np.nonzero(seen)[0][np.argsort(depths[seen], kind="stable")]
    if len(order) > MOST_LINES:
        return Crowd(fans_of(turned[:, :2], begins[order], sizes[order]),
                     np.repeat(colours[order], sizes[order] - 2, axis=0), len(order))
    flat, ends = turned[:, :2].tolist(), (begins + sizes).tolist()
    names, starts, shown = it.names[owners].tolist(), begins.tolist(), colours.tolist()
    return [Face([(x, y) for x, y in flat[starts[one]: ends[one]]], (shown[one][0], shown[one][1], shown[one][2]),
                 names[one]) for one in order.tolist()]


def fans_of(flat: Floats, begins: Rows, sizes: Rows) -> Floats:
    """Faces as triangles round the first corner of each."""
    counts = sizes - 2
    firsts = np.repeat(begins, counts)
    steps = np.arange(len(firsts)) - np.repeat(np.cumsum(counts) - counts, counts)
    found: Floats = flat[np.stack([firsts, firsts + steps + 1, firsts + steps + 2], axis=1)]
    return found


def points_of(it: Arrays) -> Floats:
    """The points of the darts in space."""
    embed = next(one for one in it.embeds if one.labels == (1, 2) and one.kind in ("vec2", "vec3"))
    found = np.zeros((len(it.names), 3))
    rows = it.values[embed.name]
    found[:, : rows.shape[1]] = rows
    return found


def is_in_space(it: Arrays) -> bool:
    """Whether the points of a map don't lie in the plane."""
    return bool(np.ptp(points_of(it)[:, 2]))


def normals_of(places: Floats, sizes: Rows, begins: Rows) -> Floats:
    """A way at right angles to each face, as long as twice its area."""
    ways = places - np.repeat(places[begins], sizes, axis=0)
    found: Floats = np.add.reduceat(np.cross(ways, ways[next_corners(sizes)]), begins, axis=0)
    return found


def closed_parts(it: Arrays, parts: Rows) -> NDArray[np.bool_]:
    """Whether the part of each face is closed and has two sides."""
    rows = np.arange(len(it.names))
    least = least_of_orbits(list(it.alpha), len(rows))
    leading = lead_darts(it, range(3), least_of_orbits(list(it.alpha[:2]), len(rows)))
    is_open = np.zeros(len(rows), bool)
    is_open[least[it.alpha[2] == rows]] = True
    is_open[least[leading & leading[it.alpha[0]]]] = True  # one side alone: all darts lead
    found: NDArray[np.bool_] = ~is_open[parts]
    return found


def colours_of(it: Arrays, darts: Rows) -> Floats:
    """The colours of faces, of the first embedding of kind rgb over faces or more."""
    embed = next((one for one in it.embeds if one.kind == "rgb" and {0, 1} <= {*one.labels}), None)
    if embed is None:
        return np.broadcast_to(np.array(FILL, np.float64), (len(darts), 3))
    return it.values[embed.name][darts].astype(np.float64)


def lit_all(colours: Floats, facing: Floats, lengths: Floats) -> Floats:
    """Colours in the light, as parts from 0 to 1."""
    towards = facing @ np.array(LIGHT) / np.where(lengths > 0, lengths, 1.0)
    shares = 0.6 + 0.4 * np.maximum(0.0, towards)
    found: Floats = np.minimum(1.0, colours / 255 * shares[:, None])
    return found
