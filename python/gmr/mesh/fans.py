"""The certificate of files of triangles of 32 bits: whether they are the fans of a map's faces, corner by corner."""
import base64
import json
import struct
from collections.abc import Sequence
from fractions import Fraction
from pathlib import Path

import numpy as np

from gmr.arrays import Arrays
from gmr.mesh.again import SINGLE
from gmr.mesh.compare import Array, points_of

STL_HEAD, STL_FACET = 84, 50


def compare_fans(written: Path, given: Arrays, scale: Fraction, origin: Sequence[Fraction] | None, starts: Array
                 ) -> str | None:
    """Why the triangles of a file aren't those of a map's faces, from the dart on at which each begins; None where
    they are. A point may be off by half a unit, and by what 32 bits round."""
    wanted = points_of(given)[list_fans(given.alpha, starts)].astype(np.float64)
    found = read_triangles(written)
    if found.shape != wanted.shape:
        return f"the file has {len(found)} triangles, and the map's faces {len(wanted)}"
    off = np.array([float(one) for one in origin or (0, 0, 0)])
    most = 0.5 + 1e-6 + np.abs(found) * float(scale) * 2 * SINGLE
    wrong = (np.abs((found - off) * float(scale) - wanted) > most).any(axis=(1, 2))
    return f"triangle {int(np.argmax(wrong))} has other corners than in the map" if wrong.any() else None


def list_fans(alpha: Array, starts: Array) -> Array:
    """The darts at the corners of the triangles into which faces are cut from their first corners."""
    begins, at = np.asarray(starts), alpha[1][alpha[0][starts]]
    faces = np.arange(len(begins))
    parts, owners = [], []
    while len(faces):
        following = alpha[1][alpha[0][at]]
        goes_on = following != begins[faces]
        faces, at, following = faces[goes_on], at[goes_on], following[goes_on]
        parts.append(np.stack([begins[faces], at, following], 1))
        owners.append(faces)
        at = following
    return np.concatenate(parts)[np.argsort(np.concatenate(owners), kind="stable")]


def read_triangles(path: Path) -> Array:
    """The corners of the triangles of a file in STL or glTF: n x 3 x 3."""
    data = path.read_bytes()
    if path.suffix.lower() == ".stl":
        rows = np.frombuffer(data, np.uint8, offset=STL_HEAD).reshape(-1, STL_FACET)[:, 12:48]
        return np.ascontiguousarray(rows).view("<f4").reshape(-1, 3, 3).astype(np.float64)
    if path.suffix.lower() == ".glb":
        length = struct.unpack_from("<I", data, 12)[0]
        scene, numbers = json.loads(data[20: 20 + length]), data[28 + length:]
    else:
        scene = json.loads(data)
        numbers = base64.b64decode(scene["buffers"][0]["uri"].partition(",")[2])
    primitive = scene["meshes"][0]["primitives"][0]
    views = [scene["bufferViews"][scene["accessors"][number]["bufferView"]]
             for number in (primitive["attributes"]["POSITION"], primitive["indices"])]
    points, corners = (numbers[view["byteOffset"]: view["byteOffset"] + view["byteLength"]] for view in views)
    places = np.frombuffer(points, "<f4").reshape(-1, 3).astype(np.float64)
    return places[np.frombuffer(corners, "<u4").reshape(-1, 3)]
