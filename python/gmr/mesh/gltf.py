"""Meshes in glTF, as text or binary: written as triangles with coordinates of 32 bits."""
import base64
import json
import struct
from pathlib import Path
from typing import Any

import numpy as np

from gmr.mesh.decimals import Whole
from gmr.mesh.model import Surface
from gmr.mesh.stl import cut_to_triangles

FLOAT, UNSIGNED, BYTE = 5126, 5125, 5121  # types of numbers by glTF's own codes
VERTICES, INDICES = 34962, 34963
JSON_CHUNK, BINARY_CHUNK = 0x4E4F534A, 0x004E4942


def write_gltf(path: Path, surface: Surface) -> None:
    """Writes the surface as a text that has its numbers within."""
    scene, data = make_scene(surface)
    scene["buffers"][0]["uri"] = "data:application/octet-stream;base64," + base64.b64encode(data).decode()
    path.write_text(json.dumps(scene), encoding="utf-8")


def write_glb(path: Path, surface: Surface) -> None:
    """Writes the surface in the binary form."""
    scene, data = make_scene(surface)
    text = json.dumps(scene).encode()
    text += b" " * (-len(text) % 4)
    chunks = struct.pack("<II", len(text), JSON_CHUNK) + text + struct.pack("<II", len(data), BINARY_CHUNK) + data
    path.write_bytes(struct.pack("<4sII", b"glTF", 2, 12 + len(chunks)) + chunks)


def make_scene(surface: Surface) -> tuple[dict[str, Any], bytes]:
    """The scene with the surface as its one mesh, and the bytes of its numbers. With colours of faces each face has
    points of its own, since glTF has colours at points alone."""
    triangles = cut_to_triangles(surface)
    points = surface.places.floats().astype(np.float32)
    colours = surface.point_colours
    if surface.face_colours is not None:
        counts = np.maximum(surface.sizes - 2, 0)
        colours = np.repeat(surface.face_colours, 3 * counts, axis=0)
        points = points[triangles.ravel()]
        triangles = np.arange(len(points)).reshape(-1, 3)
    parts: list[tuple[bytes, dict[str, Any]]] = [
        (triangles.astype("<u4").tobytes(), {"componentType": UNSIGNED, "count": triangles.size, "type": "SCALAR"}),
        (points.astype("<f4").tobytes(), {"componentType": FLOAT, "count": len(points), "type": "VEC3",
                                          "min": points.min(axis=0).tolist(), "max": points.max(axis=0).tolist()}),
    ]
    attributes = {"POSITION": 1}
    if colours is not None:
        parts.append((pad_colours(colours), {"componentType": BYTE, "normalized": True, "count": len(colours),
                                             "type": "VEC4"}))
        attributes["COLOR_0"] = 2
    return join_parts(parts, attributes), b"".join(data for data, _ in parts)


def pad_colours(colours: Whole) -> bytes:
    """Colours of four bytes each, the last one being opaque."""
    return bytes(np.concatenate([colours, np.full((len(colours), 1), 255)], axis=1).astype(np.uint8).tobytes())


def join_parts(parts: list[tuple[bytes, dict[str, Any]]], attributes: dict[str, int]) -> dict[str, Any]:
    """The scene that tells where its parts stand. Each part has a multiple of four bytes."""
    ends = np.cumsum([len(data) for data, _ in parts]).tolist()
    views = [
        {"buffer": 0, "byteOffset": end - len(data), "byteLength": len(data),
         "target": VERTICES if number else INDICES}
        for number, ((data, _), end) in enumerate(zip(parts, ends))
    ]
    return {
        "asset": {"version": "2.0", "generator": "gmr"},
        "scene": 0,
        "scenes": [{"nodes": [0]}],
        "nodes": [{"mesh": 0}],
        "meshes": [{"primitives": [{"attributes": attributes, "indices": 0}]}],
        "accessors": [{"bufferView": number, **told} for number, (_, told) in enumerate(parts)],
        "bufferViews": views,
        "buffers": [{"byteLength": ends[-1]}],
    }
