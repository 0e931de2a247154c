"""Writing a surface as the files that people take: OBJ, PLY, STL and GLB. docs/DECISIONS.md has the table of formats."""

from __future__ import annotations

import json
import struct
from typing import Any, Callable, Dict, Iterator, NamedTuple, Sequence

import numpy as np

from ._header import __version__
from .library import TICKS
from .models import STL_HEAD, STL_ROW
from .surface import Surface

# Rows that are formed at a time.
AT_A_TIME = 1 << 16


class Scale(NamedTuple):
    """What a grid step is in the units of a file: a point is at centre + step * coordinates."""

    step: float = 1.0
    centre: Sequence[float] = (0.0, 0.0, 0.0)

    def of(self, points: np.ndarray) -> np.ndarray:
        """Points in ticks as float64: in grid steps exactly, where nothing else is asked."""
        steps = points / TICKS
        return steps if self == Scale() else steps * self.step + np.asarray(self.centre, np.float64)


Bytes = Any
"""bytes, or an array whose bytes are meant."""


def _texts(line: str, numbers: np.ndarray) -> Iterator[bytes]:
    """A line for each row of numbers."""
    for at in range(0, len(numbers), AT_A_TIME):
        rows = numbers[at: at + AT_A_TIME]
        yield (line * len(rows) % tuple(rows.ravel().tolist())).encode("ascii")


def obj(surface: Surface, scale: Scale) -> Iterator[Bytes]:
    """A text with `v`, `vn` and `f a//a b//b c//c`: coordinates with all their digits."""
    yield b"# mahunopi triangles\n"
    yield from _texts("v %r %r %r\n", scale.of(surface.points))
    yield from _texts("vn %.6f %.6f %.6f\n", np.round(surface.normals.astype(np.float64), 6) + 0)
    yield from _texts("f %d//%d %d//%d %d//%d\n", np.repeat(surface.triangles + np.uint32(1), 2, axis=1))


PLY_HEAD = """\
ply
format binary_little_endian 1.0
comment mahunopi triangles
element vertex {}
property float x
property float y
property float z
property float nx
property float ny
property float nz
element face {}
property list uchar int vertex_indices
end_header
"""


def ply(surface: Surface, scale: Scale) -> Iterator[Bytes]:
    """Binary, low byte first, with a normal at each vertex."""
    yield PLY_HEAD.format(len(surface.points), len(surface.triangles)).encode("ascii")
    for at in range(0, len(surface.points), AT_A_TIME):
        part = surface.points[at: at + AT_A_TIME]
        rows = np.empty((len(part), 6), "<f4")
        rows[:, :3] = scale.of(part)
        rows[:, 3:] = surface.normals[at: at + AT_A_TIME]
        yield rows
    for at in range(0, len(surface.triangles), AT_A_TIME):
        part = surface.triangles[at: at + AT_A_TIME]
        faces = np.empty(len(part), [("sides", "u1"), ("corners", "<i4", 3)])
        faces["sides"] = 3
        faces["corners"] = part
        yield faces


def stl(surface: Surface, scale: Scale) -> Iterator[Bytes]:
    """Binary: each triangle with its own normal, zeros where it has no area."""
    yield b"mahunopi triangles".ljust(STL_HEAD - 4) + struct.pack("<I", len(surface.triangles))
    positions = scale.of(surface.points).astype("<f4")
    for at in range(0, len(surface.triangles), AT_A_TIME):
        part = surface.triangles[at: at + AT_A_TIME]
        rows = np.zeros(len(part), STL_ROW)
        rows["positions"] = positions[part]
        p, q, r = surface.points[part].astype(np.float64).transpose(1, 0, 2)
        areas = np.cross(q - p, r - p)
        lengths = np.sqrt(np.einsum("ij,ij->i", areas, areas))
        rows["normal"] = areas / np.where(lengths > 0, lengths, 1)[:, None]
        yield rows


def glb(surface: Surface, scale: Scale) -> Iterator[Bytes]:
    """glTF 2.0 in one file: positions, normals and indices. Axes are the mesh's own."""
    positions, normals = scale.of(surface.points).astype("<f4"), surface.normals.astype("<f4", copy=False)
    parts = [positions, normals, surface.triangles.astype("<u4", copy=False)]
    views, at = [], 0
    for array, target in zip(parts, (34962, 34962, 34963)):
        views.append({"buffer": 0, "byteOffset": at, "byteLength": array.nbytes, "target": target})
        at += array.nbytes
    vectors: Dict[str, Any] = {"componentType": 5126, "count": len(positions), "type": "VEC3"}
    scene = {"asset": {"version": "2.0", "generator": f"mahunopi {__version__}"}, "scene": 0, "scenes": [{"nodes": [0]}], "nodes": [{"mesh": 0}],
             "meshes": [{"primitives": [{"attributes": {"POSITION": 0, "NORMAL": 1}, "indices": 2}]}], "buffers": [{"byteLength": at}],
             "bufferViews": views,
             "accessors": [{"bufferView": 0, **vectors, "min": positions.min(axis=0).tolist(), "max": positions.max(axis=0).tolist()},
                           {"bufferView": 1, **vectors},
                           {"bufferView": 2, "componentType": 5125, "count": surface.triangles.size, "type": "SCALAR"}]}
    text = json.dumps(scene).encode("ascii")
    text += b" " * (-len(text) % 4)
    # every number has four bytes, so that the arrays need no filling
    yield struct.pack("<4s2I", b"glTF", 2, 12 + 8 + len(text) + 8 + at) + struct.pack("<I4s", len(text), b"JSON") + text
    yield struct.pack("<I4s", at, b"BIN\0")
    yield from parts


WRITERS: Dict[str, Callable[[Surface, Scale], Iterator[Bytes]]] = {"obj": obj, "ply": ply, "stl": stl, "glb": glb}
"""The formats by the endings of their names."""
