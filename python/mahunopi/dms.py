"""The .dms file: writing one, and its lists as they stand where the mesh may still be faulty."""

from __future__ import annotations

import re
import struct
from typing import NamedTuple, Optional

import numpy as np

from .calls import PLAIN_SHARPNESS, Mesh, decode, off
from .library import HEADER, MARK, Refused


class Lists(NamedTuple):
    """What a file holds: a mesh that nothing but its file's form was checked of, and the version to write it with."""

    mesh: Mesh
    version: int


def encode(mesh: Mesh, version: Optional[int] = None) -> bytes:
    """The .dms file of a mesh. Without a version it is 1 where all corners have sharpness 8 and 8, else 2."""
    plain = bool(np.all(mesh.sharpness == PLAIN_SHARPNESS))
    if version is None:
        version = 1 if plain else 2
    if version not in (1, 2):
        raise ValueError(f"a .dms file has version 1 or 2, not {version}")
    if version == 1 and not plain:
        raise ValueError("a file of version 1 has no room for sharpness")
    counts = (version, mesh.coordinates.size // 3, mesh.sides.size, mesh.corners.size)
    if max(counts) > 65_535:
        raise ValueError(f"a .dms file counts at most 65,535 vertices, faces and corners, not {max(counts):,}")
    kinds = [("<i4", mesh.coordinates), ("<u1", mesh.sides), ("<u2", mesh.corners)] + [("<u1", mesh.sharpness)] * (version - 1)
    # another type of array is a TypeError here
    return MARK + struct.pack("<4H", *counts) + b"".join(a.astype(kind, casting="equiv").tobytes() for kind, a in kinds)


def words(text: bytes) -> list:
    """The words of an OFF text, as the library parts them."""
    return re.findall(rb"[^ \t\r\n]+", re.sub(rb"#[^\n]*", b"", text))


def lists(data: bytes) -> Lists:
    """The lists of a .dms file, or of an OFF text of whole numbers, as they stand: refusals 1 to 4, or 24 to 26 and 4. What else may
    be wrong is for `turn` and `link` to say."""
    if is_off(data):
        try:
            return Lists(off(data), 1)
        except Refused as refused:
            if refused.number in (4, 24, 25, 26):
                raise
        numbers = np.array(words(data)[1:], np.int64)
        vertices, faces = numbers[:2]
        rest = numbers[3 + 3 * vertices:].tolist()
        sides, corners, at = [], [], 0
        for _ in range(faces):
            sides.append(rest[at])
            corners.extend(rest[at + 1: at + 1 + rest[at]])
            at += 1 + rest[at]
        coordinates = numbers[3: 3 + 3 * vertices].astype(np.int32).reshape(-1, 3)
        return Lists(Mesh(coordinates, np.array(sides, np.uint8), np.array(corners, np.uint16)), 1)
    try:
        mesh = decode(data)
    except Refused as refused:
        if refused.number <= 4:
            raise
        mesh = None
    version, vertices, faces, corners = np.frombuffer(data, "<u2", 4, len(MARK)).tolist()
    if mesh is None:
        at = HEADER
        parts = []
        for kind, count in (("<i4", 3 * vertices), ("u1", faces), ("<u2", corners), ("u1", 2 * corners if version == 2 else 0)):
            parts.append(np.frombuffer(data, kind, count, at).astype(np.dtype(kind).newbyteorder("=")))
            at += parts[-1].nbytes
        sharpness = parts[3].reshape(-1, 2) if version == 2 else None
        mesh = Mesh(parts[0].reshape(-1, 3), parts[1], parts[2], sharpness)
    return Lists(mesh, version)


def is_off(data: bytes) -> bool:
    """Whether the bytes are an OFF text and no .dms file: their first word is OFF."""
    return not data.startswith(MARK) and re.match(rb"(?:[ \t\r\n]|#[^\n]*\n)*OFF(?:[ \t\r\n#]|$)", data) is not None
