"""A page to look at a mesh's surface: one HTML file that holds the control points and all that draws them."""

from __future__ import annotations

import base64
import html
import json
import os
import re
from typing import Any, Dict, List, Sequence, Tuple

import numpy as np

from .borders import misses
from .calls import Mesh, build, link
from .library import UNIT, Unreadable
from .reporting import in_ticks
from .shape import Shape, irregular_faces, irregular_vertices

MARK = b"<!DOCTYPE html>\n<!-- A page of mahunopi view: "
# three.js as a classic script; Debian's libjs-three is version 111
THREE = ("/usr/share/javascript/three/three.min.js", "/usr/share/javascript/three/three.js")


def page(meshes: Sequence[Tuple[str, Mesh]]) -> bytes:
    """The page of one mesh, or of two beside one another, each with its name. The meshes are accepted."""
    here = os.path.dirname(os.path.abspath(__file__))
    parts = {"TITLE": html.escape(", ".join(_plain(name) for name, _ in meshes)), "THREE": _three(),
             "DATA": json.dumps([entry(name, mesh) for name, mesh in meshes]).replace("<", "\\u003c"),
             "SCRIPT": _text(os.path.join(here, "view.js"))}
    text = re.sub("@([A-Z]+)@", lambda found: parts[found[1]], _text(os.path.join(here, "view.html")))
    return text.encode("utf-8")


def entry(name: str, mesh: Mesh) -> Dict[str, Any]:
    """What the page holds of a mesh: its lists, links and control points, the largest miss of each condition at each border in
    ticks, and the way round that triangles have to run."""
    links = link(mesh)
    points = build(mesh, links)
    worst = np.abs(misses(mesh, links, points)).max(axis=3)
    lists = {"coordinates": ("<i4", mesh.coordinates), "sides": ("<u1", mesh.sides), "corners": ("<u2", mesh.corners),
             "sharpness": ("<u1", mesh.sharpness), "links": ("<u2", links), "points": ("<i4", points), "misses": ("<f4", worst / UNIT)}
    packed: Dict[str, Any] = {key: base64.b64encode(array.astype(kind).tobytes()).decode() for key, (kind, array) in lists.items()}
    return {"name": _plain(name), "sense": -1 if Shape(mesh).volume() < 0 else 1, **packed,
            "irregular_vertices": irregular_vertices(mesh), "irregular_faces": irregular_faces(mesh),
            "largest": [in_ticks(miss) for miss in worst.max(axis=(0, 1)).tolist()]}


def _three() -> str:
    for path in THREE:
        if os.path.isfile(path):
            text = _text(path)
            break
    else:
        raise Unreadable("a page needs three.js, which is not installed (Debian: libjs-three)")
    if "</script" in text or "<!--" in text:
        raise Unreadable(f"{path} cannot stand in a page: it has </script or <!-- in it")
    return text


def _text(path: str) -> str:
    with open(path, encoding="utf-8") as file:
        return file.read()


def _plain(name: str) -> str:
    """A file's name as text, whatever its bytes are."""
    return os.fsencode(name).decode("utf-8", "replace")


def default_name(names: List[str]) -> str:
    """What a page of these files is called where nothing else is said."""
    return "-".join(os.path.splitext(os.path.basename(name))[0] for name in names) + ".html"
