"""Smooth patches over a closed mesh, in whole numbers: the proved library, called from Python.

A `Mesh` is four numpy arrays. The calls:

    survey                           counts what a .dms file holds
    decode, off                      read the mesh of a .dms file, or of an OFF text
    encode                           writes a mesh as a .dms file
    turn                             turns faces that are drawn the wrong way round
    irregular                        says whether a mesh is all squares
    link                             makes the link table of a mesh
    build                            makes the control points of a range of corners: 41 for each, in ticks of 1/256 of a grid step
    preview, touched                 build with one vertex moved, and mark the corners that a vertex can change
    floats, floats_all               give one control point as floats, or all of them
    sample, sample_triangle          give a point of the surface, or all points of a triangle
    tangents_at                      gives the two exact tangents at a point of the surface
    triangles                        makes the whole surface one closed mesh of triangles, each corner at a level of its own
    count_triangles, tangents        say how large that mesh is, and give the tangents at its points
    report, merge                    add a file to the page of a border report, and make one page of two
    nest                             lists a table of nested grids
    archive, restore                 rearrange a coordinate list for the archive, and undo that

The modules beside them:

    mahunopi.models                  reads OBJ, OFF, PLY, STL, glTF and other models
    mahunopi.importing               makes meshes of models
    mahunopi.surface                 makes triangles with normals
    mahunopi.writing                 makes files of triangles
    mahunopi.view                    makes pages to look at a surface
    mahunopi.borders                 has the misses of every border
    mahunopi.reporting               reports on many files
    mahunopi.nested                  reads and draws tables of nested grids

    >>> import mahunopi
    >>> cube = mahunopi.decode(open("meshes/cube.dms", "rb").read())
    >>> points = mahunopi.build(cube, mahunopi.link(cube))
    >>> points.shape
    (24, 41, 3)
    >>> points[0, 0]        # b00 of corner 0
    array([512, 512, 512], dtype=int32)

An input that is turned down raises `Refused`, which has the refusal's number, place and words. An array of another type, shape
or layout than a call takes raises `TypeError` or `ValueError` before the call: arrays go to the library as they are, and none is
copied. The parameters named `out` are filled instead of new arrays; after a refusal they keep their contents.

Calls share no state, release the interpreter's lock and may run at the same time on any threads. Each needs up to `CALL_STACK`
bytes of its thread's stack; a stack that is too small ends the program (`threading.stack_size` sets that of new threads).
"""

from __future__ import annotations

try:
    from ._header import __version__
except ModuleNotFoundError as _error:
    raise ImportError("the package is not complete: run `.ci/staticlib`, then python/make-library") from _error
from .library import TYPE_CHECKING, Refused

if TYPE_CHECKING:
    from typing import Any, List

    from .calls import (
        CALL_STACK,
        MAX_BODIES,
        MAX_CORNERS,
        MAX_FACES,
        MAX_PAGE_MESHES,
        MAX_PARTS,
        MAX_SHARPNESS,
        MAX_SIDES,
        MAX_VERTICES,
        MIN_SIDES,
        NUMBERS_PER_CORNER,
        PAGE_NUMBERS,
        PLAIN_SHARPNESS,
        SUN,
        VERSION,
        Counts,
        FloatPoint,
        Irregular,
        Kind,
        Mesh,
        Size,
        archive,
        build,
        count_triangles,
        decode,
        floats,
        floats_all,
        irregular,
        link,
        merge,
        nest,
        off,
        preview,
        report,
        restore,
        sample,
        sample_triangle,
        survey,
        tangents,
        tangents_at,
        touched,
        triangles,
        turn,
    )
    from .dms import encode, lists

__all__ = ["Refused", "CALL_STACK", "MAX_BODIES", "MAX_CORNERS", "MAX_FACES", "MAX_PAGE_MESHES", "MAX_PARTS", "MAX_SHARPNESS",
           "MAX_SIDES", "MAX_VERTICES", "MIN_SIDES", "NUMBERS_PER_CORNER", "PAGE_NUMBERS", "PLAIN_SHARPNESS", "SUN",
           "VERSION", "Counts", "FloatPoint", "Irregular", "Kind", "Mesh", "Size", "archive", "build", "count_triangles",
           "decode", "encode", "floats", "floats_all", "irregular", "link", "lists", "merge", "nest", "off", "preview", "report",
           "restore", "sample", "sample_triangle", "survey", "tangents", "tangents_at", "touched", "triangles", "turn"]


def __getattr__(name: str) -> Any:
    """What needs numpy comes with its first use."""
    if name not in __all__:
        raise AttributeError(f"module 'mahunopi' has no attribute '{name}'")
    from . import calls, dms

    globals()[name] = getattr(dms if name in ("encode", "lists") else calls, name)
    return globals()[name]


def __dir__() -> List[str]:
    return sorted({*globals(), *__all__})
