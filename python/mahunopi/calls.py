"""Every call of include/mahunopi.h over numpy arrays. What each call takes, and what a refusal means, comes from the header
(_header.py, made by python/make-library)."""

from __future__ import annotations

import ctypes
import enum
import operator
from typing import Any, Dict, NamedTuple, Optional, Sequence, Tuple, Union

import numpy as np

from ._header import CALLS, LIMITS
from .library import Refused, functions

Bytes = Union[bytes, bytearray, memoryview, np.ndarray]

VERSION: int = LIMITS["VERSION"]
MAX_VERTICES: int = LIMITS["MAX_VERTICES"]
MAX_FACES: int = LIMITS["MAX_FACES"]
MAX_CORNERS: int = LIMITS["MAX_CORNERS"]
MIN_SIDES: int = LIMITS["MIN_SIDES"]
MAX_SIDES: int = LIMITS["MAX_SIDES"]
MAX_SHARPNESS: int = LIMITS["MAX_SHARPNESS"]
PLAIN_SHARPNESS: int = LIMITS["PLAIN_SHARPNESS"]
NUMBERS_PER_CORNER: int = LIMITS["NUMBERS_PER_CORNER"]
POINTS_PER_CORNER: int = NUMBERS_PER_CORNER // 3
MAX_BODIES: int = LIMITS["MAX_BODIES"]
SUN: int = LIMITS["SUN"]
CALL_STACK: int = LIMITS["CALL_STACK"]
MAX_PARTS: int = LIMITS["MAX_PARTS"]
PAGE_NUMBERS: int = LIMITS["PAGE_NUMBERS"]
MAX_PAGE_MESHES: int = LIMITS["MAX_PAGE_MESHES"]

# The header's types: what an array of them is in numpy, and what a single number may be.
_ARRAY = {"int32_t": np.int32, "int64_t": np.int64, "uint8_t": np.uint8, "uint16_t": np.uint16, "uint32_t": np.uint32,
          "uint64_t": np.uint64, "float": np.float32}
_RANGE = {"int32_t": (-(2**31), 2**31 - 1), "size_t": (0, 2**64 - 1), "uint64_t": (0, 2**64 - 1)}

# An array has one axis, or these after its first one.
_OF_CORNERS = [(3,), (NUMBERS_PER_CORNER,), (POINTS_PER_CORNER, 3)]
_AXES: Dict[str, list] = {"coordinates": [(3,)], "sharpness": [(2,)], "numbers": _OF_CORNERS, "output": _OF_CORNERS, "points": [(3,)],
                          "triangles": [(3,)], "tangents": [(6,), (2, 3), (3,)], "floats": [(POINTS_PER_CORNER, 2, 3)]}


def _array(call: str, name: str, array: Any, kind: str, read_only: bool) -> np.ndarray:
    """The array, if the call takes it as it is."""
    asked = np.dtype(_ARRAY[kind])
    if not isinstance(array, np.ndarray):
        raise TypeError(f"{call}: {name} has to be a numpy array of {asked}, not {type(array).__name__}")
    if array.dtype != asked:
        raise TypeError(f"{call}: {name} has to be an array of {asked}, not {array.dtype}")
    if array.ndim == 0 or (array.ndim > 1 and array.shape[1:] not in _AXES.get(name, [])):
        axes = " or ".join(str(("n",) + more).replace("'", "") for more in [(), *_AXES.get(name, [])])
        raise ValueError(f"{call}: {name} has to have the shape {axes}, not {array.shape}")
    if not array.flags.c_contiguous or not array.flags.aligned:
        raise ValueError(f"{call}: {name} has to lie in one piece (numpy.ascontiguousarray copies it so)")
    if not (read_only or array.flags.writeable):
        raise ValueError(f"{call}: {name} is read-only, and the call writes to it")
    return array


def _call(call: str, *arguments: Union[np.ndarray, int]) -> None:
    """Calls mahunopi_CALL. An array stands for itself and, where the header has one after it, for its length; the place of a
    refusal, the last parameter of every call, is not among the arguments."""
    parameters = iter(CALLS[call][:-1])
    given = iter(arguments)
    passed: list = []
    spans: list = []
    follows = {CALLS[call][i][3]: CALLS[call][i + 1] for i in range(len(CALLS[call]) - 1)}
    for kind, pointer, read_only, name in parameters:
        argument = next(given)
        if pointer:
            array = _array(call, name, argument, kind, read_only)
            start = array.ctypes.data
            spans.append((start, start + array.nbytes, read_only, name))
            passed.append(start)
            after = follows[name]
            if after[0] == "size_t" and not after[1] and after[3].endswith(("_count", "_space")):
                next(parameters)
                passed.append(array.size)
        else:
            least, most = _RANGE[kind]
            try:
                number = operator.index(argument)
            except TypeError:
                raise TypeError(f"{call}: {name} has to be a whole number, not {type(argument).__name__}") from None
            if not least <= number <= most:
                raise ValueError(f"{call}: {name} has to be from {least} to {most}, not {number}")
            passed.append(number)
    for i, (start, end, read_only, name) in enumerate(spans):
        for other_start, other_end, other_read_only, other in spans[:i]:
            if not (read_only and other_read_only) and start < other_end and other_start < end:
                raise ValueError(f"{call}: {other} and {name} overlap, and the call writes to one of them")
    place = ctypes.c_uint64()
    answer = functions[call](*passed, ctypes.byref(place))
    if answer:
        raise Refused(answer, place.value)


def _bytes(call: str, data: Bytes) -> np.ndarray:
    """What holds bytes as an array of them, not copied."""
    if isinstance(data, np.ndarray):
        return data
    try:
        return np.frombuffer(data, np.uint8) if len(data) else np.empty(0, np.uint8)
    except (TypeError, BufferError):
        raise TypeError(f"{call}: the bytes have to be bytes or an array of uint8, not {type(data).__name__}") from None


def _single(kind: type = np.uint64) -> np.ndarray:
    """Room for a single number."""
    return np.zeros(1, kind)


class Mesh:
    """A mesh: its four lists, which hold whatever they hold until a call checks them.

    coordinates: x, y, z of each vertex in grid steps, int32 of shape (vertices, 3) or (3 * vertices,).
    sides: the side count of each face, uint8.
    corners: the vertex numbers of face 0 in order, then of face 1, and so on, uint16. A position in this list is a corner.
    sharpness: u and v of each corner, each 0 to 16, uint8 of shape (corners, 2) or (2 * corners,); 8 and 8 throughout where none is
    given. u pulls towards the leaving edge, v towards the arriving one."""

    def __init__(self, coordinates: np.ndarray, sides: np.ndarray, corners: np.ndarray, sharpness: Optional[np.ndarray] = None) -> None:
        self.coordinates = coordinates
        self.sides = sides
        self.corners = corners
        self.sharpness = np.full((len(corners), 2), PLAIN_SHARPNESS, np.uint8) if sharpness is None else sharpness

    def __repr__(self) -> str:
        return f"Mesh({', '.join(f'{name}={array!r}' for name, array in vars(self).items())})"

    def __eq__(self, other: object) -> bool:
        """Whether both have the same numbers in all four lists, whatever their shapes."""
        if not isinstance(other, Mesh):
            return NotImplemented
        return all(np.array_equal(mine.ravel(), theirs.ravel()) for mine, theirs in zip(self._lists(), other._lists()))

    def copy(self) -> Mesh:
        """A mesh with lists of its own."""
        return Mesh(*(array.copy() for array in self._lists()))

    def _lists(self) -> tuple:
        return self.coordinates, self.sides, self.corners, self.sharpness

    @staticmethod
    def _room() -> Mesh:
        """Lists that are long enough for every mesh."""
        return Mesh(np.empty((MAX_VERTICES, 3), np.int32), np.empty(MAX_FACES, np.uint8), np.empty(MAX_CORNERS, np.uint16),
                    np.empty((MAX_CORNERS, 2), np.uint8))

    def _beginnings(self, lengths: Sequence[np.ndarray]) -> Mesh:
        """The first entries of the lists, as many as the lengths say, not copied."""
        coordinates, sides, corners, sharpness = (array.reshape(-1)[: int(length[0])] for array, length in
                                                  zip(self._lists(), lengths))
        return Mesh(coordinates.reshape(-1, 3), sides, corners, sharpness.reshape(-1, 2))


class Counts(NamedTuple):
    """What `survey` counts of a file's mesh."""

    vertices: int
    faces: int
    corners: int
    vertices_with: np.ndarray
    """Entry m is the number of vertices with m corners, for m from 0 to MAX_SIDES."""
    faces_with: np.ndarray
    """Entry m is the number of faces with m sides."""


class FloatPoint(NamedTuple):
    """A control point's difference from its quad-net's b00, in ticks. Every float is a whole number, every zero plus zero."""

    first: np.ndarray
    """x, y, z of a near point; of a far one the first of each pair, a multiple of 4,096."""
    second: Optional[np.ndarray]
    """Of a far point the second of each pair, 0 to 4,095, so that first + second is the difference; none of a near one."""


class Size(NamedTuple):
    """What `count_triangles` counts of a range of corners."""

    points: int
    triangles: int


class Kind(enum.IntEnum):
    """What `irregular` finds."""

    NONE = 0
    FACE = 1
    VERTEX = 2


class Irregular(NamedTuple):
    """The lowest face that has not four sides, else the lowest vertex that has not four corners, else none."""

    kind: Kind
    number: int
    """The face or the vertex, 0 where there is none."""
    sides_read: int
    """How many side counts the search read, those of the checks apart."""


def survey(data: Bytes, length: Optional[int] = None) -> Counts:
    """The counts of a .dms file: refusals 1 to 13 and 28. `length` is the file's own where `data` holds only its first bytes."""
    data = _bytes("survey", data)
    vertices, faces, corners = _single(), _single(), _single()
    vertices_with, faces_with = np.zeros(MAX_SIDES + 1, np.uint16), np.zeros(MAX_SIDES + 1, np.uint16)
    _call("survey", data, data.size if length is None else length, vertices, faces, corners, vertices_with, faces_with)
    return Counts(int(vertices[0]), int(faces[0]), int(corners[0]), vertices_with, faces_with)


def decode(data: Bytes, length: Optional[int] = None, out: Optional[Mesh] = None) -> Mesh:
    """The mesh of a .dms file: refusals 1 to 13 and 28, then 255. `length` is the file's own where `data` holds only its first
    bytes. The lists are the beginnings of those of `out`, or of new ones. A file of version 1 has sharpness 8 and 8 throughout."""
    data = _bytes("decode", data)
    room = Mesh._room() if out is None else out
    lengths = [_single() for _ in range(4)]
    _call("decode", data, data.size if length is None else length, *room._lists(), *lengths)
    return room._beginnings(lengths)


def off(text: Bytes, out: Optional[Mesh] = None) -> Mesh:
    """The mesh of an OFF text of whole numbers, with sharpness 8 and 8 throughout: refusals 24 to 26, then 4 to 13. The lists are
    the beginnings of those of `out`, or of new ones. `models.read` takes other OFF files."""
    room = Mesh._room() if out is None else out
    lengths = [_single() for _ in range(4)]
    _call("off", _bytes("off", text), *room._lists(), *lengths)
    return room._beginnings(lengths)


def link(mesh: Mesh, out: Optional[np.ndarray] = None) -> np.ndarray:
    """The link table of a mesh, uint16, an entry for each corner: refusals 4 to 14, 27 and 28."""
    # a mesh of more corners is refused before its table is looked at
    links = np.empty(min(np.size(mesh.corners), MAX_CORNERS), np.uint16) if out is None else out
    _call("link", *mesh._lists(), links)
    return links


def _room_for_nets(corners: int) -> np.ndarray:
    # a larger count is refused before the output is looked at
    return np.empty((max(0, min(corners, MAX_CORNERS)), POINTS_PER_CORNER, 3), np.int32)


def build(mesh: Mesh, links: np.ndarray, first: int = 0, count: Optional[int] = None,
          out: Optional[np.ndarray] = None) -> np.ndarray:
    """The control points of `count` corners from `first` on, or of all from there, in ticks: int32 of shape (count, 41, 3), five
    rows of five b points and then four rows of four a points. Refusals 4 to 17, 27 and 28. The numbers do not depend on the range.
    """
    count = max(0, np.size(mesh.corners) - first) if count is None else count
    output = _room_for_nets(count) if out is None else out
    _call("build", *mesh._lists(), links, first, count, output)
    return output


def preview(mesh: Mesh, links: np.ndarray, vertex: int, to: Sequence[int], first: int = 0, count: Optional[int] = None,
            out: Optional[np.ndarray] = None) -> np.ndarray:
    """What `build` would write if `vertex` had the coordinates `to`: refusal 29, then those of `build`. The mesh stays as it is."""
    count = max(0, np.size(mesh.corners) - first) if count is None else count
    output = _room_for_nets(count) if out is None else out
    x, y, z = to
    _call("preview", *mesh._lists(), links, first, count, vertex, x, y, z, output)
    return output


def touched(mesh: Mesh, vertex: int, out: Optional[np.ndarray] = None) -> np.ndarray:
    """A mark for each corner, uint8: 1 where `vertex` can change its control points, else 0. Refusals 29, 4 to 13, 27 and 28, then
    255."""
    marks = np.empty(min(np.size(mesh.corners), MAX_CORNERS), np.uint8) if out is None else out
    _call("touched", *mesh._lists(), vertex, marks)
    return marks


def irregular(mesh: Mesh) -> Irregular:
    """Whether a mesh is all squares: refusals 4 to 13, 27 and 28."""
    kind, number, sides_read = _single(np.uint32), _single(), _single()
    _call("irregular", *mesh._lists(), kind, number, sides_read)
    return Irregular(Kind(int(kind[0])), int(number[0]), int(sides_read[0]))


def turn(mesh: Mesh, out: Optional[np.ndarray] = None) -> np.ndarray:
    """Turns faces of the mesh, in its own lists, so that every edge runs once each way; the lowest face of each connected part is
    kept. The turned faces, uint16 by rising number: the beginning of `out`, which has an entry for each face, or of a new list.
    Refusals 36, then 4 to 9 with 27 and 28, then 34 and 35; a refused mesh stays as it is."""
    listing = np.empty(np.size(mesh.sides), np.uint16) if out is None else out
    turned = _single()
    _call("turn", *mesh._lists(), listing, turned)
    return listing[: int(turned[0])]


def floats(numbers: np.ndarray, point: int) -> FloatPoint:
    """Point 0 to 40 (b row by row, then a) of a corner's 123 numbers as its difference from b00, in floats: refusals 18 to 20."""
    six, pairs = np.zeros(6, np.float32), _single(np.uint32)
    _call("floats", numbers, point, six, pairs)
    return FloatPoint(six[:3], six[3:] if pairs[0] else None)


def floats_all(numbers: np.ndarray, out: Optional[np.ndarray] = None) -> np.ndarray:
    """All points of corners, 123 numbers for each as `build` writes them, as their differences from their quad-net's b00: float32 of
    shape (corners, 41, 2, 3), the first and the second of each pair, whose sum is the difference; of a near point the second are
    zeros. They are the beginning of `out` or a new array. Refusals 18 and 19, then 255."""
    # a longer list is refused before the other is looked at
    count = min(np.size(numbers), NUMBERS_PER_CORNER * MAX_CORNERS) // NUMBERS_PER_CORNER
    lent = np.empty((count, POINTS_PER_CORNER, 2, 3), np.float32) if out is None else out
    _call("floats_all", numbers, lent)
    return lent.reshape(-1)[: 2 * np.size(numbers)].reshape(-1, POINTS_PER_CORNER, 2, 3)


def sample(numbers: np.ndarray, side: int, weights: Sequence[int], parts: int) -> np.ndarray:
    """The point at weights i/N, j/N, k/N of the triangle of a side, 0 to 3, of a corner's 123 numbers, N being `parts`: x, y, z in
    ticks, int32. The first weight belongs to the side's head, the second to its tail, the third to the centre. Refusals 18, 19, 32
    and 33."""
    i, j, k = weights
    point = np.empty(3, np.int32)
    _call("sample", numbers, side, i, j, k, parts, point)
    return point


def tangents_at(numbers: np.ndarray, side: int, weights: Sequence[int], parts: int) -> np.ndarray:
    """Two exact tangents at the point that `sample` gives: int64 of shape (2, 3), the derivative of the quartic towards the side's tail,
    then the one towards the quad-net's centre, each times the cube of `parts`. On sides 0 and 2 their cross product points to where
    the mesh's faces run counter-clockwise, on sides 1 and 3 to the other side. Refusals 18, 19, 32 and 33."""
    i, j, k = weights
    pair = np.empty((2, 3), np.int64)
    _call("tangents_at", numbers, side, i, j, k, parts, pair)
    return pair


def sample_triangle(numbers: np.ndarray, side: int, parts: int, out: Optional[np.ndarray] = None) -> np.ndarray:
    """All (N + 1)(N + 2)/2 samples of a side's triangle, N being `parts`: int32 of shape (samples, 3), in rows from the side
    inwards, each from the head, so that the sample of weights i, j, k is number k(2N + 3 - k)/2 + j. They are the beginning of
    `out` or of a new list. Refusals 18, 19, 32 and 33, then 255."""
    # other numbers of parts are refused before the list is looked at
    count = (parts + 1) * (parts + 2) // 2 if 0 < parts <= MAX_PARTS else 0
    points = np.empty((count, 3), np.int32) if out is None else out
    _call("sample_triangle", numbers, side, parts, points)
    return points.reshape(-1)[: 3 * count].reshape(-1, 3)


def count_triangles(mesh: Mesh, links: np.ndarray, levels: np.ndarray, first: int = 0, count: Optional[int] = None) -> Size:
    """How many points and triangles `triangles` makes of `count` corners from `first` on, or of all from there. Refusals 4 to 16, 27
    and 28, then 39 and 40."""
    count = max(0, np.size(mesh.corners) - first) if count is None else count
    point_numbers, triangle_numbers = _single(), _single()
    _call("count_triangles", *mesh._lists(), links, levels, first, count, point_numbers, triangle_numbers)
    return Size(int(point_numbers[0]) // 3, int(triangle_numbers[0]) // 3)


def triangles(mesh: Mesh, links: np.ndarray, levels: np.ndarray, first: int = 0, count: Optional[int] = None,
              points: Optional[np.ndarray] = None, out: Optional[np.ndarray] = None) -> Tuple[np.ndarray, np.ndarray]:
    """The surface as one closed mesh of triangles, each corner's quad-net at its own level, 1 to 16 (`levels`, uint8): the points and
    the triangles of `count` corners from `first` on, or of all from there. Points are x, y, z in ticks, int32 of shape (points, 3);
    triangles are three points each, uint32 of shape (triangles, 3), numbered over all corners of the mesh and wound as its faces
    are. They are the beginnings of `points` and `out` or new ones; ranges one after another make the lists of all. Refusals 4 to 16,
    27 and 28, then 39 and 40, then 255."""
    count = max(0, np.size(mesh.corners) - first) if count is None else count
    if points is None or out is None:
        size = count_triangles(mesh, links, levels, first, count)
        points = np.empty((size.points, 3), np.int32) if points is None else points
        out = np.empty((size.triangles, 3), np.uint32) if out is None else out
    point_numbers, triangle_numbers = _single(), _single()
    _call("triangles", *mesh._lists(), links, levels, first, count, points, out, point_numbers, triangle_numbers)
    return (points.reshape(-1)[: int(point_numbers[0])].reshape(-1, 3), out.reshape(-1)[: int(triangle_numbers[0])].reshape(-1, 3))


def tangents(mesh: Mesh, links: np.ndarray, levels: np.ndarray, first: int = 0, count: Optional[int] = None,
             out: Optional[np.ndarray] = None) -> np.ndarray:
    """Two exact tangents at each point that `triangles` makes, in the order of the points: int64 of shape (points, 2, 3), the
    derivative of the quartic towards the tail of the side that the point is taken on, then the one towards the quad-net's centre,
    each times the cube of the number of parts. They are the beginning of `out` or a new array. Refusals as of `triangles`."""
    count = max(0, np.size(mesh.corners) - first) if count is None else count
    if out is None:
        out = np.empty((count_triangles(mesh, links, levels, first, count).points, 2, 3), np.int64)
    numbers = _single()
    _call("tangents", *mesh._lists(), links, levels, first, count, out, numbers)
    return out.reshape(-1)[: int(numbers[0])].reshape(-1, 2, 3)


def nest(holders: np.ndarray, out: Optional[np.ndarray] = None) -> np.ndarray:
    """The bodies of a table of nested grids, each after the one whose grid it hangs in, the lowest first among those that may come
    next: uint16. `holders` has for each body the number of the one that it hangs in, or SUN. Refusals 21 to 23."""
    listing = np.empty(np.size(holders), np.uint16) if out is None else out
    _call("nest", holders, listing)
    return listing


def archive(numbers: np.ndarray, out: Optional[np.ndarray] = None) -> np.ndarray:
    """The bytes, uint8, of a coordinate list rearranged for the archive, four for each number: refusals 30 and 31."""
    data = np.empty(4 * np.size(numbers), np.uint8) if out is None else out
    _call("archive", numbers, data)
    return data


def restore(data: Bytes, out: Optional[np.ndarray] = None) -> np.ndarray:
    """The coordinate list, int32, of which `archive` made these bytes: refusals 30 and 31."""
    data = _bytes("restore", data)
    numbers = np.empty(data.size // 4, np.int32) if out is None else out
    _call("restore", data, numbers)
    return numbers


def report(data: Bytes, page: np.ndarray, length: Optional[int] = None) -> None:
    """Adds a .dms file to a page of the border report, 21 numbers of uint64 in the header's order; a report starts with zeros. A
    file that is refused is counted under its number. Refusals 37 and 38, after which the page is as it was."""
    data = _bytes("report", data)
    _page("report", page)
    _call("report", data, data.size if length is None else length, page)


def merge(other: np.ndarray, page: np.ndarray) -> None:
    """Makes `page` that of both runs: sums, and the larger of each two misses. Refusals 37 and 38, after which it is as it was."""
    _page("merge", other)
    _page("merge", page)
    _call("merge", other, page)


def _page(call: str, page: np.ndarray) -> None:
    """The header's parameter has no length of its own."""
    if isinstance(page, np.ndarray) and page.size != PAGE_NUMBERS:
        raise ValueError(f"{call}: a page has {PAGE_NUMBERS} numbers, not {page.size}")
