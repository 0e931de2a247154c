"""The whole surface as one closed mesh of triangles with a unit normal at each point, wound counter-clockwise seen from outside."""

from __future__ import annotations

from dataclasses import dataclass
from typing import List, Set, Tuple

import numpy as np

from .calls import MAX_PARTS, Mesh, build, count_triangles, link, tangents, triangles
from .library import CONTROL
from .shape import Shape

ROWS = [0, 5, 9, 12, 14]
# The tangents are taken of about so many points at a time: their numbers stay in the processor's cache.
AT_A_TIME = 16_384
# Where the sine of the angle between two tangents is below this, their cross product is formed in whole numbers.
NARROW = 1e-6


@dataclass
class Surface:
    """A closed mesh of triangles."""

    points: np.ndarray
    """x, y, z of each point in ticks, int32 of shape (points, 3)."""
    normals: np.ndarray
    """Of length 1 and outwards, float32 of shape (points, 3)."""
    triangles: np.ndarray
    """Three points each, counter-clockwise seen from outside, uint32 of shape (triangles, 3)."""


def surface(mesh: Mesh, levels: np.ndarray) -> Surface:
    """The surface of an accepted mesh, each corner's quad-net at its own level. Outside is where the mesh's exact volume is above 0;
    where that is 0, where the mesh's faces run counter-clockwise."""
    links = link(mesh)
    shape = Shape(mesh)
    points, indices = triangles(mesh, links, levels)
    outwards, starts = _senses(shape, links, levels)
    if shape.volume() < 0:
        outwards = -outwards
        indices[:, 1], indices[:, 2] = indices[:, 2].copy(), indices[:, 1].copy()
    normals = np.empty(points.shape, np.float32)
    flat: List[np.ndarray] = []
    # ranges of corners, each with about as many points
    cuts = np.unique(np.append(np.searchsorted(starts, np.arange(0, starts[-1], AT_A_TIME)), mesh.corners.size))
    room = np.empty((int(np.diff(starts[cuts]).max()), 2, 3), np.int64)
    for first, end in zip(cuts[:-1].tolist(), cuts[1:].tolist()):
        own = slice(starts[first], starts[end])
        normals[own], without = unit_normals(tangents(mesh, links, levels, first, end - first, out=room), outwards[own])
        flat.append(starts[first] + without)
    without = np.concatenate(flat)
    if without.size:
        normals[without] = _normals_of_triangles(points, indices, without)
    return Surface(points, normals, indices)


def _senses(shape: Shape, links: np.ndarray, levels: np.ndarray) -> Tuple[np.ndarray, np.ndarray]:
    """For each point 1 where head, tail and centre of the side that it is taken on run as the mesh's faces do (sides 0 and 2), else -1;
    and where each corner's points start, with their number last. Points stand corner by corner: the ends E0, E1 and E2 that no lower
    corner has, on sides 0, 1 and 2; the inner points of the curves of sides 0 and 1; rings, side after side; the centre, on side 0."""
    own = levels.astype(np.int64)
    corners = np.arange(own.size)
    lowest = np.empty(len(shape.points), np.int64)
    lowest[shape.vertices[::-1]] = corners[::-1]
    most = int(own.max())
    counts = np.empty((own.size, 5 + 4 * (most - 1) + 1), np.int64)
    counts[:, 0] = lowest[shape.vertices] == corners
    counts[:, 1] = corners < shape.previous[links]
    counts[:, 2] = shape.places == 0
    counts[:, 3] = np.maximum(own, own[links]) - 1
    counts[:, 4] = np.maximum(own, own[shape.next]) - 1
    counts[:, 5:-1] = np.repeat(np.maximum(own[:, None] - np.arange(1, most), 0), 4, axis=1)
    counts[:, -1] = 1
    senses = np.array([1, -1, 1, 1, -1] + [1, -1, 1, -1] * (most - 1) + [1], np.int8)
    return np.repeat(np.tile(senses, own.size), counts.ravel()), np.concatenate([[0], np.cumsum(counts.sum(axis=1))])


def unit_normals(pairs: np.ndarray, senses: np.ndarray) -> Tuple[np.ndarray, np.ndarray]:
    """The cross product of each pair of tangents, of length 1 and turned round where the sense is -1; and which pairs have none, being
    parallel: those get zeros."""
    numbers = pairs.reshape(-1, 6).T.astype(np.float64)
    a, b = numbers[:3], numbers[3:]
    products = np.empty_like(a)
    for x, y, z in ((0, 1, 2), (1, 2, 0), (2, 0, 1)):
        np.subtract(a[y] * b[z], a[z] * b[y], out=products[x])
    squares = _squares(products)
    with np.errstate(divide="ignore", invalid="ignore"):
        narrow = np.flatnonzero(~(squares > NARROW * NARROW * _squares(a) * _squares(b)))
    if narrow.size:
        exact = np.cross(*pairs.reshape(-1, 2, 3)[narrow].astype(object).transpose(1, 0, 2))
        # the largest coordinate becomes 1, so that no square is too small
        products[:, narrow] = (exact / np.maximum(np.abs(exact).max(axis=1), 1)[:, None]).astype(np.float64).T
        squares[narrow] = _squares(products[:, narrow])
    without = np.flatnonzero(squares == 0)
    squares[without] = 1
    products *= senses / np.sqrt(squares)
    return products.T, without


def _squares(vectors: np.ndarray) -> np.ndarray:
    """The squares of the lengths of vectors, whose x, y, z are rows."""
    x, y, z = vectors
    return x * x + y * y + z * z


def _normals_of_triangles(points: np.ndarray, indices: np.ndarray, without: np.ndarray) -> np.ndarray:
    """The normals of points where the surface has none, as at a vertex whose corners are as sharp as can be: the sum of the areas of
    the triangles that have the point, of length 1; upwards where that is nothing too."""
    place = np.full(len(points), -1)
    place[without] = np.arange(without.size)
    sums = np.zeros((without.size, 3), np.int64)
    near = indices[(place[indices] >= 0).any(axis=1)]
    p, q, r = points[near].astype(np.int64).transpose(1, 0, 2)
    areas = np.cross(q - p, r - p)
    for corner in range(3):
        at = place[near[:, corner]]
        np.add.at(sums, at[at >= 0], areas[at >= 0])
    sums[~sums.any(axis=1)] = (0, 0, 1)
    normals = sums.astype(np.float64)
    return normals / np.sqrt(_squares(normals.T))[:, None]


# ---- levels


def even_levels(mesh: Mesh, level: int) -> np.ndarray:
    """One level for all corners."""
    return np.full(mesh.corners.size, level, np.uint8)


def spaced_levels(mesh: Mesh, spacing: int) -> Tuple[np.ndarray, int]:
    """For each quad-net the lowest level at which its longest control edge, divided by it, is at most so many ticks, 1 to
    MOST_SPACING; and how many nets have none, and get the highest level. A control edge joins two neighbours among the 15 control
    points of one of the net's four triangles."""
    points = build(mesh, link(mesh)).astype(np.int64)
    longest = np.zeros(len(points), np.int64)
    for one, other in control_edges():
        across = points[:, one] - points[:, other]
        np.maximum(longest, np.einsum("ij,ij->i", across, across), out=longest)
    reached = np.square(np.arange(1, MAX_PARTS + 1, dtype=np.int64) * spacing)
    levels = 1 + (longest[:, None] > reached).sum(axis=1)
    return np.minimum(levels, MAX_PARTS).astype(np.uint8), int((levels > MAX_PARTS).sum())


def control_edges() -> List[Tuple[int, int]]:
    """The control edges of a quad-net, each once, by the numbers of the two control points."""
    edges: Set[Tuple[int, int]] = set()
    for side in CONTROL:
        for n in range(4):
            for m in range(4 - n):
                three = side[ROWS[n] + m], side[ROWS[n] + m + 1], side[ROWS[n + 1] + m]
                edges.update((min(three[i], three[i - 1]), max(three[i], three[i - 1])) for i in range(3))
    return sorted(edges)


def sizes(mesh: Mesh) -> List[Tuple[int, int, int]]:
    """What each level would give for all corners: the level, points and triangles."""
    links = link(mesh)
    return [(level, *count_triangles(mesh, links, even_levels(mesh, level))) for level in range(1, MAX_PARTS + 1)]
