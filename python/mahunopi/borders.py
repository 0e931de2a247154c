"""The four conditions across the borders of a mesh, border by border: exactly the misses of which `report` keeps the largest. The same
lines count in two ways: over lists corner by corner, without numpy, and over arrays all corners at once."""

from __future__ import annotations

import math

from ._header import LIMITS
from .library import CONTROL, TICKS, TYPE_CHECKING, UNIT

if TYPE_CHECKING:
    from typing import Any, Callable, List, Sequence, Tuple

    import numpy as np

    from .calls import Mesh

MIN_SIDES, MAX_SIDES, MAX_SHARPNESS = LIMITS["MIN_SIDES"], LIMITS["MAX_SIDES"], LIMITS["MAX_SHARPNESS"]
NUMBERS = LIMITS["NUMBERS_PER_CORNER"]

# Where x of the points along a side of a quad-net is among its numbers, from the side's head: the outer b points, and the a points beside them.
OUTER = [[3 * point for point in side[:5]] for side in CONTROL]
INNER = [[3 * point for point in side[5:9]] for side in CONTROL]


# 2^30 cos(2 pi k / m), row by row. No value is near a half, so that a double decides each (.ci/cosines.sh).
ROWS = [[round(UNIT * math.cos(2 * math.pi * k / m)) for k in range(m)] for m in range(MAX_SIDES + 1)]
# For a ring of m points: the cosine of its step, and the weights of its points towards the side from the first to the second, 0 behind the last
COSINES = [ROWS[max(m, MIN_SIDES)][1] for m in range(MAX_SIDES + 1)]
WEIGHTS = [3 * UNIT + 2 * row[k] + 2 * row[k - 1] if k < m else 0 for m, row in enumerate(ROWS) for k in range(MAX_SIDES)]


class Borders:
    """The borders of an accepted mesh. The lists of the mesh, its links and its control points are flat, all lists or all arrays of int64;
    `table` makes the further ones, `list` or `numpy.array`. A corner is a number, or with arrays an array of them."""

    def __init__(self, lists: Sequence[Any], links: Any, numbers: Any, table: Callable[[Any], Any] = list) -> None:
        self.coordinates, sides, self.vertices, self.sharpness = lists
        self.links, self.numbers = links, numbers
        after: List[int] = []
        before: List[int] = []
        of_face: List[int] = []
        for count in map(int, sides):
            first = len(after)
            after += [*range(first + 1, first + count), first]
            before += [first + count - 1, *range(first, first + count - 1)]
            of_face += [count] * count
        corners_of = [0] * (len(self.coordinates) // 3)
        for vertex in self.vertices:
            corners_of[vertex] += 1
        self.next, self.previous, self.of_face = table(after), table(before), table(of_face)
        self.of_vertex = table([corners_of[vertex] for vertex in self.vertices])
        self.cosines, self.weights = table(COSINES), table(WEIGHTS)
        self.corners = table(range(len(after)))
        self.refined = [[self._refined(corner, axis) for corner in self.corners] if table is list else self._refined(self.corners, axis)
                        for axis in range(3)]

    def misses(self, corner: Any, side: int, axis: int) -> Tuple[Any, Any, Any, Any]:
        """The misses of the four conditions in x, y or z across side 0 or side 1 of a corner, over 2^30 of a tick. With the two sides of
        all corners every border is met once."""
        refined, numbers, linked, following = self.refined[axis], self.numbers, self.links[corner], self.next[corner]
        beyond = self.previous[linked]
        # the neighbour and its side, the step round the head's ring and how long that is; the tail's ring from the border on
        if side == 0:
            neighbour, across, step, around = linked, 3, self.links, self.of_vertex[corner]
            tail = refined[linked], refined[corner], refined[following], refined[beyond]
        else:
            neighbour, across, step, around = following, 2, self.next, self.of_face[corner]
            tail = refined[corner], refined[following], refined[beyond], refined[linked]
        own, other = NUMBERS * corner + axis, NUMBERS * neighbour + axis
        outer = [numbers[own + at] for at in OUTER[side]]
        bends = [4 * UNIT * (numbers[own + at] + numbers[other + there] - 2 * point)
                 for at, there, point in zip(INNER[side], INNER[across], outer)]
        total: Any = 0
        at = corner
        for k in range(_largest(around)):
            total = total + self.weights[MAX_SIDES * around + k] * refined[at]
            at = step[at]
        x = rounded(total, 3 * UNIT * around)
        y = rounded(5 * (tail[0] + tail[1]) + tail[2] + tail[3], 12)
        head, last, wide = outer[0], outer[4], UNIT + self.cosines[around]
        return (bends[0] - 3 * wide * (x - head), bends[1] - 2 * wide * (y - x) - UNIT * (x - head),
                bends[2] - wide * (last - y) - 2 * UNIT * (y - x), bends[3] - 3 * UNIT * (last - y))

    def _refined(self, corner: Any, axis: int) -> Any:
        """The refined point of a corner, in ticks."""
        def point(at: Any) -> Any:
            return TICKS * self.coordinates[3 * self.vertices[at] + axis]

        sides, u, v, most = self.of_face[corner], self.sharpness[2 * corner], self.sharpness[2 * corner + 1], MAX_SHARPNESS
        total: Any = 0
        at = corner
        for k in range(_largest(sides)):
            total = total + (k < sides) * point(at)
            at = self.next[at]
        near = (most - u) * v * point(self.previous[corner]) + most * (u + v) * point(corner) + u * (most - v) * point(self.next[corner])
        return rounded(2 * (most - u) * (most - v) * total + sides * near, 2 * most * most * sides)


def rounded(number: Any, by: Any) -> Any:
    """The quotient rounded to the nearest, a half away from zero."""
    return (1 - 2 * (number < 0)) * ((2 * abs(number) + by) // (2 * by))


def _largest(numbers: Any) -> int:
    return numbers if isinstance(numbers, int) else int(numbers.max())


def misses(mesh: Mesh, links: np.ndarray, points: np.ndarray) -> np.ndarray:
    """The misses of an accepted mesh, whose links and control points these are: int64 of shape (corners, 2, 4, 3), over 2^30 of a
    tick, for each corner its borders of side 0 and side 1, the four conditions, and x, y, z."""
    import numpy as np

    lists = [array.ravel().astype(np.int64) for array in (mesh.coordinates, mesh.sides, mesh.corners, mesh.sharpness)]
    borders = Borders(lists, links.astype(np.int64), points.ravel().astype(np.int64), np.array)
    return np.array([[borders.misses(borders.corners, side, axis) for axis in range(3)] for side in range(2)]).transpose(3, 0, 2, 1)
