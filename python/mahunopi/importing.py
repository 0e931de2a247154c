"""Models of any format as meshes: scaled to the grid, rounded, welded, turned; or refused with what a modeller can find again."""

from __future__ import annotations

from dataclasses import dataclass
from typing import Callable, Dict, List, Optional, Sequence, Tuple

import numpy as np

from .calls import MAX_CORNERS, MAX_FACES, MAX_SHARPNESS, MAX_SIDES, MAX_VERTICES, Mesh, link, turn
from .library import DEFAULT_LARGEST, LARGEST_COORDINATE, Refused
from .models import Model, first_of_equals
from .shape import Shape

MOST_TOLD = 10


@dataclass
class Imported:
    """A mesh that the library accepts, and how it came from its model."""

    mesh: Mesh
    version: int
    """1, or 2 where corners were sharpened."""
    step: float
    """The length of a grid step in the model's units; a point is centre + step * coordinates, up to rounding."""
    centre: np.ndarray
    points_before: int
    faces_before: int
    turned: int
    """How many faces were turned so that all run the same way round."""
    sense: str
    """`turned` where all faces were turned then, to run clockwise seen from outside; `clockwise` where they did; `kept` where they
    were to stay as drawn; `flat` where the volume is 0."""
    note: str
    """What of the file was passed over, in words."""


def import_model(model: Model, largest: int = DEFAULT_LARGEST, step: Optional[float] = None, as_drawn: bool = False,
                 sharpness: Optional[float] = None) -> Imported:
    """The mesh of a model. It is centred; its largest coordinate becomes `largest` steps, or a step is `step` of the model's units.
    Equal points become one. Unused points, and faces that shrink to nothing, are left out. Faces are turned to run the same way round,
    and then all of them to run clockwise seen from outside, unless `as_drawn`. `sharpness` is an angle in degrees: a corner gets
    sharpness 16 and 16 where the model bends by more across both of its edges. Raises `Refused`, with the model's own points in its
    words."""
    if not model.sides.size:
        raise Refused(4, 0, "it has no faces", "")
    used, named = np.unique(model.corners, return_inverse=True)
    points = model.points[used]
    if not np.isfinite(points).all():
        wrong = used[~np.isfinite(points).all(axis=1)].tolist()
        raise _caused(7, 0, "points have", "a coordinate that is no number", [(point,) for point in wrong],
                      [_point(model, point) for point in wrong[:MOST_TOLD]])
    with np.errstate(all="ignore"):
        coordinates, step, centre = _on_grid(points.astype(np.float64), largest, step)
    welded, vertices = first_of_equals(coordinates)
    source = np.empty(len(vertices), np.int64)
    source[welded[::-1]] = used[::-1]
    sides, corners = _clean(model.sides, welded[named])
    # what became unused by it
    kept, corners = np.unique(corners, return_inverse=True)
    source = source[kept]
    _check_counts(len(kept), sides, corners, model, source)
    mesh = Mesh(vertices[kept].astype(np.int32), sides.astype(np.uint8), corners.astype(np.uint16))
    try:
        turned = turn(mesh).size
        links = link(mesh)
    except Refused as refused:
        raise _explained(refused, mesh, model, source) from None
    volume = Shape(mesh).volume()
    sense = "kept" if as_drawn else "turned" if volume > 0 else "clockwise" if volume < 0 else "flat"
    if sense == "turned":
        mesh = Shape(mesh).turned()
        links = link(mesh)
    if sharpness is not None:
        shape = Shape(mesh)
        bends = shape.bends(links)
        sharp = (bends > sharpness) & (bends[shape.previous] > sharpness)
        mesh.sharpness[sharp] = MAX_SHARPNESS
        links = link(mesh)
    return Imported(mesh, 1 if sharpness is None else 2, step, centre, len(model.points), model.sides.size, turned, sense, model.note)


def _on_grid(points: np.ndarray, largest: int, step: Optional[float]) -> Tuple[np.ndarray, float, np.ndarray]:
    """The points in steps, rounded, halves away from zero, with the step and the centre."""
    low, high = points.min(axis=0) / 2, points.max(axis=0) / 2
    centre = low + high
    if step is None:
        step = float((high - low).max() / largest)
        if not step > 0:
            raise Refused(4, 0, "all its points are one point", "")
    else:
        # whole steps: a model that lies on the grid already is moved and not distorted
        centre = np.rint(centre / step) * step
    steps = points / step - centre / step
    steps = np.copysign(np.floor(np.abs(steps) + 0.5), steps)
    beyond = float(np.abs(steps).max())
    if not beyond <= LARGEST_COORDINATE:
        told = f"{beyond:,.0f}" if beyond < 1e12 else "above 10^12"
        raise Refused(7, 0, f"the largest coordinate is {told} steps, and {LARGEST_COORDINATE:,} is the limit "
                            f"(a step of {_above(float((high - low).max()) / LARGEST_COORDINATE)} or more serves)", "")
    return steps.astype(np.int64), step, centre


def _above(number: float) -> str:
    """Six digits of a number above 0, rounded up."""
    told = f"{number:.6g}"
    return told if float(told) > number else f"{number * 1.00001:.6g}"


def _clean(sides: np.ndarray, corners: np.ndarray) -> Tuple[np.ndarray, np.ndarray]:
    """The faces without the corners that repeat the one before, and without steps to a point and back; what has fewer than three
    corners then is left out. Neither changes which edges the others meet: such edges meet themselves."""
    starts = np.cumsum(sides) - sides
    # faces with any point twice, by sorting within each face
    faces = np.repeat(np.arange(sides.size), sides)
    order = np.lexsort((corners, faces))
    twice = (corners[order][1:] == corners[order][:-1]) & (faces[order][1:] == faces[order][:-1])
    repeating = set(faces[order][1:][twice].tolist())
    if not repeating:
        return sides, corners
    new_sides: List[int] = []
    new_corners: List[int] = []
    listed = corners.tolist()
    for face, (start, count) in enumerate(zip(starts.tolist(), sides.tolist())):
        ring = listed[start: start + count]
        if face in repeating:
            ring = _shrunk(ring)
        if len(ring) > 2:
            new_sides.append(len(ring))
            new_corners.extend(ring)
    return np.array(new_sides, np.int64), np.array(new_corners, np.int64)


def _shrunk(ring: List[int]) -> List[int]:
    """A ring of points without a point that follows itself, and without a step to a point and back."""
    line: List[int] = []
    for point in ring:
        if line and line[-1] == point:
            continue
        if len(line) > 1 and line[-2] == point:
            line.pop()
            continue
        line.append(point)
    # the same across the ring's end
    while len(line) > 2:
        if line[0] in line[-2:]:
            line.pop()
        elif line[1] == line[-1]:
            del line[0]
        else:
            break
    return line


def _check_counts(vertices: int, sides: np.ndarray, corners: np.ndarray, model: Model, source: np.ndarray) -> None:
    """Refuses what a list of a mesh cannot hold."""
    if not sides.size:
        raise Refused(4, 0, "no face is left on the grid: each shrinks to nothing", "")
    over = [f"{count:,} {name} are {count - most:,} more than the {most:,} that a mesh may have"
            for count, name, most in ((vertices, "vertices", MAX_VERTICES), (sides.size, "faces", MAX_FACES),
                                      (corners.size, "corners", MAX_CORNERS)) if count > most]
    if over:
        raise Refused(4, 0, ", ".join(over), "")
    large = np.flatnonzero(sides > MAX_SIDES)
    if large.size:
        starts = (np.cumsum(sides) - sides).tolist()
        told = [f"{sides[face]} sides from {_point(model, source[corners[starts[face]]])}" for face in large[:MOST_TOLD]]
        rings = [tuple(source[corners[starts[face]: starts[face] + sides[face]]].tolist()) for face in large.tolist()]
        raise _caused(5, int(large[0]), "faces have", f"more than {MAX_SIDES} sides", rings, told)


Told = Tuple[str, str, List[Tuple[int, ...]], List[str]]


def _explained(refused: Refused, mesh: Mesh, model: Model, source: np.ndarray) -> Refused:
    """The refusal of a mesh with the model's own points in its words."""
    shape = Shape(mesh)

    def point(vertex: int) -> str:
        return _point(model, source[vertex])

    def single(vertices: np.ndarray) -> List[Tuple[int, ...]]:
        return [(number,) for number in source[vertices].tolist()]

    def vertex_twice() -> Told:
        order = np.lexsort((shape.vertices, shape.faces))
        again = (shape.vertices[order][1:] == shape.vertices[order][:-1]) & (shape.faces[order][1:] == shape.faces[order][:-1])
        wrong = shape.vertices[order[1:][again]]
        return "faces come", "to a point twice", single(wrong), [point(vertex) for vertex in wrong[:MOST_TOLD]]

    def open_edges() -> Told:
        ends = np.sort(np.column_stack([shape.vertices, shape.vertices[shape.next]]), axis=1)
        edges, counts = np.unique(ends, axis=0, return_counts=True)
        wrong = np.flatnonzero(counts != 2)
        told = [f"{point(edges[i][0])} to {point(edges[i][1])} in {counts[i]} face{'s' if counts[i] > 1 else ''}"
                for i in wrong[:MOST_TOLD]]
        return "edges are", "not in exactly two faces", list(map(tuple, source[edges[wrong]].tolist())), told

    def one_sided() -> Told:
        first = shape.vertices[shape.starts[refused.place]]
        return "part is", "one-sided, no turning of its faces serves", single(np.array([first])), [point(first)]

    def corner_counts() -> Told:
        counts = np.bincount(shape.vertices, minlength=len(shape.points))
        wrong = np.flatnonzero((counts < 3) | (counts > MAX_SIDES))
        told = [f"{point(vertex)} has {counts[vertex]}" for vertex in wrong[:MOST_TOLD]]
        return "vertices have", f"fewer than 3 or more than {MAX_SIDES} corners", single(wrong), told

    def touching() -> Told:
        leaving = {edge: corner for corner, edge in enumerate(zip(shape.vertices.tolist(), shape.vertices[shape.next].tolist()))}
        following = shape.next.tolist()
        met, fans = [False] * shape.vertices.size, np.zeros(len(shape.points), np.int64)
        for corner in range(shape.vertices.size):
            if not met[corner]:
                fans[shape.vertices[corner]] += 1
            while not met[corner]:
                met[corner] = True
                there = int(shape.vertices[following[corner]])
                corner = following[leaving[there, int(shape.vertices[corner])]]
        wrong = np.flatnonzero(fans > 1)
        return "vertices are", "where faces touch in the vertex alone", single(wrong), [point(vertex) for vertex in wrong[:MOST_TOLD]]

    words: Dict[int, Callable[[], Told]] = {9: vertex_twice, 34: open_edges, 35: one_sided, 12: corner_counts, 13: touching}
    if refused.number not in words:
        return refused
    return _caused(refused.number, refused.place, *words[refused.number]())


def _caused(number: int, place: int, subject: str, what: str, causes: List[Tuple[int, ...]], told: Sequence[str]) -> Refused:
    """A refusal that tells the first of its causes in words, and has all of them."""
    refused = Refused(number, place, _listed(len(causes), subject, what, told), "")
    refused.causes = causes
    return refused


SINGULAR = {"points have": "point has", "faces have": "face has", "faces come": "face comes", "edges are": "edge is",
            "part is": "part is", "vertices have": "vertex has", "vertices are": "vertex is"}


def _listed(count: int, subject: str, what: str, told: Sequence[str]) -> str:
    """A count of things, what they are, and the first of them."""
    more = f"; and {count - len(told):,} more" if count > len(told) else ""
    return f"{count:,} {subject if count > 1 else SINGULAR[subject]} {what}: {'; '.join(told)}{more}"


def _point(model: Model, number: int) -> str:
    """A point of the model, by number where the file numbers it, and by its coordinates as the file has them."""
    at = " ".join(str(x)[:-2] if str(x).endswith(".0") else str(x) for x in model.points[number])
    return f"point {number} ({at})" if model.numbered else f"({at})"
