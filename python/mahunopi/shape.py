"""What can be said of a mesh beside its surface: where its faces begin, its edges, parts, volume and normals."""

from __future__ import annotations

from fractions import Fraction
from typing import List

import numpy as np

from .calls import Mesh


class Shape:
    """The corners of a mesh, each with its face and the next and previous corner there. The side counts sum to the corners."""

    def __init__(self, mesh: Mesh) -> None:
        self.mesh = mesh
        self.points = mesh.coordinates.reshape(-1, 3).astype(np.int64)
        self.sides = mesh.sides.astype(np.int64)
        self.vertices = mesh.corners.astype(np.int64)
        self.starts = np.cumsum(self.sides) - self.sides
        self.faces = np.repeat(np.arange(self.sides.size), self.sides)
        self.places = np.arange(self.vertices.size) - self.starts[self.faces]

    def corner_at(self, places: np.ndarray) -> np.ndarray:
        """For each corner the one of its face at this place, which may lie beyond either end."""
        return self.starts[self.faces] + places % self.sides[self.faces]

    @property
    def next(self) -> np.ndarray:
        return self.corner_at(self.places + 1)

    @property
    def previous(self) -> np.ndarray:
        return self.corner_at(self.places - 1)

    def face_sums(self, numbers: np.ndarray) -> np.ndarray:
        """The sum over each face's corners."""
        return np.add.reduceat(numbers, self.starts, axis=0)

    def areas(self) -> np.ndarray:
        """Twice the vector area of each face: its length is twice the area, and it points to the side from which the face runs
        counter-clockwise."""
        points = self.points[self.vertices]
        return self.face_sums(np.cross(points, points[self.next]))

    def volume(self) -> Fraction:
        """The volume in cubic steps, each face spanned from its middle: above 0 where faces run counter-clockwise seen from outside,
        below 0 where they run clockwise, as document 01 has them. Exact: sixteen corners keep every product below 2^60."""
        products = (self.face_sums(self.points[self.vertices]) * self.areas()).sum(axis=1)
        total = Fraction(0)
        for sides in np.unique(self.sides).tolist():
            total += Fraction(sum(products[self.sides == sides].tolist()), 6 * sides)
        return total

    def turned(self) -> Mesh:
        """The mesh with every face turned as the library turns one: the order after the first corner is reversed, and u and v change
        places."""
        from_corner = self.corner_at(-self.places)
        sharpness = self.mesh.sharpness.reshape(-1, 2)
        return Mesh(self.mesh.coordinates, self.mesh.sides, self.mesh.corners[from_corner],
                    np.ascontiguousarray(sharpness[from_corner, ::-1]))

    def parts(self, links: np.ndarray) -> int:
        """How many parts hang together by edges, of an accepted mesh."""
        across = self.faces[links]
        first = list(range(self.sides.size))

        def root(face: int) -> int:
            while first[face] != face:
                first[face] = first[first[face]]
                face = first[face]
            return face

        for one, other in zip(self.faces.tolist(), across.tolist()):
            first[root(one)] = root(other)
        return sum(1 for face, other in enumerate(first) if face == other)

    def bends(self, links: np.ndarray) -> np.ndarray:
        """For each corner the angle in degrees between its face and the one across its leaving edge; 0 where either has no area."""
        normals = self.areas().astype(np.float64)
        mine, theirs = normals[self.faces], normals[self.faces[links]]
        sine = np.linalg.norm(np.cross(mine, theirs), axis=1)
        return np.degrees(np.arctan2(sine, (mine * theirs).sum(axis=1)))


def irregular_faces(mesh: Mesh) -> List[int]:
    """The faces that have not four sides."""
    return np.flatnonzero(mesh.sides != 4).tolist()


def irregular_vertices(mesh: Mesh) -> List[int]:
    """The vertices that have not four corners."""
    return np.flatnonzero(np.bincount(mesh.corners, minlength=mesh.coordinates.size // 3) != 4).tolist()
