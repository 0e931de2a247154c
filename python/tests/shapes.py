"""Meshes that the tests work on, and the same as files of the formats that people have."""

import json
import struct

import numpy as np

from mahunopi import Mesh

CUBE_POINTS = [(3, 3, 3), (3, -3, 3), (-3, -3, 3), (-3, 3, 3), (3, 3, -3), (3, -3, -3), (-3, -3, -3), (-3, 3, -3)]
# document 01's cube: faces run clockwise seen from outside
CUBE_FACES = [(0, 1, 2, 3), (4, 7, 6, 5), (1, 0, 4, 5), (2, 1, 5, 6), (3, 2, 6, 7), (0, 3, 7, 4)]


def mesh_of(points, faces):
    corners = [vertex for face in faces for vertex in face]
    return Mesh(np.array(points, np.int32).reshape(-1, 3), np.array([len(face) for face in faces], np.uint8),
                np.array(corners, np.uint16))


def faces_of(mesh):
    ends = np.cumsum(mesh.sides.astype(int))
    return [tuple(int(v) for v in mesh.corners[end - side: end]) for end, side in zip(ends.tolist(), mesh.sides.tolist())]


def cube():
    return mesh_of(CUBE_POINTS, CUBE_FACES)


def turned(face):
    """A face turned as the library does."""
    return face[:1] + tuple(reversed(face[1:]))


def prism(n, radius=1000, height=300):
    """Points and faces of a prism over a face of n sides, which run clockwise seen from outside."""
    around = [(radius * np.cos(2 * np.pi * k / n), radius * np.sin(2 * np.pi * k / n)) for k in range(n)]
    points = [(x, y, z) for z in (-height, height) for x, y in around]
    sides = [(k, n + k, n + (k + 1) % n, (k + 1) % n) for k in range(n)]
    return points, [tuple(range(n)), tuple(reversed(range(n, 2 * n))), *sides]


def bipyramid(n):
    """Points and faces over a ring of n points: its two tips have n corners."""
    points = [(np.cos(2 * np.pi * k / n), np.sin(2 * np.pi * k / n), 0.0) for k in range(n)] + [(0, 0, 1), (0, 0, -1)]
    return points, [f for k in range(n) for f in ((k, n, (k + 1) % n), ((k + 1) % n, n + 1, k))]


def torus_faces(p, q, seam=False):
    """The faces of a torus of p times q four-sided ones. With a seam its last ring meets the first one in reverse: a Klein bottle."""

    def at(i, j):
        return (q - j % q) % q if i == p and seam else (i % p) * q + j % q

    return [(at(i, j), at(i, j + 1), at(i + 1, j + 1), at(i + 1, j)) for i in range(p) for j in range(q)]


def torus(p, q, seam=False):
    """A flat torus: only its lists matter."""
    return mesh_of([(v // q, v % q, v % 7) for v in range(p * q)], torus_faces(p, q, seam))


def round_torus(p, q):
    """Points and faces of a torus in space."""
    points = [((3 + np.cos(b)) * np.cos(a), (3 + np.cos(b)) * np.sin(a), np.sin(b))
              for a in 2 * np.pi * np.arange(p) / p for b in 2 * np.pi * np.arange(q) / q]
    return points, torus_faces(p, q)


def size_at(mesh, level):
    """The points and triangles of the surface with all corners at one level, in closed form."""
    vertices, faces, corners = mesh.coordinates.size // 3, mesh.sides.size, mesh.corners.size
    ends = vertices + faces + corners // 2
    return ends + 2 * corners * (level - 1) + corners * (1 + 2 * level * (level - 1)), 4 * corners * level * level


# ---- files


def obj(points, faces, slots=False, negative=False):
    lines = ["# written by a test", "o thing"] + ["v %r %r %r" % tuple(float(x) for x in point) for point in points]
    lines += ["vt 0 0", "vn 0 0 1"] if slots else []
    for face in faces:
        numbers = [v - len(points) if negative else v + 1 for v in face]
        lines.append("f " + " ".join(f"{number}/1/1" if slots else str(number) for number in numbers))
    return ("\n".join(lines) + "\n").encode()


def off(points, faces, start="OFF", of_point="", of_face="", newline="\n"):
    lines = [start, f"{len(points)} {len(faces)} 0  # counts", ""]
    lines += [" ".join(repr(float(x)) for x in point) + of_point for point in points]
    lines += [" ".join(map(str, (len(face), *face))) + of_face for face in faces]
    return newline.join(lines).encode()


def ply(points, faces, form="ascii", name="vertex_indices", kinds=("float", "uchar", "int"), more=False):
    """A PLY file; with more, normals before the coordinates, a colour, and an element of edges."""
    number, length, index = kinds
    head = ["ply", f"format {form} 1.0", "comment written by a test", f"element vertex {len(points)}"]
    head += ["property float nx", f"property {number} x"] if more else [f"property {number} x"]
    head += [f"property {number} y", f"property {number} z"] + (["property uchar red"] if more else [])
    head += ["element edge 1", "property int vertex1", "property int vertex2"] if more else []
    head += [f"element face {len(faces)}"] + (["property uchar flags"] if more else [])
    head += [f"property list {length} {index} {name}", "end_header", ""]
    data = "\n".join(head).encode()
    if form == "ascii":
        rows = [" ".join((["0.5"] if more else []) + [repr(float(x)) for x in point] + (["7"] if more else [])) for point in points]
        rows += ["0 1"] if more else []
        rows += [" ".join((["9"] if more else []) + [str(len(face)), *map(str, face)]) for face in faces]
        return data + ("\n".join(rows) + "\n").encode()
    order = "<" if "little" in form else ">"
    code = {"float": "f", "double": "d", "uchar": "B", "ushort": "H", "int": "i", "uint": "I"}
    for point in points:
        data += struct.pack(order + "f", 0.5) if more else b""
        data += struct.pack(order + 3 * code[number], *point) + (b"\x07" if more else b"")
    data += struct.pack(order + "ii", 0, 1) if more else b""
    for face in faces:
        data += b"\x09" if more else b""
        data += struct.pack(order + code[length], len(face)) + struct.pack(order + len(face) * code[index], *face)
    return data


def fans(faces):
    """Faces as triangles."""
    return [(face[0], face[i], face[i + 1]) for face in faces for i in range(1, len(face) - 1)]


def stl(points, faces, text=False):
    triangles = [[points[v] for v in face] for face in fans(faces)]
    if text:
        lines = ["solid thing"]
        for triangle in triangles:
            lines += ["facet normal 0 0 0", "outer loop"] + ["vertex %r %r %r" % tuple(float(x) for x in p) for p in triangle]
            lines += ["endloop", "endfacet"]
        return ("\n".join(lines) + "\nendsolid thing\n").encode()
    data = b"solid though it is binary".ljust(80) + struct.pack("<I", len(triangles))
    return data + b"".join(struct.pack("<12fH", 0, 0, 0, *(x for p in t for x in p), 0) for t in triangles)


def glb(points, faces, matrix=None):
    """A GLB file with one node, at a matrix of 16 numbers in columns."""
    triangles = np.array(fans(faces), np.uint32)
    places = np.array(points, np.float32)
    data = places.tobytes() + triangles.tobytes()
    node = {"mesh": 0, **({"matrix": matrix} if matrix else {})}
    scene = {"asset": {"version": "2.0"}, "scene": 0, "scenes": [{"nodes": [0]}], "nodes": [node],
             "meshes": [{"primitives": [{"attributes": {"POSITION": 0}, "indices": 1}]}],
             "buffers": [{"byteLength": len(data)}],
             "bufferViews": [{"buffer": 0, "byteLength": places.nbytes},
                             {"buffer": 0, "byteOffset": places.nbytes, "byteLength": triangles.nbytes}],
             "accessors": [{"bufferView": 0, "componentType": 5126, "count": len(places), "type": "VEC3",
                            "min": places.min(axis=0).tolist(), "max": places.max(axis=0).tolist()},
                           {"bufferView": 1, "componentType": 5125, "count": triangles.size, "type": "SCALAR"}]}
    text = json.dumps(scene).encode()
    text += b" " * (-len(text) % 4)
    data += b"\0" * (-len(data) % 4)
    whole = struct.pack("<I4s", len(text), b"JSON") + text + struct.pack("<I4s", len(data), b"BIN\0") + data
    return struct.pack("<4sII", b"glTF", 2, 12 + len(whole)) + whole
