"""Reading the models that people have: points, faces with any number of sides, and nothing else.

OFF, PLY and binary STL are read here; every other format by assimp, through its C interface. docs/DECISIONS.md has the table of
formats, who reads each and why.
"""

from __future__ import annotations

import contextlib
import ctypes
import faulthandler
import os
import re
import resource
import signal
from dataclasses import dataclass
from typing import Any, Dict, Iterator, List, NoReturn, Optional, Sequence, Tuple

import numpy as np

from .library import SIGNALS, Unreadable


@dataclass
class Model:
    """A model as its file has it."""

    points: np.ndarray
    """x, y, z of each point, of shape (points, 3): float64, or float32 where the reader has no more digits."""
    sides: np.ndarray
    """The number of sides of each face."""
    corners: np.ndarray
    """The points of face 0 in order, then of face 1, and so on."""
    numbered: bool
    """Whether points have the numbers, from 0, that they have in the file."""
    note: str = ""
    """What of the file was passed over, in words."""


def read(data: bytes, form: str, path: Optional[str] = None) -> Model:
    """The model of a file's bytes. `form` is the ending of the format's names, as `obj`; `path` is the file's own, where it is one,
    for formats that name further files, as glTF does. Raises `Unreadable`."""
    form = form.lower().lstrip(".")
    if form in ("ply", "off"):
        return (read_ply if form == "ply" else read_off)(data)
    if form == "stl" and is_binary_stl(data):
        return read_stl(data)
    return read_assimp(data, form, path)


def is_known(form: str) -> bool:
    """Whether there is a reader for names with this ending."""
    form = form.lower().lstrip(".")
    with contextlib.suppress(Unreadable):
        return form in ("off", "ply", "stl") or bool(form and assimp().aiIsExtensionSupported(b"." + os.fsencode(form)))
    return False


def _faces(points: np.ndarray, sides: np.ndarray, corners: np.ndarray) -> Model:
    """The model of numbered points and of faces; entries of one or two points are no faces and are left out."""
    are_faces = sides > 2
    corners = corners[np.repeat(are_faces, sides)].astype(np.int64)
    wrong = np.flatnonzero((corners < 0) | (corners >= len(points)))
    if wrong.size:
        raise Unreadable(f"a face names point {corners[wrong[0]]} of {len(points):,} points, which are numbered from 0")
    return Model(points, sides[are_faces], corners, True)


def _joined(rows: Any) -> Tuple[np.ndarray, np.ndarray]:
    """The lengths of lists of whole numbers, and their numbers one after the other."""
    if isinstance(rows, np.ndarray):
        return np.full(len(rows), rows.shape[1], np.int64), rows.reshape(-1)
    lengths = np.array([len(row) for row in rows], np.int64)
    try:
        return lengths, np.fromiter((number for row in rows for number in row), np.int64, int(lengths.sum()))
    except OverflowError:
        raise Unreadable("a face names a point by a number of more than 64 bits") from None


def _welded(positions: np.ndarray, sides: np.ndarray) -> Model:
    """The model of a format that lists a position for each corner: equal positions are one point, in the order of the file."""
    numbers, points = first_of_equals(positions + np.float32(0))  # a minus zero is a zero
    return Model(points, sides, numbers, False)


def first_of_equals(rows: np.ndarray) -> Tuple[np.ndarray, np.ndarray]:
    """The number of each row among the different rows, in the order in which these come first, and the different rows."""
    order = np.lexsort(rows.T[::-1])
    starts = np.ones(len(rows), bool)
    starts[1:] = (rows[order][1:] != rows[order][:-1]).any(axis=1)
    # lexsort keeps the order of equals, so that each run of them starts with its first
    first = order[starts]
    rank = np.empty(len(first), np.int64)
    rank[np.argsort(first)] = np.arange(len(first))
    numbers = np.empty(len(rows), np.int64)
    numbers[order] = rank[np.cumsum(starts) - 1]
    return numbers, rows[np.sort(first)]


# ---- OFF

OFF_START = re.compile(r"(ST)?(C)?(N)?(4)?(n)?OFF$")
NUMBER = re.compile(r"[-+]?(?:\d+\.?\d*|\.\d+)(?:[eE][-+]?\d+)?$", re.ASCII)
# No count has so many digits, and Python refuses to read numbers of thousands.
MOST_DIGITS = 18


def read_off(data: bytes) -> Model:
    """An OFF text: OFF, COFF, NOFF, 4OFF, STOFF and what these make together, or its counts alone; fractions, comments, counts in the
    first line, colours of vertices and faces. Where every vertex and face has a line of its own, what follows its numbers is passed
    over, and so are lines after the last face; else the text is read word by word, and has nothing but these numbers."""
    text = data.decode("ascii", "replace")
    lines = [line.split() for line in re.sub(r"#[^\n]*", "", text).split("\n")]
    lines = [line for line in lines if line]
    if lines and _is_whole(lines[0][0]):
        lines.insert(0, ["OFF"])
    start = OFF_START.match(lines[0][0]) if lines else None
    if not start:
        raise Unreadable(f"its first word is not OFF, COFF, NOFF or 4OFF but '{lines[0][0][:20]}'" if lines else "it is empty")
    _, _, normals, four, dimensions = start.groups()
    lines[0] = lines[0][1:]
    words = [word for line in lines for word in line]
    if words[:1] == ["BINARY"]:
        raise Unreadable("it is a binary OFF file, which no reader here knows")
    if dimensions:
        if words[:1] != ["3"]:
            raise Unreadable("its points have not three dimensions")
        words = words[1:]
        lines[0 if lines[0] else 1].pop(0)
    lines = [line for line in lines if line]
    base = 4 if four else 3
    wide = base + (3 if normals else 0)
    vertices, faces = (_whole(word, "count") for word in (words + ["no word"] * 2)[:2])
    body, more = lines[1: 1 + vertices + faces], len(lines) - 1 - vertices - faces
    note = ""
    if (len(lines[0]) in (2, 3) and more >= 0 and all(len(line) >= wide for line in body[:vertices])
            and all(_is_whole(line[0]) and len(line) > int(line[0]) for line in body[vertices:])):
        points = [line[:base] for line in body[:vertices]]
        polygons = [line[1: 1 + int(line[0])] for line in body[vertices:]]
        note = f"{more:,} line{'s' if more > 1 else ''} after the last of its {faces:,} faces passed over" if more else ""
    else:
        at = 3 + vertices * wide
        if at > len(words):
            raise Unreadable(f"it ends before its {vertices:,} points")
        points = [words[i: i + base] for i in range(3, at, wide)]
        polygons = []
        for number in range(faces):
            if at >= len(words):
                raise Unreadable(f"it ends before face {number:,} of {faces:,}")
            sides = _whole(words[at], f"number of sides, which face {number:,} should begin with")
            polygons.append(words[at + 1: at + 1 + sides])
            at += 1 + sides
        if at != len(words):
            raise Unreadable(f"it has {len(words):,} words after its first where its counts ask for {at:,}")
    for word in (word for point in points for word in point):
        if not NUMBER.match(word):
            raise Unreadable(f"'{word[:20]}' is no coordinate")
    numbers = np.array(points, np.float64).reshape(-1, base)
    named = [[_whole(word, "number of a point") for word in polygon] for polygon in polygons]
    if four:
        with np.errstate(all="ignore"):
            numbers = numbers[:, :3] / numbers[:, 3:]
    model = _faces(numbers, *_joined(named))
    model.note = note
    return model


def _is_whole(word: str) -> bool:
    return word.isascii() and word.isdigit() and len(word) <= MOST_DIGITS


def _whole(word: str, what: str) -> int:
    if not _is_whole(word):
        raise Unreadable(f"'{word[:20]}' is no {what}")
    return int(word)


# ---- PLY

PLY_TYPES = {"char": "i1", "int8": "i1", "uchar": "u1", "uint8": "u1", "short": "i2", "int16": "i2", "ushort": "u2",
             "uint16": "u2", "int": "i4", "int32": "i4", "uint": "u4", "uint32": "u4", "float": "f4", "float32": "f4",
             "double": "f8", "float64": "f8"}
PLY_LENGTHS = {name: kind for name, kind in PLY_TYPES.items() if kind[0] != "f"}
PLY_ORDERS = {"ascii": "", "binary_little_endian": "<", "binary_big_endian": ">"}
Columns = Dict[str, Any]
# Rows with longer lists are read one by one.
MOST_ALIKE = 255


@dataclass
class Element:
    """An element of a PLY file: its rows, and its properties in their order."""

    name: str
    count: int
    properties: List[Tuple[str, str, str]]
    """Name, type, and for a list the type of its length, else nothing."""


def read_ply(data: bytes) -> Model:
    """A PLY file, as text or binary of either byte order, with any properties and elements in any order: x, y, z of the element
    `vertex` and the list `vertex_index` or `vertex_indices` of the element `face`."""
    order, elements, at = _ply_header(data)
    words = iter(data[at:].split()) if order == "" else iter(())
    points: Optional[np.ndarray] = None
    faces: Any = []
    for element in elements:
        kinds = {name: (kind, length) for name, kind, length in element.properties}
        listed = next((name for name in ("vertex_indices", "vertex_index") if name in kinds), "")
        if element.name == "vertex" and not all(axis in kinds and not kinds[axis][1] for axis in "xyz"):
            raise Unreadable("its vertices have no x, y, z")
        if element.name == "face" and listed and (kinds[listed][0][0] == "f" or not kinds[listed][1]):
            raise Unreadable(f"the {listed} of its faces is no list of whole numbers")
        if not kinds:
            continue
        if order == "":
            rows = _text_rows(element, words)
        else:
            rows, at = _binary_rows(element, order, data, at)
        if element.name == "vertex":
            points = np.column_stack([np.asarray(rows[axis]) for axis in "xyz"])
            points = points.astype(np.float32 if points.dtype == np.float32 else np.float64)
        elif element.name == "face" and listed:
            faces = rows[listed]
    if points is None:
        raise Unreadable("it has no vertices")
    return _faces(points, *_joined(faces))


def _ply_header(data: bytes) -> Tuple[str, List[Element], int]:
    """The byte order, nothing for text, the elements, and where their rows begin."""
    end = re.search(rb"(?m)^end_header[ \t]*\r?\n", data)
    if not data.startswith(b"ply") or not end:
        raise Unreadable("it has no PLY header")
    order, elements = None, []
    for line in data[: end.start()].decode("latin-1").splitlines():
        words = line.split()
        try:
            if words[:1] == ["format"]:
                order = PLY_ORDERS[words[1]]
            elif words[:1] == ["element"]:
                elements.append(Element(words[1], _whole(words[2], "number of rows"), []))
            elif words[:2] == ["property", "list"]:
                elements[-1].properties.append((words[4], PLY_TYPES[words[3]], PLY_LENGTHS[words[2]]))
            elif words[:1] == ["property"]:
                elements[-1].properties.append((words[2], PLY_TYPES[words[1]], ""))
        except (IndexError, KeyError):
            raise Unreadable(f"its header has the line '{line.strip()[:60]}'") from None
    if order is None:
        raise Unreadable("its header names no format")
    for element in elements:
        names = [name for name, _, _ in element.properties]
        if len(set(names)) < len(names):
            raise Unreadable(f"its header has a property of {element.name} twice")
    return order, elements, end.end()


def _text_rows(element: Element, words: Iterator[bytes]) -> Columns:
    """The columns of an element of a text."""
    rows: Columns = {name: [] for name, _, _ in element.properties}
    word = b""
    try:
        for _ in range(element.count):
            for name, kind, length in element.properties:
                number = float if kind[0] == "f" else int
                if length:
                    count = int(word := next(words))
                    rows[name].append([number(word := next(words)) for _ in range(count)])
                else:
                    rows[name].append(number(word := next(words)))
    except StopIteration:
        raise Unreadable(f"it ends before its {element.count:,} rows of {element.name}") from None
    except ValueError:
        what = f"the list {name}" if length else name
        raise Unreadable(f"'{word[:20].decode('ascii', 'replace')}' is no number for {what} of {element.name}") from None
    return rows


def _binary_rows(element: Element, order: str, data: bytes, at: int) -> Tuple[Columns, int]:
    """The columns of a binary element, and where its rows end."""
    kinds = [(name, np.dtype(order + kind), np.dtype(order + length) if length else None) for name, kind, length in
             element.properties]
    alike = _alike_rows(element, kinds, data, at)
    if alike is not None:
        return {name: alike[name] for name, _, _ in kinds}, at + alike.nbytes
    rows: Columns = {name: [] for name, _, _ in kinds}
    try:
        for _ in range(element.count):
            for name, kind, length in kinds:
                count = 1
                if length is not None:
                    count = max(int(np.frombuffer(data, length, 1, at)[0]), 0)
                    at += length.itemsize
                numbers = np.frombuffer(data, kind, count, at) if count else np.empty(0, kind)
                rows[name].append(numbers if length is not None else numbers[0])
                at += numbers.nbytes
    except ValueError:
        raise Unreadable(f"it ends before its {element.count:,} rows of {element.name}") from None
    return rows, at


def _alike_rows(element: Element, kinds: Sequence[tuple], data: bytes, at: int) -> Optional[np.ndarray]:
    """The rows as one table, where they have no lists, or one whose length is the same in all of them: that is quick. Else none."""
    lists = [i for i, (_, _, length) in enumerate(kinds) if length is not None]
    if len(lists) > 1 or not element.count:
        return None
    fields: List[tuple] = [(name, kind) for name, kind, _ in kinds]
    count = 0
    if lists:
        name, kind, length = kinds[lists[0]]
        before = at + sum(kind.itemsize for _, kind, _ in kinds[: lists[0]])
        if before + length.itemsize > len(data):
            return None
        count = int(np.frombuffer(data, length, 1, before)[0])
        if not 1 <= count <= MOST_ALIKE:
            return None
        fields[lists[0]: lists[0] + 1] = [("the list's length", length), (name, kind, (count,))]
    table = np.dtype(fields)
    if at + element.count * table.itemsize > len(data):
        return None
    rows = np.frombuffer(data, table, element.count, at)
    return rows if not lists or (rows["the list's length"] == count).all() else None


# ---- STL

STL_HEAD = 84
STL_ROW = np.dtype([("normal", "<f4", 3), ("positions", "<f4", (3, 3)), ("more", "<u2")])


def is_binary_stl(data: bytes) -> bool:
    """Whether the length is the one that a binary STL file says."""
    return len(data) >= STL_HEAD and len(data) == STL_HEAD + STL_ROW.itemsize * int(np.frombuffer(data, "<u4", 1, STL_HEAD - 4)[0])


def read_stl(data: bytes) -> Model:
    """A binary STL file."""
    rows = np.frombuffer(data, STL_ROW, -1, STL_HEAD)
    return _welded(rows["positions"].reshape(-1, 3).astype(np.float32), np.full(len(rows), 3, np.int64))


# ---- what assimp reads


class _String(ctypes.Structure):
    _fields_ = [("length", ctypes.c_uint32), ("data", ctypes.c_char * 1024)]


class _Face(ctypes.Structure):
    _fields_ = [("count", ctypes.c_uint), ("points", ctypes.POINTER(ctypes.c_uint))]


class _Mesh(ctypes.Structure):
    # aiMesh, as far as its faces
    _fields_ = [("kinds", ctypes.c_uint), ("point_count", ctypes.c_uint), ("face_count", ctypes.c_uint),
                ("points", ctypes.POINTER(ctypes.c_float)), ("normals", ctypes.c_void_p), ("tangents", ctypes.c_void_p),
                ("bitangents", ctypes.c_void_p), ("colours", ctypes.c_void_p * 8), ("textures", ctypes.c_void_p * 8),
                ("texture_sizes", ctypes.c_uint * 8), ("faces", ctypes.POINTER(_Face))]


class _Node(ctypes.Structure):
    pass


_Node._fields_ = [("name", _String), ("matrix", ctypes.c_float * 16), ("parent", ctypes.c_void_p),
                  ("child_count", ctypes.c_uint), ("children", ctypes.POINTER(ctypes.POINTER(_Node))),
                  ("mesh_count", ctypes.c_uint), ("meshes", ctypes.POINTER(ctypes.c_uint))]


class _Scene(ctypes.Structure):
    # aiScene, as far as its meshes
    _fields_ = [("flags", ctypes.c_uint), ("root", ctypes.POINTER(_Node)), ("mesh_count", ctypes.c_uint),
                ("meshes", ctypes.POINTER(ctypes.POINTER(_Mesh)))]


ASSIMP = "libassimp.so.5"
# Of these assimp turns the whole, so that z upwards becomes y upwards, and makes the unit a metre, all in the root's matrix.
TURNED = ("3ds", "dae")
_assimp = None


def assimp() -> ctypes.CDLL:
    """The library, loaded at its first use."""
    global _assimp
    if _assimp is None:
        try:
            library = ctypes.CDLL(ASSIMP)
        except OSError:
            raise Unreadable(f"reading it needs {ASSIMP} (Debian: libassimp5)") from None
        library.aiImportFile.restype = ctypes.POINTER(_Scene)
        library.aiImportFile.argtypes = [ctypes.c_char_p, ctypes.c_uint]
        library.aiImportFileFromMemory.restype = ctypes.POINTER(_Scene)
        library.aiImportFileFromMemory.argtypes = [ctypes.c_char_p, ctypes.c_uint, ctypes.c_uint, ctypes.c_char_p]
        library.aiGetErrorString.restype = ctypes.c_char_p
        library.aiIsExtensionSupported.argtypes = [ctypes.c_char_p]
        _assimp = library
    return _assimp


def read_assimp(data: bytes, form: str, path: Optional[str] = None) -> Model:
    """A file of a format that assimp knows, with no processing: faces stay as they are, and the parts of a scene stand where its
    nodes put them. assimp lists points for each face anew, so that equal positions become one point. It reads in a process of its
    own: damaged files of some formats end the process that reads them."""
    assimp()
    if not is_known(form):
        raise Unreadable(f"no reader knows the format '{form}'" if form else "its name has no ending that tells the format")
    if not data:
        raise Unreadable("it is empty")
    ours, theirs = os.pipe()
    process = os.fork()
    if process == 0:
        _read_apart(data, form, path, theirs)
    os.close(theirs)
    try:
        with open(ours, "rb") as pipe:
            said = pipe.read()
    except BaseException:
        os.kill(process, signal.SIGKILL)
        raise
    finally:
        status = os.waitstatus_to_exitcode(os.waitpid(process, 0)[1])
    if status:
        raise Unreadable("assimp failed on it" + (f": {signal.strsignal(-status)}" if status < 0 else ""))
    if said[:1] == WORDS:
        raise Unreadable(said[1:].decode("utf-8", "replace"))
    faces = int.from_bytes(said[1:9], "little")
    return _welded(np.frombuffer(said, np.float32, -1, 9 + 8 * faces).reshape(-1, 3), np.frombuffer(said, np.int64, faces, 9))


# What the process that reads says first: whether words follow, or the number of faces, their sides and the positions of their corners.
WORDS, CORNERS = b"w", b"c"
# Processor time for a file: damaged ones of some formats keep assimp busy for ever.
MOST_SECONDS = 300


def _read_apart(data: bytes, form: str, path: Optional[str], pipe: int) -> NoReturn:
    """What that process does. What assimp writes by itself goes nowhere."""
    status = 1
    try:
        for number in SIGNALS:
            signal.signal(number, signal.SIG_DFL)
        faulthandler.disable()
        resource.setrlimit(resource.RLIMIT_CORE, (0, 0))
        resource.setrlimit(resource.RLIMIT_CPU, (MOST_SECONDS, MOST_SECONDS + 1))
        nothing = os.open(os.devnull, os.O_RDWR)
        for stream in range(3):
            os.dup2(nothing, stream)
        try:
            positions, sides = _scene_corners(data, form, path)
            said = [CORNERS, len(sides).to_bytes(8, "little"), sides.tobytes(), positions.tobytes()]
        except Unreadable as error:
            said = [WORDS, str(error).encode()]
        with open(pipe, "wb") as out:
            out.writelines(said)
        status = 0
    finally:
        os._exit(status)


def _scene_corners(data: bytes, form: str, path: Optional[str]) -> Tuple[np.ndarray, np.ndarray]:
    """The positions of all corners of a scene's faces, float32, and the faces' sides."""
    library = assimp()
    # what is no plain file, as a pipe, was read and cannot be once more
    if path is not None and os.path.splitext(path)[1].lower() == "." + form and os.path.isfile(path):
        scene = library.aiImportFile(os.fsencode(path), 0)
    else:
        scene = library.aiImportFileFromMemory(data, len(data), 0, os.fsencode(form))
    if not scene:
        raise Unreadable("assimp: " + " ".join(library.aiGetErrorString().decode("utf-8", "replace").split()))
    positions, sides = [np.empty((0, 3), np.float32)], [np.empty(0, np.int64)]
    nodes = [(scene.contents.root.contents, np.eye(4))] if scene.contents.root else []
    kept = form not in TURNED
    while nodes:
        node, outer = nodes.pop()
        matrix = outer @ np.array(node.matrix, np.float64).reshape(4, 4) if kept else outer
        kept = True
        # RAW files come with children that are none
        nodes.extend((node.children[i].contents, matrix) for i in reversed(range(node.child_count)) if node.children[i])
        for i in range(node.mesh_count):
            at, counts = _corner_positions(scene.contents.meshes[node.meshes[i]].contents, matrix)
            positions.append(at)
            sides.append(counts)
    return np.concatenate(positions), np.concatenate(sides)


def _corner_positions(mesh: _Mesh, matrix: np.ndarray) -> Tuple[np.ndarray, np.ndarray]:
    """The positions of all corners of a mesh's faces, and the faces' sides. A matrix that mirrors turns the faces."""
    if not mesh.point_count or not mesh.face_count:
        return np.empty((0, 3), np.float32), np.empty(0, np.int64)
    faces = [(mesh.faces[i].count, mesh.faces[i].points) for i in range(mesh.face_count)]
    faces = [(count, points) for count, points in faces if count > 2]
    listed = [np.frombuffer(ctypes.string_at(points, 4 * count), np.uint32) for count, points in faces]
    if np.linalg.det(matrix[:3, :3]) < 0:
        listed = [numbers[::-1] for numbers in listed]
    numbers = np.concatenate(listed) if listed else np.empty(0, np.uint32)
    if numbers.size and numbers.max() >= mesh.point_count:
        raise Unreadable(f"a face names point {numbers.max()} of {mesh.point_count:,} points, which are numbered from 0")
    points = np.ctypeslib.as_array(mesh.points, (mesh.point_count, 3))
    with np.errstate(all="ignore"):  # what is no number stays none, and is refused later
        if not np.array_equal(matrix, np.eye(4)):
            points = points @ matrix[:3, :3].T + matrix[:3, 3]
        return points.astype(np.float32)[numbers], np.array([count for count, _ in faces], np.int64)
