"""Readers of models; and a test for each line of the table of formats in docs/DECISIONS.md, who reads and writes each."""

import base64
import json
import os
import signal
import struct
from pathlib import Path

import numpy as np
import pytest

import mahunopi
from mahunopi import calls, models
from mahunopi.command import main
from mahunopi.models import Unreadable
from mahunopi.writing import WRITERS
from shapes import CUBE_FACES, CUBE_POINTS, cube, fans, glb, obj, off, ply, prism, stl

ROOT = Path(__file__).resolve().parents[2]
HALF = [(x / 6, y / 6, z / 6 + 0.25) for x, y, z in CUBE_POINTS]


def rings(model):
    """The faces as rings of coordinates, each from its least point on: what a reader must keep, however it numbers points."""
    ends = np.cumsum(model.sides)
    faces = []
    for end, side in zip(ends.tolist(), model.sides.tolist()):
        ring = [tuple(round(float(x), 5) for x in model.points[v]) for v in model.corners[end - side: end]]
        least = ring.index(min(ring))
        faces.append(tuple(ring[least:] + ring[:least]))
    return sorted(faces)


def expected(points, faces):
    corners = np.array([v for face in faces for v in face])
    return rings(models.Model(np.array(points, np.float64), np.array([len(face) for face in faces]), corners, True))


def check(data, form, points=HALF, faces=CUBE_FACES, numbered=False):
    model = models.read(data, form)
    assert rings(model) == expected(points, faces)
    assert len(model.points) == len(points) and model.numbered == numbered
    if numbered:
        assert np.allclose(model.points, points)
    return model


def refused(data, form):
    with pytest.raises(Unreadable) as caught:
        models.read(data, form)
    assert "\n" not in str(caught.value)
    return str(caught.value)


@pytest.mark.parametrize("start, of_point", [("OFF", ""), ("COFF", " 255 0 0 255"), ("COFF", " 0.1 0.2 0.3"), ("NOFF", " 0 0 1"),
                                             ("CNOFF", " 0 0 1 255 0 0 1"), ("STOFF", " 0.5 0.5"), ("4OFF", " 1"), ("nOFF 3", "")])
@pytest.mark.parametrize("of_face", ["", " 255 0 0", " 1 0 0 0.5", " 3"])
@pytest.mark.parametrize("newline", ["\n", "\r\n"])
def test_off(start, of_point, of_face, newline):
    check(off(HALF, CUBE_FACES, start, of_point, of_face, newline), "off", numbered=True)


def test_off_in_other_layouts():
    words = [f"{x!r} {y!r} {z!r}" for x, y, z in HALF]
    faces = [" ".join(map(str, (4, *face))) for face in CUBE_FACES]
    for text in ("OFF 8 6 12\n" + "\n".join(words + faces), "OFF # first\n# second\n8\n6 0 " + "  ".join(words + faces),
                 "\n\nOFF\n8 6\n" + "\n".join(words + faces), "NOFF 8 6 0 " + " ".join(w + " 0 0 1" for w in words) + " ".join([""] + faces)):
        check(text.encode(), "off", numbered=True)
    text = "4OFF 8 6 0\n" + "\n".join(f"{2 * x} {2 * y} {2 * z} 2" for x, y, z in HALF) + "\n" + "\n".join(faces)
    check(text.encode(), ".OFF", numbered=True)
    exponents = "OFF 8 6 0\n" + "\n".join("%.6e %+.6f %r" % point for point in HALF) + "\n" + "\n".join(faces)
    check(exponents.encode(), "off", numbered=True)
    # without the first word, and with lines after the last face, which are told
    check(("# a cube\n8 6 12\n" + "\n".join(words + [face + " 7" for face in faces])).encode(), "off", numbered=True)
    for more, note in (("", ""), ("\n3 0 1 2", "1 line after the last of its 6 faces passed over"),
                       ("\n3 0 1 2\n\n7", "2 lines after the last of its 6 faces passed over")):
        model = check(("OFF\n8 6 0\n" + "\n".join(words + faces) + more).encode(), "off", numbered=True)
        assert model.note == note
    # points and lines are no faces
    model = models.read(b"OFF 3 3 0 0 0 0 1 0 0 0 1 0 1 0 2 0 1 3 0 1 2", "off")
    assert model.sides.tolist() == [3] and model.corners.tolist() == [0, 1, 2]


def test_off_that_is_none():
    assert "empty" in refused(b"# nothing\n", "off")
    assert "'PLY'" in refused(b"PLY 1 2", "off") and "no count" in refused(b"7", "off")
    assert "binary" in refused(b"OFF BINARY\n\0\0", "off")
    assert "three dimensions" in refused(b"nOFF 5 1 1 0", "off")
    assert "'x' is no count" in refused(b"OFF x", "off")
    assert "no count" in refused(b"OFF 1", "off")
    assert "ends before its 353,535,235,358 points" in refused(b"OFF 353535235358 1 0 0 0 0", "off")
    assert "ends before face 1 of 2" in refused(b"OFF 3 2 0 0 0 0 1 0 0 0 1 0 3 0 1 2", "off")
    assert "counts ask for" in refused(b"OFF 3 1 0 0 0 0 1 0 0 0 1 0 3 0 1 2 9 9 9 9 9 9 9", "off")
    assert "'1_0' is no coordinate" in refused(b"OFF 3 1 0 1_0 0 0 1 0 0 0 1 0 3 0 1 2", "off")
    assert "'\ufffd\ufffd' is no coordinate" in refused("OFF 3 1 0 ² 0 0 1 0 0 0 1 0 3 0 1 2".encode(), "off")
    assert "'1.5' is no number of a point" in refused(b"OFF 3 1 0 0 0 0 1 0 0 0 1 0 3 0 1.5 2", "off")
    assert "names point 3 of 3 points" in refused(b"OFF 3 1 0 0 0 0 1 0 0 0 1 0 3 0 1 3", "off")
    assert "'-1'" in refused(b"OFF 3 1 0 0 0 0 1 0 0 0 1 0 3 0 1 -1", "off")
    assert "no count" in refused(b"OFF " + b"9" * 5_000 + b" 1 0\n", "off")
    assert "no number of a point" in refused(b"OFF 3 1 0 0 0 0 1 0 0 0 1 0 3 0 1 " + b"9" * 5_000, "off")
    assert "names point 99999999999999999" in refused(b"OFF 3 1 0 0 0 0 1 0 0 0 1 0 3 0 1 99999999999999999", "off")
    assert "no number of sides" in refused(b"OFF 3 1 0\n0 0 0\n1 0 0\n0 1 0\n" + b"9" * 5_000 + b" 0 1 2\n", "off")


@pytest.mark.parametrize("form", ["ascii", "binary_little_endian", "binary_big_endian"])
@pytest.mark.parametrize("name", ["vertex_index", "vertex_indices"])
@pytest.mark.parametrize("more", [False, True])
@pytest.mark.parametrize("kinds", [("float", "uchar", "int"), ("double", "ushort", "uint")])
def test_ply(form, name, more, kinds):
    check(ply(HALF, CUBE_FACES, form, name, kinds, more), "ply", numbered=True)
    points, faces = prism(5, 1, 0.5)
    mixed = faces + [(0, 1, 2)]
    check(ply(points, mixed, form, name, kinds, more), "ply", points, mixed, numbered=True)


def test_ply_that_is_none():
    whole = ply(HALF, CUBE_FACES, "binary_little_endian")
    for cut in (1, 10, 60, 150):
        assert "ends before its" in refused(whole[:-cut], "ply")
    text = ply(HALF, CUBE_FACES)
    assert "ends before its 6 rows of face" in refused(text.rstrip().rsplit(b" ", 1)[0], "ply")
    assert "no PLY header" in refused(b"ply\n", "ply") and "no PLY header" in refused(b"", "ply")
    assert "ends before its 900,000,000 rows of face" in refused(text.replace(b"face 6", b"face 900000000"), "ply")
    assert "its header has the line" in refused(text.replace(b"property float x", b"property word x"), "ply")
    assert "names no format" in refused(text.replace(b"format", b"comment"), "ply")
    assert "a property of vertex twice" in refused(text.replace(b"float x", b"float y"), "ply")
    assert "no x, y, z" in refused(text.replace(b"float x", b"float u"), "ply")
    assert refused(text.replace(b"0.5", b"half", 1), "ply") == "'half' is no number for x of vertex"
    assert refused(text.replace(b"4 0 1 2 3", b"4 0 1.5 2 3"), "ply") == "'1.5' is no number for the list vertex_indices of face"
    assert "names point" in refused(ply(HALF[:7], CUBE_FACES), "ply")
    lists = text.replace(b"list uchar int vertex_indices", b"%s vertex_indices")
    assert "no list of whole numbers" in refused(lists.replace(b"%s", b"list uchar float"), "ply")
    assert "no list of whole numbers" in refused(lists.replace(b"%s", b"int"), "ply")
    assert "its header has the line" in refused(lists.replace(b"%s", b"list float int"), "ply")
    assert "no x, y, z" in refused(text.replace(b"property float y", b"property list uchar float y"), "ply")
    assert "of more than 64 bits" in refused(text.replace(b"4 0 1 2 3", b"4 0 1 2 " + b"9" * 30), "ply")
    assert "no number" in refused(text.replace(b"4 0 1 2 3", b"4 0 1 2 " + b"9" * 5_000), "ply")
    assert "'99999999999999999999' is no number of rows" in refused(text.replace(b"face 6", b"face " + b"9" * 5_000), "ply")
    long = ply(HALF, CUBE_FACES, "binary_little_endian", kinds=("float", "uint", "int"))
    at = long.index(struct.pack("<5I", 4, 0, 1, 2, 3))
    for count in (256, 2**31, 2**32 - 1):
        assert "ends before its 6 rows of face" in refused(long[:at] + struct.pack("<I", count) + long[at + 4:], "ply")
    cloud = ply(HALF, [])
    assert models.read(cloud, "ply").sides.size == 0
    empty = cloud.replace(b"element face 0", b"element nothing 900000000\nelement face 0")
    assert models.read(empty, "ply").sides.size == 0


@pytest.mark.parametrize("text", [False, True])
def test_stl(text):
    check(stl(HALF, CUBE_FACES, text), "stl", faces=fans(CUBE_FACES))
    assert models.is_binary_stl(stl(HALF, CUBE_FACES, text)) != text


@pytest.mark.parametrize("slots", [False, True])
@pytest.mark.parametrize("negative", [False, True])
def test_obj(slots, negative):
    check(obj(HALF, CUBE_FACES, slots, negative), "obj")
    for n in range(5, 17):
        points, faces = prism(n, 1, 0.5)
        check(obj(points, faces, slots, negative), "obj", points, faces)


def test_obj_of_people():
    """Groups, materials, colours, a continued line, CRLF, lines and points."""
    lines = [f"v {x} {y} {z} 1 0 0" for x, y, z in HALF]
    faces = ["f " + " ".join(str(v + 1) for v in face) for face in CUBE_FACES]
    faces[1] = faces[1].replace(" ", " \\\r\n", 1)
    text = "\r\n".join(["mtllib none.mtl", *lines, "g one", *faces[:3], "usemtl red", "s 1", *faces[3:], "l 1 2", "p 1", ""])
    check(text.encode(), "obj")


def test_glb(tmp_path):
    check(glb(HALF, CUBE_FACES), "glb", faces=fans(CUBE_FACES))
    # a node that moves, and one that mirrors: then faces are turned, so that they look outward as before
    moved = check(glb(HALF, CUBE_FACES, [2, 0, 0, 0, 0, 2, 0, 0, 0, 0, 2, 0, 1, 2, 3, 1]), "glb",
                  [(2 * x + 1, 2 * y + 2, 2 * z + 3) for x, y, z in HALF], fans(CUBE_FACES))
    assert moved.points.dtype == np.float32
    check(glb(HALF, CUBE_FACES, [-1, 0, 0, 0, 0, 1, 0, 0, 0, 0, 1, 0, 0, 0, 0, 1]), "glb", [(-x, y, z) for x, y, z in HALF],
          [tuple(reversed(face)) for face in fans(CUBE_FACES)])


def test_gltf_with_a_file_of_its_own(tmp_path):
    """The numbers lie in another file beside it: read by the path."""
    whole = glb(HALF, CUBE_FACES)
    length = struct.unpack_from("<I", whole, 12)[0]
    scene = json.loads(whole[20: 20 + length])
    scene["buffers"][0]["uri"] = "numbers.bin"
    (tmp_path / "numbers.bin").write_bytes(whole[28 + length:])
    path = tmp_path / "cube.gltf"
    path.write_text(json.dumps(scene))
    assert rings(models.read(path.read_bytes(), "gltf", str(path))) == expected(HALF, fans(CUBE_FACES))
    (tmp_path / "numbers.bin").unlink()
    with pytest.raises(Unreadable, match="assimp: "):
        models.read(path.read_bytes(), "gltf", str(path))


def chunk(kind, *parts):
    """A chunk of a 3DS file."""
    body = b"".join(parts)
    return struct.pack("<HI", kind, 6 + len(body)) + body


def three_ds(points, faces):
    """A 3DS file of triangles."""
    listed = struct.pack("<H", len(points)) + b"".join(struct.pack("<3f", *point) for point in points)
    triangles = fans(faces)
    corners = struct.pack("<H", len(triangles)) + b"".join(struct.pack("<4H", *triangle, 7) for triangle in triangles)
    mesh = chunk(0x4100, chunk(0x4110, listed), chunk(0x4120, corners))
    return chunk(0x4D4D, chunk(0x0002, struct.pack("<I", 3)), chunk(0x3D3D, chunk(0x4000, b"thing\0", mesh)))


def fbx(points, faces):
    """An FBX text; the last point of a face is written as its complement."""
    numbers = ",".join(str(x) for point in points for x in point)
    corners = ",".join(str(v) for face in faces for v in (*face[:-1], -1 - face[-1]))
    return f"""; FBX 7.3.0 project file
FBXHeaderExtension:  {{
    FBXVersion: 7300
}}
Objects:  {{
    Geometry: 1, "Geometry::", "Mesh" {{
        Vertices: *{3 * len(points)} {{
            a: {numbers}
        }}
        PolygonVertexIndex: *{sum(map(len, faces))} {{
            a: {corners}
        }}
    }}
    Model: 2, "Model::thing", "Mesh" {{
        Version: 232
    }}
}}
Connections:  {{
    C: "OO",2,0
    C: "OO",1,2
}}
""".encode()


def collada(points, faces):
    """A COLLADA text of a model whose z points upwards, in centimetres."""
    numbers = " ".join(str(x) for point in points for x in point)
    return f"""<COLLADA xmlns="http://www.collada.org/2005/11/COLLADASchema" version="1.4.1"><asset><unit name="centimeter" meter="0.01"/>
      <up_axis>Z_UP</up_axis></asset><library_geometries><geometry id="g"><mesh>
      <source id="p"><float_array id="a" count="{3 * len(points)}">{numbers}</float_array><technique_common><accessor source="#a"
      count="{len(points)}" stride="3"><param name="X" type="float"/><param name="Y" type="float"/><param name="Z" type="float"/></accessor>
      </technique_common></source><vertices id="v"><input semantic="POSITION" source="#p"/></vertices><polylist count="{len(faces)}"><input
      semantic="VERTEX" source="#v" offset="0"/><vcount>{" ".join(str(len(face)) for face in faces)}</vcount><p>{" ".join(str(v) for face in faces
      for v in face)}</p></polylist></mesh></geometry></library_geometries><library_visual_scenes><visual_scene id="s"><node>
      <instance_geometry url="#g"/></node></visual_scene></library_visual_scenes><scene><instance_visual_scene url="#s"/></scene></COLLADA>""".encode()


def gltf(points, faces):
    """A glTF text, with its numbers in it."""
    whole = glb(points, faces)
    length = struct.unpack_from("<I", whole, 12)[0]
    scene = json.loads(whole[20: 20 + length])
    scene["buffers"][0]["uri"] = "data:application/octet-stream;base64," + base64.b64encode(whole[28 + length:]).decode()
    return json.dumps(scene).encode()


@pytest.mark.parametrize("form, write", [("fbx", fbx), ("dae", collada)])
def test_formats_with_polygons(form, write):
    check(write(HALF, CUBE_FACES), form)
    for n in (5, 12, 16):
        points, faces = prism(n, 1, 0.5)
        check(write(points, faces), form, points, faces)


@pytest.mark.parametrize("form, write", [("3ds", three_ds), ("gltf", gltf)])
def test_formats_of_triangles(form, write):
    check(write(HALF, CUBE_FACES), form, faces=fans(CUBE_FACES))


def test_other_formats():
    assert refused(b"x", "xyz") == "no reader knows the format 'xyz'"
    assert "no ending" in refused(b"x", "")
    assert refused(b"v 1 2 3", "obj").startswith("assimp: ")
    assert refused(b"nonsense", "glb").startswith("assimp: ")
    assert models.is_known("OBJ") and models.is_known(".dae") and models.is_known("ply") and not models.is_known("dms")


def test_files_that_assimp_fails_on(monkeypatch, capfd):
    """Some damaged files end the process that reads them, and some have assimp write by itself."""
    for number, words in ((signal.SIGABRT, "Aborted"), (signal.SIGSEGV, "Segmentation fault")):
        monkeypatch.setattr(models, "_scene_corners", lambda *given, number=number: os.write(2, b"noise") and os.kill(os.getpid(), number))
        assert refused(b"x", "obj") == f"assimp failed on it: {words}"
    monkeypatch.setattr(models, "_scene_corners", lambda *given: any(iter(int, 1)))
    monkeypatch.setattr(models, "MOST_SECONDS", 1)
    assert refused(b"x", "obj") == "assimp failed on it: CPU time limit exceeded"
    monkeypatch.setattr(models, "_scene_corners", lambda *given: 1 // 0)
    assert refused(b"x", "obj") == "assimp failed on it"
    assert refused(b"", "obj") == "it is empty" and capfd.readouterr() == ("", "")


def test_without_assimp(monkeypatch):
    monkeypatch.setattr(models, "_assimp", None)
    monkeypatch.setattr(models, "ASSIMP", "libassimp.so.none")
    assert refused(obj(HALF, CUBE_FACES), "obj") == "reading it needs libassimp.so.none (Debian: libassimp5)"
    assert not models.is_known("obj") and models.is_known("off")
    check(stl(HALF, CUBE_FACES), "stl", faces=fans(CUBE_FACES))


# ---- the table of formats

# The formats of each line, by the line's first cell: the file's ending, what is in it, and who reads it.
LINES = {
    ".dms": [("dms", mahunopi.encode(cube()), "mahunopi_decode")],
    "OFF of whole numbers, except for `import`": [("off", off(CUBE_POINTS, CUBE_FACES).replace(b".0", b""), "mahunopi_off")],
    "OFF, COFF, NOFF, 4OFF, for `import`": [("off", off(HALF, CUBE_FACES, start, more), "read_off") for start, more in
                                            (("OFF", ""), ("COFF", " 1 0 0 1"), ("NOFF", " 0 0 1"), ("4OFF", " 1"))],
    "PLY, text and binary": [("ply", ply(HALF, CUBE_FACES, form), "read_ply") for form in ("ascii", "binary_little_endian", "binary_big_endian")],
    "STL, binary": [("stl", stl(HALF, CUBE_FACES), "read_stl")],
    "OBJ, GLB": [("obj", obj(HALF, CUBE_FACES), "read_assimp"), ("glb", glb(HALF, CUBE_FACES), "read_assimp")],
    "STL as text, glTF, COLLADA, FBX, 3DS and others": [
        (form, data, "read_assimp") for form, data in
        (("stl", stl(HALF, CUBE_FACES, True)), ("gltf", gltf(HALF, CUBE_FACES)), ("dae", collada(HALF, CUBE_FACES)), ("fbx", fbx(HALF, CUBE_FACES)),
         ("3ds", three_ds(HALF, CUBE_FACES)))]}
READERS = {"read_off": "mahunopi.models", "read_ply": "mahunopi.models, numpy", "read_stl": "mahunopi.models, numpy",
           "read_assimp": "assimp 5", "mahunopi_off": "`mahunopi_off`", "mahunopi_decode": "`mahunopi_decode`"}


def rows_of_the_table():
    """The lines of the table in docs/DECISIONS.md: format, who reads it, who writes it, why."""
    text = (ROOT / "docs/DECISIONS.md").read_text().split("| format | read by | written by | why |\n", 1)[1].split("\n\n")[0]
    return [[cell.strip() for cell in line.strip("|").split("|")] for line in text.split("\n")[1:]]


def test_every_line_of_the_table_has_a_test():
    rows = rows_of_the_table()
    assert [row[0] for row in rows] == list(LINES) and all(len(row) == 4 and all(row) for row in rows)


@pytest.mark.parametrize("line", LINES)
def test_who_reads_and_writes(line, tmp_path, monkeypatch, capfd):
    """The reader that a line names is the one that reads its formats, and they are written if the line names a writer."""
    called = []

    def noting(name, function):
        return lambda *given: called.append(name) or function(*given)

    for name in ("read_off", "read_ply", "read_stl", "read_assimp"):
        monkeypatch.setattr(models, name, noting(name, getattr(models, name)))
    for name in ("off", "decode"):
        monkeypatch.setitem(calls.functions, name, noting("mahunopi_" + name, calls.functions[name]))
    monkeypatch.chdir(tmp_path)
    _, reader, writer, _ = next(row for row in rows_of_the_table() if row[0] == line)
    for form, data, read in LINES[line]:
        assert reader.startswith(READERS[read])
        (tmp_path / f"a.{form}").write_bytes(data)
        status = main(["info", f"a.{form}"] if read.startswith("mahunopi") else ["import", f"a.{form}", "-o", "made.dms"])
        assert (status, called) == (0, [read]), capfd.readouterr()
        called.clear()
        # what triangles writes, and what import and turn do
        written = form in WRITERS and data != stl(HALF, CUBE_FACES, True) or form == "dms"
        assert written == (writer != "nobody")
    if writer != "nobody":
        assert writer.startswith("mahunopi.dms" if line == ".dms" else "mahunopi.writing")


def test_first_of_equals():
    rows = np.array([(5, 0, 0), (1, 2, 3), (5, 0, 0), (0, 0, 9), (1, 2, 3), (1, 2, 4)])
    numbers, different = models.first_of_equals(rows)
    assert numbers.tolist() == [0, 1, 0, 2, 1, 3] and different.tolist() == [[5, 0, 0], [1, 2, 3], [0, 0, 9], [1, 2, 4]]
    numbers, different = models.first_of_equals(np.empty((0, 3)))
    assert len(numbers) == len(different) == 0
