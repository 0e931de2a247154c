"""`mahunopi triangles`: every file that comes out is read back, closed and wound outwards, with the normals of the exact surface."""

import json
import math
import os
import re
import struct
import subprocess

import numpy as np
import pytest

import mahunopi
from mahunopi import models
from mahunopi.command import main
from mahunopi.shape import Shape
from mahunopi.surface import NARROW, control_edges, even_levels, spaced_levels, surface, unit_normals
from mahunopi.writing import WRITERS, Scale
from shapes import CUBE_FACES, CUBE_POINTS, cube, mesh_of, obj, prism, round_torus, size_at
from test_command import COMMAND, ROOT, room, run  # noqa: F401

# as the header has them: the control points of each side's triangle, in rows from the side to the centre, each from the head
CONTROL = [[[0, 1, 2, 3, 4], [25, 26, 27, 28], [6, 7, 8], [30, 31], [12]], [[24, 19, 14, 9, 4], [40, 36, 32, 28], [18, 13, 8], [35, 31], [12]],
           [[24, 23, 22, 21, 20], [40, 39, 38, 37], [18, 17, 16], [35, 34], [12]], [[0, 5, 10, 15, 20], [25, 29, 33, 37], [6, 11, 16], [30, 34], [12]]]


def whole(points, faces, scale):
    return mesh_of(np.rint(np.array(points) * scale), faces)


def turned_round(mesh):
    return Shape(mesh).turned()


def meshes():
    """Of both senses, soft and crisp, with faces and vertices of 3 to 16."""
    tetrahedron = mesh_of([(900, 900, 900), (900, -900, -900), (-900, 900, -900), (-900, -900, 900)], [(0, 1, 2), (0, 2, 3), (0, 3, 1), (1, 3, 2)])
    crisp = whole(*prism(6), 3)
    crisp.sharpness[::3] = 16
    uneven = whole(*prism(16), 1)
    uneven.sharpness.ravel()[:] = 5 * np.arange(uneven.sharpness.size) % 15
    return {"cube": cube(), "tetrahedron": tetrahedron, "crisp": crisp, "uneven": turned_round(uneven), "torus": whole(*round_torus(6, 4), 9_000)}


def uneven_levels(mesh, most=5):
    return (1 + 7 * np.arange(mesh.corners.size) % most).astype(np.uint8)


# ---- the surface by whole numbers


def tangents_of(net, side, weights):
    """The two derivatives by their definition, in whole numbers: net is a corner's 41 points."""
    rows = CONTROL[side]
    found = []
    for down, along in ((0, 1), (1, 0)):
        total = [0, 0, 0]
        for n in range(4):
            for m in range(4 - n):
                powers = (3 - n - m, m, n)
                times = 4 * 6 // math.prod(map(math.factorial, powers)) * math.prod(map(pow, weights, powers))
                total = [t + times * (a - b) for t, a, b in zip(total, net[rows[n + down][m + along]], net[rows[n][m]])]
        found.append(total)
    return found


def crossed(a, b):
    return [a[1] * b[2] - a[2] * b[1], a[2] * b[0] - a[0] * b[2], a[0] * b[1] - a[1] * b[0]]


def exact_normals(mesh, level):
    """For each point at a level, by its ticks, the normals that the nets which have it give there, outwards."""
    nets = mahunopi.build(mesh, mahunopi.link(mesh))
    outside = -1 if Shape(mesh).volume() < 0 else 1
    found = {}
    for net in nets:
        listed = net.tolist()
        for side in range(4):
            points = mahunopi.sample_triangle(net, side, level).tolist()
            weights = [(level - k - j, j, k) for k in range(level + 1) for j in range(level + 1 - k)]
            for point, weight in zip(points, weights):
                normal = crossed(*tangents_of(listed, side, weight))
                sense = outside if side % 2 == 0 else -outside
                found.setdefault(tuple(point), []).append([sense * x for x in normal])
    return found


def degrees(one, other):
    length = math.hypot(*map(float, one)) * math.hypot(*map(float, other))
    return math.degrees(math.acos(max(-1.0, min(1.0, sum(float(a) * float(b) for a, b in zip(one, other)) / length))))


def check_closed(points, triangles):
    """Each directed edge once, and its reverse; every point used; outwards."""
    count = len(points)
    ends = np.asarray(triangles, np.int64)
    edges = np.concatenate([ends[:, [0, 1]], ends[:, [1, 2]], ends[:, [2, 0]]])
    there, back = edges[:, 0] * count + edges[:, 1], edges[:, 1] * count + edges[:, 0]
    assert np.unique(there).size == there.size and np.array_equal(np.sort(there), np.sort(back))
    assert np.array_equal(np.unique(ends), np.arange(count))
    p, q, r = (np.asarray(points, np.float64)[ends[:, i]] for i in range(3))
    assert (p * np.cross(q, r)).sum() > 0


def read_obj(data):
    """Points, normals and triangles of a text, whose triangles have a normal of their point's number at each point."""
    points, normals, triangles = [], [], []
    for line in data.decode("ascii").split("\n"):
        kind, *rest = line.split() or [""]
        if kind in ("v", "vn"):
            (points if kind == "v" else normals).append([float(word) for word in rest])
        elif kind == "f":
            pairs = [word.split("//") for word in rest]
            assert all(a == b for a, b in pairs)
            triangles.append([int(a) - 1 for a, _ in pairs])
        else:
            assert kind in ("", "#")
    assert len(points) == len(normals)
    return points, normals, triangles


def check_obj(data, mesh, levels):
    """An OBJ that came out: closed, outwards, and at each point the normal of its exact tangents within a degree."""
    points, normals, triangles = read_obj(data)
    places = np.array(points) - np.mean(points, axis=0)
    check_closed(places, triangles)
    p, q, r = (places[np.array(triangles)[:, i]] for i in range(3))
    areas = np.zeros_like(places)
    for i in range(3):
        np.add.at(areas, np.array(triangles)[:, i], np.cross(q - p, r - p))
    pairs = mahunopi.tangents(mesh, mahunopi.link(mesh), levels).tolist()
    assert len(pairs) == len(points)
    for normal, (a, b), area in zip(normals, pairs, areas):
        exact = crossed(a, b)
        if any(exact):
            # of the two directions the one to the side from which the triangles run counter-clockwise
            outwards = math.copysign(1, sum(float(x) * y for x, y in zip(exact, area)))
            assert degrees(normal, [outwards * float(x) for x in exact]) < 1
        assert abs(math.hypot(*normal) - 1) < 1e-5
    return points, triangles


@pytest.mark.parametrize("name", meshes())
def test_an_obj_is_closed_outwards_and_has_the_exact_normals(room, name):  # noqa: F811
    mesh = meshes()[name]
    (room / "a.dms").write_bytes(mahunopi.encode(mesh))
    status, out, err = run("triangles", "--level", "3", "a.dms", "-o", "a.obj")
    points, normals, triangles = read_obj((room / "a.obj").read_bytes())
    assert (status, err) == (0, "") and sorted(os.listdir()) == ["a.dms", "a.obj"]
    assert out.decode() == f"a.dms: {len(points):,} points, {len(triangles):,} triangles at level 3\n"
    assert (len(points), len(triangles)) == size_at(mesh, 3)
    check_obj((room / "a.obj").read_bytes(), mesh, even_levels(mesh, 3))
    check_closed(points, triangles)
    exact = exact_normals(mesh, 3)
    # a small model shows its ticks: there the normal is that of one of the nets that share the point
    wide = name != "cube"
    for point, normal in zip(points, normals):
        ticks = tuple(256 * x for x in point)
        assert all(x == int(x) for x in ticks) and abs(math.hypot(*normal) - 1) < 1e-5
        there = [one for one in exact[tuple(map(int, ticks))] if any(one)]
        if there:
            angles = [degrees(normal, one) for one in there]
            assert (max(angles) if wide else min(angles)) < 1, (ticks, angles)


@pytest.mark.parametrize("name", meshes())
def test_surfaces_of_uneven_levels(name):
    mesh = meshes()[name]
    for mesh in (mesh, turned_round(mesh)):
        levels = uneven_levels(mesh)
        made = surface(mesh, levels)
        check_closed(made.points, made.triangles)
        links = mahunopi.link(mesh)
        size = mahunopi.count_triangles(mesh, links, levels)
        assert size == (len(made.points), len(made.triangles)) and made.normals.dtype == np.float32
        # normals are on the side from which the triangles run counter-clockwise
        p, q, r = (made.points[made.triangles[:, i]].astype(np.float64) for i in range(3))
        areas = np.cross(q - p, r - p)
        sums = np.zeros((len(made.points), 3))
        for i in range(3):
            np.add.at(sums, made.triangles[:, i], areas)
        cosines = (sums * made.normals).sum(axis=1) / np.linalg.norm(sums, axis=1)
        assert cosines.min() > 0 and np.median(cosines) > 0.98, np.flatnonzero(cosines <= 0)
        assert np.allclose(np.linalg.norm(made.normals, axis=1), 1, atol=1e-6)


def test_normals_are_of_the_exact_tangents():
    mesh = meshes()["uneven"]
    links, levels = mahunopi.link(mesh), uneven_levels(mesh, 16)
    made = surface(mesh, levels)
    pairs = mahunopi.tangents(mesh, links, levels).tolist()
    for normal, (a, b) in zip(made.normals.tolist()[::7], pairs[::7]):
        exact = crossed(a, b)
        if any(exact):
            angle = degrees(normal, exact)
            assert min(angle, 180 - angle) < 0.01


def test_tangents_that_nearly_coincide():
    """Two vectors whose cross product is lost in floats, two that are parallel, none, and two at a right angle."""
    large = 1 << 41
    pairs = np.array([[[large, large - 1, 5], [large - 1, large - 2, 5]], [[3, -6, 9], [-1, 2, -3]], [[0, 0, 0], [1, 2, 3]],
                      [[large, 0, 0], [0, 1, 0]]], np.int64)
    for sense in (1, -1):
        normals, without = unit_normals(pairs, np.full(4, sense, np.int8))
        assert without.tolist() == [1, 2]
        for at in (0, 3):
            exact = [sense * x for x in crossed(*pairs[at].tolist())]
            assert np.allclose(normals[at], np.array(exact, float) / math.hypot(*map(float, exact)), atol=1e-12)
    assert NARROW > 2.0**-40


def test_where_the_surface_has_no_normal():
    """At the vertices of a cube as crisp as can be both tangents are nothing: the triangles give the normal."""
    mesh = whole(CUBE_POINTS, CUBE_FACES, 300)
    mesh.sharpness[:] = 16
    made = surface(mesh, even_levels(mesh, 2))
    found = {tuple(p): n for p, n in zip(made.points.tolist(), made.normals.tolist())}
    for point in CUBE_POINTS:
        assert np.allclose(found[tuple(300 * 256 * x for x in point)], np.sign(point) / math.sqrt(3), atol=0.05)
    flat = mesh_of([(0, 0, 0)] * 8, CUBE_FACES)
    assert surface(flat, even_levels(flat, 1)).normals.tolist() == [[0, 0, 1]] * 50


# ---- files


def test_every_format_is_read_back(room):  # noqa: F811
    mesh = meshes()["torus"]
    levels = uneven_levels(mesh)
    made = surface(mesh, levels)
    steps = made.points / 256
    files = {form: b"".join(bytes(part) for part in write(made, Scale())) for form, write in WRITERS.items()}
    assert set(files) == {"obj", "ply", "stl", "glb"}
    triangles = steps[made.triangles]
    for form, data in files.items():
        model = models.read(data, form)
        assert (model.sides == 3).all() and len(model.points) == len(steps)
        assert np.array_equal(model.points[model.corners].reshape(-1, 3, 3), triangles)
        check_closed(model.points, model.corners.reshape(-1, 3))
    rows = np.frombuffer(files["ply"], "<f4", 6 * len(steps), files["ply"].index(b"end_header\n") + 11).reshape(-1, 6)
    assert np.array_equal(rows, np.column_stack([steps, made.normals]).astype(np.float32))
    facets = np.frombuffer(files["stl"], models.STL_ROW, -1, models.STL_HEAD)
    assert not files["stl"].startswith(b"solid") and not facets["more"].any()
    areas = np.cross(triangles[:, 1] - triangles[:, 0], triangles[:, 2] - triangles[:, 0])
    assert np.allclose(facets["normal"] * np.linalg.norm(areas, axis=1)[:, None], areas, rtol=1e-5, atol=1e-2)
    length, kind = struct.unpack_from("<I4s", files["glb"], 12)
    scene = json.loads(files["glb"][20: 20 + length])
    assert struct.unpack_from("<4s2I", files["glb"]) == (b"glTF", 2, len(files["glb"])) and kind == b"JSON" and length % 4 == 0
    assert scene["asset"]["version"] == "2.0" and scene["meshes"][0]["primitives"][0]["attributes"] == {"POSITION": 0, "NORMAL": 1}
    body = files["glb"][20 + length + 8:]
    assert len(body) == scene["buffers"][0]["byteLength"] == sum(view["byteLength"] for view in scene["bufferViews"])
    at = scene["bufferViews"][1]
    assert np.array_equal(np.frombuffer(body, "<f4", 3 * len(steps), at["byteOffset"]).reshape(-1, 3), made.normals)
    assert scene["accessors"][0]["min"] == steps.min(axis=0).tolist() and scene["accessors"][0]["max"] == steps.max(axis=0).tolist()


def test_the_command_writes_every_format(room):  # noqa: F811
    data = mahunopi.encode(cube())
    (room / "a.dms").write_bytes(data)
    (room / "made").mkdir()
    said = "50 points, 96 triangles at level 1\n"
    for form, write in WRITERS.items():
        expected = b"".join(bytes(part) for part in write(surface(cube(), even_levels(cube(), 1)), Scale()))
        assert run("triangles", "--level", "1", "a.dms", "-o", f"a.{form.upper()}") == (0, f"a.dms: {said}".encode(), "")
        assert (room / f"a.{form.upper()}").read_bytes() == expected
        if form == "obj":
            check_obj(expected, cube(), even_levels(cube(), 1))
        assert run("triangles", "--level", "1", "-", "--format", form, given=data) == (0, expected, f"standard input: {said}")
    (room / "b.dms").write_bytes(data)
    status, out, err = run("triangles", "a.dms", "b.dms", "--format", ".PLY", "-o", "made")
    assert (status, err, out.count(b"at level 4\n")) == (0, "", 2) and sorted(os.listdir("made")) == ["a.ply", "b.ply"]
    (room / "cube.off").write_bytes((ROOT / "meshes/cube.off").read_bytes())
    assert run("triangles", "cube.off", "--level", "1", "--format", "stl", "-o", "odd name")[0] == 0
    assert (room / "odd name").read_bytes() == (room / "a.STL").read_bytes()


def test_the_scale_is_undone_by_what_import_prints(room):  # noqa: F811
    points = [(1e-05 * x + 2e-06, 1e-05 * y - 3e-05, 1e-05 * z - 7.25) for x, y, z in CUBE_POINTS]
    (room / "a.obj").write_bytes(obj(points, [tuple(reversed(face)) for face in CUBE_FACES]))
    (room / "b.off").write_bytes(b"OFF 8 6 0\n" + "\n".join(" ".join(map(repr, p)) for p in points).encode() + b"\n"
                                 + "\n".join("4 " + " ".join(map(str, face)) for face in CUBE_FACES).encode())
    status, out, err = run("import", "b.off", "--sharpness", "20", "-o", "b.dms")
    assert (status, err) == (0, "")
    printed = re.search(r"--undo-scale (\S+ \S+ \S+ \S+) undoes the scale", out.decode())[1].split()
    assert printed[2].startswith("-3") and "e-05" in printed[2]
    assert run("triangles", "--undo-scale", *printed, "b.dms", "-o", "back.obj")[0] == 0
    imported = mahunopi.decode((room / "b.dms").read_bytes())
    back, triangles = check_obj((room / "back.obj").read_bytes(), imported, even_levels(imported, 4))
    # all corners are crisp: the surface reaches the model's own points
    step = float(printed[0])
    distances = np.abs(np.array(back)[None] - np.array(points)[:, None]).max(axis=2).min(axis=1)
    assert distances.max() <= step
    made = surface(imported, even_levels(imported, 4))
    assert np.array_equal(back, made.points / 256 * step + np.array(printed[1:], float))
    # in a format of floats as near as floats are
    assert run("triangles", "--undo-scale", *printed, "b.dms", "-o", "back.ply")[0] == 0
    assert np.allclose(models.read((room / "back.ply").read_bytes(), "ply").points, back, rtol=1e-6)


# ---- levels


def longest_edge(net):
    """The square of the longest control edge of a quad-net, by whole numbers."""
    longest = 0
    for rows in CONTROL:
        near = [(rows[n][m], rows[n][m + 1]) for n in range(4) for m in range(4 - n)]
        near += [(rows[n][m], rows[n + 1][m]) for n in range(4) for m in range(4 - n)]
        near += [(rows[n][m + 1], rows[n + 1][m]) for n in range(4) for m in range(4 - n)]
        for one, other in near:
            longest = max(longest, sum((a - b) ** 2 for a, b in zip(net[one], net[other])))
    return longest


@pytest.mark.parametrize("spacing", [1, 100, 12_345, 30_000, 400_000, 1 << 27])
def test_spacing(room, spacing):  # noqa: F811
    mesh = meshes()["uneven"]
    levels, coarse = spaced_levels(mesh, spacing)
    nets = mahunopi.build(mesh, mahunopi.link(mesh)).tolist()
    wanted = [next((n for n in range(1, 17) if longest_edge(net) <= (n * spacing) ** 2), 17) for net in nets]
    assert levels.tolist() == [min(n, 16) for n in wanted] and coarse == wanted.count(17)
    if spacing in (12_345, 1):
        (room / "a.dms").write_bytes(mahunopi.encode(mesh))
        name = "a.stl" if spacing == 1 else "a.obj"
        status, out, err = run("triangles", "--spacing", str(spacing), "a.dms", "-o", name)
        size = mahunopi.count_triangles(mesh, mahunopi.link(mesh), levels)
        said = "level 16, where 96 corners would need more" if spacing == 1 else f"levels {min(wanted)} to {max(wanted)}"
        assert (status, out.decode(), err) == (0, f"a.dms: {size.points:,} points, {size.triangles:,} triangles at {said}\n", "")
        if name == "a.obj":
            check_obj((room / name).read_bytes(), mesh, levels)


def test_control_edges():
    edges = control_edges()
    # a triangle of 15 points has 30 edges; of four, each ray from an end to the centre has its four twice
    assert len(edges) == len(set(edges)) == 4 * 30 - 4 * 4 and {v for edge in edges for v in edge} == set(range(41))


# ---- what is wrong


def test_wrong_usage(room, capfd):  # noqa: F811
    (room / "a.dms").write_bytes(mahunopi.encode(cube()))
    (room / "b.dms").write_bytes(mahunopi.encode(cube()))
    (room / "made").mkdir()
    for words, said in [
            (["a.dms"], "mahunopi triangles: standard output has no name that tells the format, say it by --format"),
            (["a.dms", "-o", "made"], "mahunopi triangles: a folder has no name that tells the format, say it by --format"),
            (["a.dms", "-o", "a.png"], "mahunopi triangles: the name of a.png does not end in .obj, .ply, .stl or .glb, say the format by --format"),
            (["a.dms", "-o", "a"], "mahunopi triangles: the name of a does not end in .obj, .ply, .stl or .glb, say the format by --format"),
            (["a.dms", "--format", "png"], "mahunopi triangles: argument --format: no writer knows the format 'png', OBJ, PLY, STL and GLB are written"),
            (["a.dms", "b.dms", "-o", "a.obj"], "mahunopi triangles: several files need a folder that is there, named by -o"),
            (["a.dms", "./a.dms", "--format", "obj", "-o", "made"], "mahunopi triangles: two files would both become a.obj in made"),
            (["a.dms", "--level", "0", "-o", "a.obj"], "argument --level: '0' is no level of 1 to 16"),
            (["a.dms", "--level", "17", "-o", "a.obj"], "argument --level: '17' is no level of 1 to 16"),
            (["a.dms", "--level", "2.5", "-o", "a.obj"], "argument --level: '2.5' is no level of 1 to 16"),
            (["a.dms", "--spacing", "0", "-o", "a.obj"], "argument --spacing: '0' is no whole number of 1 to 134217728 ticks"),
            (["a.dms", "--spacing", "9", "--level", "2", "-o", "a.obj"], "not allowed with argument --spacing"),
            (["a.dms", "--undo-scale", "1", "2", "3", "-o", "a.obj"], "argument --undo-scale: expected 4 arguments"),
            (["a.dms", "--undo-scale", "1", "2", "3", "x", "-o", "a.obj"], "argument --undo-scale: invalid float value: 'x'"),
            (["a.dms", "--undo-scale", "0", "1", "2", "3", "-o", "a.obj"], "--undo-scale takes the length of a step, above 0, and the centre's x, y, z"),
            (["a.dms", "--undo-scale", "1", "nan", "2", "3", "-o", "a.obj"], "--undo-scale takes the length of a step, above 0"),
            (["a.dms", "--undo-scale", "1", "-1e400", "2", "3", "-o", "a.obj"], "--undo-scale takes the length of a step, above 0"),
            ([], "the following arguments are required: FILE")]:
        with pytest.raises(SystemExit) as ended:
            main(["triangles", *words])
        out, err = capfd.readouterr()
        assert (ended.value.code, out) == (2, "") and said in err and err.count("\n") == 1, (words, err)
    assert sorted(os.listdir()) == ["a.dms", "b.dms", "made"] and os.listdir("made") == []
    assert run("triangles", "a.dms", "-o", "a.png")[:2] == (2, b"")


def test_files_that_are_refused_or_cannot_be(room):  # noqa: F811
    (room / "a.dms").write_bytes(mahunopi.encode(cube()))
    (room / "flat.dms").write_bytes((ROOT / "meshes/flat.dms").read_bytes())
    (room / "a.obj").write_bytes(b"what was there")
    assert run("triangles", "flat.dms", "-o", "a.obj")[::2] == (
        1, "flat.dms: refused 12 at vertex 0: a vertex is named by fewer than 3 or more than 16 corners\n")
    assert run("triangles", "gone.dms", "-o", "a.obj")[::2] == (2, "gone.dms: No such file or directory\n")
    assert (room / "a.obj").read_bytes() == b"what was there"
    assert run("triangles", "a.dms", "-o", "gone/a.obj")[::2] == (2, "gone/a.obj: No such file or directory\n")
    status, out, err = run("triangles", "a.dms", "--format", "ply", "-o", "/dev/full")
    assert (status, out, err) == (2, b"", "/dev/full: No space left on device\n")
    with open("/dev/full", "wb") as full:
        done = subprocess.run([*COMMAND, "triangles", "--level", "8", "a.dms", "--format", "obj"], stdout=full, stderr=subprocess.PIPE, check=False)
    assert (done.returncode, done.stderr) == (2, b"standard output: No space left on device\n")
    assert sorted(os.listdir()) == ["a.dms", "a.obj", "flat.dms"]
