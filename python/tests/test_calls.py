"""Every call of the header: the stored cases of the Rust tests, and what is wrong before a call."""

import inspect
import math
import re
import threading
import time
from pathlib import Path

import numpy as np
import pytest

import mahunopi
from mahunopi import MAX_SIDES, SUN, Irregular, Kind, Mesh, Refused, calls
from mahunopi._header import CALLS, LIMITS, REFUSALS
from mahunopi.library import CONTROL
from mahunopi.shape import Shape
from shapes import CUBE_POINTS, cube, faces_of, fans, mesh_of, prism, torus, turned

ROOT = Path(__file__).resolve().parents[2]
HEADER = (ROOT / "include/mahunopi.h").read_text()


def refused(call, *arguments, **named):
    """The number and place of a refusal."""
    with pytest.raises(Refused) as caught:
        call(*arguments, **named)
    return caught.value.number, caught.value.place


def with_sharpness(mesh, numbers):
    return Mesh(mesh.coordinates, mesh.sides, mesh.corners, np.asarray(numbers, np.uint8))


def random_sharpness(mesh):
    return with_sharpness(mesh, 7 * np.arange(2 * mesh.corners.size) % 17)


# ---- the header


def test_every_call_of_the_header_is_there():
    declared = re.findall(r"(?m)^uint32_t mahunopi_(\w+)\(", HEADER)
    assert declared == list(CALLS) and len(declared) == HEADER.count("uint32_t mahunopi_")
    for name in declared:
        call = getattr(mahunopi, name)
        assert name in mahunopi.__all__ and re.search("[Rr]efusal", call.__doc__)
        assert set(call.__annotations__) == {*inspect.signature(call).parameters, "return"}


def test_every_limit_and_refusal_of_the_header_is_there():
    for name, number in re.findall(r"#define MAHUNOPI_(\w+) (\d+)", HEADER):
        assert LIMITS[name] == getattr(mahunopi, name) == int(number)
    numbers = dict(re.findall(r"MAHUNOPI_(\w+) = (\d+)", HEADER.split("enum mahunopi_refusal {")[1].split("};")[0]))
    del numbers["DONE"]
    assert {name: str(number) for number, (name, _, _) in REFUSALS.items()} == numbers
    fixed = [1, 2, 3, 4, 21, 24, 37, 38]
    for number, (name, words, place) in REFUSALS.items():
        line = str(Refused(number, 5))
        assert words and "\n" not in line and line.endswith(": " + words)
        assert line.startswith(f"refused {number}: " if number in fixed else f"refused {number} at {place} 5: "), line
    kinds = dict(re.findall(r"MAHUNOPI_(\w+) = (\d)", HEADER.split("enum mahunopi_kind {")[1].split("};")[0]))
    assert kinds == {"NO_IRREGULAR": "0", "IRREGULAR_FACE": "1", "IRREGULAR_VERTEX": "2"}
    assert [int(Kind.NONE), int(Kind.FACE), int(Kind.VERTEX)] == [0, 1, 2]
    assert mahunopi.__version__ == f"{mahunopi.VERSION}.0"


def test_a_refusal_in_words():
    flat = mesh_of([(0, 0, 0)] * 3, [(0, 1, 2), (0, 2, 1)])
    with pytest.raises(Refused) as caught:
        mahunopi.link(flat)
    assert str(caught.value) == "refused 12 at vertex 0: a vertex is named by fewer than 3 or more than 16 corners"
    assert (caught.value.number, caught.value.place, caught.value.name) == (12, 0, "BAD_CORNERS_OF_VERTEX")
    assert str(Refused(25, 4, "'0.5' is no whole number")) == "refused 25 at word 4: '0.5' is no whole number"


def test_what_the_header_says_of_sides():
    """Each side's head, tail and 15 control points, and which way they run."""
    rows = re.findall(r"(?m)^ \*   (\d)     E(\d)    E(\d)((?: +\d+){15})$", HEADER)
    assert [int(side) for side, *_ in rows] == [0, 1, 2, 3]
    ends = [0, 4, 24, 20]
    for mesh in (cube(), Shape(cube()).turned()):
        net = mahunopi.build(mesh, mahunopi.link(mesh), 0, 1)[0].astype(np.int64)
        clockwise = Shape(mesh).volume() < 0
        for side, head, tail, points in rows:
            points = list(map(int, points.split()))
            assert points == CONTROL[int(side)] and (points[0], points[4], points[14]) == (ends[int(head)], ends[int(tail)], 12)
            for at, weights in ((0, (4, 0, 0)), (4, (0, 4, 0)), (14, (0, 0, 4))):
                assert np.array_equal(mahunopi.sample(net.astype(np.int32), int(side), weights, 4), net[points[at]])
            a, b, c = net[[points[0], points[4], points[14]]]
            # the cube lies round the origin: seen from outside
            runs_clockwise = np.cross(b - a, c - a) @ (a + b + c) < 0
            assert runs_clockwise == (clockwise == (side in "02"))


@pytest.mark.parametrize("width", [10, 1_000, 60_000])
def test_the_rule_for_the_scale(width):
    """Normals of neighbouring patches at a common point differ by at most about 180 degrees over the model's width in steps."""
    points, faces = prism(7, 1_000, 800)
    points = np.array(points, np.float64)
    mesh = mesh_of(np.rint(points * width / np.ptp(points, axis=0).max()).astype(int).tolist(), faces)
    links = mahunopi.link(mesh)
    nets = mahunopi.build(mesh, links)
    following = Shape(mesh).next
    most = 0.0

    def normal(corner, side, j):
        along, inward = mahunopi.tangents_at(nets[corner], side, (4 - j, j, 0), 4).astype(np.float64)
        across = np.cross(along, inward) * (-1) ** side
        return across / np.linalg.norm(across)

    for corner in range(mesh.corners.size):
        for side, other, across in ((0, links[corner], 3), (1, following[corner], 2)):
            for j in range(5):
                sine = np.linalg.norm(np.cross(normal(corner, side, j), normal(other, across, j)))
                most = max(most, math.degrees(math.asin(min(1, sine))))
    assert 0 < most <= 180 / width


# ---- linking and building


def test_the_cube():
    mesh = cube()
    links = mahunopi.link(mesh)
    assert links.dtype == np.uint16 and links[0] == 9
    points = mahunopi.build(mesh, links)
    assert points.shape == (24, 41, 3) and points.dtype == np.int32
    for number, point in {0: (512, 512, 512), 1: (544, 448, 544), 2: (566, 342, 566), 3: (576, 192, 576), 4: (576, 0, 576),
                          24: (0, 0, 768), 25: (496, 496, 544), 26: (513, 417, 593)}.items():
        assert tuple(points[0, number]) == point
    printed = (ROOT / "examples/cube.expected").read_text()
    named = dict(re.findall(r"(?m)^b0(\d) \((-?\d+,-?\d+,-?\d+)\)", printed))
    assert named and all(",".join(map(str, points[0, int(at)])) == point for at, point in named.items())
    for first, count in [(3, 4), (7, 1), (23, 1)]:
        assert np.array_equal(mahunopi.build(mesh, links, first, count), points[first: first + count])
    assert np.array_equal(mahunopi.build(mesh, links, 20), points[20:])


def test_flat_lists_and_lent_ones():
    mesh = cube()
    flat = Mesh(mesh.coordinates.ravel(), mesh.sides, mesh.corners, mesh.sharpness.ravel())
    assert flat == mesh and mesh.copy() == mesh and mesh != torus(3, 4)
    table = np.zeros(24, np.uint16)
    assert mahunopi.link(flat, out=table) is table and np.array_equal(table, mahunopi.link(mesh))
    whole = mahunopi.build(mesh, table)
    for shape in [(2 * 123,), (2, 123), (2, 41, 3)]:
        lent = np.zeros(shape, np.int32)
        assert mahunopi.build(flat, table, 5, 2, out=lent) is lent
        assert np.array_equal(lent.ravel(), whole[5:7].ravel())


def test_sharpness_of_a_mesh():
    mesh = cube()
    assert mesh.sharpness.tolist() == [[8, 8]] * 24
    links = mahunopi.link(mesh)
    soft = mahunopi.build(mesh, links)
    sharp = random_sharpness(mesh)
    assert np.array_equal(mahunopi.link(sharp), links)
    assert not np.array_equal(mahunopi.build(sharp, links), soft)
    crisp = mahunopi.build(with_sharpness(mesh, [16] * 48), links, 0, 1)
    assert crisp[0, 0].tolist() == [768, 768, 768] and crisp[0, 24].tolist() == [0, 0, 768]
    assert refused(mahunopi.link, with_sharpness(mesh, [8] * 47)) == (27, 47)
    assert refused(mahunopi.link, with_sharpness(mesh, [])) == (27, 0)
    beyond = random_sharpness(mesh)
    beyond.sharpness[5] = 17
    assert refused(mahunopi.link, beyond) == (28, 5)


def test_refused_meshes():
    def with_coordinate(number):
        mesh = cube()
        mesh.coordinates.ravel()[10] = number
        return mesh

    assert mahunopi.link(with_coordinate(65_536)).size == mahunopi.link(with_coordinate(-65_536)).size == 24
    assert refused(mahunopi.link, with_coordinate(65_537)) == refused(mahunopi.link, with_coordinate(-65_537)) == (7, 10)
    touching = mesh_of([(0, 0, 0)] * 7, [(0, 1, 2), (0, 2, 3), (0, 3, 1), (1, 3, 2), (0, 4, 5), (0, 5, 6), (0, 6, 4), (4, 6, 5)])
    assert refused(mahunopi.link, touching) == (13, 0)
    mesh = cube()
    wrong = {}
    for number, list_name, at, entry in [(5, "sides", 2, 2), (6, "sides", 2, 5), (8, "corners", 7, 8), (9, "corners", 1, 0),
                                         (10, "corners", 8, 0)]:
        wrong[number] = mesh.copy()
        getattr(wrong[number], list_name)[at] = entry
    assert refused(mahunopi.link, wrong[5]) == (5, 2)
    assert refused(mahunopi.link, wrong[6]) == (6, 25)
    assert refused(mahunopi.link, wrong[8]) == (8, 7)
    assert refused(mahunopi.link, wrong[9]) == (9, 1)
    turned_face = mesh_of(CUBE_POINTS, [turned(f) if i == 2 else f for i, f in enumerate(faces_of(mesh))])
    assert refused(mahunopi.link, turned_face)[0] == 10
    assert refused(mahunopi.link, mesh_of(CUBE_POINTS, faces_of(mesh)[:5]))[0] == 11
    for vertices, answer in [(2_048, (12, 8)), (2_049, (4, 0))]:
        many = Mesh(np.zeros((vertices, 3), np.int32), mesh.sides, mesh.corners)
        assert refused(mahunopi.link, many) == answer
    assert refused(mahunopi.link, Mesh(np.zeros(25, np.int32), mesh.sides, mesh.corners)) == (4, 0)
    nothing = Mesh(np.empty(0, np.int32), np.empty(0, np.uint8), np.empty(0, np.uint16))
    none = np.empty(0, np.uint16)
    assert refused(mahunopi.link, nothing) == refused(mahunopi.build, nothing, none) == (4, 0)
    for n in (12, 13, 16, 17):
        points, faces = prism(n)
        mesh = mesh_of(np.rint(points), faces)
        assert mahunopi.link(mesh).size == 6 * n if n < 17 else refused(mahunopi.link, mesh) == (5, 0)


def test_the_order_of_the_later_numbers():
    mesh = cube()
    links = mahunopi.link(mesh)
    one = np.full(123, 7, np.int32)
    assert refused(mahunopi.link, mesh, out=np.zeros(23, np.uint16)) == (14, 23)
    assert refused(mahunopi.build, mesh, links[1:], 24, 0, out=one) == (14, 23)
    wrong = links.copy()
    wrong[5] = 65_535
    assert refused(mahunopi.build, mesh, wrong, 24, 0, out=one) == (15, 5)
    for first, count in [(24, 1), (2**64 - 1, 1), (7, 0), (0, 25), (0, 2**32), (5, 2**64 - 1)]:
        assert refused(mahunopi.build, mesh, links, first, count) == (16, first)
    assert refused(mahunopi.build, mesh, links, 7, 2, out=one) == (17, 123)
    assert (one == 7).all()


# ---- files


def test_the_file():
    mesh = cube()
    data = mahunopi.encode(mesh)
    assert data == (ROOT / "meshes/cube.dms").read_bytes() and len(data) == 11 + 12 * 8 + 6 + 2 * 24
    counts = mahunopi.survey(data)
    assert counts[:3] == (8, 6, 24) and counts.vertices_with.tolist() == [0, 0, 0, 8] + [0] * 13
    assert counts.faces_with.tolist() == [0, 0, 0, 0, 6] + [0] * 12 and counts.faces_with.size == MAX_SIDES + 1
    assert mahunopi.decode(data) == mesh
    assert mahunopi.decode(bytearray(data)) == mahunopi.decode(np.frombuffer(data, np.uint8)) == mesh
    assert refused(mahunopi.survey, data[1:]) == refused(mahunopi.decode, b"") == (1, 0)
    assert refused(mahunopi.survey, data[:100]) == refused(mahunopi.survey, data, 1 << 40) == (3, 0)
    assert refused(mahunopi.decode, b"DMS", 2**64 - 1) == (1, 0)
    assert mahunopi.decode(data + b"more", len(data)) == mesh
    assert mahunopi.survey(data[:100] + data[100:]).corners == 24


def test_both_versions():
    mesh = random_sharpness(cube())
    plain = mahunopi.encode(cube())
    data = bytearray(mahunopi.encode(mesh))
    assert len(data) == len(plain) + 48 and mahunopi.decode(data) == mesh
    assert mahunopi.encode(cube(), 2) == plain[:3] + b"\2" + plain[4:] + b"\x08" * 48
    for first, version in [(plain, 2), (data, 1)]:
        wrong = bytearray(first)
        wrong[3] = version
        assert refused(mahunopi.decode, wrong) == refused(mahunopi.survey, wrong) == (3, 0)
    for version in (0, 3, 255):
        wrong = bytearray(data)
        wrong[3] = version
        assert refused(mahunopi.decode, wrong) == (2, 0)
    data[len(plain) + 31] = 17
    assert refused(mahunopi.decode, data) == refused(mahunopi.survey, data) == (28, 31)
    with pytest.raises(ValueError):
        mahunopi.encode(mesh, 1)
    with pytest.raises(ValueError):
        mahunopi.encode(mesh, 3)
    with pytest.raises(TypeError):
        mahunopi.encode(Mesh(mesh.coordinates.astype(float), mesh.sides, mesh.corners))


def test_lent_lists():
    data = mahunopi.encode(cube())
    for space in (0, 47, 48, 49):
        lent = Mesh(np.full(25, 7, np.int32), np.full(6, 7, np.uint8), np.full(24, 7, np.uint16), np.full(space, 7, np.uint8))
        if space < 48:
            assert refused(mahunopi.decode, data, out=lent) == (255, 48)
            assert all((array == 7).all() for array in lent._lists())
        else:
            read = mahunopi.decode(data, out=lent)
            assert read == cube() and np.shares_memory(read.coordinates, lent.coordinates)
            assert lent.coordinates[24] == 7 and (lent.sharpness[48:] == 7).all()


def test_lists_as_they_stand():
    wrong = mesh_of(CUBE_POINTS, [turned(f) if i == 2 else f for i, f in enumerate(faces_of(cube()))])
    for version, sharpness in [(1, None), (2, random_sharpness(wrong).sharpness)]:
        model = wrong if sharpness is None else with_sharpness(wrong, sharpness)
        data = mahunopi.encode(model, version)
        assert refused(mahunopi.decode, data)[0] == 10
        assert mahunopi.lists(data) == (model, version)
    assert mahunopi.lists(mahunopi.encode(cube())) == (cube(), 1)
    text = b"OFF 8 6 0\n" + b"\n".join(b"%d %d %d" % point for point in CUBE_POINTS)
    text += b"".join(b"\n4 %d %d %d %d # face" % face for face in faces_of(wrong))
    assert refused(mahunopi.off, text)[0] == 10 and mahunopi.lists(text) == (wrong, 1)
    for data, answer in [(b"DMS", 1), (mahunopi.encode(cube())[:-1], 3), (b"OFF 1 0.5", 25), (b"OFF 0 0 0", 4), (text + b"\n1", 26)]:
        assert refused(mahunopi.lists, data)[0] == answer


def test_off():
    mesh = mahunopi.off(b"OFF # a tetrahedron\n4 4 6\n0 0 0  9 0 0  0 9 0  0 0 9\n3 0 2 1  3 0 1 3  3 1 2 3  3 0 3 2")
    assert mesh.coordinates[1].tolist() == [9, 0, 0] and faces_of(mesh)[0] == (0, 2, 1) and (mesh.sharpness == 8).all()
    assert refused(mahunopi.off, b"OFF 1 0 0 7 1.5 0") == (25, 5)
    assert refused(mahunopi.off, b"") == refused(mahunopi.off, b"COFF") == (24, 0)
    assert refused(mahunopi.off, b"OFF 4 4 0") == (25, 4)
    short = Mesh(np.zeros(3, np.int32), np.zeros(1, np.uint8), np.zeros(3, np.uint16))
    assert refused(mahunopi.off, b"OFF", out=short) == (24, 0)


# ---- the other calls


def test_irregular():
    assert mahunopi.irregular(cube()) == Irregular(Kind.VERTEX, 0, 6)
    assert mahunopi.irregular(torus(5, 7)) == Irregular(Kind.NONE, 0, 35)
    faces = faces_of(torus(5, 7))
    cut = mesh_of(torus(5, 7).coordinates, faces[:3] + fans(faces[3:4]) + faces[4:])
    assert mahunopi.irregular(cut) == Irregular(Kind.FACE, 3, 4)
    cut.sides[3] = 2
    assert refused(mahunopi.irregular, cut) == (5, 3)


def test_a_drag():
    mesh = torus(20, 30)
    links = mahunopi.link(mesh)
    points = mahunopi.build(mesh, links)
    for vertex in (0, 29, 317, 599):
        to = (vertex, -7, 40)
        marks = mahunopi.touched(mesh, vertex)
        assert marks.dtype == np.uint8 and marks.sum() == 36 and set(marks.tolist()) == {0, 1}
        tried = mahunopi.preview(mesh, links, vertex, to)
        for corner in np.flatnonzero(marks):
            mahunopi.preview(mesh, links, vertex, to, corner, 1, out=points[corner])
        assert np.array_equal(tried, points)
        mesh.coordinates[vertex] = to
        assert np.array_equal(mahunopi.build(mesh, links), points)
    for length in (0, 23, 25, 8_192):
        marks = np.full(length, 9, np.uint8)
        assert refused(mahunopi.touched, cube(), 7, out=marks) == (255, 24) and (marks == 9).all()
    for vertex in (8, 9, 2**64 - 1):
        none = np.empty(0, np.uint16)
        assert refused(mahunopi.touched, cube(), vertex) == refused(mahunopi.preview, cube(), none, vertex, (0, 0, 0)) == (29, vertex)


def test_turn():
    sound = random_sharpness(torus(5, 7))
    sound = Mesh(sound.coordinates, sound.sides, sound.corners, sound.sharpness.reshape(-1, 2))

    def with_turned(faces):
        """As the Rust tests turn a face: the order after the first corner, and the sharpness with it."""
        model = sound.copy()
        for face in faces:
            order = 4 * face + np.array([0, 3, 2, 1])
            model.corners[4 * face: 4 * face + 4] = model.corners[order]
            model.sharpness[4 * face: 4 * face + 4] = model.sharpness[order, ::-1]
        return model

    model = with_turned([3, 4, 11, 34])
    assert mahunopi.turn(model).tolist() == [3, 4, 11, 34] and model == sound
    assert mahunopi.turn(model).tolist() == [] and model == sound
    listing = np.full(35, 999, np.uint16)
    model = with_turned([0])
    assert mahunopi.turn(model, out=listing).tolist() == list(range(1, 35)) and listing[34] == 999
    assert model == with_turned(range(35))
    bottle = torus(4, 5, seam=True)
    before = bottle.copy()
    assert refused(mahunopi.turn, bottle) == (35, 0) and bottle == before
    opened = mesh_of(torus(4, 5).coordinates, [f for i, f in enumerate(faces_of(torus(4, 5))) if i != 3])
    assert refused(mahunopi.turn, opened) == (34, 9)
    for length in (0, 5, 7, 4_096):
        assert refused(mahunopi.turn, cube(), out=np.zeros(length, np.uint16)) == (36, length)


def test_floats():
    numbers = np.zeros(123, np.int32)
    numbers[3:6] = 7, -1, 0
    near = mahunopi.floats(numbers, 1)
    assert near.first.tolist() == [7, -1, 0] and near.second is None and near.first.dtype == np.float32
    numbers[3] = 20_000_000
    far = mahunopi.floats(numbers.reshape(41, 3), 1)
    assert far.first.tolist() == [19_996_672, -4_096, 0] and far.second.tolist() == [3_328, 4_095, 0]
    assert not np.signbit(far.first[2])
    assert refused(mahunopi.floats, numbers, 41) == (20, 41)
    assert refused(mahunopi.floats, numbers, 2**64 - 1) == (20, 2**64 - 1)
    assert refused(mahunopi.floats, numbers[:122], 41) == (18, 122)
    numbers[7] = 2**27 + 1
    assert refused(mahunopi.floats, numbers, 0) == (19, 7)


def test_floats_of_all_points():
    mesh = cube()
    numbers = mahunopi.build(mesh, mahunopi.link(mesh))
    numbers[5, 7, 1] += 20_000_000
    all = mahunopi.floats_all(numbers)
    assert all.shape == (24, 41, 2, 3) and all.dtype == np.float32
    assert np.array_equal(all[:, :, 0].astype(np.int64) + all[:, :, 1].astype(np.int64), numbers.astype(np.int64) - numbers[:, :1])
    for corner, point in ((0, 0), (3, 40), (5, 6), (5, 7)):
        one = mahunopi.floats(numbers[corner], point)
        assert np.array_equal(all[corner, point, 0], one.first)
        assert np.array_equal(all[corner, point, 1], np.zeros(3) if one.second is None else one.second)
    lent = np.full(250, 7, np.float32)
    assert np.array_equal(mahunopi.floats_all(numbers[5], out=lent), all[5:6])
    assert (lent[246:] == 7).all()
    assert mahunopi.floats_all(numbers[:0]).shape == (0, 41, 2, 3)
    assert refused(mahunopi.floats_all, numbers, out=lent) == (255, 24 * 246)
    assert refused(mahunopi.floats_all, numbers.reshape(-1)[:200]) == (18, 200)
    numbers[2, 0, 0] = 2**27 + 1
    assert refused(mahunopi.floats_all, numbers) == (19, 246)


def test_tangents():
    mesh = cube()
    net = mahunopi.build(mesh, mahunopi.link(mesh), 0, 1)[0].astype(np.int64)
    numbers = net.astype(np.int32)
    # at the head: four times the steps to the next point of the outer row, and to the first of the a row
    for side, (head, along, inward) in enumerate(((0, 1, 25), (24, 19, 40), (24, 23, 40), (0, 5, 25))):
        for n in (1, 16):
            tangents = mahunopi.tangents_at(numbers, side, (n, 0, 0), n)
            assert tangents.shape == (2, 3) and tangents.dtype == np.int64
            assert np.array_equal(tangents[0], 4 * n**3 * (net[along] - net[head]))
            assert np.array_equal(tangents[1], 4 * n**3 * (net[inward] - net[head]))
    assert refused(mahunopi.tangents_at, numbers, 0, (2, 2, 1), 4) == (33, 4)
    assert refused(mahunopi.tangents_at, numbers, 4, (2, 2, 0), 4) == (32, 4)
    assert refused(mahunopi.tangents_at, numbers.reshape(-1)[:122], 0, (2, 2, 0), 4) == (18, 122)


def test_samples():
    mesh = cube()
    net = mahunopi.build(mesh, mahunopi.link(mesh), 0, 1)[0]
    assert mahunopi.sample(net, 0, (4, 0, 0), 4).tolist() == [512, 512, 512]
    assert np.array_equal(mahunopi.sample(net, 0, (2, 2, 0), 4), mahunopi.sample(net, 0, (1, 1, 0), 2))
    assert refused(mahunopi.sample, net, 0, (2, 2, 1), 4) == (33, 4)
    assert refused(mahunopi.sample, net, 4, (2, 2, 0), 4) == (32, 4)
    for side in range(4):
        for n in (1, 2, 5, 16):
            points = mahunopi.sample_triangle(net, side, n)
            assert points.shape == ((n + 1) * (n + 2) // 2, 3)
            number = 0
            for k in range(n + 1):
                for j in range(n - k + 1):
                    assert np.array_equal(points[number], mahunopi.sample(net, side, (n - k - j, j, k), n))
                    number += 1
    lent = np.full(70, 7, np.int32)
    assert np.array_equal(mahunopi.sample_triangle(net, 2, 5, out=lent), mahunopi.sample_triangle(net, 2, 5))
    assert (lent[63:] == 7).all()
    assert refused(mahunopi.sample_triangle, net, 2, 5, out=np.zeros((20, 3), np.int32)) == (255, 63)
    assert refused(mahunopi.sample_triangle, net, 2, 0) == (33, 0)
    assert refused(mahunopi.sample_triangle, net, 2, 17) == (33, 17)


def test_the_points_of_a_side_are_those_that_the_header_names():
    mesh = random_sharpness(cube())
    net = mahunopi.build(mesh, mahunopi.link(mesh), 3, 1)[0]
    rows = re.findall(r"(?m)^ \*   ([0-3])     E\d    E\d ((?: +\d+){15})$", HEADER)
    assert [row[0] for row in rows] == ["0", "1", "2", "3"]
    n = 7
    for side, numbers in rows:
        points = net[[int(number) for number in numbers.split()]].astype(np.int64)
        for k in range(n + 1):
            for j in range(n - k + 1):
                total, at = np.zeros(3), 0
                for c in range(5):
                    for b in range(5 - c):
                        total += multinomial(4 - b - c, b, c) * (n - j - k) ** (4 - b - c) * j**b * k**c * points[at]
                        at += 1
                sample = mahunopi.sample(net, int(side), (n - j - k, j, k), n)
                assert np.abs(total / n**4 - sample).max() <= 0.5


def multinomial(*parts):
    return math.factorial(sum(parts)) // math.prod(map(math.factorial, parts))


def test_triangles_and_tangents():
    mesh = with_sharpness(mesh_of(np.rint(prism(5)[0]), prism(5)[1]), 7 * np.arange(60) % 17)
    links, levels = mahunopi.link(mesh), (1 + 5 * np.arange(30) % 16).astype(np.uint8)
    points, indices = mahunopi.triangles(mesh, links, levels)
    tangents = mahunopi.tangents(mesh, links, levels)
    assert (points.dtype, indices.dtype, tangents.dtype, tangents.shape) == (np.int32, np.uint32, np.int64, (len(points), 2, 3))
    assert mahunopi.count_triangles(mesh, links, levels) == mahunopi.Size(len(points), len(indices)) and indices.max() == len(points) - 1
    # any cut into ranges gives the same, into lists that have more room too
    room = np.full(len(points) * 3 + 5, -7, np.int32), np.full(len(indices) * 3 + 5, 7, np.uint32), np.full((len(points), 6), -7, np.int64)
    for cuts in ([0, 30], [0, 1, 11, 12, 30]):
        parts = []
        for first, end in zip(cuts, cuts[1:]):
            size = mahunopi.count_triangles(mesh, links, levels, first, end - first)
            part = mahunopi.triangles(mesh, links, levels, first, end - first, room[0], room[1])
            assert tuple(map(len, part)) == size and part[0].base is room[0]
            parts.append((*(array.copy() for array in part), mahunopi.tangents(mesh, links, levels, first, end - first, out=room[2]).copy()))
        for whole, pieces in zip((points, indices, tangents), zip(*parts)):
            assert np.array_equal(np.concatenate(pieces), whole)
    # level 1: four triangles, of which the first has the ends E0, E1 and the centre
    one = np.ones(30, np.uint8)
    points, indices = mahunopi.triangles(mesh, links, one)
    net = mahunopi.build(mesh, links, 0, 1)[0]
    assert points[indices[0]].tolist() == [net[0].tolist(), net[4].tolist(), mahunopi.sample(net, 0, (0, 0, 1), 1).tolist()]
    tangents = mahunopi.tangents(mesh, links, one)[indices[0][0]]
    assert tangents.tolist() == [(4 * (net[1] - net[0])).tolist(), (4 * (net[25] - net[0])).tolist()]


def test_tangents_at_one_sample():
    mesh = random_sharpness(cube())
    links, levels = mahunopi.link(mesh), np.full(24, 2, np.uint8)
    nets = mahunopi.build(mesh, links)
    points, tangents = mahunopi.triangles(mesh, links, levels)[0], mahunopi.tangents(mesh, links, levels)
    # corner 0 has its three ends, the middles of two curves, ring 1 and the centre: by side and weights
    own = [(0, (2, 0, 0)), (1, (0, 2, 0)), (2, (2, 0, 0)), (0, (1, 1, 0)), (1, (1, 1, 0)), (0, (1, 0, 1)), (1, (0, 1, 1)), (2, (1, 0, 1)),
           (3, (0, 1, 1)), (0, (0, 0, 2))]
    for number, (side, weights) in enumerate(own):
        assert np.array_equal(mahunopi.sample(nets[0], side, weights, 2), points[number])
        assert np.array_equal(mahunopi.tangents_at(nets[0], side, weights, 2), tangents[number])
    assert refused(mahunopi.tangents_at, nets[0], 4, (1, 0, 0), 1) == (32, 4)
    assert refused(mahunopi.tangents_at, nets[0], 0, (1, 0, 0), 2) == (33, 2)
    assert refused(mahunopi.tangents_at, nets[0].ravel()[1:], 0, (1, 0, 0), 1) == (18, 122)


def test_refused_triangles():
    mesh = cube()
    links, levels = mahunopi.link(mesh), np.full(24, 2, np.uint8)
    lent = np.full((194, 3), 7, np.int32), np.full((384, 3), 7, np.uint32)
    both = {"points": lent[0], "out": lent[1]}
    for call, more in ((mahunopi.count_triangles, {}), (mahunopi.triangles, both), (mahunopi.triangles, {}), (mahunopi.tangents, {})):
        assert refused(call, mesh, links, levels[1:], **more) == (39, 23)
        for wrong in (0, 17, 255):
            levels[[5, 9]] = wrong
            assert refused(call, mesh, links, levels, **more) == (40, 5)
            assert refused(call, mesh, links, levels, 20, 5, **more) == (16, 20)
            levels[:] = 2
        assert refused(call, mesh, links[1:], levels[1:], **more) == (14, 23)
        assert refused(call, mesh, links, levels, 24, **more) == (16, 24)
    assert refused(mahunopi.triangles, mesh, links, levels, points=lent[0][1:], out=lent[1][1:]) == (255, 3 * 194)
    assert refused(mahunopi.triangles, mesh, links, levels, points=lent[0], out=lent[1][1:]) == (255, 3 * 384)
    assert refused(mahunopi.tangents, mesh, links, levels, out=np.zeros((193, 2, 3), np.int64)) == (255, 6 * 194)
    assert (lent[0] == 7).all() and (lent[1] == 7).all()
    assert tuple(map(len, mahunopi.triangles(mesh, links, levels, **both))) == (194, 384)


def test_nest():
    def of(*holders):
        return np.array(holders, np.uint16)

    assert mahunopi.nest(of(2, SUN, SUN)).tolist() == [1, 2, 0]
    assert refused(mahunopi.nest, of(1, 0, 1, SUN)) == (23, 0)
    assert refused(mahunopi.nest, of(SUN, 9)) == (22, 1)
    assert refused(mahunopi.nest, of()) == refused(mahunopi.nest, of(SUN), out=of(1, 2)) == (21, 0)


def test_archive():
    numbers = np.array([5, 6, 7, 5, 7, 6], np.int32)
    data = mahunopi.archive(numbers)
    assert data[:6].tolist() == [5, 6, 7, 0, 1, 255] and data.size == 24
    assert np.array_equal(mahunopi.restore(data), numbers) and np.array_equal(mahunopi.restore(data.tobytes()), numbers)
    assert mahunopi.archive(numbers.reshape(2, 3)).tolist() == data.tolist()
    assert refused(mahunopi.archive, numbers[:4]) == (30, 4)
    assert refused(mahunopi.restore, data[:23]) == (30, 5)
    assert refused(mahunopi.archive, numbers, out=np.zeros(23, np.uint8)) == (31, 23)
    assert mahunopi.archive(numbers[:0]).size == mahunopi.restore(b"").size == 0
    many = np.random.default_rng(1).integers(-(2**31), 2**31, 300_000, np.int32)
    assert np.array_equal(mahunopi.restore(mahunopi.archive(many)), many)


def page_of(*files):
    page = np.zeros(21, np.uint64)
    for data in files:
        mahunopi.report(data, page)
    return page


def test_report_and_merge():
    data = mahunopi.encode(cube())
    flat = mahunopi.encode(mesh_of([(0, 0, 0)] * 3, [(0, 1, 2), (0, 2, 1)]))
    page = page_of(data)
    assert page.tolist() == [1, 24, 48] + [0] * 14 + [1 << 29, 8 << 30, 2 << 30, 0]
    twice = page_of(data, flat, data)
    assert twice[:3].tolist() == [3, 48, 96] and twice[3 + 11] == 1 and twice[17:].tolist() == page[17:].tolist()
    files = [data, flat, mahunopi.encode(torus(5, 7)), b"DMX", data[:50]]
    whole = page_of(*files)
    for cut in range(6):
        merged = page_of(*files[cut:])
        mahunopi.merge(page_of(*files[:cut]), merged)
        assert merged.tolist() == whole.tolist()
    full = np.full(21, 7, np.uint64)
    full[0] = 4_096
    before = full.copy()
    assert refused(mahunopi.report, data, full) == refused(mahunopi.merge, page, full) == (37, 4_096)
    full[0] = 1
    full[20] = 2**40 + 1
    before = full.copy()
    assert refused(mahunopi.report, data, full) == refused(mahunopi.merge, page, full) == (38, 0)
    assert np.array_equal(full, before)
    counted = np.zeros(21, np.uint64)
    mahunopi.report(data, counted, len(data) + 1)
    assert counted[3 + 2] == 1


# ---- wrong before the call


def room():
    """Lists for any mesh, with zeros in them."""
    return Mesh(np.zeros((2_048, 3), np.int32), np.zeros(4_096, np.uint8), np.zeros(8_192, np.uint16), np.zeros((8_192, 2), np.uint8))


def good_calls():
    """A call of each, with arguments that pass: the function, its arguments, and which of them are lists to try."""
    mesh = cube()
    links = mahunopi.link(mesh)
    net = mahunopi.build(mesh, links, 0, 1)[0]
    data = np.frombuffer(mahunopi.encode(mesh), np.uint8)
    text = np.frombuffer((ROOT / "meshes/cube.off").read_bytes(), np.uint8)
    page = np.zeros(21, np.uint64)
    return {
        "link": dict(mesh=mesh, out=links.copy()), "build": dict(mesh=mesh, links=links, out=np.zeros(24 * 123, np.int32)),
        "decode": dict(data=data, out=room()), "survey": dict(data=data), "floats": dict(numbers=net, point=0),
        "sample": dict(numbers=net, side=0, weights=(1, 0, 0), parts=1),
        "sample_triangle": dict(numbers=net, side=0, parts=1, out=np.zeros(9, np.int32)), "irregular": dict(mesh=mesh),
        "preview": dict(mesh=mesh, links=links, vertex=0, to=(1, 2, 3), out=np.zeros((24, 41, 3), np.int32)),
        "touched": dict(mesh=mesh, vertex=0, out=np.zeros(24, np.uint8)), "turn": dict(mesh=mesh, out=np.zeros(6, np.uint16)),
        "nest": dict(holders=np.array([SUN], np.uint16), out=np.zeros(1, np.uint16)),
        "archive": dict(numbers=net, out=np.zeros(492, np.uint8)), "restore": dict(data=np.zeros(12, np.uint8), out=np.zeros(3, np.int32)),
        "count_triangles": dict(mesh=mesh, links=links, levels=np.ones(24, np.uint8)),
        "triangles": dict(mesh=mesh, links=links, levels=np.ones(24, np.uint8), points=np.zeros((50, 3), np.int32), out=np.zeros((96, 3), np.uint32)),
        "tangents": dict(mesh=mesh, links=links, levels=np.ones(24, np.uint8), out=np.zeros((50, 2, 3), np.int64)),
        "tangents_at": dict(numbers=net, side=0, weights=(1, 0, 0), parts=1),
        "floats_all": dict(numbers=net, out=np.zeros(246, np.float32)),
        "off": dict(text=text, out=room()), "report": dict(data=data, page=page), "merge": dict(other=page.copy(), page=page),
    }


def lists_in(arguments):
    """Each list among the arguments, as a name and a way to put another in its place."""
    for name, value in arguments.items():
        if isinstance(value, np.ndarray):
            yield name, value, lambda array, name=name: {**arguments, name: array}
        elif isinstance(value, Mesh):
            for part in ("coordinates", "sides", "corners", "sharpness"):
                yield part, getattr(value, part), lambda array, name=name, value=value, part=part: {
                    **arguments, name: Mesh(**{**vars(value), part: array})}


@pytest.mark.parametrize("name", list(CALLS))
def test_wrong_types_shapes_and_layouts(name):
    call, arguments = getattr(mahunopi, name), good_calls()[name]
    call(**arguments)
    tried = 0
    for list_name, array, replaced in lists_in(arguments):
        other = np.int64 if array.dtype != np.int64 else np.int32
        for wrong in (array.astype(other), array.astype(array.dtype.newbyteorder()) if array.itemsize > 1 else array.astype(bool),
                      array.tolist()):
            with pytest.raises(TypeError):
                call(**replaced(wrong))
        for wrong in (np.repeat(array, 2, axis=0)[::2], array.reshape(1, *array.shape, 1), np.array(7, array.dtype)):
            if wrong.size > 1 or wrong.ndim != 1:
                with pytest.raises(ValueError):
                    call(**replaced(wrong))
        tried += 1
    assert tried


@pytest.mark.parametrize("name", [name for name, arguments in good_calls().items() if "out" in arguments] + ["report", "merge"])
def test_lists_that_are_written_to(name):
    lists = ["coordinates", "sides", "corners", "sharpness"]
    written = {"decode": lists, "off": lists, "turn": ["corners", "sharpness", "out"], "triangles": ["points", "out"], "report": ["page"],
               "merge": ["page"]}.get(name, ["out"])
    call, arguments = getattr(mahunopi, name), good_calls()[name]
    for list_name, array, replaced in lists_in(arguments):
        locked = array.copy()
        locked.flags.writeable = False
        if list_name in written:
            with pytest.raises(ValueError, match="read-only"):
                call(**replaced(locked))
            written.remove(list_name)
        else:
            call(**replaced(locked))
    assert not written


@pytest.mark.parametrize("name", list(CALLS))
def test_lists_go_to_the_library_as_they_are(name, monkeypatch):
    """A call gets the addresses of the lists themselves: nothing is copied on the way in or out."""
    arguments, passed = good_calls()[name], []
    monkeypatch.setitem(calls.functions, name, lambda *given: passed.extend(given) or 0)
    getattr(mahunopi, name)(**arguments)
    lists = [array for _, array, _ in lists_in(arguments)]
    assert lists and all(array.ctypes.data in passed for array in lists)


def test_bytes_are_not_copied(monkeypatch):
    passed = []
    monkeypatch.setitem(calls.functions, "survey", lambda *given: passed.extend(given) or 0)
    for data in (b"DMS" * 9, bytearray(b"DMS" * 9), memoryview(b"DMS" * 9)):
        mahunopi.survey(data)
        assert passed[0] == np.frombuffer(data, np.uint8).ctypes.data
        passed.clear()


def test_lists_that_overlap():
    numbers = np.zeros(12, np.int32)
    with pytest.raises(ValueError, match="overlap"):
        mahunopi.archive(numbers[:3], out=numbers.view(np.uint8)[8:20])
    page = np.zeros(21, np.uint64)
    with pytest.raises(ValueError, match="overlap"):
        mahunopi.merge(page, page)
    mesh = cube()
    with pytest.raises(ValueError, match="overlap"):
        mahunopi.link(mesh, out=mesh.corners)
    mahunopi.archive(numbers[:3], out=numbers.view(np.uint8)[12:24])


def test_wrong_numbers():
    mesh = cube()
    links = mahunopi.link(mesh)
    net = mahunopi.build(mesh, links, 0, 1)[0]
    for wrong in (-1, 2**64):
        for call in (lambda: mahunopi.floats(net, wrong), lambda: mahunopi.build(mesh, links, wrong, 1),
                     lambda: mahunopi.touched(mesh, wrong), lambda: mahunopi.sample(net, 0, (0, 1, wrong), 1),
                     lambda: mahunopi.survey(b"", wrong)):
            with pytest.raises(ValueError):
                call()
    for wrong in (-(2**31) - 1, 2**31):
        with pytest.raises(ValueError):
            mahunopi.preview(mesh, links, 0, (0, 0, wrong))
    for wrong in (1.0, "1", None):
        with pytest.raises(TypeError):
            mahunopi.floats(net, wrong)
    with pytest.raises(TypeError):
        mahunopi.decode("DMS")
    with pytest.raises(ValueError):
        mahunopi.report(b"", np.zeros(20, np.uint64))
    assert mahunopi.touched(mesh, np.uint16(3)).size == 24


# ---- threads


def on_threads(work, count):
    """Runs work(number) on threads with little more stack than a call needs; what it raises is raised here."""
    failures = []

    def guarded(number):
        try:
            work(number)
        except BaseException as error:  # noqa: B902
            failures.append(error)

    before = threading.stack_size(2 * mahunopi.CALL_STACK)
    try:
        threads = [threading.Thread(target=guarded, args=(number,)) for number in range(count)]
        for thread in threads:
            thread.start()
        for thread in threads:
            thread.join()
    finally:
        threading.stack_size(before)
    if failures:
        raise failures[0]


def test_calls_run_at_the_same_time():
    mesh = torus(32, 64)
    data = mahunopi.encode(mesh)
    links = mahunopi.link(mesh)
    whole = mahunopi.build(mesh, links)
    output = np.zeros_like(whole)

    def work(number):
        for first in range(1_024 * number, 1_024 * (number + 1), 512):
            mahunopi.build(mesh, links, first, 512, out=output[first: first + 512])
        assert mahunopi.decode(data) == mesh and np.array_equal(mahunopi.link(mesh), links)
        assert mahunopi.irregular(mesh) == Irregular(Kind.NONE, 0, 2_048) and mahunopi.touched(mesh, 2_047).sum() == 36
        model = mesh.copy()
        assert mahunopi.turn(model).size == 0 and page_of(data)[1] == 8_192
        with pytest.raises(Refused):
            mahunopi.build(mesh, links[1:])

    on_threads(work, 8)
    assert np.array_equal(output, whole)


def numbers_in(value):
    """All that a call answers or changes, as plain lists."""
    if isinstance(value, np.ndarray):
        return value.tolist()
    if isinstance(value, Mesh):
        return [numbers_in(array) for array in vars(value).values()]
    if isinstance(value, (tuple, dict)):
        return [numbers_in(part) for part in (value.values() if isinstance(value, dict) else value)]
    return value


def test_every_call_on_threads():
    def run(arguments):
        return {name: numbers_in((getattr(mahunopi, name)(**arguments[name]), arguments[name])) for name in CALLS}

    alone, found = run(good_calls()), {}
    lent = [good_calls() for _ in range(8)]
    on_threads(lambda number: found.update({number: run(lent[number])}), 8)
    assert len(found) == 8 and all(answers == alone for answers in found.values())


def test_calls_release_the_lock():
    """While a long call runs, another thread goes on: it notes the time in the first half of many calls. On a busy machine that may be few of a round,
    and then there is another round. With the lock held it is hardly a call of any round."""
    numbers = np.zeros(9_000_000, np.int32)
    data = np.zeros(4 * numbers.size, np.uint8)
    seen, stop = [], threading.Event()

    def note():
        while not stop.is_set():
            seen.append(time.perf_counter())
            time.sleep(0.0005)

    thread = threading.Thread(target=note)
    thread.start()
    within = 0
    try:
        for _ in range(50):
            within = 0
            seen.clear()
            for _ in range(40):
                before = time.perf_counter()
                mahunopi.archive(numbers, out=data)
                # a thread that had to wait for the call notes nothing before its end
                half = (before + time.perf_counter()) / 2
                within += any(before < at < half for at in list(seen))
            if within > 10:
                break
    finally:
        stop.set()
        thread.join()
    assert within > 10
