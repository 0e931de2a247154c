"""Stored cases: the files that the programs' checks are run on (crates/*/stdin, stdout and data), and the cases of the Rust tests that
were worked out by hand (rust/reference/tests), each through the package's call."""

import struct
from pathlib import Path

import numpy as np
import pytest

import mahunopi
from mahunopi import SUN, Irregular, Kind, Mesh, Refused
from shapes import bipyramid, cube, mesh_of, turned

ROOT = Path(__file__).resolve().parents[2]
CRATES = ROOT / "crates"
LARGEST = 1 << 27


def stored(crate, name):
    return (CRATES / crate / name).read_bytes()


def refused(call, *arguments, **named):
    """The number and place of a refusal."""
    with pytest.raises(Refused) as caught:
        call(*arguments, **named)
    return caught.value.number, caught.value.place


# ---- files of the programs


def inspected(data):
    """What the program inspect prints of a file."""
    try:
        counts = mahunopi.survey(data)
    except Refused as refusal:
        return f"refused {refusal.number} {refusal.place}\n"
    rows = zip(counts.vertices_with.tolist(), counts.faces_with.tolist())
    lines = [f"{m} {vertices} {faces}\n" for m, (vertices, faces) in enumerate(rows) if vertices or faces]
    return f"mesh {counts.vertices} {counts.faces} {counts.corners}\n" + "".join(lines)


def test_survey_and_decode():
    assert inspected(stored("inspect", "stdin")) == stored("inspect", "stdout").decode()
    names = stored("file_cases", "args").decode().split()
    assert len(names) > 100
    printed = ""
    for name in names:
        data = stored("file_cases", f"data/{name}")
        said = inspected(data)
        printed += f"{name}: {said}"
        # decoding and the report refuse what surveying refuses
        page = np.zeros(21, np.uint64)
        mahunopi.report(data, page)
        if said.startswith("refused"):
            number, place = map(int, said.split()[1:])
            assert refused(mahunopi.decode, data) == (number, place) and page[16 if number == 28 else 2 + number] == 1
        else:
            mesh = mahunopi.decode(data)
            assert mahunopi.encode(mesh, data[3]) == data and page[1] == mesh.corners.size
    assert printed == stored("file_cases", "stdout").decode()
    # the rows of the samples' page
    rows = [row.split("|") for row in (ROOT / "meshes/README.md").read_text().split("\n") if row.endswith("` |")]
    assert sorted(row[1].strip() for row in rows) == sorted(path.stem for path in (ROOT / "meshes").glob("*.dms"))
    for _, name, _, lines, _ in rows:
        said = inspected((ROOT / f"meshes/{name.strip()}.dms").read_bytes())
        assert ", ".join(f"`{line}`" for line in said.split("\n")[:-1]) == lines.strip()


def numbers_of(words, kind):
    """The list that a line of mesh_cases has: 0*24 stands for twenty-four zeros."""
    numbers = []
    for word in words.split():
        number, _, times = word.partition("*")
        numbers += [int(number)] * int(times or 1)
    return np.array(numbers, kind)


def test_link():
    lines = stored("mesh_cases", "stdin").decode().splitlines()
    printed = stored("mesh_cases", "stdout").decode().splitlines()
    assert len(lines) == len(printed) > 80
    for line, expected in zip(lines, printed):
        name, _, lists = line.partition(": ")
        *parts, length = lists.split("/")
        mesh = Mesh(*(numbers_of(part, kind) for part, kind in zip(parts, (np.int32, np.uint8, np.uint16, np.uint8))))
        table = np.full(16_400, 47_806, np.uint16)
        try:
            mahunopi.link(mesh, out=table[: int(length)])
            said = f"done {int(np.cumsum(table.astype(np.uint64)).sum())}"
        except Refused as refusal:
            said = f"refused {refusal.number} {refusal.place}" + ("" if (table == 47_806).all() else " changed")
            # the calls that check a mesh refuse it by the same number at the same place
            if refusal.number != 14:
                links = np.zeros(min(mesh.corners.size, 8_192), np.uint16)
                same = (refusal.number, refusal.place)
                assert refused(mahunopi.irregular, mesh) == refused(mahunopi.build, mesh, links, 0, 1) == same
                levels = np.ones(mesh.corners.size, np.uint8)
                for call in (mahunopi.count_triangles, mahunopi.triangles, mahunopi.tangents):
                    assert refused(call, mesh, links, levels, 0, 1) == same
                if mesh.coordinates.size > 2:
                    assert refused(mahunopi.touched, mesh, 0) == same
                    if refusal.number != 7:
                        assert refused(mahunopi.preview, mesh, links, 0, (0, 0, 0), 0, 1) == same
                if refusal.number < 10 or refusal.number > 26:
                    assert refused(mahunopi.turn, mesh) == same
        assert f"{name}: {said}" == expected


def test_build():
    mesh = mahunopi.decode(stored("patches", "stdin"))
    printed = ""
    for corner, net in enumerate(mahunopi.build(mesh, mahunopi.link(mesh)).tolist()):
        printed += f"corner {corner}\n" + "".join("%d %d %d\n" % tuple(point) for point in net)
    assert printed == stored("patches", "stdout").decode()
    blocks = stored("build_cases", "stdout").decode().split("compared corner by corner\n")
    crisp = Mesh(cube().coordinates, cube().sides, cube().corners, np.full(48, 16, np.uint8))
    for block, mesh in zip(blocks, (cube(), crisp)):
        net = mahunopi.build(mesh, mahunopi.link(mesh), 0, 1)[0]
        named = [line.split() for line in block.splitlines() if line[0] in "ab"]
        assert len(named) == 8
        for (kind, row, column), *point in ((name, *map(int, point)) for name, *point in named):
            number = 5 * int(row) + int(column) if kind == "b" else 25 + 4 * int(row) + int(column)
            assert net[number].tolist() == point


def test_irregular():
    found = mahunopi.irregular(mahunopi.decode(stored("squares", "stdin")))
    assert f"{found.kind.name.lower()} {found.number} read {found.sides_read}\n" == stored("squares", "stdout").decode()
    assert found == Irregular(Kind.VERTEX, 0, 6)


def test_nest():
    lines = stored("nest", "stdin").decode().split()
    listing = mahunopi.nest(np.array([SUN if line == "sun" else int(line) for line in lines], np.uint16))
    assert "".join(f"{body}\n" for body in listing) == stored("nest", "stdout").decode().split("\n\n")[0] + "\n"


def test_archive_and_restore():
    numbers, data = stored("archive", "stdin"), stored("archive", "stdout")
    assert mahunopi.archive(np.frombuffer(numbers, "<i4").astype(np.int32)).tobytes() == data
    assert (stored("restore", "stdin"), stored("restore", "stdout")) == (data, numbers)
    assert mahunopi.restore(data).tobytes() == numbers


def test_off():
    assert mahunopi.encode(mahunopi.off(stored("off2dms", "stdin"))) == stored("off2dms", "stdout")
    for name in ("cube", "tetrahedron", "prism"):
        assert mahunopi.encode(mahunopi.off((ROOT / f"meshes/{name}.off").read_bytes())) == (ROOT / f"meshes/{name}.dms").read_bytes()
    assert refused(mahunopi.off, (ROOT / "meshes/drawn-wrong.off").read_bytes()) == (10, 25)


def test_turn():
    mesh, version = mahunopi.lists(stored("turn", "stdin"))
    assert mahunopi.turn(mesh).tolist() == [2, 5] and mahunopi.encode(mesh, version) == stored("turn", "stdout")
    mesh, version = mahunopi.lists((ROOT / "meshes/drawn-wrong.off").read_bytes())
    assert mahunopi.turn(mesh).tolist() == [1, 4, 5, 9, 13] and mahunopi.encode(mesh, version) == (ROOT / "meshes/prism.dms").read_bytes()


def test_report_and_merge():
    names = stored("report", "args").decode().split()
    last = stored("report", "stdout").decode().splitlines()[-1]
    pages = np.zeros((3, 21), np.uint64)
    for number, name in enumerate(names):
        mahunopi.report(stored("report", f"data/{name}"), pages[0])
        mahunopi.report(stored("report", f"data/{name}"), pages[1 + number % 2])
    mahunopi.merge(pages[1], pages[2])
    assert last == "page " + " ".join(map(str, pages[0].tolist())) and np.array_equal(pages[0], pages[2])


# ---- cases of the Rust tests, worked out by hand


def test_limits():
    for n in (12, 13, 16, 17):
        points, faces = bipyramid(n)
        mesh = mesh_of(np.rint(1_000 * np.array(points)), faces)
        assert mahunopi.link(mesh).size == 6 * n if n < 17 else refused(mahunopi.link, mesh) == (12, n)
    many = Mesh(cube().coordinates, np.full(4_096, 16, np.uint8), cube().corners)
    assert refused(mahunopi.link, many) == (6, 65_536)
    assert refused(mahunopi.link, Mesh(many.coordinates, many.sides, np.zeros(8_193, np.uint16))) == (4, 0)


def with_entries(*entries):
    """123 zeros but for these numbers."""
    numbers = np.zeros(123, np.int32)
    for place, number in entries:
        numbers[place] = number
    return numbers


def test_floats():
    near = 1 << 24
    assert refused(mahunopi.floats, np.empty(0, np.int32), 0) == (18, 0)
    assert refused(mahunopi.floats, with_entries((3, LARGEST + 1))[:122], 41) == (18, 122)
    assert refused(mahunopi.floats, np.zeros(124, np.int32), 0) == (18, 124)
    assert refused(mahunopi.floats, with_entries((122, LARGEST + 1), (7, -LARGEST - 1)), 41) == (19, 7)
    assert refused(mahunopi.floats, with_entries((0, LARGEST), (122, -LARGEST)), 41) == (20, 41)
    assert refused(mahunopi.floats, with_entries(), 1 << 32) == (20, 1 << 32)
    for numbers, point, first, second in [
            (with_entries((0, 5), (1, -5), (2, 7)), 0, [0, 0, 0], None), (with_entries((120, 1), (121, -1)), 40, [1, -1, 0], None),
            (with_entries((0, 3), (1, -3), (2, 10), (75, near + 3), (76, -near - 3), (77, 10)), 25, [near, -near, 0], None),
            (with_entries((3, near + 1), (4, -1)), 1, [near, -4_096, 0], [1, 4_095, 0]),
            (with_entries((3, -1), (4, -near - 1), (5, 4_096)), 1, [-4_096, -16_781_312, 4_096], [4_095, 4_095, 0]),
            (with_entries((0, LARGEST), (1, -LARGEST), (2, 1), (6, -LARGEST), (7, LARGEST)), 2, [-2 * LARGEST, 2 * LARGEST, -4_096],
             [0, 0, 4_095])]:
        found = mahunopi.floats(numbers, point)
        assert found.first.tolist() == first and (found.second is None if second is None else found.second.tolist() == second)
        whole = mahunopi.floats_all(numbers)[0, point]
        assert whole.tolist() == [first, second or [0, 0, 0]] and not np.signbit(whole[whole == 0]).any()
    for difference, bits in [
            (0, 0), (1, 1_065_353_216), (-1, 3_212_836_864), (3, 1_077_936_128), (4_095, 1_166_012_416), (-4_096, 3_313_500_160),
            (4_096, 1_166_016_512), (16_777_216, 1_266_679_808), (-16_777_216, 3_414_163_456), (16_777_215, 1_266_679_807),
            (16_781_312, 1_266_681_856), (-16_781_312, 3_414_165_504), (134_209_536, 1_291_844_608)]:
        assert mahunopi.floats(with_entries((3, difference)), 1).first.view(np.uint32)[0] == bits
    for b00, bits in ((LARGEST, 3_447_717_888), (-LARGEST, 1_300_234_240)):
        found = mahunopi.floats(with_entries((0, b00), (3, -b00)), 1)
        assert (found.first.view(np.uint32)[0], found.second.view(np.uint32)[0]) == (bits, 0)


def wild():
    """123 numbers of many sizes, by a rule."""
    i = np.arange(123, dtype=np.int64)
    return ((i * i * 7_919 + i * 104_729 + 13) % 268_435_457 - LARGEST).astype(np.int32)


def test_samples():
    net = wild()
    wrong = net.copy()
    wrong[100], wrong[77] = -LARGEST - 1, LARGEST + 1
    most = 2**64 - 1
    for call in (mahunopi.sample, mahunopi.tangents_at):
        assert refused(call, net[:122], 9, (0, 0, 0), 0) == (18, 122)
        assert refused(call, wrong, 9, (0, 0, 0), 0) == (19, 77)
        assert refused(call, net, 4, (0, 0, 0), 0) == (32, 4)
        assert refused(call, net, 3, (0, 0, 0), 0) == (33, 0)
        assert refused(call, net, 3, (17, 0, 0), 17) == (33, 17)
        assert refused(call, net, 0, (5, 5, 5), 16) == refused(call, net, 0, (most, 1, 16), 16) == (33, 16)
    assert refused(mahunopi.sample_triangle, net, 0, 16, out=np.zeros(458, np.int32)) == (255, 459)
    assert refused(mahunopi.sample_triangle, net, 4, 17) == (32, 4)
    assert refused(mahunopi.sample_triangle, net, 3, 17) == (33, 17)
    points = net.reshape(41, 3)
    for side, (head, tail) in enumerate([(0, 4), (24, 4), (24, 20), (0, 20)]):
        for parts in range(1, 17):
            for weights, point in (((parts, 0, 0), head), ((0, parts, 0), tail), ((0, 0, parts), 12)):
                assert np.array_equal(mahunopi.sample(net, side, weights, parts), points[point])
    # halves away from zero: one control point that is not zero, and weights of 1/2
    for point, numbers, side, weights, expected in [
            (1, [2, -2, 6], 0, (1, 1, 0), [1, -1, 2]), (1, [1, -1, 5], 0, (1, 1, 0), [0, 0, 1]),
            (25, [2, -2, -6], 0, (1, 0, 1), [1, -1, -2]), (25, [2, -2, -6], 3, (1, 0, 1), [1, -1, -2]),
            (8, [4, -4, 8], 0, (0, 1, 1), [2, -2, 3]), (8, [4, -4, 8], 1, (0, 1, 1), [2, -2, 3]), (8, [4, -4, 8], 2, (0, 1, 1), [0, 0, 0])]:
        assert mahunopi.sample(with_entries(*zip(range(3 * point, 3 * point + 3), numbers)), side, weights, 2).tolist() == expected


def test_sharpness_among_the_other_checks():
    for length in (0, 1, 24, 47, 49, 50, 96):
        mesh = Mesh(cube().coordinates.ravel(), cube().sides, cube().corners, np.full(length, 17, np.uint8))
        assert refused(mahunopi.link, mesh) == (27, length)
        mesh.sides[0] = 2
        assert refused(mahunopi.link, mesh) == (27, length)
        mesh.coordinates = mesh.coordinates[:-1]
        assert refused(mahunopi.link, mesh) == (4, 0)
    for position, value in ((0, 17), (23, 255), (47, 128)):
        mesh = cube()
        flat = mesh.sharpness.reshape(-1)
        flat[position] = value
        assert refused(mahunopi.link, mesh) == (28, position)
        flat[47] = max(flat[47], 18)
        assert refused(mahunopi.link, mesh) == (28, position)
        mesh.corners[1] = mesh.corners[0]
        assert refused(mahunopi.link, mesh) == (28, position)
        mesh.corners[20] = 8
        assert refused(mahunopi.link, mesh) == (8, 20)
        mesh.coordinates.reshape(-1)[23] = 65_537
        assert refused(mahunopi.link, mesh) == (7, 23)


def test_triangles():
    """Level 2 at the first corner, 1 elsewhere: the 16 triangles of a tetrahedron's first corner, and the ten points of a cube's."""
    mesh = mesh_of([(0, 0, 0)] * 4, [(0, 1, 2), (0, 2, 3), (0, 3, 1), (1, 3, 2)])
    links, levels = mahunopi.link(mesh), np.ones(12, np.uint8)
    levels[0] = 2
    assert mahunopi.count_triangles(mesh, links, levels) == (34, 64)
    points, indices = mahunopi.triangles(mesh, links, levels, 0, 1)
    assert len(points) == 10 and indices.tolist() == [
        [0, 3, 5], [3, 1, 6], [6, 5, 3], [5, 6, 9], [1, 4, 6], [4, 2, 7], [7, 6, 4], [6, 7, 9],
        [2, 15, 7], [15, 14, 8], [8, 7, 15], [7, 8, 9], [14, 18, 8], [18, 0, 5], [5, 8, 18], [8, 5, 9]]
    levels = np.ones(24, np.uint8)
    levels[0] = 2
    points, _ = mahunopi.triangles(cube(), mahunopi.link(cube()), levels, 0, 1)
    assert points.tolist() == [[512, 512, 512], [576, 0, 576], [0, 0, 768], [560, 320, 560], [336, 0, 720], [451, 451, 593], [466, 181, 653],
                               [180, 180, 745], [181, 466, 653], [333, 333, 681]]
    # refusals in their order
    levels = np.full(12, 2, np.uint8)
    none = np.empty(0, np.uint8)
    for call in (mahunopi.count_triangles, mahunopi.tangents, mahunopi.triangles):
        assert refused(call, mesh, links[1:], none, 0, 0) == (14, 11)
        assert refused(call, mesh, np.zeros(12, np.uint16), none, 0, 0) == (15, int(links[0] == 0))
        assert refused(call, mesh, links, none, 3, 0) == refused(call, mesh, links, none, 3, 10) == (16, 3)
        assert refused(call, mesh, links, levels[:11], 3, 9) == (39, 11)
        for seven, nine, place in ((0, 17, 7), (16, 17, 9)):
            wrong = levels.copy()
            wrong[[7, 9]] = seven, nine
            assert refused(call, mesh, links, wrong) == (40, place)
    assert mahunopi.count_triangles(mesh, links, levels) == (98, 192)
    points, three = np.full(294, 5, np.int32), np.full(576, 6, np.uint32)
    assert refused(mahunopi.triangles, mesh, links, levels, points=points[:293], out=three[:575]) == (255, 294)
    assert refused(mahunopi.triangles, mesh, links, levels, points=points, out=three[:575]) == (255, 576)
    assert (points == 5).all() and (three == 6).all()


def test_turning_a_tetrahedron():
    """Its faces 0 and 2 are turned. Face 0 is kept, so 1 and 3 turn; the first corner's pair changes places too."""
    sharpness = np.array([*range(17), *range(7)], np.uint8)
    mesh = Mesh(np.zeros(12, np.int32), np.full(4, 3, np.uint8), np.array([0, 2, 1, 0, 2, 3, 0, 1, 3, 1, 3, 2], np.uint16), sharpness)
    assert mahunopi.turn(mesh).tolist() == [1, 3] and mesh.corners.tolist() == [0, 2, 1, 0, 3, 2, 0, 1, 3, 1, 2, 3]
    assert sharpness.tolist() == [0, 1, 2, 3, 4, 5, 7, 6, 11, 10, 9, 8, 12, 13, 14, 15, 16, 0, 2, 1, 6, 5, 4, 3]
    assert mahunopi.turn(mesh).size == 0


def test_turning_refuses_in_order():
    """Half a cube, which is one-sided, beside a cube; then one fault after the other, each before those that were there."""
    hemicube = [(0, 1, 2, 3), (0, 2, 3, 1), (0, 3, 1, 2)]
    prism = [(3, 2, 1, 0), (4, 5, 6, 7), *((k, (k + 1) % 4, 4 + (k + 1) % 4, 4 + k) for k in range(4))]
    mesh = mesh_of([(0, 0, 0)] * 12, hemicube + [tuple(4 + v for v in face) for face in prism])
    mesh.coordinates, mesh.sharpness = mesh.coordinates.reshape(-1), mesh.sharpness.reshape(-1)

    def of(room):
        before = mesh.copy()
        answer = refused(mahunopi.turn, mesh, out=np.zeros(room, np.uint16))
        assert mesh == before
        return answer

    assert of(9) == (35, 0)
    mesh.corners[30] = 1
    assert of(9) == (34, 18)
    mesh.corners[17] = mesh.corners[19]
    assert of(9) == (9, 19)
    mesh.sharpness[70] = 17
    assert of(9) == (28, 70)
    mesh.corners[35] = 12
    assert of(9) == (8, 35)
    mesh.coordinates[4] = 65_537
    assert of(9) == (7, 4)
    mesh.sides[8] = 5
    assert of(9) == (6, 37)
    mesh.sides[7] = 17
    assert of(9) == (5, 7)
    mesh.sharpness = mesh.sharpness[:-1]
    assert of(9) == (27, 71)
    mesh.coordinates = np.append(mesh.coordinates, np.int32(0))
    assert of(9) == (4, 0) and of(8) == (36, 8)


def test_a_file_for_each_line_of_a_page():
    sound = mahunopi.encode(cube())

    def file(change):
        mesh = cube()
        change(mesh)
        return mahunopi.encode(mesh, 2)

    def put(name, at, entry):
        def change(mesh):
            getattr(mesh, name).reshape(-1)[at] = entry
        return change

    def both(mesh):
        mesh.corners[3], mesh.sharpness[0] = 8, 17

    touching = mesh_of([(0, 0, 0)] * 7, [(0, 1, 2), (0, 2, 3), (0, 3, 1), (1, 3, 2), (0, 4, 5), (0, 5, 6), (0, 6, 4), (4, 6, 5)])
    faces = [tuple(face) for face in cube().corners.reshape(6, 4).tolist()]
    points = cube().coordinates.tolist()
    files = [sound[1:], sound[:3] + b"\3" + sound[4:], sound[:100], b"DMS" + struct.pack("<4H", 2, 8, 6, 0) + sound[11:113],
             file(put("sides", 2, 17)), file(put("sides", 2, 5)), file(put("coordinates", 9, -65_537)), file(both), file(put("corners", 3, 1)),
             mahunopi.encode(mesh_of(points, [turned(faces[0]), *faces[1:]])), mahunopi.encode(mesh_of(points, faces[:5])),
             mahunopi.encode(mesh_of(points + [[1, 2, 3]], faces)), mahunopi.encode(touching), file(put("sharpness", 47, 17))]
    page = np.zeros(21, np.uint64)
    mahunopi.report(sound, page)
    expected = page.copy()
    for line, data in enumerate(files):
        mahunopi.report(data, page)
        expected[0] += np.uint64(1)
        expected[3 + line] += np.uint64(1)
        assert page.tolist() == expected.tolist()
    assert page[:3].tolist() == [15, 24, 48] and (page[3:17] == 1).all()


def test_limits_of_a_page():
    most = 1 << 40
    data = mahunopi.encode(cube())
    for number in (37, 38):
        for position in range(1, 21):
            for meshes in ((4_096, 4_097, most, 2**64 - 1) if number == 37 else (0,)):
                page = np.zeros(21, np.uint64)
                page[0], page[position] = meshes, most + 1
                before = page.copy()
                place = 4_096 if number == 37 else 0
                assert refused(mahunopi.report, data, page) == (number, place)
                one = np.zeros(21, np.uint64)
                one[0] = 1
                assert refused(mahunopi.merge, page, one) == refused(mahunopi.merge, one, page) == (number, place)
                assert np.array_equal(page, before) and one.sum() == 1
    for position in range(1, 21):
        page = np.zeros(21, np.uint64)
        page[position] = most
        other = page.copy()
        mahunopi.merge(other, page)
        assert page[position] == (2 * most if position < 17 else most)
        mahunopi.report(data, other)
        assert other[0] == 1


def test_tables_of_bodies():
    def nest(*holders, room=None):
        table = np.array(holders, np.uint16)
        return mahunopi.nest(table, out=np.zeros(len(holders) if room is None else room, np.uint16)).tolist()

    up = [SUN, *range(255)]
    assert nest(*up) == list(range(256)) == nest(*[SUN] * 256) and nest(*range(1, 256), SUN) == list(range(255, -1, -1))
    assert refused(nest, 255, *up[1:]) == (23, 0)
    for holders, room in (((), 0), ((), 1), ([SUN] * 257, 257), ((0, 9), 1), ((0, 9), 3)):
        assert refused(nest, *holders, room=room) == (21, 0)
    assert refused(nest, 0, 9, 8) == refused(nest, SUN, SUN - 1) == (22, 1)
    assert refused(nest, SUN, 1) == refused(nest, SUN, 2, 3, 4, 3) == (23, 1)
    assert nest(SUN, 0, SUN) == nest(SUN, SUN, 0) == [0, 1, 2]


def test_archives_of_extreme_numbers():
    extremes = [-(2**31), -(2**31) + 1, -65_537, -256, -1, 0, 1, 255, 65_536, 0x1234_5678, 2**31 - 2, 2**31 - 1]
    for a in extremes:
        for b in extremes:
            numbers = np.array([a, 5, -7, b, 6, a], np.int32)
            data = mahunopi.archive(numbers)
            for plane in range(4):
                assert data[6 * plane] == a >> 8 * plane & 255 and data[6 * plane + 3] == b - a >> 8 * plane & 255
            assert np.array_equal(mahunopi.restore(data), numbers)
    for count in range(14):
        for room in range(0, 61, 4):
            answer = (30, count) if count % 3 else (31, room) if room != 4 * count else None
            if answer:
                assert refused(mahunopi.archive, np.zeros(count, np.int32), out=np.zeros(room, np.uint8)) == answer
                assert refused(mahunopi.restore, np.zeros(room, np.uint8), out=np.zeros(count, np.int32)) == answer


@pytest.mark.parametrize("number, cases", [
    (24, [(text, 0) for text in ("", "#", "# OFF\n", "\n\t \r", "off 4", "OFFX", "OF", "OF#F\n", "OFF\v", "1 OFF", "\ufeffOFF", "COFF")]),
    (25, [("OFF", 1), ("OFF 4 4", 3), ("OFF 4 4 #6", 3), ("OFF x", 1), ("OFF 4 4.0", 2), ("OFF -1 0 0", 1), ("OFF 65536 0 0", 1),
          ("OFF 0 65536 0", 2), ("OFF 0 0 65536", 3), ("OFF 0 0 -1", 3), ("OFF 0 0 1e3", 3), ("OFF 1 0 0", 4), ("OFF 1 0 0 1 2", 6),
          ("OFF 1 0 0 1 +2 x", 5), ("OFF 1 0 0 1 2 1234567890", 6), ("OFF 0 1 0", 4), ("OFF 0 1 0 256", 4), ("OFF 0 1 0 -1", 4),
          ("OFF 0 1 0 255", 5), ("OFF 0 1 0 3 0 1", 7), ("OFF 0 1 0 3 0 -1 x", 6), ("OFF 0 1 0 3 0 1 65536", 7), ("OFF 0 2 0 0 1 +1", 6),
          ("OFF#x\n1#y\n0#z\n0 1 -#2\n 3", 5)]),
    (26, [("OFF 0 0 0 x y", 4), ("OFF 0 1 0 2 5 6 7", 7), ("OFF 1 0 0 1 2 3 4", 7), ("OFF 0 0 0#1\n-", 4)]),
    (4, [("OFF 0 0 0", 0), ("OFF 1 1 0 0 0 0 0", 0)]), (5, [("OFF 1 2 0 0 0 0 2 0 0 3 0 0 0", 0)]),
    (7, [("OFF 1 1 0 0 0 65537 3 0 0 0", 2), ("OFF 1 1 0 0 -999999999 0 3 0 0 0", 1)]), (8, [("OFF 3 1 0 0 0 0 0 0 0 0 0 0 3 0 1 3", 2)]),
    (9, [("OFF 3 1 0 0 0 0 0 0 0 0 0 0 3 0 1 0", 2)]), (11, [("OFF 3 1 0 0 0 0 0 0 0 0 0 0 3 0 1 2", 0)])])
def test_texts(number, cases):
    for text, place in cases:
        assert refused(mahunopi.off, text.encode()) == (number, place), text


def test_previews():
    mesh, most = cube(), 2**64
    links = mahunopi.link(mesh)
    for vertex in (8, 9, 23, 24, 2_048, 1 << 32, 1 << 63, most // 3, most - 1):
        assert refused(mahunopi.preview, mesh, links, vertex, (0, 0, 0)) == refused(mahunopi.touched, mesh, vertex) == (29, vertex)
        # with every other fault besides
        far = 2**31 - 1
        assert refused(mahunopi.preview, mesh, links[:0], vertex, (far, far, far), most - 1, most - 1, out=np.zeros(1, np.int32)) == (29, vertex)
