"""Models as meshes: scaled, rounded, welded, cleaned, turned, sharpened, or refused with the model's own points."""

import re
from fractions import Fraction

import numpy as np
import pytest

import mahunopi
from mahunopi import Mesh, Refused
from mahunopi.command import done
from mahunopi.importing import import_model
from mahunopi.models import Model, read
from mahunopi.shape import Shape
from shapes import CUBE_FACES, CUBE_POINTS, bipyramid, cube, faces_of, fans, mesh_of, obj, off, ply, prism, round_torus, stl, torus, turned

OUTWARD = [tuple(reversed(face)) for face in CUBE_FACES]  # counter-clockwise seen from outside, as OBJ has them


def model_of(points, faces, numbered=True):
    return Model(np.array(points, np.float64).reshape(-1, 3), np.array([len(face) for face in faces], np.int64),
                 np.array([v for face in faces for v in face], np.int64), numbered)


def refused(model, **options):
    with pytest.raises(Refused) as caught:
        import_model(model, **options)
    assert "\n" not in str(caught.value)
    return str(caught.value)


def volume(mesh):
    return Shape(mesh).volume()


# ---- scale


def test_centred_and_scaled():
    made = import_model(model_of([(x + 10, y / 2, z - 1) for x, y, z in CUBE_POINTS], CUBE_FACES))
    assert made.mesh.coordinates.tolist() == [[20_000 * x, 10_000 * y, 20_000 * z] for x, y, z in CUBE_POINTS]
    assert (made.step, made.centre.tolist()) == (3 / 60_000, [10, 0, -1])
    assert import_model(model_of(CUBE_POINTS, CUBE_FACES), largest=65_536).mesh.coordinates.max() == 65_536
    assert np.abs(import_model(model_of(CUBE_POINTS, CUBE_FACES), largest=1).mesh.coordinates).max() == 1


def test_the_scale_can_be_undone():
    points, faces = round_torus(12, 8)
    points = np.array(points) * 0.013 + (500, -20, 7)
    for options in ({}, {"largest": 3_000}, {"step": 0.0001}):
        made = import_model(model_of(points, faces), **options)
        back = made.centre + made.step * made.mesh.coordinates
        assert np.abs(back - points).max() <= 0.51 * made.step
        assert options.get("step", made.step) == made.step


def test_a_step_keeps_a_model_on_the_grid():
    # an odd size: its middle is no grid point
    points = [(x + 3, y + 3, (z > 0) * 7) for x, y, z in CUBE_POINTS]
    made = import_model(model_of(points, CUBE_FACES), step=1.0)
    assert np.array_equal(made.mesh.coordinates + made.centre, points)
    made = import_model(model_of(CUBE_POINTS, CUBE_FACES), step=0.5)
    assert made.mesh.coordinates.tolist() == [[2 * x, 2 * y, 2 * z] for x, y, z in CUBE_POINTS]


def test_halves_go_away_from_zero():
    points = [(x + (0.5 if x > 0 else -0.5), y, z) for x, y, z in CUBE_POINTS]
    assert sorted(set(import_model(model_of(points, CUBE_FACES), step=1.0).mesh.coordinates[:, 0])) == [-4, 4]


def test_what_cannot_be_scaled():
    assert "the largest coordinate is 300,000 steps" in refused(model_of(CUBE_POINTS, CUBE_FACES), step=1e-5)
    assert "a step of 4.57764e-05 or more serves" in refused(model_of(CUBE_POINTS, CUBE_FACES), step=1e-5)
    assert "is above 10^12 steps" in refused(model_of(CUBE_POINTS, CUBE_FACES), step=5e-324)
    # the step that is named serves, wherever the model's middle lies
    for shift in (0, 0.25, 0.5, 1 / 3):
        model = model_of([(x + shift, y, z) for x, y, z in CUBE_POINTS], CUBE_FACES)
        for size in (1, 7, 65_536 / 3, 1e-7):
            model.points[:] = np.array(CUBE_POINTS) * size + shift
            step = float(re.search(r"\(a step of (\S+) or more serves\)", refused(model, step=size / 1e6))[1])
            assert 65_535 <= np.abs(import_model(model, step=step).mesh.coordinates).max() <= 65_536
    assert refused(model_of([(1, 2, 3)] * 8, CUBE_FACES)) == "refused 4: all its points are one point"
    assert refused(model_of(CUBE_POINTS, CUBE_FACES), step=1e6) == "refused 4: no face is left on the grid: each shrinks to nothing"
    assert refused(model_of(CUBE_POINTS, [])) == "refused 4: it has no faces"
    wrong = [(float("nan") if i == 5 else x, y, z) for i, (x, y, z) in enumerate(CUBE_POINTS)]
    assert refused(model_of(wrong, CUBE_FACES)) == "refused 7: 1 point has a coordinate that is no number: point 5 (nan -3 -3)"
    huge = [tuple(x / 3 * 1e308 for x in point) for point in CUBE_POINTS]
    assert import_model(model_of(huge, CUBE_FACES)).mesh.coordinates.tolist() == [[20_000 * x for x in p] for p in CUBE_POINTS]


# ---- welding and cleaning


def test_points_for_each_face_are_welded():
    points = [CUBE_POINTS[v] for face in CUBE_FACES for v in face]
    faces = [tuple(range(4 * i, 4 * i + 4)) for i in range(6)]
    made = import_model(model_of(points + [(0, 0, 0)], faces), step=1.0)
    assert (made.points_before, made.mesh.coordinates.shape) == (25, (8, 3))
    again = import_model(model_of(CUBE_POINTS, CUBE_FACES), step=1.0).mesh
    assert made.mesh.coordinates[made.mesh.corners].tolist() == again.coordinates[again.corners].tolist()
    # points that the grid cannot tell apart
    near = [(x + 0.001 * i, y, z) for i, (x, y, z) in enumerate(points)]
    assert import_model(model_of(near, faces), largest=30).mesh.coordinates.shape == (8, 3)


def test_faces_that_shrink_are_dropped():
    # an edge of the cube's first face is a strip so thin that it has no width on the grid
    points = CUBE_POINTS + [(3, 3, 3.0001), (3, -3, 3.0001)]
    faces = [(8, 9, 2, 3), *CUBE_FACES[1:], (0, 1, 9, 8)]
    faces[2], faces[3], faces[5] = (1, 0, 4, 5), (2, 9, 1, 5, 6), (8, 3, 7, 4, 0)
    made = import_model(model_of(points, faces), step=1.0)
    assert sorted(made.mesh.sides.tolist()) == [4] * 6 and made.faces_before == 7
    assert volume(made.mesh) == -216
    # a step to a point and back
    spiked = [(0, 1, 2, 3), (4, 7, 6, 5), (1, 0, 4, 5), (2, 1, 5, 6), (3, 2, 6, 7), (0, 3, 8, 3, 7, 4), (3, 8, 3)]
    made = import_model(model_of(CUBE_POINTS + [(0, 0, 0)], spiked), step=1.0)
    assert made.mesh.sides.tolist() == [4] * 6 and made.mesh.coordinates.shape == (8, 3)


# ---- turning


def test_one_sense_for_all():
    for faces, sense in ((CUBE_FACES, "clockwise"), (OUTWARD, "turned")):
        made = import_model(model_of(CUBE_POINTS, faces), step=1.0)
        assert (made.sense, made.turned, volume(made.mesh)) == (sense, 0, -216)
        kept = import_model(model_of(CUBE_POINTS, faces), step=1.0, as_drawn=True)
        assert kept.sense == "kept" and kept.mesh == mesh_of(CUBE_POINTS, faces)


def test_some_faces_are_turned():
    wrong = [turned(face) if i in (2, 5) else face for i, face in enumerate(OUTWARD)]
    made = import_model(model_of(CUBE_POINTS, wrong), step=1.0)
    assert (made.turned, made.sense, volume(made.mesh)) == (2, "turned", -216)
    lowest = [turned(face) if i == 0 else face for i, face in enumerate(OUTWARD)]
    made = import_model(model_of(CUBE_POINTS, lowest), step=1.0)
    assert (made.turned, made.sense, volume(made.mesh)) == (5, "clockwise", -216)


def test_volumes_are_exact():
    assert volume(cube()) == -216 and volume(mesh_of(CUBE_POINTS, OUTWARD)) == 216
    octahedron = mesh_of([(50, 0, 0), (-50, 0, 0), (0, 50, 0), (0, -50, 0), (0, 0, 50), (0, 0, -50)],
                         [(0, 4, 2), (2, 4, 1), (1, 4, 3), (3, 4, 0), (2, 5, 0), (1, 5, 2), (3, 5, 1), (0, 5, 3)])
    assert volume(octahedron) == Fraction(-500_000, 3)
    # far from the origin, at the limits, and of sixteen sides
    far = cube()
    far.coordinates[:] = [[65_533 + x for x in point] for point in CUBE_POINTS]
    assert volume(far) == -216
    large = cube()
    large.coordinates[:] = np.sign(large.coordinates) * 65_536
    assert volume(large) == -(2**51)
    points, faces = prism(16, 65_536, 65_536)
    sixteen = mesh_of(np.rint(points), faces)
    two = [[int(x) for x in sixteen.coordinates[v]] for v in faces[0]]
    area = sum(a[0] * b[1] - a[1] * b[0] for a, b in zip(two, two[1:] + two[:1]))
    assert volume(sixteen) == -Fraction(abs(area), 2) * 2 * 65_536
    # a mesh and the same with its whole turned
    sharp = Mesh(sixteen.coordinates, sixteen.sides, sixteen.corners, np.arange(2 * 96, dtype=np.uint8).reshape(-1, 2) % 17)
    all_turned = Shape(sharp).turned()
    assert volume(all_turned) == -volume(sixteen) and Shape(all_turned).turned() == sharp
    assert faces_of(all_turned) == [turned(face) for face in faces_of(sharp)]
    assert all_turned.sharpness[1].tolist() == sharp.sharpness[15, ::-1].tolist()


def test_no_volume():
    # a cube and its own mirror image: the volumes cancel
    both = CUBE_POINTS + [(x + 10, y, z) for x, y, z in CUBE_POINTS]
    faces = CUBE_FACES + [tuple(8 + v for v in face) for face in OUTWARD]
    made = import_model(model_of(both, faces), step=1.0)
    assert made.sense == "flat" and volume(made.mesh) == 0


# ---- sharpness


def test_sharpness_by_angle():
    points, faces = prism(12)
    for degrees, sharp in [(29, 72), (31, 24), (89, 24), (91, 0)]:
        made = import_model(model_of(points, faces), sharpness=degrees)
        assert made.version == 2
        crisp = (made.mesh.sharpness == 16).all(axis=1)
        assert crisp.sum() == sharp and (made.mesh.sharpness[~crisp] == 8).all(), degrees
        mahunopi.link(made.mesh)
    # the rim of the sample with a crisp rim: corners of the two ends, across both of whose edges the surface bends by 90 degrees
    made = import_model(model_of(points, faces), sharpness=60)
    ends = np.repeat(made.mesh.sides == 12, made.mesh.sides)
    assert np.array_equal((made.mesh.sharpness == 16).all(axis=1), ends)
    assert import_model(model_of(points, faces)).version == 1
    # whichever way round it was drawn
    other = import_model(model_of(points, [turned(face) for face in faces]), sharpness=60)
    assert other.sense == "turned" and np.array_equal((other.mesh.sharpness == 16).all(axis=1), ends)


# ---- refusals that a modeller can follow


def test_open_edges():
    said = refused(model_of(CUBE_POINTS, CUBE_FACES[:5]))
    assert said.startswith("refused 34: 4 edges are not in exactly two faces: ") and said.count(" in 1 face") == 4
    assert "point 0 (3 3 3) to point 3 (-3 3 3) in 1 face" in said
    # coordinates as the file has them, and no numbers where the reader has none
    said = refused(read(obj([(x / 7, y, z) for x, y, z in CUBE_POINTS], CUBE_FACES[:5]), "obj"))
    assert "(0.42857143 3 3) to (0.42857143 3 -3) in 1 face" in said and "point" not in said
    for form, kind, x in (("ascii", "float", 3 / 7), ("binary_big_endian", "double", 3 / 7), ("binary_little_endian", "float", "0.42857143"),
                          ("binary_big_endian", "float", "0.42857143")):
        said = refused(read(ply([(x / 7, y, z) for x, y, z in CUBE_POINTS], CUBE_FACES[:5], form, kinds=(kind, "uchar", "int")), "ply"))
        assert f"point 0 ({x} 3 3) to point 3 (" in said
    points, faces = round_torus(10, 10)
    said = refused(model_of(points, faces[:-30]))
    assert "refused 34: 20 edges are" in said and said.count(" in 1 face") == 10 and said.endswith("; and 10 more")
    fin = refused(model_of(CUBE_POINTS + [(9, 9, 9)], CUBE_FACES + [(0, 1, 8)]))
    assert "3 edges are" in fin and "point 0 (3 3 3) to point 1 (3 -3 3) in 3 faces" in fin


def test_vertices_with_many_corners():
    assert import_model(model_of(*bipyramid(16))).mesh.sides.size == 32
    said = refused(model_of(*bipyramid(17)))
    assert said == "refused 12: 2 vertices have fewer than 3 or more than 16 corners: point 17 (0 0 1) has 17; point 18 (0 0 -1) has 17"


def test_faces_that_touch_in_a_vertex():
    points = CUBE_POINTS + [(x + 6, y + 6, z + 6) for x, y, z in CUBE_POINTS]
    faces = CUBE_FACES + [tuple(8 + v for v in face) for face in CUBE_FACES]
    assert refused(model_of(points, faces)) == "refused 13: 1 vertex is where faces touch in the vertex alone: point 0 (3 3 3)"


def test_faces_with_many_sides():
    assert import_model(model_of(*prism(16))).mesh.sides.max() == 16
    said = refused(model_of(*prism(17)))
    assert said.startswith("refused 5: 2 faces have more than 16 sides: 17 sides from point 0 (1000 0 -300); 17 sides from point 33 (")
    assert refused(model_of(*prism(300))).startswith("refused 5: 2 faces have")


def test_a_point_twice_in_a_face():
    faces = [(0, 1, 2, 3), (0, 3, 4), (0, 4, 1, 2, 4, 3), (1, 4, 2)]
    assert "refused 9: 1 face comes to a point twice: point 4 (" in refused(model_of([*CUBE_POINTS[:4], (0, 0, -3)], faces))


def test_one_sided():
    said = refused(model_of(np.random.default_rng(1).random((20, 3)), faces_of(torus(4, 5, seam=True))))
    assert said.startswith("refused 35: 1 part is one-sided, no turning of its faces serves: point 0 (")


def test_all_causes_are_there():
    def causes(model):
        with pytest.raises(Refused) as caught:
            import_model(model)
        return caught.value.number, caught.value.causes

    points = [(0, 0, 0), *CUBE_POINTS]  # the first one is not used
    faces = [tuple(v + 1 for v in face) for face in OUTWARD]
    assert causes(model_of(points, faces[1:])) == (34, [(1, 2), (1, 4), (2, 3), (3, 4)])
    number, found = causes(model_of(*bipyramid(40)))
    assert (number, found) == (12, [(40,), (41,)])
    number, found = causes(model_of(*prism(17)))
    assert number == 5 and [sorted(face) for face in found] == [list(range(17)), list(range(17, 34))]
    points, faces = round_torus(12, 8)
    number, found = causes(model_of(points, [face for i, face in enumerate(faces) if i % 8]))
    assert number == 34 and len(found) > 20
    points[3] = (0, float("nan"), 0)
    assert causes(model_of(points, faces)) == (7, [(3,)])


def test_over_the_limits():
    made = import_model(model_of(*round_torus(32, 64)))
    assert made.mesh.corners.size == 8_192
    said = refused(model_of(*round_torus(33, 64)))
    assert said == ("refused 4: 2,112 vertices are 64 more than the 2,048 that a mesh may have, "
                    "8,448 corners are 256 more than the 8,192 that a mesh may have")
    points, faces = round_torus(300, 300)
    said = refused(read(stl(points, faces), "stl"))
    assert "90,000 vertices are 87,952 more" in said and "180,000 faces are 175,904 more" in said and "540,000 corners" in said


# ---- files of all kinds


@pytest.mark.parametrize("write, form", [(obj, "obj"), (off, "off"), (ply, "ply"), (lambda *model: ply(*model, "binary_big_endian"), "ply")])
def test_polygons_of_5_to_16_sides(write, form):
    for n in range(5, 17):
        points, faces = prism(n)
        made = import_model(read(write(points, faces), form), step=1.0)
        rounded = mesh_of(np.rint(points), faces)
        assert made.mesh.sides.tolist() == [n, n] + [4] * n and made.mesh.corners.size == 6 * n
        # the same faces by their points, however the reader numbers these
        there = made.mesh.coordinates + made.centre
        assert there[made.mesh.corners].tolist() == rounded.coordinates[rounded.corners].tolist()


@pytest.mark.parametrize("write, form", [(obj, "obj"), (off, "off"), (ply, "ply"), (stl, "stl")])
def test_what_is_no_closed_surface(write, form):
    triangles = fans(CUBE_FACES)
    for points, faces, number, words in [
            (CUBE_POINTS, triangles[1:], 34, "3 edges are not in exactly two faces: "),
            (CUBE_POINTS + [(9, 9, 9)], triangles + [(0, 1, 8)], 34, "3 edges are not in exactly two faces: "),
            (CUBE_POINTS, triangles + triangles[:1], 34, "3 edges are not in exactly two faces: "),
            (*bipyramid(17), 12, "2 vertices have fewer than 3 or more than 16 corners: "),
            (*round_torus(46, 46), 4, "2,116 vertices are 68 more than the 2,048 that a mesh may have, ")]:
        if form == "stl" or number != 4:
            faces = fans(faces)
        said = refused(read(write(points, faces), form))
        assert said.startswith(f"refused {number}: {words}")
        # by number where the reader keeps numbers, and by coordinates
        assert number == 4 or ("point " in said) == (form in ("off", "ply")) and re.search(r"\(-?\d\S* \S+ \S+\)", said)


def test_inside_out_files():
    for write, form in ((obj, "obj"), (off, "off"), (ply, "ply"), (stl, "stl")):
        for faces, sense in ((CUBE_FACES, "clockwise"), (OUTWARD, "turned")):
            made = import_model(read(write(CUBE_POINTS, faces), form), step=1.0)
            assert (made.sense, volume(made.mesh)) == (sense, -216)


# ---- what comes out is a file


def test_whole_ways():
    points, faces = round_torus(12, 8)
    for data, form in ((obj(points, faces), "obj"), (off(points, faces), "off"), (stl(points, faces), "stl")):
        made = import_model(read(data, form))
        again = mahunopi.decode(mahunopi.encode(made.mesh, made.version))
        assert again == made.mesh and mahunopi.build(again, mahunopi.link(again)).shape[0] == made.mesh.corners.size
        assert Shape(again).volume() < 0 and len(again.sides) == (96 if form != "stl" else 192)
    assert len(fans(faces)) == 192


def test_what_is_passed_over_is_told():
    assert import_model(read(off(CUBE_POINTS, CUBE_FACES), "off")).note == ""
    made = import_model(read(off(CUBE_POINTS, CUBE_FACES) + b"\n3 0 1 2", "off"))
    assert made.note == "1 line after the last of its 6 faces passed over" and done(made).endswith("; " + made.note)
