"""The page of `mahunopi view`: what it holds, and what a browser makes of it."""

import base64
import json
import re
import struct
import zlib
from pathlib import Path

import numpy as np
import pytest

import mahunopi
from browser import browse, browser
from mahunopi.borders import misses
from mahunopi.shape import Shape
from mahunopi.view import MARK, entry, in_ticks, page
from shapes import cube, mesh_of, prism, round_torus, size_at
from test_command import room, run  # noqa: F401

ROOT = Path(__file__).resolve().parents[2]
SAMPLES = sorted((ROOT / "meshes").glob("*.dms"))


def whole(points, faces, scale=100):
    return mesh_of([[round(scale * x) for x in point] for point in points], faces)


def sharpened(mesh, seed=1):
    numbers = np.random.default_rng(seed).integers(0, 17, (mesh.corners.size, 2), np.uint8)
    return mahunopi.Mesh(mesh.coordinates, mesh.sides, mesh.corners, numbers)


def accepted_samples():
    for path in SAMPLES:
        if path.name != "flat.dms":
            yield path.name, mahunopi.decode(path.read_bytes())


# ---- the misses


def test_misses_are_those_of_the_page():
    rng = np.random.default_rng(7)
    meshes = [mesh for _, mesh in accepted_samples()]
    meshes += [whole(*round_torus(7, 5), 9), whole(*prism(16), 1), sharpened(whole(*prism(13), 1)), sharpened(meshes[0])]
    for sides in range(3, 17):
        mesh = sharpened(whole(*prism(sides), 1), sides)
        mesh.coordinates[:] = rng.integers(-65_536, 65_537, mesh.coordinates.shape)
        meshes.append(mesh)
    for mesh in meshes:
        links = mahunopi.link(mesh)
        found = np.abs(misses(mesh, links, mahunopi.build(mesh, links)))
        assert found.shape == (mesh.corners.size, 2, 4, 3)
        counted = np.zeros(21, np.uint64)
        mahunopi.report(mahunopi.encode(mesh), counted)
        assert found.max(axis=(0, 1, 3)).tolist() == counted[17:].tolist()


def test_ticks_in_words():
    assert [in_ticks(n) for n in (0, 1 << 30, 7_138_500_190, (1 << 30) // 2000, (1 << 30) // 2000 + 1)] == \
        ["0.000", "1.000", "6.648", "0.000", "0.001"]


# ---- the file


def data_of(text):
    return json.loads(re.search(rb'<script type="application/json" id="data">(.*?)</script>', text, re.S)[1])


def test_a_page_holds_the_mesh(room):  # noqa: F811
    (room / "it.dms").write_bytes(mahunopi.encode(sharpened(cube())))
    status, out, err = run("view", "it.dms")
    text = (room / "it.html").read_bytes()
    assert (status, out.decode(), err) == (0, f"it.html: {len(text):,} bytes, to be opened in a browser\n", "")
    assert text.startswith(MARK) and b"src=" not in text.split(b"<script>")[0] and b"<link" not in text
    held = data_of(text)
    mesh = sharpened(cube())
    assert len(held) == 1 and held[0]["name"] == "it.dms" and held[0]["sense"] == -1
    assert base64.b64decode(held[0]["points"]) == mahunopi.build(mesh, mahunopi.link(mesh)).astype("<i4").tobytes()
    assert held[0]["irregular_vertices"] == list(range(8)) and held[0]["irregular_faces"] == []
    assert base64.b64decode(held[0]["sharpness"]) == mesh.sharpness.tobytes()


def test_where_a_page_goes(room):  # noqa: F811
    (room / "a.dms").write_bytes(mahunopi.encode(cube()))
    (room / "a.html").write_text("mine")
    status, out, err = run("view", "a.dms")
    assert (status, out) == (2, b"") and err == "mahunopi view: a.html is there and is no page of this command, name another by -o\n"
    assert (room / "a.html").read_text() == "mine"
    assert run("view", "a.dms", "-o", "a.html")[0] == 0 and (room / "a.html").read_bytes().startswith(MARK)
    assert run("view", "a.dms")[0] == 0
    status, out, err = run("view", "-", "-o", "-", given=mahunopi.encode(cube()))
    assert (status, err) == (0, "") and out.startswith(MARK) and data_of(out)[0]["name"] == "standard input"
    for words, said in [((), "the following arguments are required: FILE"), (("a.dms",) * 3, "a page shows one mesh or two, not 3"),
                        (("-",), "standard input has no name that a page could have, name one by -o"),
                        (("-", "-"), "standard input can be read once only")]:
        status, out, err = run("view", *words, given=b"")
        assert status == 2 and said in err and err.count("\n") == 1
    assert run("view", "a.dms", "-o", "no/such/page.html")[::2] == (2, "no/such/page.html: No such file or directory\n")


def test_refused_and_missing_files_make_no_page(room):  # noqa: F811
    (room / "flat.dms").write_bytes((ROOT / "meshes/flat.dms").read_bytes())
    status, out, err = run("view", "flat.dms", "none.dms")
    assert (status, out) == (2, b"") and err.split("\n")[:2] == [
        "flat.dms: refused 12 at vertex 0: a vertex is named by fewer than 3 or more than 16 corners",
        "none.dms: No such file or directory"]
    assert run("view", "flat.dms")[0] == 1 and not list(room.glob("*.html"))


def test_a_name_cannot_break_the_page(room):  # noqa: F811
    name = "</script><b>&'\"\n\udcff.dms"
    text = page([(name, cube())])
    assert text.count(b"</script>") == 3 and data_of(text)[0]["name"] == "</script><b>&'\"\n\ufffd.dms"


def test_the_largest_page_is_small():
    p, q = 32, 64
    mesh = whole(*round_torus(p, q), 10_000)
    text = page([("largest.dms", mesh)])
    assert mesh.corners.size == mahunopi.MAX_CORNERS and len(text) < 8_000_000


def brightness(colour):
    """The relative luminance of a colour, as the guidelines for accessible pages have it."""
    parts = [int(colour[at: at + 2], 16) / 255 for at in (0, 2, 4)]
    return sum(weight * (part / 12.92 if part <= 0.04045 else ((part + 0.055) / 1.055) ** 2.4)
               for weight, part in zip((0.2126, 0.7152, 0.0722), parts))


def contrast(one, other):
    low, high = sorted([brightness(one), brightness(other)])
    return (high + 0.05) / (low + 0.05)


def test_text_is_readable_in_light_and_dark():
    style = (ROOT / "python/mahunopi/view.html").read_text()
    schemes = [dict(re.findall(r"--(\w+): #(\w{6})", block)) for block in re.findall(r":root \{(.*?)\}", style, re.S)]
    assert len(schemes) == 2 and schemes[0].keys() == schemes[1].keys()
    for colours in schemes:
        for ground in ("ground", "panel"):
            assert contrast(colours["text"], colours[ground]) >= 7
            # marks of the legend
            assert all(contrast(colours[mark], colours[ground]) >= 3 for mark in ("coarse", "vertex", "face"))
        assert contrast(colours["border"], colours["surface"]) >= 3


# ---- in a browser

# colours in the picture, of the triangles drawn last, of a volume, and of levels
HELPERS = """
  const gl = view.renderer.getContext(), byId = (id) => document.getElementById(id);
  function colours() {
    view.draw();
    const wide = gl.drawingBufferWidth, high = gl.drawingBufferHeight, pixels = new Uint8Array(4 * wide * high), seen = new Set();
    gl.readPixels(0, 0, wide, high, gl.RGBA, gl.UNSIGNED_BYTE, pixels);
    let sum = 0;
    for (let i = 0; i < pixels.length; i += 4) {
      const colour = pixels[i] + 256 * pixels[i + 1] + 65536 * pixels[i + 2];
      seen.add(colour);
      sum = (sum * 31 + colour) % 4294967296;
    }
    return [seen.size, sum];
  }
  function level(n) { byId("level").value = n; byId("level").dispatchEvent(new Event("input")); }
  function press(key) { canvas.dispatchEvent(new KeyboardEvent("keydown", { key, bubbles: true })); }
  function volume(of) {
    let sum = 0;
    for (let t = 0; t < of.index.length; t += 3) {
      const [a, b, c] = [0, 1, 2].map((i) => of.positions.slice(3 * of.index[t + i], 3 * of.index[t + i] + 3));
      sum += a[0] * (b[1] * c[2] - b[2] * c[1]) + a[1] * (b[2] * c[0] - b[0] * c[2]) + a[2] * (b[0] * c[1] - b[1] * c[0]);
    }
    return sum / 6;
  }
  const canvas = byId("stage");
  canvas.setPointerCapture = () => {};
"""


def test_the_page_in_a_browser(room):  # noqa: F811
    browser()
    path = ROOT / "meshes/torus.dms"
    mesh = mahunopi.decode(path.read_bytes())
    found = browse(room, page([("torus.dms", mesh)]), HELPERS + """
      found.told = byId("told").textContent;
      found.start = colours();
      found.levels = {};
      for (const n of [1, 2, 5]) {
        level(n);
        found.levels[n] = { told: byId("told").textContent, drawn: colours(), triangles: view.scenes[0].sampled.triangles,
          volume: volume(view.scenes[0].sampled) };
      }
      byId("borders").click();
      found.bare = colours();
      found.rendered = view.renderer.info.render.triangles;
      found.positions = Array.from(view.scenes[0].sampled.positions.slice(0, 3 * 4 * 21 * 40));
      const of = view.scenes[0].sampled;
      found.normals = [Infinity, -Infinity, Infinity];
      for (let t = 0; t < of.index.length; t += 3) {
        const [a, b, c] = [0, 1, 2].map((i) => new THREE.Vector3().fromArray(of.positions, 3 * of.index[t + i]));
        const facet = b.sub(a).cross(c.sub(a)).normalize(), normal = new THREE.Vector3().fromArray(of.normals, 3 * of.index[t]);
        found.normals = [Math.min(found.normals[0], normal.length()), Math.max(found.normals[1], normal.length()),
          Math.min(found.normals[2], facet.dot(normal))];
      }
      found.switched = {};
      for (const id of ["coarse", "irregular"]) { byId(id).click(); found.switched[id] = colours(); byId(id).click(); }
      for (const kind of ["sharpness", "misses"]) {
        document.querySelector("input[value=" + kind + "]").click();
        found.switched[kind] = colours();
        found[kind] = byId("legend").hidden ? "" : byId("legend").textContent;
      }
      press("p");
      found.again = colours();
      found.keys = [view.seat.azimuth, view.seat.elevation, view.seat.distance, byId("level").value];
      for (const key of ["ArrowLeft", "ArrowUp", "+", "]", "b", "c", "i"]) press(key);
      found.pressed = [view.seat.azimuth, view.seat.elevation, view.seat.distance, byId("level").value];
      found.checked = ["borders", "coarse", "irregular"].map((id) => byId(id).checked);
      const point = (kind, id, x, y) => canvas.dispatchEvent(new PointerEvent(kind, { pointerId: id, clientX: x, clientY: y, buttons: 1 }));
      point("pointerdown", 1, 300, 300); point("pointermove", 1, 340, 310);
      found.dragged = [view.seat.azimuth, view.seat.elevation];
      point("pointerdown", 2, 400, 310); point("pointermove", 2, 520, 310); point("pointerup", 2, 520, 310); point("pointerup", 1, 0, 0);
      found.pinched = view.seat.distance;
      canvas.dispatchEvent(new WheelEvent("wheel", { deltaY: 400, cancelable: true }));
      found.wheeled = view.seat.distance;
      press("0");
      found.home = colours();
    """)
    assert found["faults"] == []
    assert found["start"][0] > 100
    shape = Shape(mesh)
    for n, seen in found["levels"].items():
        n = int(n)
        points, triangles = size_at(mesh, n)
        assert seen["told"] == f"{n}: {points:,} points, {triangles:,} triangles"
        assert seen["triangles"] == triangles and seen["drawn"][0] > 100
        # counter-clockwise seen from outside, though the mesh runs clockwise
        assert seen["volume"] > 0 and shape.volume() < 0
    sums = [seen["drawn"][1] for seen in found["levels"].values()] + [found["start"][1], found["bare"][1]]
    assert len(set(sums)) == len(sums)
    assert found["rendered"] == size_at(mesh, 5)[1]
    links = mahunopi.link(mesh)
    points = mahunopi.build(mesh, links)
    samples = np.concatenate([mahunopi.sample_triangle(points[c], s, 5) for c in range(40) for s in range(4)])
    assert np.abs(np.array(found["positions"]).reshape(-1, 3) - samples).max() <= 0.500001
    assert 0.999 < found["normals"][0] <= found["normals"][1] < 1.001 and found["normals"][2] > 0.9
    switched = [found["bare"][1]] + [seen[1] for seen in found["switched"].values()]
    # a torus of squares has no irregular vertex or face
    assert len(set(switched)) == 4 and found["switched"]["irregular"] == found["bare"] == found["again"]
    assert "13 ticks" in found["misses"] and "Largest of conditions 1 to 4: 1.000, 7.000, 6.000, 1.000." in found["misses"] and "crisp" in found["sharpness"]
    assert found["pressed"] != found["keys"] and all(a != b for a, b in zip(found["pressed"], found["keys"]))
    assert found["checked"] == [True, True, True]
    assert found["dragged"][0] < found["pressed"][0] and found["dragged"][1] > found["pressed"][1]
    assert found["pinched"] < min(found["pressed"][2], found["wheeled"])
    assert picture_colours(room / "page.png") > 100


def picture_colours(path):
    """How many colours a PNG file of eight bits without interlacing has, rows as they are filtered: more than one picture has."""
    data = path.read_bytes()
    wide, high, depth, kind = struct.unpack(">IIBB", data[16:26])
    rows, at = b"", 8
    while at < len(data):
        length, name = struct.unpack(">I4s", data[at: at + 8])
        rows += data[at + 8: at + 8 + length] if name == b"IDAT" else b""
        at += 12 + length
    bytes_of = {2: 3, 6: 4}[kind]
    lines = np.frombuffer(zlib.decompress(rows), np.uint8).reshape(high, 1 + bytes_of * wide)
    assert depth == 8
    return len(np.unique(lines[:, 1:].reshape(-1, bytes_of), axis=0))


def test_two_meshes_beside_one_another(room):  # noqa: F811
    browser()
    before, after = (mahunopi.decode((ROOT / "meshes" / name).read_bytes()) for name in ("prism.dms", "crisp-prism.dms"))
    outward = Shape(before).turned()
    assert Shape(outward).volume() > 0 and entry("", outward)["sense"] == 1
    found = browse(room, page([("before.dms", outward), ("after.dms", after)]), HELPERS + """
      found.names = [...document.querySelectorAll(".name")].map((label) => [label.textContent, label.getBoundingClientRect().left]);
      found.volumes = view.scenes.map((made) => volume(made.sampled));
      found.told = byId("told").textContent;
      byId("irregular").click();
      found.irregular = byId("irregular-legend").textContent;
      document.querySelector("input[value=sharpness]").click();
      found.sharp = colours();
      document.querySelector("input[value=misses]").click();
      found.largest = byId("said").textContent;
      found.ground = getComputedStyle(document.body).backgroundColor;
      found.text = getComputedStyle(document.body).color;
    """, flags=["--force-dark-mode"])
    assert found["faults"] == []
    assert (found["ground"], found["text"]) == ("rgb(17, 22, 29)", "rgb(230, 236, 243)")
    assert [name for name, _ in found["names"]] == ["before.dms", "after.dms"] and 300 < found["names"][0][1] < 600 < found["names"][1][1]
    assert min(found["volumes"]) > 0 and found["sharp"][0] > 100
    assert re.search(r"before\.dms \d+\.\d{3}, .*; after\.dms 6\.648, 8\.000, 6\.000, 1\.000\.", found["largest"])
    assert "24 and 24 vertices not of four corners" in found["irregular"] and "2 and 2 faces" in found["irregular"]
    assert picture_colours(room / "page.png") > 100


def test_a_narrow_window(room):  # noqa: F811
    """As on a phone: one mesh above the other, and the panel, once it is opened, above both."""
    browser()
    mesh = mahunopi.decode((ROOT / "meshes/prism.dms").read_bytes())
    found = browse(room, page([("before.dms", mesh), ("after.dms", sharpened(mesh))]), HELPERS + """
      const labels = () => [...document.querySelectorAll(".name")].map((label) => label.getBoundingClientRect());
      found.wide = window.innerWidth;
      found.high = window.innerHeight;
      found.open = byId("panel").open;
      found.closed = labels().map((box) => [box.left, box.bottom]);
      byId("panel").open = true;
      document.querySelector("input[value=misses]").click();
      found.panel = byId("panel").getBoundingClientRect().bottom;
      found.opened = labels().map((box) => [box.left, box.top]);
      found.fits = byId("panel").scrollWidth <= byId("panel").clientWidth;
      found.drawn = colours();
      found.ground = getComputedStyle(document.body).backgroundColor;
      found.text = getComputedStyle(document.body).color;
    """, size="390,844")
    assert found["faults"] == [] and found["wide"] < 700 and found["open"] is False
    (left, bottom), (other, below) = found["closed"]
    assert left == other and bottom < 0.55 * found["high"] < below <= found["high"]
    assert found["panel"] <= 0.6 * found["high"] and found["fits"] and min(top for _, top in found["opened"]) > found["panel"]
    assert found["drawn"][0] > 100
    assert (found["ground"], found["text"]) == ("rgb(238, 241, 245)", "rgb(22, 32, 44)")


def test_without_webgl_the_page_says_so(room):  # noqa: F811
    browser()
    found = browse(room, page([("cube.dms", cube())]), """
      found.words = document.getElementById("words").textContent;
      found.shown = document.getElementById("words").offsetHeight > 0;
      found.drawn = view.drawn;
    """, flags=["--disable-3d-apis"])
    assert found["words"].startswith("The surface is drawn with WebGL, which this browser does not have") and found["shown"]
    assert found["drawn"] is False
    assert all("WebGL" in fault for fault in found["faults"])
