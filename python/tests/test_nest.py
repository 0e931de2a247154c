"""`mahunopi nest`: tables as people keep them, the listing, and the drawing."""

import re
import xml.etree.ElementTree as tree
from pathlib import Path

import numpy as np
import pytest

import mahunopi
from mahunopi.nested import drawing, read_table, told
from test_command import room, run  # noqa: F401

ROOT = Path(__file__).resolve().parents[2]
SVG = "{http://www.w3.org/2000/svg}"


def test_the_example(room):  # noqa: F811
    status, out, err = run("nest", str(ROOT / "examples/bodies.csv"), "-o", "wall.svg")
    assert (status, err) == (0, "")
    listing, picture = out.decode().split("\n\n")
    names = listing.split("\n")
    assert names[:4] == ["Mercury", "Venus", "Earth", "Moon"] and len(names) == 21
    assert names.index("Titan") < names.index("Huygens")
    assert "\n  Saturn: 20 km\n    Enceladus: 100 m\n    Titan: 1 km\n      Huygens: 1 mm\n    Cassini: 1 cm\n" in picture
    whole = tree.parse(room / "wall.svg").getroot()
    said = [text.text for text in whole.iter(SVG + "text")]
    assert whole.tag == SVG + "svg" and said[0] == "Sun" and set(names) <= set(said) and said.count("1 mm") == 1
    circles = [circle.get("class") for circle in whole.iter(SVG + "circle")]
    assert circles.count("orbit") == circles.count("body") == 21 and circles.count("sun") == 1


def test_what_is_taken():
    for text in ["2,1\n0,2\n1,sun\n", "body;hangs in\n0;2\n1;SUN\n2;1\n", "\ufeff# a table\r\n\r\n0\t2\t\r\n1\t65535\r\n2\t1\r\n",
                 'Sun,\n0,"2"\n1, Sun\n2,1,\n']:
        table = read_table(text.encode())
        assert (table.names, table.holders, table.listing) == (["0", "1", "2"], [2, mahunopi.SUN, 1], [1, 2, 0])
        assert told(table) == ["1", "2", "0", "", "Sun", "  1", "    2", "      0"]
    # numbers by size, names by line
    assert read_table(b"30,4\n4,Sun\n100,Sun\n").names == ["4", "30", "100"]
    assert read_table(b"b,a\na,Sun\n7,Sun\n").listing == [1, 0, 2]
    assert read_table('"Comet ""1P"", Halley",Sun,"1,5 km"'.encode()).spacings == ["1,5 km"]


@pytest.mark.parametrize("text, status, said", [
    ("Moon,Earth\n", 1, "refused 22: Moon hangs in Earth, which is no body of the table"),
    ("a,b\nb,c\nc,b\nd,Sun\n", 1, "refused 23: a hangs in b, b hangs in c, c hangs in b, and so on: that never comes to the Sun"),
    ("", 1, "refused 21: the table has 0 bodies, and 1 to 256 can be listed"),
    ("".join(f"b{n},Sun\n" for n in range(257)), 1, "refused 21: the table has 257 bodies, and 1 to 256 can be listed"),
    ("a,Sun\n\nb,\n", 2, "line 3 has no body that b hangs in"), (",Sun\n", 2, "line 1 has no body"),
    ("a,Sun\nb,a\na,b\n", 2, "line 3 has a again, which is in line 1"), ("Sun,Sun\n", 2, "line 1 has the Sun hang in Sun"),
    ("a\udcff,Sun\n", 2, "byte 1 is no UTF-8 text")])
def test_what_is_refused(room, text, status, said):  # noqa: F811
    got, out, err = run("nest", "-", "-o", "wall.svg", given=text.encode("utf-8", "surrogateescape"))
    assert (got, out, err) == (status, b"", f"standard input: {said}\n") and not (room / "wall.svg").exists()


def test_a_table_of_any_shape_is_drawn():
    rng = np.random.default_rng(3)
    shapes = {"flat": lambda n: "Sun", "deep": lambda n: f"b{n - 1}" if n else "Sun",
              "tree": lambda n: f"b{rng.integers(n)}" if n and rng.integers(5) else "Sun"}
    for holder in shapes.values():
        table = read_table("".join(f"b{n},{holder(n)},{n} <&> km\n" for n in range(256)).encode())
        assert all(table.listing.index(held) < table.listing.index(body) for body, held in enumerate(table.holders) if held != mahunopi.SUN)
        whole = tree.fromstring(drawing(table))
        assert float(whole.get("width")) < 10_000
        assert sorted(text.text for text in whole.iter(SVG + "text") if re.fullmatch(r"b\d+", text.text)) == sorted(table.names)
    odd = read_table("\x01\x02\U0001f680,Sun".encode())
    assert "\ufffd\ufffd\U0001f680" in [text.text for text in tree.fromstring(drawing(odd)).iter(SVG + "text")]


def test_grids_on_a_drawing_do_not_overlap():
    table = read_table((ROOT / "examples/bodies.csv").read_bytes())
    discs = []
    whole = tree.fromstring(drawing(table))
    left, top, width, height = map(float, whole.get("viewBox").split())
    for group in whole.iter(SVG + "g"):
        x, y, scale = map(float, re.findall(r"-?\d[-\d.e]*", group.get("transform")))
        disc = [circle for circle in group.iter(SVG + "circle") if circle.get("class").startswith("grid")][0]
        discs.append((group.find(SVG + "text").text, x, y, scale * float(disc.get("r"))))
    at = {name: disc for name, *disc in discs}
    holder = {name: "Sun" if held == mahunopi.SUN else table.names[held] for name, held in zip(table.names, table.holders)}
    for name, (x, y, radius) in at.items():
        if name == "Sun":
            continue
        assert np.hypot(x - at[holder[name]][0], y - at[holder[name]][1]) + radius <= at[holder[name]][2] + 0.1
        assert left < x - radius and x + radius < left + width and top < y - radius and y + radius < top + height
        for other, (ox, oy, oradius) in at.items():
            if other not in (name, "Sun") and holder[other] == holder[name]:
                assert np.hypot(x - ox, y - oy) >= radius + oradius
