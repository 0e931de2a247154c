"""The command by status, lines and files."""

import contextlib
import os
import re
import signal
import subprocess
import time
from pathlib import Path

import pytest

import mahunopi
from conftest import SECONDS, Terminal, opened, started, state, wait_until
from mahunopi.command import main
from mahunopi.shape import Shape
from mahunopi.surface import sizes
from shapes import CUBE_FACES, CUBE_POINTS, bipyramid, cube, faces_of, mesh_of, obj, off, ply, prism, round_torus, size_at, stl, torus, turned

ROOT = Path(__file__).resolve().parents[2]
COMMAND = [str(ROOT / "mahunopi")]
OUTWARD = [tuple(reversed(face)) for face in CUBE_FACES]
COMMANDS = ["info", "import", "turn", "triangles", "view", "report", "nest"]


@pytest.fixture(autouse=True)
def room(tmp_path, monkeypatch):
    """A folder of its own."""
    monkeypatch.chdir(tmp_path)
    monkeypatch.setenv("PYTHONWARNINGS", "error")
    return tmp_path


def run(*words, given=None, **more):
    """Status, standard output and standard error."""
    done = subprocess.run([*COMMAND, *words], input=given, capture_output=True, timeout=SECONDS, **more)
    return done.returncode, done.stdout, os.fsdecode(done.stderr)


def wrong_cube():
    """The cube with faces 2 and 5 drawn the wrong way round."""
    return mesh_of(CUBE_POINTS, [turned(face) if i in (2, 5) else face for i, face in enumerate(CUBE_FACES)])


def whole_off(faces=CUBE_FACES):
    return off(CUBE_POINTS, faces).replace(b".0", b"")


# ---- info


def test_info(room):
    (room / "cube.dms").write_bytes(mahunopi.encode(cube()))
    status, out, err = run("info", "cube.dms")
    lines = out.decode().split("\n")
    assert (status, err, lines.pop()) == (0, "", "")
    assert lines[:9] == [
        "cube.dms: 8 vertices, 6 faces, 24 corners, version 1",
        "  8 vertices of 3 corners",
        "  6 faces of 4 sides",
        "  1 part, Euler number 2",
        "  volume 216 cubic steps, faces run clockwise seen from outside",
        "  from -3 -3 -3 to 3 3 3 steps",
        "  8 vertices not of four corners: 0 1 2 3 4 5 6 7",
        "  sharpness 8 and 8 throughout",
        "  level 1: 50 points, 96 triangles",
    ]
    assert len(lines) == 8 + 16 and lines[-1] == "  level 16: 12,290 points, 24,576 triangles"


def test_info_of_other_meshes(room):
    files = {
        "two.dms": mahunopi.encode(mesh_of(CUBE_POINTS + [(x + 9, y, z) for x, y, z in CUBE_POINTS],
                                           OUTWARD + [tuple(8 + v for v in face) for face in OUTWARD])),
        "torus.dms": mahunopi.encode(mesh_of(*round_torus(12, 8))),
        "sharp.dms": mahunopi.encode(mesh_of([[round(x) for x in p] for p in prism(12)[0]], prism(12)[1]), 2)[:-6] + b"\x10" * 6,
        "cube.off": whole_off(),
    }
    for name, data in files.items():
        (room / name).write_bytes(data)
    status, out, err = run("info", *files)
    said = out.decode()
    assert (status, err) == (0, "") and [line.split(":")[0] for line in said.split("\n") if line[:1] not in ("", " ")] == list(files)
    two, whole, sharp, text = re.split(r"\n(?=\S)", said)
    assert "2 parts, Euler number 4\n  volume 432 cubic steps, faces run counter-clockwise seen from outside" in two
    assert "from -3 -3 -3 to 12 3 3 steps" in two
    assert "1 part, Euler number 0" in whole and "\n  all squares\n" in whole
    assert "version 2" in sharp and "3 corners of other sharpness than 8 and 8" in sharp and "2 faces not of four sides: 0 1\n" in sharp
    assert "24 vertices not of four corners: 0 1 2 3 4 5 6 7 8 9 ..\n" in sharp
    assert text.startswith("cube.off: 8 vertices, 6 faces, 24 corners, version 1")
    assert run("info", "-", given=files["cube.off"])[1].decode() == text.replace("cube.off", "standard input")
    # all into one file, without those that are refused
    (room / "flat.dms").write_bytes((ROOT / "meshes/flat.dms").read_bytes())
    status, out, err = run("info", *files, "flat.dms", "-o", "told.txt")
    assert (status, out, err.split(":")[0]) == (1, b"", "flat.dms") and (room / "told.txt").read_text() == said
    assert run("info", "flat.dms", "-o", "none.txt")[0] == 1 and not (room / "none.txt").exists()
    assert run("info", "cube.off", "-o", "none/told.txt") == (2, b"", "none/told.txt: No such file or directory\n")
    assert run("info", "cube.off", "-o", "-")[1].decode() == text


def test_levels_are_those_of_sampled_nets():
    """A mesh of one level has the points of all nets' samples, shared, and four triangles in N^2 parts for each corner."""
    mesh = cube()
    points = mahunopi.build(mesh, mahunopi.link(mesh))
    for level, count, triangles in sizes(mesh):
        assert (count, triangles) == size_at(mesh, level)
        if level in (1, 2, 5):
            seen = {tuple(p) for net in points for side in range(4) for p in mahunopi.sample_triangle(net, side, level).tolist()}
            assert count == len(seen) and triangles == 24 * 4 * level * level


# ---- import


@pytest.mark.parametrize("name, data", [
    ("cube.obj", obj(CUBE_POINTS, OUTWARD)), ("slots.obj", obj(CUBE_POINTS, OUTWARD, True, True)), ("cube.off", off(CUBE_POINTS, OUTWARD)),
    ("coff.off", off(CUBE_POINTS, OUTWARD, "COFF", " 255 0 0 255", " 0 0 255")), ("text.ply", ply(CUBE_POINTS, OUTWARD)),
    ("binary.PLY", ply(CUBE_POINTS, OUTWARD, "binary_little_endian")), ("cube.stl", stl(CUBE_POINTS, OUTWARD)),
    ("text.stl", stl(CUBE_POINTS, OUTWARD, True))])
def test_import(room, name, data):
    (room / name).write_bytes(data)
    status, out, err = run("import", name, "-o", "made.dms")
    assert (status, err) == (0, "")
    faces = 12 if "stl" in name else 6
    assert out.decode() == (
        f"{name}: 8 points and {faces} faces became 8 vertices, {faces} faces, {36 if faces == 12 else 24} corners; --undo-scale 5e-05 "
        "0.0 0.0 0.0 undoes the scale; 0 faces turned, then all, to run clockwise seen from outside as .dms files do\n")
    mesh = mahunopi.decode((room / "made.dms").read_bytes())
    assert Shape(mesh).volume() == -(120_000**3) and sorted(os.listdir()) == sorted([name, "made.dms"])
    # the same through pipes, and the line of what was done beside
    piped = run("import", "--format", name.split(".")[1], "-", given=data)
    assert piped == (0, (room / "made.dms").read_bytes(), out.decode().replace(name, "standard input"))


def test_import_options(room):
    points, faces = prism(12, 2, 1)
    (room / "a.obj").write_bytes(obj(points, [turned(face) for face in faces]))
    assert run("import", "--step", "0.001", "--sharpness", "60", "a.obj", "-o", "sharp.dms")[0] == 0
    data = (room / "sharp.dms").read_bytes()
    mesh = mahunopi.decode(data)
    assert data[3] == 2 and mesh.coordinates.max() == 2_000 and (mesh.sharpness == 16).all(axis=1).sum() == 24
    status, out, _ = run("import", "--largest", "500", "--as-drawn", "a.obj", "-o", "drawn.dms")
    assert status == 0 and b"0 faces turned, all kept as drawn" in out and b"; --undo-scale 0.004 0.0 0.0 0.0 undoes" in out
    mesh = mahunopi.decode((room / "drawn.dms").read_bytes())
    assert (room / "drawn.dms").read_bytes()[3] == 1 and mesh.coordinates.max() == 500 and Shape(mesh).volume() > 0


def test_import_of_several(room):
    names = ["a.obj", "b.obj", "c.off"]
    for name in names:
        (room / name).write_bytes((off if name == "c.off" else obj)(CUBE_POINTS, OUTWARD[: 5 if name == "b.obj" else 6]))
    (room / "made").mkdir()
    status, out, err = run("import", *names, "-o", "made")
    assert status == 1 and [line.split(":")[0] for line in out.decode().splitlines()] == ["a.obj", "c.off"]
    assert err.startswith("b.obj: refused 34: 4 edges are not in exactly two faces: (") and err.count("\n") == 1
    assert sorted(os.listdir("made")) == ["a.dms", "c.dms"]
    (room / "a.stl").write_bytes(stl(CUBE_POINTS, OUTWARD))
    assert run("import", "a.obj", "a.stl", "-o", "made")[0::2] == (2, "mahunopi import: two files would both become a.dms in made\n")
    assert run("import", *names)[0::2] == (2, "mahunopi import: several files need a folder that is there, named by -o\n")
    assert run("import", "-", "a.obj", "-o", "made")[0] == 2


def test_import_refuses(room):
    (room / "open.off").write_bytes(off(CUBE_POINTS, OUTWARD[:5]))
    (room / "tips.obj").write_bytes(obj(*bipyramid(20)))
    (room / "large.stl").write_bytes(stl(*round_torus(60, 60)))
    (room / "empty.obj").write_bytes(b"")
    (room / "empty.off").write_bytes(b"OFF 0 0 0\n")
    (room / "name").write_bytes(b"x")
    for name, status, line in [
            ("open.off", 1, r"refused 34: 4 edges are not in exactly two faces: point 0 \(3 3 3\) to point 3 \(-3 3 3\) in 1 face; .*"),
            ("tips.obj", 1, r"refused 12: 2 vertices have fewer than 3 or more than 16 corners: \(0 0 1\) has 20; \(0 0 -1\) has 20"),
            ("large.stl", 1, r"refused 4: 3,600 vertices are 1,552 more than the 2,048 that a mesh may have, .*"),
            ("empty.off", 1, r"refused 4: it has no faces"), ("empty.obj", 2, r"it is empty"),
            ("name", 2, r"its name has no ending that tells the format"), ("none.obj", 2, r"No such file or directory"),
            (".", 2, r"Is a directory")]:
        got, out, err = run("import", name, "-o", "made.dms")
        assert (got, out) == (status, b"") and re.fullmatch(re.escape(name) + ": " + line + "\n", err), err
    assert run("import", "--format", "obj", "-", given=b"") == (2, b"", "standard input: it is empty\n")
    assert not os.path.exists("made.dms")


# ---- turn


@pytest.mark.parametrize("version", [1, 2])
def test_turn(room, version):
    data = mahunopi.encode(wrong_cube(), version)
    (room / "wrong.dms").write_bytes(data)
    assert run("turn", "wrong.dms", "-o", "sound.dms") == (0, b"wrong.dms: 2 of 6 faces turned: 2 5\n", "")
    sound = (room / "sound.dms").read_bytes()
    assert sound == mahunopi.encode(cube(), version)
    assert run("turn", "-", given=data) == (0, sound, "standard input: 2 of 6 faces turned: 2 5\n")
    assert run("turn", "-", given=sound) == (0, sound, "standard input: 0 of 6 faces turned\n")


def test_turn_of_a_text_and_refusals(room):
    (room / "wrong.off").write_bytes(whole_off(faces_of(wrong_cube())))
    assert run("turn", "wrong.off", "-o", "sound.dms")[:2] == (0, b"wrong.off: 2 of 6 faces turned: 2 5\n")
    assert (room / "sound.dms").read_bytes() == mahunopi.encode(cube())
    (room / "bottle.dms").write_bytes(mahunopi.encode(torus(4, 5, seam=True)))
    (room / "open.dms").write_bytes(mahunopi.encode(mesh_of(CUBE_POINTS, CUBE_FACES[:5])))
    for name, line in [("bottle.dms", "refused 35 at face 0: no choice of turns makes the model pass 10 and 11"),
                       ("open.dms", "refused 34 at corner 3: an edge, its direction ignored, is not in exactly two faces")]:
        assert run("turn", name, "-o", "none.dms") == (1, b"", f"{name}: {line}\n")
    assert not os.path.exists("none.dms")


# ---- refusals in words


def test_refusals_in_words(room, capfd):
    files = {
        "hull.off": (off([(x / 6, y, z) for x, y, z in CUBE_POINTS], CUBE_FACES),
                     "refused 25 at word 4: '0.5' is no whole number (mahunopi import takes it)"),
        "word.off": (b"OFF 1 0 0 7 seven 0", "refused 25 at word 5: 'seven' is no number"),
        "range.off": (b"OFF 70000 0 0", "refused 25 at word 1: '70000' is out of its range"),
        "short.off": (b"OFF 1 0 0 7", "refused 25 at word 5: the text ends after 5 words, where more are needed"),
        "more.off": (whole_off().replace(b"\n", b" ").replace(b"# counts", b"") + b" 7", "refused 26 at word 58: a word stands after the last face"),
        "colour.off": (whole_off() + b" 7", "refused 26 at word 58: a word stands after the last face (mahunopi import takes it)"),
        "far.off": (whole_off().replace(b"-3 3 -3", b"-3 3 1234567890"),
                    "refused 25 at word 27: '1234567890' is out of its range (mahunopi import takes it)"),
        "half.off": (whole_off().replace(b"4 0 1 2 3", b"4 0 1.5 2 3"), "refused 25 at word 30: '1.5' is no whole number"),
        "odd.off": (b"OFF 1 0 0 7 \x1b[1m 0", "refused 25 at word 5: '\\x1b[1m' is no number"),
        "cube.obj": (obj(CUBE_POINTS, CUBE_FACES),
                     "refused 1: the file has fewer than 11 bytes or another mark than DMS (mahunopi import takes it)"),
        "none.dms": (b"", "refused 1: the file has fewer than 11 bytes or another mark than DMS"),
        "third.dms": (b"DMS\3\0......", "refused 2: the file's version is neither 1 nor 2"),
        "flat.dms": (mahunopi.encode(mesh_of([(0, 0, 0)] * 3, [(0, 1, 2), (0, 2, 1)])),
                     "refused 12 at vertex 0: a vertex is named by fewer than 3 or more than 16 corners"),
    }
    for name, (data, line) in files.items():
        (room / name).write_bytes(data)
        assert (main(["info", name]), *capfd.readouterr()) == (1, "", f"{name}: {line}\n")
    status, out, err = run("info", *files)
    assert (status, out, err.count("\n")) == (1, b"", len(files))
    # the very example: hull.off has 0.5 as its fourth word
    (room / "hull.off").write_bytes(b"OFF 4 4 6\n0.5 0 0\n0 0.5 0\n0 0 0.5\n0 0 0\n3 0 1 2\n3 0 3 1\n3 1 3 2\n3 2 3 0\n")
    for command in (["info"], ["turn"], ["triangles", "--format", "obj"], ["view", "-o", "page.html"]):
        line = "hull.off: refused 25 at word 4: '0.5' is no whole number (mahunopi import takes it)\n"
        assert (main([*command, "hull.off"]), *capfd.readouterr()) == (1, "", line)
    assert main(["import", "hull.off", "-o", "hull.dms"]) == main(["info", "hull.dms"]) == 0
    (room / "cube.dms").write_bytes(mahunopi.encode(cube()))
    assert run("info", "flat.dms", "cube.dms", "nowhere.dms")[0] == 2
    name = "two\nlines.dms"
    (room / name).write_bytes(b"")
    assert run("info", name)[2].startswith("two\\nlines.dms: refused 1: ")
    name = b"\xff.dms"
    assert run("info", os.fsdecode(name))[0] == 2


# ---- usage


def test_usage():
    for words in [(), ("nonsense",), ("info",), ("import", "a", "--largest", "0"), ("import", "a", "--largest", "65537"),
                  ("import", "a", "--step", "0"), ("import", "a", "--step", "nan"), ("import", "a", "--sharpness", "181"),
                  ("import", "a", "--step", "1", "--largest", "9"), ("turn", "a", "--step", "1"), ("info", "a", "--level", "2"), ("import", "-"),
                  ("info", "-", "-"), ("turn", "-", "-", "-o", ".")]:
        status, out, err = run(*words, given=b"")
        assert (status, out) == (2, b"") and err.startswith("mahunopi") and err.count("\n") == 1, (words, err)
    assert re.findall(r"(?m)^    (\w+)\b", run("--help")[1].decode()) == COMMANDS
    assert run("--version") == (0, f"mahunopi {mahunopi.__version__}\n".encode(), "")


def test_examples_of_the_help_work(room):
    (room / "hull.obj").write_bytes(obj(*round_torus(12, 8)))
    (room / "drawn-wrong.off").write_bytes(whole_off(faces_of(wrong_cube())))
    for name in ("meshes/cube.dms", "archive/cube.dms", "before.dms", "after.dms"):
        (room / name).parent.mkdir(exist_ok=True)
        (room / name).write_bytes(mahunopi.encode(cube()))
    (room / "examples").symlink_to(ROOT / "examples")
    (room / "bin").mkdir()
    (room / "bin/mahunopi").symlink_to(ROOT / "mahunopi")
    for words in [[], *([name] for name in COMMANDS)]:
        status, said, err = run(*words, "--help")
        example = said.decode().split("example:\n  ")[1]
        assert (status, err) == (0, "") and " ".join(["mahunopi", *words]) in example
        path = f"{room}/bin:{os.environ['PATH']}"
        done = subprocess.run(["sh", "-c", example], env={**os.environ, "PATH": path}, capture_output=True, timeout=SECONDS)
        assert (done.returncode, done.stderr) == (0, b"") and done.stdout, example


# ---- a shell's edges


def test_streams_that_fail(room):
    (room / "cube.dms").write_bytes(mahunopi.encode(cube()))
    for words, status, err in [
            ("info - <&-", 2, "standard input: Bad file descriptor\n"), ("info - < .", 2, "standard input: Is a directory\n"),
            ("info - 0> x", 2, "standard input: Bad file descriptor\n"), ("info cube.dms >&-", 2, "standard output: Bad file descriptor\n"),
            ("info cube.dms > /dev/full", 2, "standard output: No space left on device\n"),
            ("turn cube.dms > /dev/full", 2, "standard output: No space left on device\n"),
            ("turn cube.dms >&-", 2, "standard output: Bad file descriptor\n"), ("info nowhere 2>&-", 2, ""),
            ("info cube.dms 2>/dev/full", 0, ""), ("info nowhere 2>/dev/full", 2, ""),
            ("--help >&-", 2, "standard output: Bad file descriptor\n"), ("import --help > /dev/full", 2, "standard output: No space left on device\n"),
            ("--version > /dev/full", 2, "standard output: No space left on device\n"),
            ("turn cube.dms -o nowhere/a.dms", 2, "nowhere/a.dms: No such file or directory\n"),
            ("turn cube.dms -o /dev/full", 2, "/dev/full: No space left on device\n")]:
        done = subprocess.run(["sh", "-c", f"{COMMAND[0]} {words}"], capture_output=True, timeout=SECONDS)
        assert done.returncode == status, words
        assert done.stderr.decode() == err, words
    assert sorted(os.listdir()) == ["cube.dms", "x"]


def test_broken_pipes(room):
    (room / "cube.dms").write_bytes(mahunopi.encode(cube()))
    (room / "cube.off").write_bytes(off(CUBE_POINTS, CUBE_FACES))
    for words in (["info"] + ["cube.dms"] * 500, ["turn", "cube.dms"], ["import", "cube.off"],
                  ["triangles", "--level", "16", "cube.dms", "--format", "obj"], ["--help"], ["--version"]):
        # nobody reads from the start, however quick the command is
        ours, theirs = os.pipe()
        os.close(ours)
        done = subprocess.run([*COMMAND, *words], stdout=theirs, stderr=subprocess.PIPE, timeout=SECONDS)
        os.close(theirs)
        assert done.stderr == b"" and done.returncode == 141


@pytest.mark.parametrize("number, status", [(signal.SIGINT, 130), (signal.SIGTERM, 143), (signal.SIGHUP, 129)])
def test_interrupts(room, number, status):
    """Ended while it waits for its input: quietly, and no file is left."""
    os.mkfifo(room / "pipe.dms")
    with started([*COMMAND, "turn", "pipe.dms", "-o", "made.dms"], stdout=subprocess.PIPE, stderr=subprocess.PIPE) as done:
        with opened(room / "pipe.dms", done):
            # it has the pipe, and what it sleeps for is the input
            wait_until(lambda: state(done) == "S", done)
            done.send_signal(number)
            out, err = done.communicate(timeout=SECONDS)
    assert (done.returncode, out, err) == (status, b"", b"") and os.listdir() == ["pipe.dms"]


@pytest.mark.parametrize("number, status", [(signal.SIGINT, 130), (signal.SIGTERM, 143), (signal.SIGHUP, 129)])
def test_interrupts_at_the_start(room, number, status):
    """Ended by the shell's part, while Python and numpy start, or done before: quietly."""
    (room / "cube.dms").write_bytes(mahunopi.encode(cube()))
    for delay in (0.01, 0.04, 0.08, 0.12):
        done = subprocess.Popen([*COMMAND, "info", "cube.dms"], stdout=subprocess.PIPE, stderr=subprocess.PIPE)
        time.sleep(delay)
        done.send_signal(number)
        _, err = done.communicate(timeout=SECONDS)
        assert done.returncode in (status, -number, 0) and err == b""


@pytest.mark.parametrize("number, status", [(signal.SIGINT, 130), (signal.SIGTERM, 143), (signal.SIGHUP, 129)])
def test_interrupts_while_writing(room, number, status):
    """Ended while a file is written: what was there stays, and nothing lies beside it."""
    (room / "torus.dms").write_bytes(mahunopi.encode(mesh_of(*round_torus(16, 16))))

    def writes():
        """whether bytes of the new file are there, and the file not yet in its place"""
        with contextlib.suppress(FileNotFoundError):
            return any(os.path.getsize(name) for name in os.listdir() if name.startswith(".made.obj."))
        return False

    for _ in range(20):
        (room / "made.obj").write_bytes(b"before")
        words = [*COMMAND, "triangles", "--level", "16", "torus.dms", "-o", "made.obj"]
        with started(words, stdout=subprocess.PIPE, stderr=subprocess.PIPE) as done:
            wait_until(lambda: writes() or state(done) == "Z")
            # it is stopped, so that it still writes when the signal comes
            done.send_signal(signal.SIGSTOP)
            wait_until(lambda: state(done) in "TZ")
            in_time = writes()
            done.send_signal(number)
            done.send_signal(signal.SIGCONT)
            out, err = done.communicate(timeout=SECONDS)
        if in_time:
            break
        # all was written before it was stopped: once more
        assert done.returncode in (status, 0) and err == b""
    assert (done.returncode, out, err) == (status, b"", b"") and (room / "made.obj").read_bytes() == b"before"
    assert sorted(os.listdir()) == ["made.obj", "torus.dms"]


def test_files_are_whole_or_not_there(room, monkeypatch):
    from mahunopi import command

    (room / "made.dms").write_bytes(b"before")
    os.chmod("made.dms", 0o640)
    command._write("made.dms", [b"after"])
    assert (room / "made.dms").read_bytes() == b"after" and os.stat("made.dms").st_mode & 0o777 == 0o640
    (room / "link.dms").symlink_to("made.dms")
    command._write("link.dms", [b"through"])
    assert os.path.islink("link.dms") and (room / "made.dms").read_bytes() == b"through"
    mask = os.umask(0o027)
    command._write("new.dms", [b"new"])
    os.umask(mask)
    assert os.stat("new.dms").st_mode & 0o777 == 0o640
    command._write("/dev/null", [b"nothing"])
    assert not os.path.isfile("/dev/null")

    def fails(*paths):
        raise KeyboardInterrupt

    monkeypatch.setattr(os, "replace", fails)
    with pytest.raises(KeyboardInterrupt):
        command._write("made.dms", [b"never"])
    assert (room / "made.dms").read_bytes() == b"through" and sorted(os.listdir()) == ["link.dms", "made.dms", "new.dms"]


def test_too_little_memory(room, monkeypatch, capfd):
    from mahunopi import command, models

    def none(*given):
        raise MemoryError

    monkeypatch.setattr(models, "read", none)
    (room / "a.off").write_bytes(whole_off())
    assert command.main(["import", "a.off", "-o", "a.dms"]) == 2
    assert capfd.readouterr() == ("", "a.off: there is not enough memory for it\n") and os.listdir() == ["a.off"]


def test_input_and_output_may_be_one_file(room):
    (room / "a.dms").write_bytes(mahunopi.encode(wrong_cube()))
    assert run("turn", "a.dms", "-o", "a.dms")[0] == 0 and (room / "a.dms").read_bytes() == mahunopi.encode(cube())


def test_a_terminal(room):
    """A bar for several files on a terminal, and no binary file there."""
    (room / "cube.dms").write_bytes(mahunopi.encode(cube()))
    with Terminal() as terminal:
        done = subprocess.run([*COMMAND, "info", "cube.dms", "cube.dms", "none.dms"], stdout=subprocess.PIPE, stderr=terminal.theirs, timeout=SECONDS)
        assert done.returncode == 2 and done.stdout.count(b"cube.dms: ") == 2
        shown = terminal.whole()
        assert "0/3" in shown and "none.dms: No such file or directory" in shown
    with Terminal() as terminal:
        done = subprocess.run([*COMMAND, "turn", "cube.dms"], stdout=terminal.theirs, stderr=subprocess.PIPE, timeout=SECONDS)
        assert (done.returncode, done.stderr) == (2, b"mahunopi turn: standard output is a terminal, name a file by -o\n")
