"""`mahunopi report`: any number of files, on any number of processors, and what comes in its way."""

import contextlib
import json
import os
import re
import signal
import subprocess
from pathlib import Path

import numpy as np
import pytest

import mahunopi
from conftest import SECONDS, Terminal, opened, started, state, wait_until
from mahunopi.borders import misses
from mahunopi.reporting import MOST_CHUNK, where
from shapes import cube, mesh_of, prism, round_torus
from test_command import COMMAND, room, run  # noqa: F401

ROOT = Path(__file__).resolve().parents[2]
PROGRAM = ROOT / "target/bin/report"


def whole(points, faces, scale):
    return mesh_of([[round(scale * x) for x in point] for point in points], faces)


def page_of(paths):
    page = np.zeros(21, np.uint64)
    for path in paths:
        mahunopi.report(Path(path).read_bytes(), page)
    return page.tolist()


def test_the_sample_meshes(room):  # noqa: F811
    samples = ROOT / "meshes"
    names = sorted(str(path) for path in samples.glob("*.dms"))
    status, out, err = run("report", str(samples))
    assert (status, err) == (1, "")
    lines = out.decode().split("\n")
    assert lines[:5] == ["meshes offered: 7", "corners built: 588", "borders met: 1,176", "refused: 1", "  by 12: 1"]
    assert lines[5] == f"largest miss of condition 1: 6.648 of 13 ticks: {samples}/crisp-prism.dms, corner 2, side 1, x"
    assert lines[9:] == ["refused files:", f"  {samples}/flat.dms: refused 12 at vertex 0: a vertex is named by fewer than 3 or more "
                         "than 16 corners", ""]
    line = "page " + " ".join(map(str, page_of(names)))
    assert run("report", "--page", *names) == (1, (line + "\n").encode(), "")
    if PROGRAM.exists():
        assert subprocess.run([PROGRAM, *names], capture_output=True, check=False).stdout.decode().split("\n")[-2] == line
        pages = "".join(run("report", "--page", *part)[1].decode() for part in (names[:3], names[3:]))
        merged = subprocess.run([PROGRAM, "merge"], input=pages, capture_output=True, text=True, check=False).stdout
        assert pages.count("\n") == 2 and merged.split("\n")[-2] == line
    told = json.loads(run("report", "--json", *names)[1])
    assert told["pages"] == [page_of(names)] and told["finished"] and told["names"] == told["reported"] == 7
    assert told["refused"][0]["number"] == 12 and told["refused_by"]["12"] == 1
    for one in told["largest"]:
        mesh = mahunopi.decode(Path(one["file"]).read_bytes())
        links = mahunopi.link(mesh)
        found = misses(mesh, links, mahunopi.build(mesh, links))
        assert abs(found[one["corner"], one["side"], one["condition"] - 1, "xyz".index(one["coordinate"])]) == one["miss"]


def test_where_the_largest_misses_are(room):  # noqa: F811
    """Corner by corner without numpy, and all corners at once with it."""
    rng = np.random.default_rng(5)
    for sides in range(3, 17):
        mesh = whole(*prism(sides), 1)
        mesh.coordinates[:] = rng.integers(-65_536, 65_537, mesh.coordinates.shape)
        mesh = mahunopi.Mesh(mesh.coordinates, mesh.sides, mesh.corners, rng.integers(0, 17, (mesh.corners.size, 2), np.uint8))
        (room / "it.dms").write_bytes(mahunopi.encode(mesh))
        links = mahunopi.link(mesh)
        found = np.abs(misses(mesh, links, mahunopi.build(mesh, links)))
        largest = found.max(axis=(0, 1, 3)).tolist()
        places = [np.argwhere(found[:, :, condition] == miss)[0].tolist() for condition, miss in enumerate(largest)]
        assert where("it.dms", list(enumerate(largest))) == {condition: (corner, side, "xyz"[axis])
                                                             for condition, (corner, side, axis) in enumerate(places)}
    assert where("it.dms", [(0, 1 << 40)]) == where("gone.dms", [(0, 1)]) == {}


def test_a_report_needs_no_numpy(room):  # noqa: F811
    """Which takes as long to start as hundreds of files take."""
    (room / "poor").mkdir()
    (room / "poor/numpy.py").write_text("raise ImportError")
    environment = {**os.environ, "PYTHONPATH": "poor"}
    assert run("report", str(ROOT / "meshes"), env=environment) == run("report", str(ROOT / "meshes"))
    assert b"ImportError" in subprocess.run([*COMMAND, "info", str(ROOT / "meshes/cube.dms")], env=environment, capture_output=True, check=False).stderr


def test_five_thousand_files(room):  # noqa: F811
    (room / "year").mkdir()
    kinds = [mahunopi.encode(cube()), mahunopi.encode(whole(*round_torus(3, 4), 50)), mahunopi.encode(whole(*prism(5), 1))]
    refused = [(mahunopi.encode(cube())[:-1], 3), (b"", 1), ((ROOT / "meshes/flat.dms").read_bytes(), 12),
               (mahunopi.encode(cube()) + b"\0" * 100_000, 3)]
    worst = (ROOT / "meshes/crisp-prism.dms").read_bytes()
    wrong, missing = {}, []
    for number in range(5_000):
        path = room / "year" / f"{number:04}.dms"
        if number % 97 == 5:
            data, wrong[f"year/{number:04}.dms"] = refused[number % 4]
            path.write_bytes(data)
        elif number % 501 == 0:
            path.symlink_to("nowhere")
            missing.append(f"year/{number:04}.dms")
        else:
            path.write_bytes(worst if number in (4_200, 4_300) else kinds[number % 3])
    answers = [run("report", "year", "--jobs", jobs, *form) for form in ([], ["--json"], ["--page"]) for jobs in ("1", "2")]
    assert all(answer[0] == 2 for answer in answers)
    for one, two in zip(answers[::2], answers[1::2]):
        assert one == two
    told = json.loads(answers[2][1])
    assert told["meshes"] == 5_000 - len(missing) == told["pages"][0][0] + told["pages"][1][0]
    assert {one["file"]: one["number"] for one in told["refused"]} == wrong and len(wrong) == 52
    assert [one["file"] for one in told["unreadable"]] == missing
    assert {one["words"] for one in told["unreadable"]} == {"No such file or directory"}
    names = sorted(os.listdir("year"))
    readable = [[f"year/{name}" for name in part if os.path.exists(f"year/{name}")] for part in (names[:4_096], names[4_096:])]
    assert told["pages"] == [page_of(part) for part in readable]
    assert told["largest"][0]["file"] == "year/4200.dms" and told["largest"][0]["ticks"] == "6.648"
    words = answers[0][1].decode()
    assert words.startswith(f"meshes offered: {5_000 - len(missing):,} (2 pages of at most 4,096)\n") and answers[0][2] == ""
    assert words.count("\n  year/") == len(wrong) + len(missing)
    assert answers[4][1].decode() == "".join("page " + " ".join(map(str, page)) + "\n" for page in told["pages"])
    assert answers[4][2].count("\n") == len(missing)


def test_names(room):  # noqa: F811
    (room / "a.dms").write_bytes(mahunopi.encode(cube()))
    (room / "with space.dms").write_bytes(mahunopi.encode(cube()))
    (room / "deep/er").mkdir(parents=True)
    (room / "deep/er/B.DMS").write_bytes(mahunopi.encode(cube()))
    (room / "deep/notes.txt").write_bytes(b"no mesh")
    status, out, err = run("report", "--names", "-", "deep", given=b"\xef\xbb\xbfa.dms\r\nwith space.dms\r\n\r\n./a.dms\r\n")
    assert (status, err) == (0, "") and out.startswith(b"meshes offered: 3\n")
    assert out.endswith(b"named more than once, counted once:\n  a.dms\n")
    (room / "list").write_bytes(b"a.dms\0with space.dms\0")
    assert json.loads(run("report", "--names", "list", "--json")[1])["meshes"] == 2
    odd = os.fsdecode(b"odd\n\xff.dms")
    (room / odd).write_bytes(b"DMS")
    status, out, err = run("report", odd)
    assert status == 1 and os.fsencode("  odd\\n\udcff.dms: refused 1: ") in out and out.count(b"\n") == 11
    assert json.loads(run("report", odd, "--json")[1])["refused"][0]["file"] == odd
    (room / "none").mkdir()
    status, out, err = run("report", "none", "gone.dms", "a.dms", "a.dms", "--page")
    assert status == 2 and err == ("gone.dms: No such file or directory\nnone: no file in it has a name that ends in .dms\n"
                                   "a.dms: named more than once, counted once\n")
    for words, said in [((), "name files or folders, or a list of them by --names"), (("-",), "- is no file here"),
                        (("a.dms", "--jobs", "0"), "'0' is no number of 1 to 1024 processors"),
                        (("a.dms", "--json", "--page"), "not allowed with")]:
        status, out, err = run("report", *words)
        assert (status, out) == (2, b"") and said in err and err.count("\n") == 1
    assert run("report", "--names", "nothing")[::2] == (2, "nothing: No such file or directory\n")


def many_files(pipes):
    """20,000 files of one mesh, by their names. Those of some places are named pipes: who reads one waits until it is written and closed."""
    Path("year").mkdir()
    Path("one.dms").write_bytes(mahunopi.encode(whole(*round_torus(16, 32), 10_000)))
    names = [f"year/{number:04}.dms" for number in range(20_000)]
    for number, name in enumerate(names):
        os.mkfifo(name) if number in pipes else os.link("one.dms", name)
    return names


def interrupt(process, kind):
    """As a terminal does: to all processes of the run."""
    os.killpg(process.pid, kind) if kind != signal.SIGTERM else process.send_signal(kind)


INTERRUPTS = pytest.mark.parametrize("kind, status", [(signal.SIGINT, 130), (signal.SIGTERM, 143), (signal.SIGHUP, 129)])


@pytest.mark.parametrize("jobs", ["1", "2"])
@INTERRUPTS
def test_an_interrupt_prints_the_page_so_far(room, jobs, kind, status):  # noqa: F811
    # nobody writes the last file, so that the report does not come to its end before the interrupt
    names = many_files([19_999])
    os.mkfifo("names")
    words = [*COMMAND, "report", "--names", "names", "--jobs", jobs, "--json"]
    with Terminal() as terminal, started(words, stdout=subprocess.PIPE, stderr=terminal.theirs) as process:
        terminal.leave()
        with opened("names", process) as file:
            file.write("\n".join(names).encode())
        # the bar counts files that are on the page
        terminal.until(r"[1-9]\d*/20000")
        interrupt(process, kind)
        out, _ = process.communicate(timeout=SECONDS)
        *bars, note, end = terminal.whole().split("\r")
    assert process.returncode == status
    told = json.loads(out)
    assert not told["finished"] and told["names"] == 20_000
    reported = told["reported"]
    assert 0 < reported < 20_000 and told["meshes"] == reported and told["corners"] == 2_048 * reported
    assert note + end == f"mahunopi report: interrupted; this is the page of the first {reported:,} of 20,000 files\n"
    # before it there is nothing but the bar, which is gone
    assert all(re.fullmatch(r" *\d+%.*\b\d+/20000 \[.*\] *| *", bar) for bar in bars) and not bars[-1].strip()


@INTERRUPTS
def test_an_interrupt_where_there_is_no_terminal(room, kind, status):  # noqa: F811
    """One process waits in the third chunk of files, so that two are on the page."""
    pipe = many_files([2 * MOST_CHUNK + 1])[2 * MOST_CHUNK + 1]
    with started([*COMMAND, "report", "year", "--jobs", "1", "--json"], stdout=subprocess.PIPE, stderr=subprocess.PIPE) as process:
        with opened(pipe, process):
            # it has the pipe, and what it sleeps for is the file: Python does not act on a signal between the two before the file comes
            wait_until(lambda: state(process) == "S", process)
            interrupt(process, kind)
            out, err = process.communicate(timeout=SECONDS)
    assert process.returncode == status
    told = json.loads(out)
    assert not told["finished"] and told["names"] == 20_000
    assert told["reported"] == told["meshes"] == 2 * MOST_CHUNK and told["corners"] == 2_048 * 2 * MOST_CHUNK
    assert err.decode() == f"mahunopi report: interrupted; this is the page of the first {2 * MOST_CHUNK:,} of 20,000 files\n"


def test_a_process_that_is_killed_ends_the_run(room):  # noqa: F811
    # nobody has written the last files of three chunks, so that each of the three processes waits in one of these
    places = [chunk * MOST_CHUNK - 1 for chunk in (3, 4, 5)]
    names = many_files(places)
    with started([*COMMAND, "report", "year", "--jobs", "3"], stdout=subprocess.PIPE, stderr=subprocess.PIPE) as process:
        with contextlib.ExitStack() as files:
            for place in places:
                files.enter_context(opened(names[place], process))
            children = Path(f"/proc/{process.pid}/task/{process.pid}/children").read_text().split()
            assert len(children) == 2
            os.kill(int(children[0]), signal.SIGKILL)
        out, err = process.communicate(timeout=SECONDS)
    assert process.returncode == 2 and out.startswith(b"meshes offered: ")
    assert re.fullmatch(r"mahunopi report: a process was ended from outside; this is the page of the first [\d,]+ of 20,000 files\n", err.decode())


def test_progress_on_a_terminal(room):  # noqa: F811
    (room / "a.dms").write_bytes(mahunopi.encode(cube()))
    (room / "b.dms").write_bytes(mahunopi.encode(cube()))
    with Terminal() as terminal:
        done = subprocess.run([*COMMAND, "report", "."], stdout=subprocess.PIPE, stderr=terminal.theirs, timeout=SECONDS, check=False)
        shown = terminal.whole()
    assert done.returncode == 0 and done.stdout.startswith(b"meshes offered: 2\n") and re.search("0/2", shown)
