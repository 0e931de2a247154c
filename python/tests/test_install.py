"""What ./install puts into a folder: found by pkg-config, by CMake and by Python, wherever the folder is moved to."""

import os
import re
import shutil
import subprocess
from pathlib import Path

import pytest

import mahunopi
from conftest import SECONDS
from mahunopi.shape import Shape
from shapes import size_at

ROOT = Path(__file__).resolve().parents[2]
WARNINGS = "-Wall -Wextra -Wpedantic -Wconversion -Wshadow -Werror".split()
PROJECT = """cmake_minimum_required(VERSION 3.13)
project(user C CXX)
find_package(mahunopi {version} REQUIRED)
add_executable(cube {root}/examples/cube.c)
target_link_libraries(cube mahunopi::mahunopi)
add_executable(draw {root}/examples/draw.cpp)
set_target_properties(draw PROPERTIES CXX_STANDARD 17)
target_link_libraries(draw mahunopi::shared)
"""


def run(*words, **more):
    done = subprocess.run(list(map(str, words)), capture_output=True, text=True, timeout=SECONDS, check=False, **more)
    assert done.returncode == 0, f"{words}: {done.returncode}\n{done.stdout}{done.stderr}"
    return done.stdout


def tool(name):
    """A tool that .ci/install installs; where the gate runs it has to be there."""
    if shutil.which(name) is None:
        (pytest.fail if os.environ.get("CI") else pytest.skip)(f"{name} is not installed (.ci/install installs it)")
    return name


@pytest.fixture(scope="module")
def prefix(tmp_path_factory):
    """An installation, moved after it was made."""
    first = tmp_path_factory.mktemp("first") / "made here"
    said = run(ROOT / "install", first)
    assert said == f"installed in {first}: version {mahunopi.VERSION}.0, Python package in {packages(first).relative_to(first)}\n"
    moved = tmp_path_factory.mktemp("then") / "moved"
    return first.rename(moved)


def packages(prefix):
    return next(prefix.glob("lib/python3*/*-packages"))


def drawn(program, mesh, **more):
    """What examples/draw.cpp has to print of a mesh."""
    said = re.fullmatch(r"(\d+) vertices, (\d+) triangles, volume (\d+) cubic steps\n", run(program, ROOT / "meshes" / mesh, 4, **more))
    mesh = mahunopi.decode((ROOT / "meshes" / mesh).read_bytes())
    assert (int(said[1]), int(said[2])) == size_at(mesh, 4)
    assert 0.5 * abs(float(Shape(mesh).volume())) < float(said[3]) < abs(float(Shape(mesh).volume()))


def test_examples_by_pkg_config(prefix, tmp_path):
    environment = {**os.environ, "PKG_CONFIG_PATH": str(prefix / "lib/pkgconfig"), "LD_LIBRARY_PATH": str(prefix / "lib")}
    flags = run(tool("pkg-config"), "--cflags", "--libs", "mahunopi", env=environment).split()
    assert run("pkg-config", "--modversion", "mahunopi", env=environment) == f"{mahunopi.VERSION}.0\n"
    for source, compiler in (("cube.c", ["gcc", "-std=c11"]), ("inspect.c", ["gcc", "-std=c11"]), ("draw.cpp", ["g++", "-std=c++17"])):
        run(*compiler, *WARNINGS, ROOT / "examples" / source, "-o", tmp_path / source.split(".")[0], *flags)
    assert run(tmp_path / "cube", env=environment) == (ROOT / "examples/cube.expected").read_text()
    drawn(tmp_path / "draw", "torus.dms", env=environment)
    assert f"libmahunopi.so.{mahunopi.VERSION}" in run("objdump", "-p", tmp_path / "cube")
    run("gcc", "-static", ROOT / "examples/cube.c", "-o", tmp_path / "alone", *flags)
    assert run(tmp_path / "alone") == (ROOT / "examples/cube.expected").read_text()


def test_examples_by_cmake(prefix, tmp_path):
    (tmp_path / "CMakeLists.txt").write_text(PROJECT.format(version=mahunopi.VERSION, root=ROOT))
    spaced = tmp_path / "with space"
    shutil.copytree(prefix, spaced, symlinks=True)
    run(tool("cmake"), "-S", tmp_path, "-B", tmp_path / "build", f"-DCMAKE_PREFIX_PATH={spaced}")
    run("cmake", "--build", tmp_path / "build")
    assert run(tmp_path / "build/cube") == (ROOT / "examples/cube.expected").read_text()
    for mesh in ("cube.dms", "torus.dms", "crisp-prism.dms"):
        drawn(tmp_path / "build/draw", mesh)
    assert subprocess.run([tmp_path / "build/draw", ROOT / "meshes/flat.dms"], capture_output=True, check=False).stdout == b"refused 12 at 0\n"
    (tmp_path / "CMakeLists.txt").write_text(PROJECT.format(version=mahunopi.VERSION - 1, root=ROOT))
    wrong = subprocess.run(["cmake", "-S", tmp_path, "-B", tmp_path / "other", f"-DCMAKE_PREFIX_PATH={spaced}"], capture_output=True, check=False)
    assert wrong.returncode != 0 and b"version: %d.0" % mahunopi.VERSION in wrong.stderr


def test_the_package_and_the_command(prefix, tmp_path):
    environment = {"PATH": os.environ["PATH"], "PYTHONPATH": str(packages(prefix)), "PYTHONDONTWRITEBYTECODE": "1"}
    said = run("/usr/bin/python3", "-c", "import mahunopi; print(mahunopi.__file__, mahunopi.VERSION)", env=environment, cwd=tmp_path)
    assert said == f"{packages(prefix)}/mahunopi/__init__.py {mahunopi.VERSION}\n"
    del environment["PYTHONPATH"]
    link = tmp_path / "linked"
    link.symlink_to(prefix / "bin/mahunopi")
    for command in (prefix / "bin/mahunopi", link):
        assert run(command, "info", ROOT / "meshes/cube.dms", env=environment, cwd=tmp_path).count("\n") == 24
        assert run(command, "--version", env=environment) == f"mahunopi {mahunopi.VERSION}.0\n"
    run(prefix / "bin/mahunopi", "view", ROOT / "meshes/cube.dms", "-o", tmp_path / "cube.html", env=environment)


def test_the_manual_page(prefix):
    page = prefix / "share/man/man1/mahunopi.1"
    text = page.read_text()
    for command in ("info", "import", "turn", "triangles", "view", "report", "nest"):
        assert f'.SH "{command.upper()}"' in text
        for option in re.findall(r"(?m)^  (-\S)", run(prefix / "bin/mahunopi", command, "--help")):
            assert option.replace("-", "\\-") in text
    if shutil.which("groff"):
        done = subprocess.run(["groff", "-man", "-ww", "-z", page], capture_output=True, check=False)
        assert (done.returncode, done.stderr) == (0, b"")


def test_the_blender_add_on():
    """As far as that goes without Blender (python/blender/try.py tries it there)."""
    text = (ROOT / "python/blender/mahunopi_surface.py").read_text()
    compile(text, "mahunopi_surface.py", "exec")
    assert f'"version": ({mahunopi.VERSION}, 0)' in text and text.count("\n") <= 150


def test_an_installation_is_renewed(prefix):
    (packages(prefix) / "mahunopi/old.py").write_text("")
    said = run(ROOT / "install", prefix)
    assert said.startswith(f"installed in {prefix}") and not (packages(prefix) / "mahunopi/old.py").exists()
    for words in ([], ["--help"], ["a", "b"], [""]):
        done = subprocess.run([ROOT / "install", *words], capture_output=True, check=False)
        assert (done.returncode, done.stdout, done.stderr) == (2, b"", b"usage: ./install PREFIX\n")
    staged = prefix.parent / "staged"
    run(ROOT / "install", "/usr/local", env={**os.environ, "DESTDIR": str(staged)})
    assert (staged / "usr/local/lib/libmahunopi.so").exists() and (packages(staged / "usr/local") / "mahunopi").is_dir()
