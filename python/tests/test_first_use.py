"""./mahunopi in a fresh copy of the repository: its first use and later ones. A stand-in for rt proves nothing and takes no time."""

import os
import re
import resource
import shutil
import signal
import subprocess
import time
from pathlib import Path

import pytest

from conftest import SECONDS, Terminal, started, wait_until

ROOT = Path(__file__).resolve().parents[2]
LIBRARY = Path(os.environ.get("MAHUNOPI_LIB") or ROOT / "target/staticlib") / "libmahunopi.a"
# what rt is asked for last: the static library, for every x86-64 processor
BUILT = "lib --cpu=x86-64 mahunopi_c"
RT = """#!/bin/sh
# rt lib, in a crate's folder, as far as its files go
crate=${PWD##*/}
echo "$* $crate" >>../../target/asked
[ ! -e ../../fails ] || { echo "that is no proof"; exit 1; }
# a test may hold it at a crate
while [ -e "../../hold-$crate" ]; do sleep 0.05; done
if [ "$crate" = mahunopi_c ]; then
    mkdir -p out && cp "$LIBRARY" out/libmahunopi_c.a
fi
"""


@pytest.fixture
def clone(tmp_path, monkeypatch):
    """The repository's files as a clone has them, and a path on which rt is the stand-in."""
    there = tmp_path / "clone"
    listed = subprocess.run(["git", "-C", ROOT, "ls-files", "-z", "--cached", "--others", "--exclude-standard"], capture_output=True, check=False)
    if listed.returncode:
        pytest.skip("this is no clone of the repository")
    for name in listed.stdout.decode().split("\0"):
        if name and (ROOT / name).is_file() and not name.startswith(("crates/", "rust/", "docs/")):
            (there / name).parent.mkdir(parents=True, exist_ok=True)
            shutil.copy2(ROOT / name, there / name)
    for crate in crates():
        (there / "crates" / crate).mkdir(parents=True)
    assert not (there / "python/mahunopi/libmahunopi.so").exists()
    tools = tmp_path / "tools"
    tools.mkdir()
    (tools / "rt").write_text(RT)
    (tools / "rt").chmod(0o755)
    monkeypatch.setenv("PATH", f"{tools}:{os.environ['PATH']}")
    monkeypatch.setenv("LIBRARY", str(LIBRARY))
    monkeypatch.delenv("MAHUNOPI_LIB", raising=False)
    monkeypatch.setenv("PYTHONDONTWRITEBYTECODE", "1")
    return there


def run(clone, *words, **more):
    done = subprocess.run([clone / "mahunopi", *words], capture_output=True, text=True, timeout=SECONDS, check=False, **more)
    return done.returncode, done.stdout, done.stderr


def processor_time():
    """What the programs that have ended so far took of the processors, in seconds."""
    used = resource.getrusage(resource.RUSAGE_CHILDREN)
    return used.ru_utime + used.ru_stime


def crates():
    """The crates that the library is made of."""
    uses = dict(re.findall(r"(?m)^([a-z0-9_]+)(?: staticlib)?:(.*)$", (ROOT / "crates.txt").read_text()))
    found, waiting = set(), ["mahunopi_c"]
    while waiting:
        name = waiting.pop()
        if name in uses and name not in found:
            found.add(name)
            waiting += uses[name].split()
    return found


def test_the_first_command_of_the_readme(clone):
    command = re.search(r"(?m)^\./(mahunopi view \S+)$", (ROOT / "README.md").read_text())[1].split()
    status, out, err = run(clone, *command[1:], cwd=clone)
    assert status == 0 and re.fullmatch(r"torus\.html: [\d,]+ bytes, to be opened in a browser\n", out)
    assert re.fullmatch(rf"mahunopi: proving {len(crates())} crates, once \.\.\nmahunopi: {len(crates())} crates proved in \d+ s\n", err)
    asked = (clone / "target/asked").read_text().split("\n")
    assert sorted(asked) == sorted(["", BUILT, *(f"lib {crate}" for crate in crates() - {"mahunopi_c"})]) and asked[-2:] == [BUILT, ""]
    assert (clone / "target/log/first-use.txt").read_text().count("== ") == len(crates())
    times = []
    for _ in range(5):
        began = processor_time()
        assert run(clone, "info", clone / "meshes/cube.dms")[::2] == (0, "")
        times.append(processor_time() - began)
    assert min(times) < 1, times
    assert (clone / "target/asked").read_text().split("\n") == asked
    # a library that was built anew is taken
    later = time.time() + 5
    os.utime(clone / "target/staticlib/libmahunopi.a", (later, later))
    assert run(clone, "--version")[0] == 0 and (clone / "target/asked").read_text().count("\n") == len(crates())


def test_a_library_that_is_older_than_its_sources_is_built_anew(clone):
    """As after a pull: other text in a crate that the library is made from; not what only bears another time."""
    source, program = clone / "crates/mesh/src/lib.rt", clone / "crates/report/src/main.rt"
    for path in (source, program):
        path.parent.mkdir(parents=True, exist_ok=True)
        path.write_text("first")
    assert run(clone, "--version")[0] == 0
    asked = clone / "target/asked"

    def later(path, text, seconds):
        path.write_text(text)
        os.utime(path, (time.time() + seconds,) * 2)
        return run(clone, "--version"), asked.read_text().count(BUILT)

    # a program's source, and the same text at another time
    for path, text in ((program, "second"), (source, "first")):
        (status, _, err), built = later(path, text, -0.01)
        assert (status, err, built) == (0, "", 1)
    (status, _, err), built = later(source, "second", 0)
    assert status == 0 and err.startswith("mahunopi: the library is older than its sources\nmahunopi: proving ") and built == 2
    assert run(clone, "--version")[::2] == (0, "") and asked.read_text().count(BUILT) == 2
    # where it was built by hand, times tell
    (clone / "target/staticlib/made-from").unlink()
    assert later(source, "second", 0)[1] == 3
    source.write_text("third")
    poor = ":".join(folder for folder in os.environ["PATH"].split(":") if not (Path(folder) / "rt").exists())
    status, out, err = run(clone, "--version", env={**os.environ, "PATH": poor})
    assert (status, out) == (2, "") and err.startswith("mahunopi: the library is older than its sources, and the Rattle kit")
    (clone / "python/mahunopi/libmahunopi.so").unlink()
    status, out, err = run(clone, "--version", env={**os.environ, "MAHUNOPI_LIB": str(clone)})
    assert (status, out, err) == (2, "", f"mahunopi: MAHUNOPI_LIB names {clone}, which has no libmahunopi.a\n")


def test_one_line_of_progress_on_a_terminal(clone):
    count = len(crates())
    # the prover waits at the first and at the last crate until that is shown
    held = {1: clone / "hold-paper", count: clone / "hold-mahunopi_c"}
    for hold in held.values():
        hold.touch()
    cube = (ROOT / "meshes/cube.dms").read_bytes()
    ours, theirs = os.pipe()
    os.write(theirs, cube)
    os.close(theirs)
    try:
        words = [clone / "mahunopi", "turn", "-"]
        with Terminal() as terminal, started(words, stdin=ours, stdout=subprocess.PIPE, stderr=terminal.theirs) as process:
            os.close(ours)
            terminal.leave()
            for number, hold in held.items():
                terminal.until(f"proving {number} of {count} crates")
                hold.unlink()
            out, _ = process.communicate(timeout=SECONDS)
            shown = terminal.whole()
    finally:
        for hold in held.values():
            hold.unlink(missing_ok=True)
    # what was piped in is for the command
    assert process.returncode == 0 and out == cube
    assert f"mahunopi: proving 1 of {count} crates .." in shown and f"\rmahunopi: proving {count} of {count} crates .." in shown
    assert f"proving {count + 1} of" not in shown and shown.split("\r\033[K")[0].count("\n") == 0 and f"mahunopi: {count} crates proved in" in shown


@pytest.mark.parametrize("number", [signal.SIGINT, signal.SIGTERM, signal.SIGHUP])
def test_an_interrupt_ends_the_prover(clone, tmp_path, number):
    slow = tmp_path / "tools/rt"
    slow.write_text("#!/bin/sh\necho $$ >>../../target/prover\nwhile [ -e ../../hold ]; do sleep 0.1; done\n")
    hold, prover, said = clone / "hold", clone / "target/prover", tmp_path / "said"
    hold.touch()
    try:
        with open(said, "wb") as file, started([clone / "mahunopi", "--version"], stderr=file) as process:
            wait_until(lambda: prover.exists() and prover.read_text().endswith("\n"), process)
            # before this line the prover runs, and an interrupt is not waited for yet
            wait_until(lambda: said.read_text() == f"mahunopi: proving {len(crates())} crates, once ..\n", process)
            os.killpg(process.pid, number)
            process.communicate(timeout=SECONDS)
        assert process.returncode in (128 + number, -number)
        wait_until(lambda: not any(Path(f"/proc/{pid}").exists() for pid in prover.read_text().split()))
    finally:
        # what was not interrupted ends too
        hold.unlink()


def test_what_stands_in_the_way_is_said(clone, tmp_path):
    (clone / "fails").touch()
    status, out, err = run(clone, "--version")
    assert (status, out) == (2, "") and err.split("\n")[1:] == [
        "rt: paper NOT PROVED", "mahunopi: that failed; what the prover said is in target/log/first-use.txt", ""]
    # a path with neither rt nor apt-get nor a C compiler
    poor = tmp_path / "poor"
    poor.mkdir()
    for name in ("sh", "dirname", "readlink", "mkdir", "id", "awk", "wc", "grep", "date", "sleep", "flock", "env"):
        if shutil.which(name):
            (poor / name).symlink_to(shutil.which(name))
    status, out, err = run(clone, "--version", env={"PATH": str(poor), "HOME": str(tmp_path)})
    assert (status, out) == (2, "") and err == "mahunopi: missing: gcc (Debian's names; as root .ci/install command installs them)\n"
    (poor / "gcc").symlink_to(shutil.which("gcc"))
    status, out, err = run(clone, "--version", env={"PATH": str(poor), "HOME": str(tmp_path)})
    assert (status, out) == (2, "") and err.startswith("mahunopi: the library is not built, and the Rattle kit that proves and builds it (rt) is not on")
    (poor / "cc").symlink_to(shutil.which("cc"))
    (poor / "ld").symlink_to(shutil.which("ld"))
    status, out, err = run(clone, "--version", env={"PATH": str(poor), "HOME": str(tmp_path), "MAHUNOPI_LIB": str(LIBRARY.parent)})
    assert status == 0 and err == ""


def test_what_is_missing_is_installed_where_that_is_allowed(clone, tmp_path):
    """Root, with stand-ins for id and apt-get, on a path without a C compiler."""
    poor = tmp_path / "poor"
    poor.mkdir()
    for name in ("sh", "dirname", "readlink", "mkdir", "awk", "wc", "grep", "date", "sleep", "flock", "env", "find", "cc", "ld"):
        (poor / name).symlink_to(shutil.which(name))
    (poor / "id").write_text("#!/bin/sh\necho 0\n")
    (poor / "apt-get").write_text(f"#!/bin/sh\necho \"apt-get $*\"\n[ $1 = update ] || /bin/ln -s {shutil.which('gcc')} {poor}/gcc\n")
    for name in ("id", "apt-get"):
        (poor / name).chmod(0o755)
    status, out, err = run(clone, "--version", env={"PATH": str(poor), "HOME": str(tmp_path), "MAHUNOPI_LIB": str(LIBRARY.parent)})
    assert status == 0 and err == "mahunopi: installing gcc ..\n"
    assert (clone / "target/log/install.txt").read_text() == "apt-get update\napt-get install -y --no-install-recommends gcc\n"


@pytest.mark.parametrize("ci, status", [("", 0), ("true", 1)])
def test_a_browser_that_cannot_be_installed(tmp_path, ci, status):
    """Its tests are skipped in words, and fail in CI."""
    poor = tmp_path / "poor"
    poor.mkdir()
    (poor / "sh").symlink_to(shutil.which("sh"))
    for name in ("gcc", "g++", "cmake", "pkg-config", "cargo", "rustc"):
        (poor / name).symlink_to(shutil.which("true"))
    (poor / "apt-get").symlink_to(shutil.which("false"))
    environment = {"PATH": str(poor), "HOME": str(tmp_path), "CI": ci}
    done = subprocess.run([ROOT / ".ci/install"], env=environment, capture_output=True, text=True, check=False)
    said = "chromium cannot be installed: the tests that need it are skipped, and in CI they fail\n"
    assert (done.returncode, done.stdout, done.stderr) == (status, "", said)
    listed = subprocess.run([ROOT / ".ci/install", "--missing"], env=environment, capture_output=True, text=True, check=False)
    assert (listed.returncode, listed.stdout) == (0, "chromium\n")
    code = "import sys; sys.path.insert(0, sys.argv[1]); import browser; browser.browser()"
    tried = subprocess.run(["/usr/bin/python3", "-c", code, str(Path(__file__).parent)], env=environment, capture_output=True, text=True, check=False)
    assert f"{'Failed' if ci else 'Skipped'}: chromium is not installed (.ci/install installs it)" in tried.stderr


def test_modules_of_the_folder_that_one_is_in_are_not_taken(clone, tmp_path, monkeypatch):
    monkeypatch.setenv("MAHUNOPI_LIB", str(LIBRARY.parent))
    for name in ("argparse", "numpy", "library"):
        (tmp_path / f"{name}.py").write_text("raise ImportError('not meant')")
    assert run(clone, "info", clone / "meshes/cube.dms", cwd=tmp_path)[::2] == (0, "")


def test_a_library_that_is_older_than_the_header_is_said(clone):
    header = clone / "include/mahunopi.h"
    text = header.read_text()
    header.write_text(text.replace("uint32_t mahunopi_merge(", "uint32_t mahunopi_later(\n    uint64_t *place);\nuint32_t mahunopi_merge("))
    status, out, err = run(clone, "--version")
    assert (status, out) == (2, "") and err.endswith("is older than the header, it has no mahunopi_later: run `.ci/staticlib`\n")
