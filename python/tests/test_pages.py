"""The documents. What a page names in code font is in the repository: files, crates, functions, definitions, options. README's commands and programs
run, and print what it says. No page but the landing notes names what is gone."""

import math
import os
import re
import shutil
import struct
import subprocess
import sys
from pathlib import Path

import pytest

from conftest import SECONDS

ROOT = Path(__file__).resolve().parents[2]
NOTES = ROOT / "docs/landings"
# docs/PORT.md tells the move from an older Rattle and docs/DESIGN-PASS.md the rewriting after it, in the names of before and after
PAGES = [ROOT / "README.md", ROOT / "CHANGES.md", *sorted(page for page in (ROOT / "docs").glob("*.md") if page.name not in ("PORT.md", "DESIGN-PASS.md")), ROOT / "meshes/README.md", ROOT / "rust/README.md"]
LIMITS = {"README.md": 800, "docs/DECISIONS.md": 3000}
NOTE_LIMIT = 300
PROGRAM_LINES = 10
# what three readers from outside had to ask about
UNCLEAR = ["gone over", "said of", "asked besides", "the fringe"]
# in code font, and no name of ours: what programs read and write, letters, words of the languages, programs that come with the machine
TEXTS = set("""sun page refused merge as-drawn OFF DMS NAME PREFIX K c e s rt python3 gzip xz .dms ? # requires ensures pub as if match usize Result""".split())
RT = {"check", "ci", "must-fail", "lib", "run", "test", "try", "tidy", "all", "fmt", "doc", "version", "selftest"}


def text_of(page):
    return page.read_text("utf-8")


README = text_of(ROOT / "README.md")


def prose(page):
    """A page without its fenced and indented blocks."""
    text = re.sub(r"(?ms)^```.*?^```$", "", text_of(page))
    return re.sub(r"(?m)^    .*$", "", text)


def spans(page):
    return [span.strip() for span in re.findall(r"(?<!`)`([^`\n]+)`(?!`)", prose(page))]


@pytest.fixture(scope="module")
def files():
    """The repository's files and folders, by path from the root."""
    listed = subprocess.run(["git", "-C", ROOT, "ls-files", "-z", "--cached", "--others", "--exclude-standard"], capture_output=True, check=False)
    if listed.returncode:
        pytest.skip("this is no clone of the repository")
    found = {name for name in listed.stdout.decode().split("\0") if name and (ROOT / name).exists()}
    for name in list(found):
        found.update(str(folder) for folder in Path(name).parents if str(folder) != ".")
    return found


@pytest.fixture(scope="module")
def crates():
    return dict(re.findall(r"(?m)^([a-z0-9_]+)(?: staticlib)?:(.*)$", (ROOT / "crates.txt").read_text()))


def declared(path, text):
    """The names that a source file declares."""
    kind = path.rsplit(".", 1)[-1]
    if kind == "rt":
        text = re.sub(r"//.*", "", text)
        found = set(re.findall(r"\b(?:fn|struct|enum|const|mod)\s+(\w+)", text)) | set(re.findall(r"(?m)^\s+(?:pub )?(\w+):(?!:)", text))
        for body in re.findall(r"\benum \w+ \{(.*?)\n\}", text, re.S):
            found.update(re.findall(r"\b([A-Z]\w*)", body))
        return found
    if kind == "antt":
        text = re.sub(r"--.*", "", text)
        found = set()
        for head in re.findall(r"(?m)^\s*((?:[^\s:=(){}]+ )+)(?:[({].*)?(?:: |:$)", text):
            found.update(word for word in head.split() if word not in ("pub", "record", "data", "abbrev", "unfoldable", "module", "use"))
        return found
    if kind == "h":
        return set(re.findall(r"\b(?:mahunopi|MAHUNOPI)_\w+", text)) | set(re.findall(r"(?m)^    [\w ]+?[ *](\w+)(?:\[\d\])?[,)]", text))
    if kind == "py" or text.startswith("#!/usr/bin/env python3"):
        return set(re.findall(r"\b(?:def|class)\s+(\w+)", text)) | set(re.findall(r"(?m)^(\w+)\s*=", text)) | set(re.findall(r'"(--?[a-z][\w-]*)"', text))
    if kind == "rs":
        return set(re.findall(r"\b(?:fn|struct|enum|const|mod|type|trait)\s+(\w+)", text)) | set(re.findall(r"(?m)^\s+(?:pub )?(\w+):(?!:)", text))
    return set()


@pytest.fixture(scope="module")
def names(files):
    """Every declared name, with the files that declare it."""
    found = {}
    for path in files:
        if path.startswith(("docs/", "python/tests/")) or not (ROOT / path).is_file() or path.endswith((".dms", ".svg", ".png")):
            continue
        try:
            text = text_of(ROOT / path)
        except UnicodeDecodeError:
            continue
        for name in declared(path, text):
            found.setdefault(name, set()).add(path)
    return found


@pytest.fixture(scope="module")
def commands():
    """The subcommands of mahunopi."""
    found = set(re.findall(r'= command\("(\w+)"', text_of(ROOT / "python/mahunopi/command.py")))
    assert {"info", "view"} <= found
    return found


def is_path(text, files, crates):
    """Whether a text with a slash, or a file's name, names something in the repository, or something that is built there."""
    text = text.rstrip("/.").removeprefix("./")
    if text.startswith("target/"):
        rest = text.split("/")[1:]
        return rest[0] in ("log", "goals", "must-fail", "rlib", "stamp") or rest[:2] == ["staticlib", "libmahunopi.a"] or rest == ["staticlib"] \
            or rest == ["bin"] or rest[0] == "bin" and rest[1] in crates
    for path in (text, f"crates/{text}", f"docs/{text}", f"{text}.edit", f"crates/{text}.edit"):
        if path in files or "*" in path and any(Path(name).match(path) for name in files):
            return True
    return "/" not in text and any(name.endswith("/" + text) for name in files)


def is_qualified(text, files, crates, names):
    """Whether a::b::c names a crate's module, function or constant, or a function of the Rust packages."""
    first, *rest = text.split("::")
    folder = "crates/" + first if first in crates else "rust/" + first
    if first == "mahunopi":
        places = ("crates/mahunopi/", "rust/mahunopi/")
    elif folder in files:
        places = (folder + "/",)
    elif first[0].isupper():
        return all(part in names for part in text.split("::"))
    else:
        return False
    return all(any(path.startswith(places) for path in names.get(part, ())) for part in rest)


def missing(text, files, crates, names, commands):
    """What a text in code font names that is not there, or nothing."""
    if text in TEXTS or text in crates or text in names or text in commands or re.fullmatch(r"[\d,.−^ -]+", text):
        return None
    if text.startswith("rattle-kit-") and shutil.which("rt"):
        return None if subprocess.run(["rt", "version"], capture_output=True, text=True, check=False).stdout.startswith(text + " ") else text
    variable = re.fullmatch(r"([A-Z_]+)=\S+", text)
    if variable:
        return None if variable[1] == "PYTHONPATH" or any(variable[1] in text_of(ROOT / path) for path in files if path.endswith((".rs", ".sh"))) else text
    if " " in text or "(" in text or "|" in text:
        for word in re.findall(r"[\w./*:-]+", text):
            word = word.strip(".:,")
            if "::" in word and not is_qualified(word, files, crates, names):
                return word
            if re.fullmatch(r"(mahunopi|MAHUNOPI)_\w+", word) and word not in names:
                return word
            if re.match(r"(\./|\.ci/|crates/|docs/|python/|rust/|meshes/|examples/|include/|target/)", word) and not is_path(word, files, crates):
                return word
        first, *rest = text.split()
        if first == "rt" and (rest[0] not in RT or any(re.fullmatch(r"[a-z_0-9]+", w) and w not in crates for w in rest[1:] if rest[0] != "doc")):
            return text
        if first in ("./mahunopi", "mahunopi") and re.fullmatch(r"[a-z]+", rest[0]) and rest[0] not in commands:
            return text
        return None
    if re.fullmatch(r"mahunopi(\.\w+)+", text):
        return None if all(any(path.startswith("python/") for path in names.get(part, ())) or f"python/mahunopi/{part}.py" in files
                           for part in text.split(".")[1:]) else text
    if "::" in text:
        # or a target of CMake
        return None if is_qualified(text.rstrip("()?"), files, crates, names) or f" {text} " in text_of(ROOT / "install") else text
    if "/" in text or re.search(r"\.(antt|rt|md|h|py|c|cpp|rs|txt|dms|off|svg|png|csv|html|edit|a|so)$", text):
        return None if is_path(text, files, crates) else text
    return text


@pytest.mark.parametrize("page", PAGES, ids=lambda page: str(page.relative_to(ROOT)))
def test_what_a_page_names_is_there(page, files, crates, names, commands):
    wrong = [f"`{span}`" for span in dict.fromkeys(spans(page)) if missing(span, files, crates, names, commands)]
    text = prose(page)
    for target in re.findall(r"\]\(([^)#]+)\)", text):
        if not target.startswith("http") and not (page.parent / target).exists():
            wrong.append(f"link to {target}")
    # `a`, `b` (File.antt): both are declared in a file of that name
    for group, file in re.findall(r"((?:`[^`\n]+`(?:, | and ))*`[^`\n]+`) \(((?:[\w/]+/)?\w+\.antt)", text):
        for name in re.findall(r"`([^` ]+)`", group):
            if name in names and not any(f"/{path}".endswith(f"/{file}") for path in names[name]):
                wrong.append(f"`{name}` in {file}")
    bare = re.sub(r"`[^`\n]*`|\]\([^)]*\)", " ", text)
    for path in re.findall(r"(?<![\w./])((?:\.ci|crates|docs|python|rust|meshes|examples|include)/[\w./*-]+|\w+\.antt)", bare):
        if not is_path(path, files, crates):
            wrong.append(path)
    assert not wrong, f"{page.relative_to(ROOT)} names what is not there: {', '.join(wrong)}"


def changed():
    """The table of names that have changed since the landing notes: what the notes have, and what is there now."""
    table = text_of(NOTES / "README.md").split("## Names that have changed since")[1]
    rows = [row.split("|") for row in table.split("\n") if row.startswith("| ") and row.count("|") > 2]
    assert len(rows) > 10, "the table of changed names was not read"
    return " ".join(row[1] for row in rows), " ".join(row[2] for row in rows)


def gone(names, crates):
    """What the notes name that has another name now or is gone, as far as it cannot be an ordinary word."""
    words = set(re.findall(r"[\w-]+", changed()[0]))
    return {word for word in words if re.search(r"_|[a-z][A-Z]|[a-z]-[a-z]", word) and word not in names and word not in crates}


def test_the_notes_names_are_there_or_in_the_table(files, crates, names, commands):
    before, now = changed()
    wrong = [f"now `{span}`" for span in re.findall(r"`([^`]+)`", now) if missing(span, files, crates, names, commands)]
    for note in sorted(NOTES.glob("*.md")):
        for line in text_of(note).split("\n") if note.name != "README.md" else ():
            if not re.search(r"(?i)\bgone\b|renamed", line):
                wrong += [f"`{span}` in {note.name}" for span in re.findall(r"`([^`]+)`", line) if missing(span, files, crates, names, commands)
                          and not any(re.search(rf"(?<![\w-]){re.escape(part)}(?![\w-])", before) for part in [span, *span.split("::")])]
    assert not wrong, f"neither there nor in docs/landings/README.md: {', '.join(wrong)}"


@pytest.mark.parametrize("page", PAGES, ids=lambda page: str(page.relative_to(ROOT)))
def test_no_page_names_what_is_gone(page, names, crates):
    text = text_of(page)
    found = [name for name in sorted(gone(names, crates)) if re.search(rf"(?<![\w-]){re.escape(name)}(?![\w-])", text)]
    assert not found, f"{page.relative_to(ROOT)} names {', '.join(found)}, which the landing notes say is gone"


def test_pages_are_short_and_plain():
    for path, most in LIMITS.items():
        words = len(text_of(ROOT / path).split())
        assert words <= most, f"{path} has {words} words, at most {most} are meant"
    for note in sorted(NOTES.glob("*.md")):
        words = len(text_of(note).split())
        assert note.name == "README.md" or words <= NOTE_LIMIT, f"{note.name} has {words} words, at most {NOTE_LIMIT} are meant"
    for page in [*PAGES, *sorted(NOTES.glob("*.md"))]:
        for words in UNCLEAR:
            assert words not in text_of(page), f"{page.relative_to(ROOT)}: '{words}'"



def test_limits_are_the_header_s():
    header = dict(re.findall(r"(?m)^#define MAHUNOPI_(\w+) (\d+)$", text_of(ROOT / "include/mahunopi.h")))
    limits = README.split("## Limits")[1].split("\n## ")[0]
    for name in ("MAX_VERTICES", "MAX_FACES", "MAX_CORNERS", "MIN_SIDES", "MAX_SIDES", "MAX_SHARPNESS", "PLAIN_SHARPNESS"):
        assert re.search(rf"(?<![\d,]){int(header[name]):,}(?![\d,])", limits), f"README.md: MAHUNOPI_{name} is {header[name]}"
    assert f"`find_package(mahunopi {header['VERSION']})`" in text_of(ROOT / "docs/PROGRAMS.md")
    newest = re.search(r"(?ms)^## Version (\d+)(.*?)^## ", text_of(ROOT / "CHANGES.md"))
    assert newest[1] == header["VERSION"]
    stack = re.search(r"up to (\d+) KB \(`MAHUNOPI_CALL_STACK`", newest[2])
    assert stack and int(stack[1]) * 1024 == int(header["CALL_STACK"]), f"CHANGES.md: MAHUNOPI_CALL_STACK is {int(header['CALL_STACK']) // 1024} KB"


def test_the_house_has_every_crate_on_its_layer(crates):
    table = text_of(ROOT / "docs/HOUSE.md").split("## Layers")[1].split("## ")[0]
    rows = [row.split("|")[2] for row in table.split("\n") if row.startswith("| ") and not row.startswith("| layer")]
    layers = [re.findall(r"[a-z0-9_]+", row) for row in rows]
    named = [crate for layer in layers for crate in layer]
    assert sorted(named) == sorted(crates), f"docs/HOUSE.md and crates.txt differ: {sorted(set(named) ^ set(crates))}"
    above = set()
    for layer in layers:
        above |= set(layer)
        for crate in layer:
            below = [used for used in crates[crate].split() if used in crates and used not in above]
            assert not below, f"docs/HOUSE.md: {crate} uses {', '.join(below)}, which stands below it"


def largest_mesh():
    """A torus of 2,048 vertices and 8,192 corners as a file of version 2, and as an OFF text."""
    rows, columns = 32, 64
    points = [(round((3000 + 1000 * math.cos(a)) * math.cos(b)), round((3000 + 1000 * math.cos(a)) * math.sin(b)), round(1000 * math.sin(a)))
              for a in (2 * math.pi * i / rows for i in range(rows)) for b in (2 * math.pi * j / columns for j in range(columns))]
    at = lambda i, j: i % rows * columns + j % columns
    faces = [(at(i, j), at(i, j + 1), at(i + 1, j + 1), at(i + 1, j)) for i in range(rows) for j in range(columns)]
    numbers, corners = [x for point in points for x in point], [v for face in faces for v in face]
    file = b"DMS" + struct.pack("<4H", 2, len(points), len(faces), len(corners)) + struct.pack(f"<{len(numbers)}i", *numbers) + bytes([4]) * len(faces)
    file += struct.pack(f"<{len(corners)}H", *corners) + bytes([9]) * (2 * len(corners))
    lines = [f"OFF {len(points)} {len(faces)} 0"] + [" ".join(map(str, point)) for point in points] + ["4 " + " ".join(map(str, face)) for face in faces]
    return file, "\n".join(lines).encode()


def test_programs_run_with_the_stack_that_the_page_says(tmp_path):
    page = text_of(ROOT / "docs/PROGRAMS.md")
    head, _, sizes = page.split("## Stack")[1].strip().split("\n\n")[1].split("\n")
    named = {name for row in re.findall(r"(?m)^\| (`.*?) \|", page.split("## Conventions")[0]) for name in re.findall(r"`(\w+)", row)}
    cells = lambda row: [cell.strip() for cell in row.strip("|").split("|")]
    file, text = largest_mesh()
    (tmp_path / "torus.dms").write_bytes(file)
    given = {"archive": bytes(1_572_864), "restore": bytes(1_572_864), "off2dms": text, "report": b"torus.dms\n",
             "nest": b"sun\n" + b"".join(b"%d\n" % body for body in range(255))}
    programs = dict(zip(cells(head), cells(sizes)))
    assert sorted(programs) == sorted(named), "docs/PROGRAMS.md: the tables differ"
    for program, size in programs.items():
        if not (ROOT / "target/bin" / program).exists():
            pytest.skip(f"target/bin/{program} is not built (.ci/programs {program})")
        done = subprocess.run(["sh", "-c", f"ulimit -s {size.replace(',', '')} && exec {ROOT / 'target/bin' / program}"], cwd=tmp_path,
                              input=given.get(program, file), capture_output=True, timeout=SECONDS, check=False)
        assert done.returncode == 0 and done.stdout and not done.stderr, f"{program} with {size} KB: {done.returncode} {done.stderr[:200]}"


# ---- README: its commands and its programs

LIBRARY = Path(os.environ.get("MAHUNOPI_LIB") or ROOT / "target/staticlib")


def blocks(kind):
    return re.findall(rf"(?ms)^```{kind}\n(.*?)^```$", README)


def readme_commands():
    """What README shows to be typed: the lines of its command blocks, and the commands of its tables."""
    lines = [line for block in blocks("sh") for line in block.splitlines() if line.strip()]
    return list(dict.fromkeys(lines + re.findall(r"(?m)^\| `([^`]+)` \|", README)))


@pytest.fixture
def checkout(tmp_path):
    """A folder that has all that the repository's root has, where commands may write."""
    there = tmp_path / "checkout"
    there.mkdir()
    for entry in ROOT.iterdir():
        if entry.name not in (".git", ".gitignore") and not entry.name.endswith(".html"):
            (there / entry.name).symlink_to(entry)
    return there


def test_readme_has_the_two_commands_first():
    assert blocks("sh")[0].splitlines() == ["./mahunopi view meshes/torus.dms", ".ci/run"]
    assert len(blocks("sh")[1].splitlines()) == 4


@pytest.mark.parametrize("command", readme_commands())
def test_the_commands_of_the_readme(command, checkout, crates, commands):
    first, *rest = command.split()
    if first == "rt":
        # proving is the gate's work: the subcommand is one of the kit's, and each crate is listed
        assert rest[0] in RT and rest[1:] and all(crate in crates for crate in rest[1:])
        if rest[0] == "must-fail":
            assert all(list((ROOT / "crates" / crate / "must-fail").glob("*.edit")) for crate in rest[1:])
        if shutil.which("rt"):
            told = subprocess.run(["rt", "help"], capture_output=True, text=True, timeout=SECONDS, check=False)
            assert f"  rt {rest[0]} " in told.stdout + told.stderr
        return
    if first == "cd":
        # in a crate's folder, the kit's check
        assert rest[1:] == ["&&", "rt", "check"] and rest[0].removeprefix("crates/") in crates
        return
    if first.startswith(".ci/"):
        # the gate itself runs this test
        assert not rest and os.access(ROOT / first, os.X_OK)
        assert subprocess.run(["bash", "-n", ROOT / first], check=False, timeout=SECONDS).returncode == 0
        return
    assert first in ("./mahunopi", "./install")
    done = subprocess.run(command, shell=True, cwd=checkout, capture_output=True, text=True, timeout=SECONDS, check=False)
    # a report on the samples names the one that is refused
    assert done.returncode == (1 if command == "./mahunopi report meshes" else 0), done.stdout + done.stderr
    assert not done.stderr
    for said in re.findall(r"prints `([^`]+)`", README.split(command)[1].split("```")[1]) if command in blocks("sh")[0] else ():
        assert re.fullmatch(re.sub(r"\d[\d,]*", r"[\\d,]+", re.escape(said)), done.stdout.strip()), done.stdout
    written = re.search(r"-o (\S+)", command)
    if written:
        assert (checkout / written[1]).stat().st_size > 0


def printed(block, comment):
    """What a program is said to print: the comment behind the line that prints it."""
    return re.search(rf"print.*?{comment[0]} (.*?){comment[1]}$", block, re.M)[1]


def test_the_programs_of_the_readme_are_short():
    for language in ("c", "rust", "python"):
        (block,) = blocks(language)
        assert len(block.splitlines()) <= PROGRAM_LINES, language


def test_the_c_of_the_readme(tmp_path):
    (block,) = blocks("c")
    (tmp_path / "readme.c").write_text(block)
    warnings = "-Wall -Wextra -Wpedantic -Wconversion -Wshadow -Werror".split()
    for compiler in (["gcc", "-std=c11"], ["g++", "-std=c++17", "-x", "c++"]):
        subprocess.run([*compiler, *warnings, f"-I{ROOT / 'include'}", tmp_path / "readme.c", "-x", "none", "-o", tmp_path / "readme", f"-L{LIBRARY}",
                        "-lmahunopi"], check=True, timeout=SECONDS)
        done = subprocess.run([tmp_path / "readme"], capture_output=True, text=True, timeout=SECONDS, check=True)
        assert done.stdout.strip() == printed(block, (r"/\*", r" \*/"))


def test_the_rust_of_the_readme(tmp_path):
    (block,) = blocks("rust")
    (tmp_path / "src").mkdir()
    (tmp_path / "src/main.rs").write_text("fn main() -> Result<(), Box<dyn std::error::Error>> {\n" + block + "Ok(())\n}\n")
    (tmp_path / "Cargo.toml").write_text('[package]\nname = "readme"\nversion = "0.0.0"\nedition = "2021"\n[dependencies]\n'
                                         f'mahunopi = {{ path = "{ROOT / "rust/mahunopi"}" }}\n')
    path = os.environ["PATH"] + ":" + os.path.expanduser("~/.cargo/bin")
    around = {**os.environ, "PATH": path, "MAHUNOPI_LIB": str(LIBRARY), "CARGO_TARGET_DIR": str(tmp_path / "target")}
    done = subprocess.run(["cargo", "run", "--quiet", "--offline", "--manifest-path", tmp_path / "Cargo.toml"], cwd=ROOT, env=around,
                          capture_output=True, text=True, timeout=SECONDS, check=False)
    assert done.returncode == 0, done.stderr
    assert done.stdout.strip() == printed(block, ("//", ""))


def test_the_python_of_the_readme():
    (block,) = blocks("python")
    done = subprocess.run([sys.executable, "-c", block], cwd=ROOT, env={**os.environ, "PYTHONPATH": str(ROOT / "python")}, capture_output=True, text=True,
                          timeout=SECONDS, check=False)
    assert done.returncode == 0, done.stderr
    assert done.stdout.strip() == printed(block, ("#", ""))
